/* The checked calls, over the proved ones, and the calls by which the library takes memory. */
#include "syn_tokens.h"

#include <stdlib.h>
#include <string.h>

/* The library calls these three by their names. They are hidden, so that a shared library in which
 * this file is linked does not export them. */
#if defined(__GNUC__)
#define HIDDEN __attribute__((visibility("hidden")))
#else
#define HIDDEN
#endif

/* Whether there is memory, and where it is. The pointer is never null. */
struct tried {
    bool ok;
    void *block;
};

HIDDEN struct tried rattle_alloc(size_t size, size_t align);
HIDDEN struct tried rattle_realloc(void *block, size_t kept, size_t size, size_t align);
HIDDEN void rattle_dealloc(void *block);

static struct tried tried(void *block) {
    static char nothing[16];
    return (struct tried){block != NULL, block != NULL ? block : nothing};
}

/* No more is asked of the alignment than that it divides 16. */
struct tried rattle_alloc(size_t size, size_t align) {
    return tried(malloc(size > 0 ? size : align));
}

struct tried rattle_realloc(void *block, size_t kept, size_t size, size_t align) {
    (void)kept;
    return tried(realloc(block, size > 0 ? size : align));
}

void rattle_dealloc(void *block) { free(block); }

/* The library's structs may be larger than those of this header: that is what the samples are to
 * show. So each is written into far more room than any version of it takes. */
enum { SAMPLE_ROOM = 1024 };

/* Whether the structs of the calls that take entries are laid out as the library's. */
static bool answers_match(void) {
    union {
        struct syn_tokens_outcome outcome;
        unsigned char room[SAMPLE_ROOM];
    } first;
    union {
        struct syn_tokens_message messages[2];
        unsigned char room[SAMPLE_ROOM];
    } second;
    union {
        struct syn_tokens_argument arguments[2];
        unsigned char room[SAMPLE_ROOM];
    } third;
    union {
        struct syn_tokens_literal value;
        unsigned char room[SAMPLE_ROOM];
    } fourth;
    memset(&first, 0, sizeof first);
    memset(&second, 0, sizeof second);
    memset(&third, 0, sizeof third);
    memset(&fourth, 0, sizeof fourth);
    syn_tokens_sample_answers(&first.outcome, second.messages, 2, third.arguments, 2,
                              &fourth.value);
    for (size_t i = 0; i < 2; i++) {
        const struct syn_tokens_message *it = &second.messages[i];
        if (it->start != 20 || it->end != 21 || it->text_start != 22 || it->text_end != 23)
            return false;
        const struct syn_tokens_argument *argument = &third.arguments[i];
        if (argument->kind != 24 || argument->name_start != 25 || argument->name_end != 26 ||
            argument->value_start != 27 || argument->value_end != 28 || argument->inside != 29)
            return false;
    }
    const struct syn_tokens_literal *value = &fourth.value;
    if (value->status != 30 || value->kind != 31 || value->number != 32 || value->suffix != 33 ||
        value->bytes != 34)
        return false;
    const struct syn_tokens_outcome *outcome = &first.outcome;
    return outcome->status == 14 && outcome->refusal == 15 && outcome->entry == 16 &&
           outcome->values == 17 && outcome->messages == 18 && outcome->bytes == 19;
}

/* Whether the struct of an opened text is laid out as the library's, by the distance of two. */
static bool opened_match(void) {
    union {
        struct syn_tokens_opened opened[2];
        unsigned char room[SAMPLE_ROOM];
    } first;
    memset(&first, 0xff, sizeof first);
    syn_tokens_sample_opened(first.opened, 2);
    for (size_t i = 0; i < 2; i++) {
        const struct syn_tokens_opened *it = &first.opened[i];
        if (it->reading.status != 9 || it->reading.rule != 10 || it->reading.at != 11 ||
            it->reading.entries != 12 || it->reading.bytes != 13 || it->entries != NULL ||
            it->texts != NULL)
            return false;
    }
    return true;
}

/* Whether the structs of the calls of a cursor and of lines are laid out as the library's. */
static bool places_match(void) {
    union {
        struct syn_tokens_step step;
        unsigned char room[SAMPLE_ROOM];
    } first;
    union {
        struct syn_tokens_place places[2];
        unsigned char room[SAMPLE_ROOM];
    } second;
    memset(&first, 0, sizeof first);
    memset(&second, 0, sizeof second);
    syn_tokens_sample_places(&first.step, second.places, 2);
    for (size_t i = 0; i < 2; i++)
        if (second.places[i].line != 38 || second.places[i].column != 39)
            return false;
    return first.step.at == 35 && first.step.last == 36 && first.step.next == 37;
}

const char *syn_tokens_version(void) { return SYN_TOKENS_VERSION_TEXT; }

/* Whether the structs of the calls that read texts are laid out as the library's. */
static bool readings_match(void) {
    union {
        struct syn_tokens_entry entries[2];
        unsigned char room[SAMPLE_ROOM];
    } first;
    union {
        struct syn_tokens_reading reading;
        unsigned char room[SAMPLE_ROOM];
    } second;
    memset(&first, 0, sizeof first);
    memset(&second, 0, sizeof second);
    syn_tokens_sample(first.entries, 2, &second.reading);
    for (size_t i = 0; i < 2; i++) {
        const struct syn_tokens_entry *it = &first.entries[i];
        if (it->kind != 1 || it->spacing != 2 || it->delimiter != 3 || it->start != 4 ||
            it->end != 5 || it->text_start != 6 || it->text_end != 7 || it->distance != 8)
            return false;
    }
    const struct syn_tokens_reading *reading = &second.reading;
    return reading->status == 9 && reading->rule == 10 && reading->at == 11 &&
           reading->entries == 12 && reading->bytes == 13;
}

/* Each is looked at, also after another one that differs: so a test sees all of them. */
bool syn_tokens_matches(void) {
    bool match = readings_match();
    match = answers_match() && match;
    match = places_match() && match;
    return opened_match() && match;
}

/* Gives back the room of a block from this size on, if that is much: to do so takes as long as to
 * read a few tokens. If it fails, the block stays as it is. */
static void *shrunk(void *block, size_t room, size_t size) {
    enum { WASTE = 4096 };
    void *smaller = room - size >= WASTE ? realloc(block, size) : NULL;
    return smaller != NULL ? smaller : block;
}

int syn_tokens_read(struct syn_tokens *tokens, uint32_t rules, const char *text, size_t length) {
    if (tokens == NULL)
        return SYN_TOKENS_BAD_CALL;
    memset(tokens, 0, sizeof *tokens);
    if ((text == NULL && length > 0) || !syn_tokens_matches())
        return (int)(tokens->reading.status = SYN_TOKENS_BAD_CALL);
    struct syn_tokens_opened opened;
    syn_tokens_open(rules, (const uint8_t *)(length > 0 ? text : ""), length, &tokens->handle,
                    &opened);
    tokens->reading = opened.reading;
    tokens->entries = opened.entries;
    tokens->texts = (const char *)opened.texts;
    return (int)tokens->reading.status;
}

void syn_tokens_free(struct syn_tokens *tokens) {
    if (tokens == NULL)
        return;
    /* There is no handle of a library of another version. */
    if (tokens->handle != NULL)
        syn_tokens_close(&tokens->handle);
    memset(tokens, 0, sizeof *tokens);
}

int syn_tokens_run(struct syn_tokens_report *report, const char *input, size_t length) {
    if (report == NULL)
        return SYN_TOKENS_BAD_CALL;
    memset(report, 0, sizeof *report);
    if (input == NULL && length > 0)
        return report->status = SYN_TOKENS_RUN_BAD_CALL;
    const uint8_t *bytes = (const uint8_t *)(length > 0 ? input : "");
    size_t room = 4096;
    for (;;) {
        char *text = room == SIZE_MAX ? NULL : realloc(report->text, room + 1);
        if (text == NULL) {
            report->size = 0;
            if (report->text != NULL)
                report->text[0] = 0;
            return report->status = SYN_TOKENS_RUN_NO_MEMORY;
        }
        report->text = text;
        report->status = syn_tokens_respond(bytes, length, (uint8_t *)text, room, &report->size);
        if (report->size <= room) {
            text[report->size] = 0;
            report->text = shrunk(text, room + 1, report->size + 1);
            return report->status;
        }
        room = report->size;
    }
}

void syn_tokens_free_report(struct syn_tokens_report *report) {
    if (report == NULL)
        return;
    free(report->text);
    memset(report, 0, sizeof *report);
}
