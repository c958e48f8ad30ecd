/* Makes each proved call with each of its allocations failing in turn: it must say so, leave what
 * the caller lends as it was, and lose no memory. Once none fails, it must return the same as ever.
 */
#include "failing.h"
#include "syn_tokens.h"

#include <stdio.h>
#include <stdlib.h>
#include <string.h>

enum { ENTRIES = 64, BYTES = 512, VALUES = 8, MESSAGES = 2, PLACES = 3 };

/* What the caller lends, and what is returned. */
struct lent {
    struct syn_tokens_entry entries[ENTRIES];
    uint8_t bytes[BYTES];
    struct syn_tokens_argument arguments[VALUES];
    struct syn_tokens_message messages[MESSAGES];
    struct syn_tokens_reading reading;
    struct syn_tokens_outcome outcome;
    struct syn_tokens_literal value;
    struct syn_tokens_place places[PLACES];
    size_t size;
    uint8_t status;
};

/* What a text is read into: entries that are passed back in. */
static struct {
    struct syn_tokens_entry entries[ENTRIES];
    uint8_t texts[BYTES];
    struct syn_tokens_reading reading;
} taken;

static const char LONG_NAMES[] =
    "a_name_of_many_characters ('c', {\"a string of many characters\"} [another_long_name])";
static const char MARKED[] = "(a \xc2\xab" "b\xc2\xbb)";
static const char SOURCE[] = "/// A point of two coordinates.\nstruct Point;";
static const char REJECTED[] = "x = '\\q'";
static const char INPUT[] = "(a b)\n---\nenter 0 (\nterminated 1 Ident ,\nfork 0\n"
                            "parse 1 LifetimeAny\nlookahead 0 Ident +\n";
static const char ARGUMENTS[] = "\xc2\xab\xc2\xbb a_name_of_many_characters = 'x', b(c, d(e))";
static const char NO_ARGUMENTS[] = "a = \xc2\xab" "b\xc2\xbb";
static const char STRING[] = "\"a string of many characters, and \\x41 and \\u{e9} among them\"";
static const char COMMANDS[] = "parse 0 Ident\nlookahead 0 Ident +\n";

static void take(const char *text) {
    syn_tokens_lex_marked((const uint8_t *)text, strlen(text), taken.entries, ENTRIES, taken.texts,
                          BYTES, &taken.reading);
}

/* Opens a text with a handle that holds another one, copies what it then holds, and closes it. The
 * status is that of no call if the handle and the pointers are not what they must be. */
static void open_text(uint32_t rules, const uint8_t *text, size_t length, struct lent *it) {
    enum { WRONG = 99 };
    void *handle = NULL;
    struct syn_tokens_opened opened;
    size_t number = failing;
    failing = 0;
    syn_tokens_open(SYN_TOKENS_PLAIN, (const uint8_t *)"x", 1, &handle, &opened);
    failing = number;
    made = 0;
    syn_tokens_open(rules, text, length, &handle, &opened);
    it->reading = opened.reading;
    if (handle == NULL) {
        if (opened.entries != NULL || opened.texts != NULL)
            it->reading.status = WRONG;
        return;
    }
    memcpy(it->entries, opened.entries, opened.reading.entries * sizeof *it->entries);
    memcpy(it->bytes, opened.texts, opened.reading.bytes + 1);
    if (it->bytes[opened.reading.bytes] != 0)
        it->reading.status = WRONG;
    syn_tokens_close(&handle);
    if (handle != NULL)
        it->reading.status = WRONG;
}

static void call(int which, struct lent *it) {
    const char *const texts[] = {LONG_NAMES,   MARKED,   SOURCE, REJECTED, INPUT,    ARGUMENTS,
                                 NO_ARGUMENTS, COMMANDS, STRING, SOURCE,   REJECTED, INPUT};
    const uint8_t *text = (const uint8_t *)texts[which];
    size_t length = strlen(texts[which]);
    switch (which) {
    case 1:
        syn_tokens_lex_marked(text, length, it->entries, ENTRIES, it->bytes, BYTES, &it->reading);
        break;
    case 2:
        syn_tokens_lex_source(2021, text, length, it->entries, ENTRIES, it->bytes, BYTES,
                              &it->reading);
        break;
    case 4:
        it->status = syn_tokens_respond(text, length, it->bytes, BYTES, &it->size);
        it->reading.status =
            it->status == SYN_TOKENS_RUN_NO_MEMORY ? SYN_TOKENS_NO_MEMORY : SYN_TOKENS_OK;
        break;
    case 5:
    case 6:
        syn_tokens_arguments(taken.entries, taken.reading.entries, taken.texts,
                             taken.reading.bytes, it->arguments, VALUES, it->messages, MESSAGES,
                             it->bytes, BYTES, &it->outcome);
        it->reading.status = it->outcome.status;
        break;
    case 7:
        syn_tokens_replay(taken.entries, taken.reading.entries, taken.texts, taken.reading.bytes,
                          text, length, it->bytes, BYTES, &it->outcome);
        it->reading.status = it->outcome.status;
        break;
    case 8:
        syn_tokens_value(text, length, it->bytes, BYTES, &it->value);
        it->reading.status = it->value.status;
        break;
    case 9:
        open_text(2021, text, length, it);
        break;
    case 10:
        open_text(SYN_TOKENS_MARKED, text, length, it);
        break;
    case 11:
        it->reading.status =
            syn_tokens_lines(text, length, (const size_t[PLACES]){0, 40, 7}, PLACES, it->places,
                             PLACES);
        break;
    default:
        syn_tokens_lex(text, length, it->entries, ENTRIES, it->bytes, BYTES, &it->reading);
    }
}

/* Tries a call, and returns how many of its allocations can fail, or 0 if something is wrong. */
static size_t try_all(int which) {
    struct lent before, wanted, got;
    memset(&before, 0xa5, sizeof before);
    wanted = before;
    failing = 0;
    take(which == 6 ? NO_ARGUMENTS : ARGUMENTS);
    call(which, &wanted);
    for (size_t number = 1;; number++) {
        got = before;
        failing = number;
        made = held = 0;
        call(which, &got);
        if (held != 0)
            return 0;
        if (made < number)
            return memcmp(&got, &wanted, sizeof got) == 0 ? number - 1 : 0;
        if (got.reading.status != SYN_TOKENS_NO_MEMORY)
            return 0;
        if (memcmp(got.entries, before.entries, sizeof got.entries) != 0 ||
            memcmp(got.arguments, before.arguments, sizeof got.arguments) != 0 ||
            memcmp(got.messages, before.messages, sizeof got.messages) != 0 ||
            memcmp(got.places, before.places, sizeof got.places) != 0 ||
            memcmp(got.bytes, before.bytes, sizeof got.bytes) != 0)
            return 0;
    }
}

int main(void) {
    static const char *const CALLS[] = {"syn_tokens_lex", "syn_tokens_lex_marked",
                                        "syn_tokens_lex_source", "a rejected text",
                                        "syn_tokens_respond", "syn_tokens_arguments",
                                        "rejected arguments", "syn_tokens_replay",
                                        "syn_tokens_value", "syn_tokens_open",
                                        "a rejected text that is opened", "syn_tokens_lines"};
    for (int which = 0; which < 12; which++) {
        size_t count = try_all(which);
        if (count == 0) {
            fprintf(stderr, "memory: %s\n", CALLS[which]);
            return 1;
        }
        printf("%s: each of %zu allocations fails in turn\n", CALLS[which], count);
    }
    return 0;
}
