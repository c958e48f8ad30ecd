/* Makes random calls, and looks at all that they return: checked calls and proved ones, of texts
 * and of entries with changed fields, with the room that is needed or less, and with allocations
 * that fail. What is lent ends where a page begins that cannot be touched, since no sanitizer sees
 * into the proved library.
 *
 *     random CALLS [SEED]
 *
 * Without a seed it is the time. The seed is printed. */
#define _DEFAULT_SOURCE
#include "failing.h"
#include "syn_tokens.h"

#include <stdio.h>
#include <stdlib.h>
#include <string.h>
#include <sys/mman.h>
#include <time.h>

enum { PAGE = 4096, LENT = 256 * PAGE, TEXT = 4 * PAGE, MOST = 2000 };

static uint64_t state;

static size_t below(size_t end) {
    state ^= state << 13;
    state ^= state >> 7;
    state ^= state << 17;
    return (size_t)(state >> 11) % end;
}

#define FAIL(what) (fprintf(stderr, "random: call %zu: %s\n", calls, what), exit(1))

static size_t calls;

/* How many texts were read, how many lists of arguments and reports were answered, and how many
 * tokens were found. */
static size_t texts_read, answered, steps_found;

/* Memory that ends at a page that cannot be touched. */
static unsigned char *lend(void) {
    unsigned char *memory = mmap(NULL, LENT + PAGE, PROT_READ | PROT_WRITE,
                                 MAP_PRIVATE | MAP_ANONYMOUS, -1, 0);
    if (memory == MAP_FAILED || mprotect(memory + LENT, PAGE, PROT_NONE) != 0)
        FAIL("no memory");
    return memory + LENT;
}

/* The first are read in each text. */
enum { SOUND = 24 };
static const char *const PIECES[] = {
    "a", "r#b", " ", " ", " ", "\n", "+", "=", "=", ",", ",", "'a", "'x'", "'\\n'", "\"s\"", "1",
    "()", "(a)", "[b {}]", "name = 1", "f(a, b = \"c\")", ", ", "0x1Fu8", "/* c */",
    "1.5", "0x", "(", ")", "{", "}", "[", "]", "\xc2\xab", "\xc2\xbb", "///", "//!", "//", "/*",
    "*/", "/** d */", "\xff", "\xc3", "\xc3\xa9", "\xe2\x80\xa8", "r\"", "r#\"q\"#", "b'c'",
    "b\"d\"", "c\"e\"", "#", "#!", "$", "\\", "\"", "'", "_", "\xef\xbb\xbf",
};

static const char *const COMMANDS[] = {
    "parse 0 Ident\n", "parse 0 Lit\n", "enter 0 (\n", "terminated 0 Ident ,\n", "fork 0\n",
    "empty 0\n", "lookahead 0 Ident +\n", "parse 1 TokenTree\n", "nothing\n", "parse 9 Ident\n",
};

#define ANY(LIST) LIST[below(sizeof LIST / sizeof *LIST)]

static char text[TEXT];
static size_t length;

static void append(const char *piece) {
    size_t size = strlen(piece);
    if (length + size <= sizeof text)
        memcpy(text + length, piece, size);
    else
        return;
    length += size;
}

static void make_text(void) {
    length = 0;
    size_t kind = below(20), count = sizeof PIECES / sizeof *PIECES;
    for (size_t left = kind == 0 ? 0 : kind == 1 ? below(MOST) : below(30); left > 0; left--)
        append(PIECES[below(kind > 10 ? SOUND : count)]);
    if (kind == 2)
        for (size_t left = below(270); left > 0; left--)
            append("(");
    if (kind == 3)
        for (size_t left = below(MOST); left > 0; left--)
            append("+");
    if (kind == 4)
        for (size_t left = below(300); left > 0; left--)
            append("//!\n");
    /* Many tokens. */
    if (kind == 5)
        for (length = 0; length < 1500; length++)
            text[length] = length % 251 < 16 ? ' ' : '+';
    if (kind == 6 && length > 0)
        text[below(length)] = (char)below(256);
}

static const uint32_t RULES[] = {0, 0, 1, 1, 2015, 2018, 2021, 2021, 2024, 2, 2022, UINT32_MAX};

static unsigned char *entries_end, *texts_end, *values_end, *messages_end, *input_end;

/* Looks at what a text was read into. */
static void look(const struct syn_tokens_entry *entries, const char *texts,
                 const struct syn_tokens_reading *reading) {
    size_t at = 0;
    for (size_t i = 0; i < reading->entries; i++) {
        const struct syn_tokens_entry *it = &entries[i];
        bool is_leaf = it->kind < SYN_TOKENS_OPENING;
        if (it->start > it->end || it->end > length || it->kind > SYN_TOKENS_CLOSING)
            FAIL("a field");
        if (is_leaf && (it->text_start != at || it->text_end <= at || it->distance != 0))
            FAIL("a leaf");
        if (is_leaf)
            at = it->text_end;
        size_t partner = it->kind == SYN_TOKENS_OPENING ? i + it->distance : i - it->distance;
        if (!is_leaf && (partner >= reading->entries || partner == i ||
                         entries[partner].distance != it->distance ||
                         entries[partner].delimiter != it->delimiter))
            FAIL("a group");
    }
    if (reading->status == SYN_TOKENS_OK && at != reading->bytes)
        FAIL("the texts");
    if (reading->status == SYN_TOKENS_REJECTED &&
        (reading->rule < 1 || reading->rule > 15 || reading->at > length || reading->bytes == 0))
        FAIL("an error");
    if (texts[reading->bytes] != 0)
        FAIL("no zero byte");
}

static void call_proved(uint32_t rules, size_t entries_room, size_t texts_room,
                        struct syn_tokens_reading *reading) {
    struct syn_tokens_entry *entries = (struct syn_tokens_entry *)entries_end - entries_room;
    const uint8_t *bytes = input_end - length;
    uint8_t *texts = texts_end - texts_room;
    memcpy(input_end - length, text, length);
    memset(entries, 0xa5, entries_room * sizeof *entries);
    memset(texts, 0xa5, texts_room);
    if (rules == SYN_TOKENS_PLAIN)
        syn_tokens_lex(bytes, length, entries, entries_room, texts, texts_room, reading);
    else if (rules == SYN_TOKENS_MARKED)
        syn_tokens_lex_marked(bytes, length, entries, entries_room, texts, texts_room, reading);
    else
        syn_tokens_lex_source(rules, bytes, length, entries, entries_room, texts, texts_room,
                              reading);
}

static bool is_untouched(const unsigned char *end, size_t size) {
    for (const unsigned char *at = end - size; at < end; at++)
        if (*at != 0xa5)
            return false;
    return true;
}

/* Reads a text by the checked call, and by the proved one in the room that it needs, or in less. */
static void read(void) {
    uint32_t rules = ANY(RULES);
    struct syn_tokens tokens;
    int status = syn_tokens_read(&tokens, rules, text, length);
    const struct syn_tokens_reading *wanted = &tokens.reading;
    size_t count = wanted->entries, bytes = wanted->bytes;
    if (status != (int)wanted->status || status == SYN_TOKENS_NO_ROOM ||
        status == SYN_TOKENS_BAD_CALL || status == SYN_TOKENS_NO_MEMORY)
        FAIL("a status");
    if (tokens.texts != NULL)
        look(tokens.entries, tokens.texts, wanted);
    else if (tokens.entries != NULL || count + bytes != 0)
        FAIL("sizes without memory");
    texts_read += status == SYN_TOKENS_OK;
    struct syn_tokens_reading reading;
    call_proved(rules, count, bytes, &reading);
    if (memcmp(&reading, wanted, sizeof reading) != 0 ||
        (count > 0 && memcmp(entries_end - count * sizeof *tokens.entries, tokens.entries,
                             count * sizeof *tokens.entries) != 0) ||
        (bytes > 0 && memcmp(texts_end - bytes, tokens.texts, bytes) != 0))
        FAIL("the proved call returns something else");
    if (count + bytes > 0) {
        size_t room = count > 0 ? below(count) : 0, texts_room = bytes > 0 ? below(bytes) : 0;
        call_proved(rules, room, texts_room, &reading);
        if (reading.status != SYN_TOKENS_NO_ROOM || reading.entries != count ||
            reading.bytes != bytes || !is_untouched(texts_end, texts_room) ||
            !is_untouched(entries_end, room * sizeof *tokens.entries))
            FAIL("without room");
    }
    syn_tokens_free(&tokens);
}

/* Reads a text, or runs commands, with an allocation that fails. */
static void read_failing(void) {
    struct syn_tokens tokens;
    failing = 1 + below(40);
    int status = syn_tokens_read(&tokens, ANY(RULES), text, length);
    failing = 0;
    if (status == SYN_TOKENS_NO_MEMORY && tokens.reading.entries + tokens.reading.bytes != 0)
        FAIL("sizes without memory");
    if (tokens.texts != NULL)
        look(tokens.entries, tokens.texts, &tokens.reading);
    syn_tokens_free(&tokens);
}

static void run(bool may_fail) {
    struct syn_tokens_report report;
    append("\n---\n");
    bool is_long = below(10) == 0;
    for (size_t left = below(is_long ? 1000 : 10); left > 0; left--)
        append(is_long ? "empty 0\n" : ANY(COMMANDS));
    failing = may_fail ? 1 + below(40) : 0;
    int status = syn_tokens_run(&report, text, length);
    failing = 0;
    if (status < 0 || status > SYN_TOKENS_RUN_NO_MEMORY ||
        (status == SYN_TOKENS_RUN_NO_MEMORY && (!may_fail || report.size != 0)))
        FAIL("a status of a run");
    if (report.text != NULL && strlen(report.text) > report.size)
        FAIL("a report");
    syn_tokens_free_report(&report);
}

/* Reads a text into entries that are lent, changes fields of some, and returns whether it did. */
static bool take(size_t *taken, size_t *bytes) {
    struct syn_tokens tokens;
    int status = syn_tokens_read(&tokens, SYN_TOKENS_MARKED, text, length);
    size_t count = status == SYN_TOKENS_OK ? tokens.reading.entries : 0;
    size_t size = status == SYN_TOKENS_OK ? tokens.reading.bytes : 0;
    struct syn_tokens_entry *entries = (struct syn_tokens_entry *)entries_end - count;
    unsigned char *texts = texts_end - size;
    if (count > 0)
        memcpy(entries, tokens.entries, count * sizeof *entries);
    if (size > 0)
        memcpy(texts, tokens.texts, size);
    syn_tokens_free(&tokens);
    bool is_changed = count > 0 && below(2) == 0;
    for (size_t left = is_changed ? below(3) + 1 : 0; left > 0; left--)
        ((unsigned char *)entries)[below(count * sizeof *entries)] = (unsigned char)below(256);
    if (is_changed && size > 0 && below(4) == 0)
        texts[below(size)] = (unsigned char)below(256);
    *taken = count, *bytes = size;
    return is_changed;
}

/* Passes entries in, of which fields may be changed. */
static void pass(void) {
    size_t count, size;
    bool is_changed = take(&count, &size);
    struct syn_tokens_entry *entries = (struct syn_tokens_entry *)entries_end - count;
    unsigned char *texts = texts_end - size;
    struct syn_tokens_outcome outcome;
    if (below(2) == 0) {
        size_t rooms[3] = {below(40), below(3), below(100)};
        syn_tokens_arguments(entries, count, texts, size,
                             (struct syn_tokens_argument *)values_end - rooms[0], rooms[0],
                             (struct syn_tokens_message *)messages_end - rooms[1], rooms[1],
                             input_end - rooms[2], rooms[2], &outcome);
        bool fits = outcome.values <= rooms[0] && outcome.messages <= rooms[1] &&
                    outcome.bytes <= rooms[2];
        if (fits == (outcome.status == SYN_TOKENS_NO_ROOM))
            FAIL("the room for arguments");
    } else {
        const char *commands = ANY(COMMANDS);
        size_t room = below(300);
        syn_tokens_replay(entries, count, texts, size, (const uint8_t *)commands, strlen(commands),
                          input_end - room, room, &outcome);
        if ((outcome.bytes <= room) == (outcome.status == SYN_TOKENS_NO_ROOM))
            FAIL("the room for a report");
    }
    answered += outcome.status <= SYN_TOKENS_REJECTED;
    bool is_malformed = outcome.status == SYN_TOKENS_MALFORMED;
    if (outcome.status > SYN_TOKENS_MALFORMED || outcome.status == SYN_TOKENS_NO_MEMORY ||
        (is_malformed && (!is_changed || outcome.entry > count)))
        FAIL("an outcome");
}

/* Looks for a token among the last so many entries, of which fields may be changed. */
static void step(void) {
    size_t count, size;
    take(&count, &size);
    count -= below(count + 1);
    const struct syn_tokens_entry *entries = (struct syn_tokens_entry *)entries_end - count;
    const uint8_t *texts = texts_end - size;
    struct syn_tokens_step step, before;
    memset(&before, 0xa5, sizeof before);
    step = before;
    enum { IDENT, PUNCT, LITERAL, LIFETIME, GROUP, ANY_TOKEN, CALLS };
    size_t which = below(CALLS);
    static const uint32_t DELIMITERS[] = {0, 1, 2, 3, 3, 4, UINT32_MAX};
    uint32_t delimiter = ANY(DELIMITERS);
    bool is_found = which == IDENT      ? syn_tokens_ident(entries, count, &step)
                    : which == PUNCT    ? syn_tokens_punct(entries, count, texts, size, &step)
                    : which == LITERAL  ? syn_tokens_literal(entries, count, &step)
                    : which == LIFETIME ? syn_tokens_lifetime(entries, count, texts, size, &step)
                    : which == GROUP    ? syn_tokens_group(entries, count, delimiter, &step)
                                        : syn_tokens_skip(entries, count, texts, size, &step);
    if (!is_found) {
        if (memcmp(&step, &before, sizeof step) != 0)
            FAIL("a step that is not there");
        return;
    }
    steps_found++;
    if (step.at > step.last || step.last >= step.next || step.next > count)
        FAIL("a step");
    for (size_t i = 0; i < step.next; i++) {
        const struct syn_tokens_entry *it = &entries[i];
        bool is_closing = it->kind == SYN_TOKENS_CLOSING;
        bool is_edge = (it->kind == SYN_TOKENS_OPENING || is_closing) &&
                       it->delimiter == SYN_TOKENS_INVISIBLE;
        if ((i < step.at && !is_edge) || (i > step.last && !(is_edge && is_closing)))
            FAIL("a step over a token");
    }
    const struct syn_tokens_entry *first = &entries[step.at], *last = &entries[step.last];
    if ((which == IDENT && first->kind != SYN_TOKENS_IDENT) ||
        (which == PUNCT && first->kind != SYN_TOKENS_PUNCT) ||
        (which == LITERAL && first->kind != SYN_TOKENS_LITERAL) ||
        (which == LIFETIME && (first->kind != SYN_TOKENS_PUNCT || first->spacing != 1 ||
                               last->kind != SYN_TOKENS_IDENT)) ||
        (which == GROUP && (first->kind != SYN_TOKENS_OPENING || first->delimiter != delimiter ||
                            step.last - step.at != first->distance)))
        FAIL("a token of another kind");
}

/* Asks for lines and columns, and counts them again. */
static void lines(void) {
    size_t count = below(20), room = below(4) == 0 ? below(20) : count;
    size_t *bytes = (size_t *)entries_end - count;
    struct syn_tokens_place *places = (struct syn_tokens_place *)values_end - room;
    for (size_t i = 0; i < count; i++)
        bytes[i] = below(20) == 0 ? SIZE_MAX - below(2) : below(length + 2);
    memcpy(input_end - length, text, length);
    memset(places, 0xa5, room * sizeof *places);
    failing = below(8) == 0 ? 1 + below(2) : 0;
    bool may_fail = failing != 0;
    uint8_t status = syn_tokens_lines(input_end - length, length, bytes, count, places, room);
    failing = 0;
    if ((status == SYN_TOKENS_NO_ROOM) != (room < count) ||
        (status == SYN_TOKENS_NO_MEMORY && !may_fail) || status == SYN_TOKENS_REJECTED ||
        status > SYN_TOKENS_NO_ROOM)
        FAIL("a status of lines");
    size_t written = status == SYN_TOKENS_OK ? count : 0;
    if (!is_untouched(values_end, (room - written) * sizeof *places))
        FAIL("places that are not asked for");
    for (size_t i = 0; i < written; i++) {
        size_t line = 1, column = 1, at = bytes[i];
        bool is_known = at <= length && (at == length || (text[at] & 0xc0) != 0x80);
        for (size_t j = 0; is_known && j < at; j++) {
            column += (text[j] & 0xc0) != 0x80;
            if (text[j] == '\n')
                line++, column = 1;
        }
        if (places[i].line != (is_known ? line : 0) || places[i].column != (is_known ? column : 0))
            FAIL("a place");
    }
}

/* Reads a text as a literal. */
static void value(void) {
    struct syn_tokens_literal value;
    size_t room = below(40);
    const char *piece = ANY(PIECES);
    size_t size = strlen(piece);
    if (below(2) == 0)
        piece = text, size = length;
    memcpy(input_end - size, piece, size);
    syn_tokens_value(input_end - size, size, texts_end - room, room, &value);
    if ((value.bytes <= room) == (value.status == SYN_TOKENS_NO_ROOM) || value.kind > 6)
        FAIL("a value");
}

int main(int count, char **words) {
    size_t all = count > 1 ? strtoull(words[1], NULL, 10) : 100000;
    uint64_t seed = count > 2 ? strtoull(words[2], NULL, 10) : (uint64_t)time(NULL);
    printf("random: %zu calls, seed %llu\n", all, (unsigned long long)seed);
    fflush(stdout);
    state = (seed + 1) * 0x9e3779b97f4a7c15;
    if (state == 0)
        state = 1;
    entries_end = lend(), texts_end = lend(), values_end = lend(), messages_end = lend();
    input_end = lend();
    for (calls = 0; calls < all; calls++) {
        make_text();
        made = held = 0;
        switch (below(11)) {
        case 0:
            read_failing();
            break;
        case 1:
            run(false);
            break;
        case 2:
            run(true);
            break;
        case 3:
        case 4:
            pass();
            break;
        case 5:
            value();
            break;
        case 6:
        case 7:
            step();
            break;
        case 8:
            lines();
            break;
        default:
            read();
        }
        if (held != 0)
            FAIL("memory that is not freed");
    }
    printf("random: %zu texts read, %zu lists of entries answered, %zu tokens found\n", texts_read,
           answered, steps_found);
    return all > 1000 && (texts_read < all / 20 || answered < all / 40 || steps_found < all / 100);
}
