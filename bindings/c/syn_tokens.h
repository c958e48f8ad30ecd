/* Tokens of Rust source text, and commands over them.
 *
 * The checked calls, `syn_tokens_read` and `syn_tokens_run`, check their arguments and allocate
 * memory. `syn_tokens_free` and `syn_tokens_free_report` free this memory. The file syn_tokens.c
 * defines the checked calls, which use the proved calls of libsyn_tokens_c.a. The proved calls
 * write into memory that the caller lends, except for `syn_tokens_open`.
 *
 * Link libsyn_tokens.a of a release, or syn_tokens.c and libsyn_tokens_c.a. The library allocates
 * memory with `malloc` and `realloc`, which must align a block to each power of two up to 16 that
 * divides its size. */
#ifndef SYN_TOKENS_H
#define SYN_TOKENS_H

#include <stdbool.h>
#include <stddef.h>
#include <stdint.h>

#ifdef __cplusplus
extern "C" {
#endif

/* The version of this header, as a text and as the number 1000000 * major + 1000 * minor + patch.
 * `syn_tokens_version` returns the version of the checked calls that are linked, and
 * `syn_tokens_matches` says whether the library has the same structs as this header. */
#define SYN_TOKENS_VERSION_TEXT "0.2.0"
#define SYN_TOKENS_VERSION 2000

enum syn_tokens_kind {
    SYN_TOKENS_IDENT = 0,
    SYN_TOKENS_PUNCT = 1,
    SYN_TOKENS_LITERAL = 2,
    SYN_TOKENS_OPENING = 3,
    SYN_TOKENS_CLOSING = 4,
};

enum syn_tokens_delimiter {
    SYN_TOKENS_PARENTHESIS = 0,
    SYN_TOKENS_BRACE = 1,
    SYN_TOKENS_BRACKET = 2,
    SYN_TOKENS_INVISIBLE = 3,
};

enum syn_tokens_status {
    SYN_TOKENS_OK = 0,
    /* The grammar rejects the text. `rule`, `at` and the error in `texts` say why. */
    SYN_TOKENS_REJECTED = 1,
    SYN_TOKENS_NOT_UTF8 = 2,
    SYN_TOKENS_NO_MEMORY = 3,
    /* Only the proved calls return this status. `entries` and `bytes` say how much room is
     * needed. */
    SYN_TOKENS_NO_ROOM = 4,
    SYN_TOKENS_NO_EDITION = 5,
    /* Only the checked calls return this status. A pointer is null, or this header does not belong
     * to the linked library. */
    SYN_TOKENS_BAD_CALL = 6,
    /* Only the calls that take entries return this status. The entries do not form a token
     * stream. */
    SYN_TOKENS_MALFORMED = 6,
};

/* The status of a run. */
enum syn_tokens_run_status {
    /* Each verdict accepts. */
    SYN_TOKENS_RUN_ACCEPTED = 0,
    /* A verdict rejects. */
    SYN_TOKENS_RUN_REJECTED = 1,
    /* The input is not a text with commands. The report is one line that says why. */
    SYN_TOKENS_RUN_UNREADABLE = 2,
    SYN_TOKENS_RUN_NO_MEMORY = 3,
    /* Only `syn_tokens_replay` returns these two statuses, in its outcome. */
    SYN_TOKENS_RUN_NO_ROOM = 4,
    SYN_TOKENS_RUN_MALFORMED = 6,
    /* Only `syn_tokens_run` returns this status. A pointer is null. */
    SYN_TOKENS_RUN_BAD_CALL = 6,
};

/* The rules by which a text is read. For a whole source, use the year of its edition, which is
 * 2015, 2018, 2021 or 2024. */
enum syn_tokens_rules {
    SYN_TOKENS_PLAIN = 0,
    /* « and » open and close invisible groups, and spans do not count their bytes. */
    SYN_TOKENS_MARKED = 1,
};

/* An entry of a token stream: a leaf token, an opening delimiter or a closing delimiter. The
 * entries are in the order of the text. */
struct syn_tokens_entry {
    uint32_t kind;
    uint16_t spacing;            /* 1 for a joint punct, and 0 otherwise */
    uint16_t delimiter;          /* the delimiter of an opening or a closing, and 0 for a leaf */
    size_t start, end;           /* the span, in bytes of the text that was read */
    size_t text_start, text_end; /* the range of the leaf's text in `texts` */
    size_t distance;             /* between an opening and its closing, and 0 for a leaf */
};

struct syn_tokens_reading {
    uint32_t status;
    uint32_t rule; /* the rule that rejects the text, such as 1 for L1 */
    size_t at;     /* the byte at which the text is rejected */
    size_t entries, bytes;
};

/* The outcome of opening a text, with pointers that are valid until the handle is closed. A zero
 * byte follows the texts. If the handle is null, both pointers are null as well. */
struct syn_tokens_opened {
    struct syn_tokens_reading reading;
    const struct syn_tokens_entry *entries;
    const uint8_t *texts;
};

/* The outcome of a call that takes entries. */
struct syn_tokens_outcome {
    uint32_t status;  /* a status from above, or SYN_TOKENS_MALFORMED */
    uint32_t refusal; /* why entries are malformed: 1 field, 2 text, 3 groups too deep; else 0 */
    size_t entry;     /* the index of the malformed entry; else 0 */
    size_t values, messages, bytes;
};

/* A message of an error, with its span, and the range of its text in the bytes that are written. */
struct syn_tokens_message {
    size_t start, end;
    size_t text_start, text_end;
};

/* An argument. Its kind is 0 for a name alone, 1 for a name and a literal, or 2 for a name and
 * arguments in parentheses. */
struct syn_tokens_argument {
    size_t kind;
    size_t name_start, name_end;   /* the span of the name */
    size_t value_start, value_end; /* the span of the literal or the parentheses; else 0 */
    size_t inside;                 /* the number of next arguments that are inside this one */
};

/* The value of a literal. */
struct syn_tokens_literal {
    uint32_t status; /* a status from above */
    uint32_t kind;   /* 1 string, 2 bytes, 3 character, 4 byte, 5 integer, 6 float; else 0 */
    uint64_t number; /* the value of a character, a byte or an integer; else 0 */
    double real;     /* the value of a float; else 0 */
    size_t suffix;   /* the number of bytes in the suffix of an integer; else 0 */
    size_t bytes;    /* the number of bytes in the value of a string or bytes */
};

/* The location of a token among the remaining entries, and the entry to continue with. That entry
 * comes after the token and after the invisible groups that end there. */
struct syn_tokens_step {
    size_t at;   /* the first entry: a leaf, the apostrophe of a lifetime, or an opening */
    size_t last; /* the last entry: the leaf, the name of a lifetime, or the closing */
    size_t next;
};

/* A line and a column of a text. Both are counted from 1. A column is a number of characters. */
struct syn_tokens_place {
    size_t line, column;
};

/* ---- Checked calls ---- */

/* The result of reading a text. `reading` says how many entries and bytes the result has. It has
 * none of them unless the status is SYN_TOKENS_OK or SYN_TOKENS_REJECTED. If `texts` is not null, a
 * zero byte follows the texts. */
struct syn_tokens {
    struct syn_tokens_reading reading;
    const struct syn_tokens_entry *entries;
    const char *texts;
    void *handle; /* the handle of the library */
};

/* The output of the program, with a zero byte at its end, and the program's status. After a failed
 * allocation, the status is SYN_TOKENS_RUN_NO_MEMORY, the size is 0, and `text` is empty or
 * null. */
struct syn_tokens_report {
    int status; /* one of enum syn_tokens_run_status */
    size_t size;
    char *text;
};

/* Reads a text by these rules, and returns the status. Whatever the status is, `syn_tokens_free`
 * frees the memory of `tokens`. */
int syn_tokens_read(struct syn_tokens *tokens, uint32_t rules, const char *text, size_t length);
void syn_tokens_free(struct syn_tokens *tokens);

/* Runs the program over an input, and returns the program's status, or SYN_TOKENS_RUN_BAD_CALL.
 * Whatever the status is, `syn_tokens_free_report` frees the memory of `report`. */
int syn_tokens_run(struct syn_tokens_report *report, const char *input, size_t length);
void syn_tokens_free_report(struct syn_tokens_report *report);

/* Returns the version of the checked calls, as SYN_TOKENS_VERSION_TEXT. */
const char *syn_tokens_version(void);

/* Returns true if the structs of this header have the same layout as the structs of the library.
 * The checked call `syn_tokens_read` checks this first. */
bool syn_tokens_matches(void);

/* ---- Proved calls. No pointer may be null, and no two may share memory. ---- */

/* Reads a text by these rules into memory that the handle then holds. The call frees the memory
 * that the handle held before, so a new handle must be null. A caller must not write to the memory
 * that the handle holds. A handle that holds no memory is null. */
void syn_tokens_open(uint32_t rules, const uint8_t *text, size_t length, void **handle,
                     struct syn_tokens_opened *opened);
/* Frees the memory that the handle holds, and sets the handle to null. */
void syn_tokens_close(void **handle);

void syn_tokens_lex(const uint8_t *text, size_t length, struct syn_tokens_entry *entries,
                    size_t entries_room, uint8_t *texts, size_t texts_room,
                    struct syn_tokens_reading *reading);
void syn_tokens_lex_marked(const uint8_t *text, size_t length, struct syn_tokens_entry *entries,
                           size_t entries_room, uint8_t *texts, size_t texts_room,
                           struct syn_tokens_reading *reading);
void syn_tokens_lex_source(uint32_t year, const uint8_t *text, size_t length,
                           struct syn_tokens_entry *entries, size_t entries_room, uint8_t *texts,
                           size_t texts_room, struct syn_tokens_reading *reading);
uint8_t syn_tokens_respond(const uint8_t *input, size_t length, uint8_t *printed, size_t room,
                           size_t *size);
void syn_tokens_sample(struct syn_tokens_entry *entries, size_t count,
                       struct syn_tokens_reading *reading);

/* Parses entries as arguments with commas between them. An argument is `name`, `name = literal` or
 * `name(..)`. */
void syn_tokens_arguments(const struct syn_tokens_entry *entries, size_t count,
                          const uint8_t *texts, size_t size, struct syn_tokens_argument *arguments,
                          size_t arguments_room, struct syn_tokens_message *messages,
                          size_t messages_room, uint8_t *bytes, size_t bytes_room,
                          struct syn_tokens_outcome *outcome);

/* Runs commands over entries, with one command on each line. The status is one of enum
 * syn_tokens_run_status. If it is SYN_TOKENS_RUN_NO_MEMORY or greater, the call prints nothing. */
void syn_tokens_replay(const struct syn_tokens_entry *entries, size_t count, const uint8_t *texts,
                       size_t size, const uint8_t *commands, size_t length, uint8_t *printed,
                       size_t room, struct syn_tokens_outcome *outcome);
void syn_tokens_sample_answers(struct syn_tokens_outcome *outcome,
                               struct syn_tokens_message *messages, size_t messages_count,
                               struct syn_tokens_argument *arguments, size_t arguments_count,
                               struct syn_tokens_literal *value);

/* Reads the value of a literal from its text. The call writes the value of a string or a byte
 * string to `bytes`. */
void syn_tokens_value(const uint8_t *text, size_t length, uint8_t *bytes, size_t room,
                      struct syn_tokens_literal *value);

/* The following calls write the location of the next token if the token is of their kind, and
 * return true. Otherwise, they write nothing and return false. They allocate nothing, and ignore
 * the delimiters of invisible groups.
 *
 * `entries` contains the remaining entries of a text, or of the contents of a group. After a token,
 * the remaining entries begin at `next`. `texts` contains the texts of all entries. The calls are
 * safe for entries with any field values. */
bool syn_tokens_ident(const struct syn_tokens_entry *entries, size_t count,
                      struct syn_tokens_step *step);
/* Finds a punct other than an apostrophe. */
bool syn_tokens_punct(const struct syn_tokens_entry *entries, size_t count, const uint8_t *texts,
                      size_t size, struct syn_tokens_step *step);
bool syn_tokens_literal(const struct syn_tokens_entry *entries, size_t count,
                        struct syn_tokens_step *step);
/* Finds a joint apostrophe and an identifier. */
bool syn_tokens_lifetime(const struct syn_tokens_entry *entries, size_t count,
                         const uint8_t *texts, size_t size, struct syn_tokens_step *step);
/* Finds a group with this enum syn_tokens_delimiter. The call finds an invisible group only if the
 * group begins at the first entry. */
bool syn_tokens_group(const struct syn_tokens_entry *entries, size_t count, uint32_t delimiter,
                      struct syn_tokens_step *step);
/* Finds a lifetime, another leaf or a visible group. */
bool syn_tokens_skip(const struct syn_tokens_entry *entries, size_t count, const uint8_t *texts,
                     size_t size, struct syn_tokens_step *step);

/* Writes the line and the column of each of these byte offsets of a text. Both are 0 for an offset
 * within a character or after the end of the text. Returns an enum syn_tokens_status, and writes
 * nothing unless the status is SYN_TOKENS_OK. The status is SYN_TOKENS_NO_ROOM if there are fewer
 * places than offsets. */
uint8_t syn_tokens_lines(const uint8_t *text, size_t length, const size_t *bytes, size_t count,
                         struct syn_tokens_place *places, size_t room);
void syn_tokens_sample_opened(struct syn_tokens_opened *opened, size_t count);
void syn_tokens_sample_places(struct syn_tokens_step *step, struct syn_tokens_place *places,
                              size_t count);

#ifdef __cplusplus
}
#endif

#endif
