/* Makes each checked call with each of its allocations failing in turn: the status must say so, the
 * sizes must speak of no memory that isn't there, and all memory must be freed by the one call that
 * frees. */
#include "failing.h"
#include "syn_tokens.h"

#include <stdio.h>
#include <stdlib.h>
#include <string.h>

/* Enough entries that their room grows. */
static char many[20 * 251];
/* More lines than the first turn has room for. */
static char input[20000];

/* Reads all that the sizes speak of. */
static unsigned sum_of(const void *memory, size_t size) {
    unsigned sum = 0;
    for (size_t i = 0; i < size; i++)
        sum += ((const unsigned char *)memory)[i];
    return sum;
}

static unsigned sum;

/* Returns the status of a read whose allocation of this number fails, or -1 if something is
 * wrong. */
static int try_read(size_t number) {
    struct syn_tokens tokens;
    failing = number;
    made = held = 0;
    int status = syn_tokens_read(&tokens, SYN_TOKENS_PLAIN, many, sizeof many);
    failing = 0;
    bool is_right = status != SYN_TOKENS_NO_MEMORY ||
                    (tokens.reading.entries == 0 && tokens.reading.bytes == 0);
    sum += sum_of(tokens.entries, tokens.reading.entries * sizeof *tokens.entries);
    if (tokens.texts != NULL)
        sum += sum_of(tokens.texts, tokens.reading.bytes + 1);
    syn_tokens_free(&tokens);
    return is_right && held == 0 ? status : -1;
}

static int try_run(size_t number) {
    struct syn_tokens_report report;
    failing = number;
    made = held = 0;
    int status = syn_tokens_run(&report, input, strlen(input));
    failing = 0;
    bool is_right = status != SYN_TOKENS_RUN_NO_MEMORY || report.size == 0;
    if (report.text != NULL) {
        sum += sum_of(report.text, report.size + 1);
        is_right = is_right && report.text[report.size] == 0;
    }
    syn_tokens_free_report(&report);
    return is_right && held == 0 ? status : -1;
}

/* Tries a call, and returns how many of its allocations were made to fail, or 0 if something is
 * wrong. A failed allocation may also be one that the call can do without. */
static size_t try_all(int (*call)(size_t number), int wanted) {
    size_t failed = 0;
    for (size_t number = 1;; number++) {
        int status = call(number);
        if (made < number)
            return status == wanted && failed > 0 ? number - 1 : 0;
        if (status != SYN_TOKENS_NO_MEMORY && status != wanted)
            return 0;
        failed += status == SYN_TOKENS_NO_MEMORY;
    }
}

int main(void) {
    for (size_t i = 0; i < sizeof many; i++)
        many[i] = i % 251 < 16 ? ' ' : '+';
    strcpy(input, "a\n---\n");
    while (strlen(input) + 10 < sizeof input)
        strcat(input, "empty 0\n");
    size_t reads = try_all(try_read, SYN_TOKENS_OK);
    size_t runs = try_all(try_run, 1);
    if (reads == 0 || runs == 0) {
        fprintf(stderr, "second: %s\n", reads == 0 ? "syn_tokens_read" : "syn_tokens_run");
        return 1;
    }
    printf("syn_tokens_read: each of %zu allocations fails in turn\n", reads);
    printf("syn_tokens_run: each of %zu allocations fails in turn (%u)\n", runs, sum % 2);
    return 0;
}
