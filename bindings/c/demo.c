/* Reads texts by each list of rules, prints their entries or why one is rejected, and runs
 * commands. */
#include "syn_tokens.h"

#include <stdio.h>
#include <string.h>

static const char *const KINDS[] = {"ident", "punct", "literal", "opening", "closing"};
static const char *const DELIMITERS[] = {"()", "{}", "[]", "«»"};

static void show(uint32_t rules, const char *text) {
    struct syn_tokens tokens;
    int status = syn_tokens_read(&tokens, rules, text, strlen(text));
    printf("%s\n", text);
    if (status == SYN_TOKENS_REJECTED)
        printf("    rejected by L%u at %zu: %s\n", (unsigned)tokens.reading.rule,
               tokens.reading.at, tokens.texts);
    else if (status != SYN_TOKENS_OK)
        printf("    status %d\n", status);
    for (size_t i = 0; status == SYN_TOKENS_OK && i < tokens.reading.entries; i++) {
        const struct syn_tokens_entry *it = &tokens.entries[i];
        printf("    %zu..%zu %s", it->start, it->end, KINDS[it->kind]);
        if (it->kind >= SYN_TOKENS_OPENING)
            printf(" %s %zu\n", DELIMITERS[it->delimiter], it->distance);
        else
            printf(" %.*s%s\n", (int)(it->text_end - it->text_start),
                   tokens.texts + it->text_start, it->spacing ? " joint" : "");
    }
    syn_tokens_free(&tokens);
}

static const char *const VALUES[] = {"flag", "literal", "list"};

/* Reads a text, and its tokens as arguments. */
static void show_arguments(const char *text) {
    struct syn_tokens tokens;
    struct syn_tokens_argument arguments[8];
    struct syn_tokens_message messages[2];
    struct syn_tokens_outcome outcome;
    uint8_t words[128];
    printf("%s\n", text);
    if (syn_tokens_read(&tokens, SYN_TOKENS_MARKED, text, strlen(text)) == SYN_TOKENS_OK) {
        syn_tokens_arguments(tokens.entries, tokens.reading.entries, (uint8_t *)tokens.texts,
                             tokens.reading.bytes, arguments, 8, messages, 2, words, sizeof words,
                             &outcome);
        for (size_t i = 0; outcome.status == SYN_TOKENS_OK && i < outcome.values; i++) {
            const struct syn_tokens_argument *it = &arguments[i];
            printf("    %zu..%zu %s, %zu inside\n", it->name_start, it->name_end,
                   VALUES[it->kind], it->inside);
        }
        for (size_t i = 0; outcome.status == SYN_TOKENS_REJECTED && i < outcome.messages; i++) {
            const struct syn_tokens_message *it = &messages[i];
            printf("    %zu..%zu %.*s\n", it->start, it->end,
                   (int)(it->text_end - it->text_start), (const char *)words + it->text_start);
        }
    }
    syn_tokens_free(&tokens);
}

/* Reads a text, and its tokens one at a time: where each is, and what. */
static void show_steps(const char *text) {
    struct syn_tokens tokens;
    printf("%s\n", text);
    int status = syn_tokens_read(&tokens, SYN_TOKENS_PLAIN, text, strlen(text));
    const struct syn_tokens_entry *next = tokens.entries;
    const uint8_t *texts = (const uint8_t *)tokens.texts;
    size_t left = tokens.reading.entries, size = tokens.reading.bytes;
    struct syn_tokens_step step;
    enum { MOST = 32 };
    const char *kinds[MOST];
    size_t starts[MOST], sizes[MOST], count = 0;
    while (status == SYN_TOKENS_OK && count < MOST &&
           syn_tokens_skip(next, left, texts, size, &step)) {
        kinds[count] = syn_tokens_lifetime(next, left, texts, size, &step) ? "lifetime"
                       : syn_tokens_ident(next, left, &step)               ? "identifier"
                       : syn_tokens_literal(next, left, &step)             ? "literal"
                       : syn_tokens_punct(next, left, texts, size, &step)  ? "punct"
                                                                           : "group";
        starts[count] = next[step.at].start;
        sizes[count++] = step.last - step.at + 1;
        next += step.next, left -= step.next;
    }
    /* One call for all places, since each reads the text. */
    struct syn_tokens_place places[MOST];
    if (syn_tokens_lines((const uint8_t *)text, strlen(text), starts, count, places, MOST) == 0)
        for (size_t i = 0; i < count; i++)
            printf("    %zu:%zu %s of %zu entries\n", places[i].line, places[i].column, kinds[i],
                   sizes[i]);
    syn_tokens_free(&tokens);
}

/* Reads a marked text, and looks through invisible groups. */
static void show_inside(const char *text) {
    struct syn_tokens tokens;
    struct syn_tokens_step step;
    printf("%s\n", text);
    if (syn_tokens_read(&tokens, SYN_TOKENS_MARKED, text, strlen(text)) == SYN_TOKENS_OK) {
        size_t count = tokens.reading.entries;
        for (uint32_t i = SYN_TOKENS_PARENTHESIS; i <= SYN_TOKENS_INVISIBLE; i++)
            if (syn_tokens_group(tokens.entries, count, i, &step))
                printf("    %s from %zu to %zu, then %zu\n", DELIMITERS[i], step.at, step.last,
                       step.next);
    }
    syn_tokens_free(&tokens);
}

int main(void) {
    if (!syn_tokens_matches()) {
        fprintf(stderr, "demo: syn_tokens.h is not of this library\n");
        return 1;
    }
    printf("version %s\n", syn_tokens_version());
    show(SYN_TOKENS_PLAIN, "a (b, 1) => 'c'");
    show(SYN_TOKENS_PLAIN, "x = '\\q'");
    show(SYN_TOKENS_PLAIN, "++++++++++++++++++++++++++++++++++++++++");
    show(SYN_TOKENS_MARKED, "(a «b»)");
    show(2021, "/// A point.\nstruct Point;");
    show(2022, "struct Point;");
    show(SYN_TOKENS_PLAIN, "\xff");
    show(SYN_TOKENS_PLAIN, "");

    show_arguments("a = «1», b(c, «d»), «»");
    show_arguments("a = 1 2");

    show_steps("fn f<'a>(b: c) {\n    b + 1\n}");
    show_inside("« [b, «c»] » d");

    struct syn_tokens none;
    printf("null: status %d\n", syn_tokens_read(&none, SYN_TOKENS_PLAIN, NULL, 1));
    syn_tokens_free(&none);

    const char *input = "(a b)\n---\nenter 0 (\nterminated 1 Ident ,\n";
    struct syn_tokens_report report;
    int status = syn_tokens_run(&report, input, strlen(input));
    printf("%sstatus %d%s\n", report.text, status,
           status == SYN_TOKENS_RUN_REJECTED ? ": a verdict rejects" : "");
    syn_tokens_free_report(&report);
    return 0;
}
