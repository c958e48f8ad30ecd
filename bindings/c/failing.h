/* Calls in place of malloc, realloc and free, of which one can be made to fail. A program that
 * includes this is linked with --wrap=malloc,--wrap=realloc,--wrap=free. */
#ifndef FAILING_H
#define FAILING_H

#include <stdbool.h>
#include <stddef.h>

void *__real_malloc(size_t size);
void *__real_realloc(void *block, size_t size);
void __real_free(void *block);

/* Which allocation fails, counted from 1 (0: none), how many were made, and how many blocks are
 * held. */
static size_t failing, made, held;

static bool fails(void) {
    made++;
    return made == failing;
}

void *__wrap_malloc(size_t size) {
    if (fails())
        return NULL;
    held++;
    return __real_malloc(size);
}

void *__wrap_realloc(void *block, size_t size) {
    if (fails())
        return NULL;
    held += block == NULL;
    return __real_realloc(block, size);
}

void __wrap_free(void *block) {
    held -= block != NULL;
    __real_free(block);
}

#endif
