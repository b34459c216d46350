/*
 * malloc, realloc and free of a program that is linked with -Wl,--wrap=malloc,--wrap=realloc,--wrap=free: they count requests and blocks, and
 * refuse one request, or one and all behind it.
 */
#ifndef REFUSING_H
#define REFUSING_H

#include <stdbool.h>
#include <stddef.h>

void *__real_malloc(size_t size);
void *__real_realloc(void *old, size_t size);
void __real_free(void *block);
void *__wrap_malloc(size_t size);
void *__wrap_realloc(void *old, size_t size);
void __wrap_free(void *block);

/* How many requests there were, which is refused, whether all later ones are too, and how many blocks weren't given back. */
static size_t requests, refused_number;
static bool refuses_later;
static long blocks;

static bool refuses(void) {
    requests++;
    return requests == refused_number || (refuses_later && requests > refused_number);
}

void *__wrap_malloc(size_t size) {
    void *block = refuses() ? NULL : __real_malloc(size);
    if (block != NULL)
        blocks++;
    return block;
}

void *__wrap_realloc(void *old, size_t size) {
    void *block = refuses() ? NULL : __real_realloc(old, size);
    if (block != NULL && old == NULL)
        blocks++;
    return block;
}

void __wrap_free(void *block) {
    if (block != NULL)
        blocks--;
    __real_free(block);
}

#endif
