/*
 * The allocator of platform/heap.c, which is next to this as heap_of_c.c, over one that refuses if more bytes would be
 * in use than the word BUDGET of the environment allows.
 */
#include <stdint.h>
#include <stdlib.h>

enum { HEAD = 16 }; /* the size of a block stands before it, and it stays aligned */

static uint64_t in_use;

static uint64_t budget(void) {
    const char *word = getenv("BUDGET");
    return word != NULL ? strtoull(word, NULL, 10) : UINT64_MAX;
}

static uint64_t size_of(const void *block) {
    return block != NULL ? *(const uint64_t *)((const char *)block - HEAD) : 0;
}

static void *resized(void *block, size_t size) {
    uint64_t held = size_of(block);
    if (in_use - held + size > budget()) return NULL;
    char *whole = realloc(block != NULL ? (char *)block - HEAD : NULL, size + HEAD);
    if (whole == NULL) return NULL;
    *(uint64_t *)whole = size;
    in_use += size - held;
    return whole + HEAD;
}

static void *taken(size_t size) { return resized(NULL, size); }

static void given_up(void *block) {
    in_use -= size_of(block);
    free((char *)block - HEAD);
}

#define malloc taken
#define realloc resized
#define free given_up
#include "heap_of_c.c"
