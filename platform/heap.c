/* The allocator of platform.h over C's. */
#include <stdlib.h>

#include "platform.h"

/* Its address is what a refused call answers, which may not be 0 (see `attempt` in platform.h). Nothing reads it. */
static char nothing;

/* A block of C, or NULL, as the pair that the proved code reads. */
static attempt attempt_of(void *block) {
    return (attempt){block != NULL, (uint64_t)(uintptr_t)(block != NULL ? block : (void *)&nothing)};
}

/* (malloc and realloc may answer NULL for 0 bytes, which must not look like a refusal. Their blocks are aligned to
 * 16.) */
static size_t at_least_one(uint64_t size) { return size != 0 ? (size_t)size : 1; }

void platform_alloc(attempt *answer, uint64_t size, uint64_t alignment) {
    (void)alignment;
    *answer = attempt_of(malloc(at_least_one(size)));
}

void platform_realloc(attempt *answer, void *block, uint64_t kept, uint64_t size, uint64_t alignment) {
    (void)kept, (void)alignment;
    *answer = attempt_of(realloc(block, at_least_one(size)));
}

void platform_dealloc(void *block) { free(block); }
