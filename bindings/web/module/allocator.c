/* The allocator of platform.h for the module: the proved code's blocks come from the heap of heap.h. */
#include "platform.h"

#include "heap.h"

/* Its address is what a refused call answers, which may not be 0 (see `attempt` in platform.h). Nothing reads it. */
static char nothing;

/* A block, or NULL, as the pair that the proved code reads. */
static attempt attempt_of(void *block) {
    return (attempt){block != NULL, (uint64_t)(uintptr_t)(block != NULL ? block : (void *)&nothing)};
}

void platform_alloc(attempt *answer, uint64_t size, uint64_t alignment) {
    *answer = attempt_of(heap_take(size, alignment));
}

void platform_realloc(attempt *answer, void *block, uint64_t kept, uint64_t size, uint64_t alignment) {
    *answer = attempt_of(heap_resize(block, kept, size, alignment));
}

void platform_dealloc(void *block) { heap_give(block); }
