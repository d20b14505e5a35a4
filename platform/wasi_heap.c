/*
 * The allocator of platform.h in the memory of a WebAssembly module, if there is no C library. A block is of a power of
 * two of bytes, and has its power in the 16 bytes before it. Blocks that were given up wait in a list for each power.
 */
#include "wasi_heap.h"

/* A page of WebAssembly; the header before a block; and the powers of the shortest and of the longest block: 32 bytes
 * have room for a header and 16 more, and the memory of 32-bit addresses ends at 4 GB. */
enum { PAGE = 65536, HEAD = 16, LEAST_POWER = 5, MOST_POWER = 31 };

typedef struct header {
    uint64_t power;
    struct header *next; /* in the list of those that were given up */
} header;

_Static_assert(sizeof(header) == HEAD, "a block is at a multiple of 16");

extern uint8_t __heap_base; /* where the linker ends the static data */
static header *given_up[MOST_POWER + 1];
static uint64_t top; /* where the memory is free; 0 before the first block */

/*
 * The memory's next bytes, or NULL if the engine gives no more. Its end says whether it has grown: the answer of the
 * growth is widened to 64 bits by `wasm-opt`, and a refusal isn't -1 then.
 */
static header *next_bytes(uint64_t size) {
    if (top == 0) top = ((uint64_t)&__heap_base + HEAD - 1) & ~(uint64_t)(HEAD - 1);
    uint64_t end = (uint64_t)__builtin_wasm_memory_size(0) * PAGE;
    if (size > end - top) (void)__builtin_wasm_memory_grow(0, (size - (end - top) + PAGE - 1) / PAGE);
    end = (uint64_t)__builtin_wasm_memory_size(0) * PAGE;
    if (size > end - top) return NULL;
    header *block = (header *)top;
    top += size;
    return block;
}

/* The header of a block that block_take gave. */
static header *header_of(void *block) { return (header *)((uint8_t *)block - HEAD); }

void *block_take(uint64_t size) {
    if (size > ((uint64_t)1 << MOST_POWER) - HEAD) return NULL;
    uint64_t power = LEAST_POWER;
    while (((uint64_t)1 << power) < size + HEAD) power++;
    header *found = given_up[power];
    if (found != NULL) {
        given_up[power] = found->next;
    } else {
        found = next_bytes((uint64_t)1 << power);
        if (found == NULL) return NULL;
        found->power = power;
    }
    return (uint8_t *)found + HEAD;
}

void platform_dealloc(void *block) {
    header *freed = header_of(block);
    freed->next = given_up[freed->power];
    given_up[freed->power] = freed;
}

/* Its address is what a refused call answers, which may not be 0 (see `attempt` in platform.h). Nothing reads it. */
static uint8_t nothing;

/* A block, or NULL, as the pair that the proved code reads. */
static attempt attempt_of(void *block) {
    return (attempt){block != NULL, (uint64_t)(block != NULL ? block : (void *)&nothing)};
}

void platform_alloc(attempt *answer, uint64_t size, uint64_t alignment) {
    (void)alignment;
    *answer = attempt_of(block_take(size));
}

/* (a block of which less than a quarter is kept moves, so that a long text doesn't hold its room) */
void platform_realloc(attempt *answer, void *block, uint64_t kept, uint64_t size, uint64_t alignment) {
    (void)alignment;
    uint64_t whole = (uint64_t)1 << header_of(block)->power;
    if (size + HEAD <= whole && size + HEAD >= whole / 4) {
        *answer = attempt_of(block);
        return;
    }
    void *moved = block_take(size);
    if (moved != NULL) {
        __builtin_memcpy(moved, block, kept < size ? kept : size);
        platform_dealloc(block);
    }
    *answer = attempt_of(moved);
}
