/* See heap.h. The heap is one block after the other from the rooms' end on; it never shrinks the engine's memory. */
#include "heap.h"

/* A page of WebAssembly, and the alignment of a block, which may hold values of any type. */
enum { PAGE = 65536, ALIGNMENT = 16 };

/* Addresses have to fit into 32 bits, the one after the last byte too. */
#define LIMIT (((uint64_t)1 << 32) - PAGE)

#ifdef __wasm__
extern uint8_t __heap_base; /* where the linker ends the static data */
static uint64_t memory_start(void) { return (uint64_t)&__heap_base; }
static uint64_t memory_end(void) { return (uint64_t)__builtin_wasm_memory_size(0) * PAGE; }
static void memory_grow(uint64_t pages) { (void)__builtin_wasm_memory_grow(0, pages); }
static uint8_t *pointer(uint64_t address) { return (uint8_t *)address; }
#else /* the tests give a memory of their own, at addresses from 0 */
uint64_t memory_start(void);
uint64_t memory_end(void);
void memory_grow(uint64_t pages);
uint8_t *pointer(uint64_t address);
#endif

static uint64_t base_room; /* where the base's room begins */
static uint64_t bottom;    /* where the heap begins; 0 before the rooms are laid out */
static uint64_t top;       /* where it is free */
static uint64_t last;      /* where the last block begins */

/* The next address that is a multiple of a power of two. */
static uint64_t aligned(uint64_t address, uint64_t alignment) { return (address + alignment - 1) & ~(alignment - 1); }

/* Where the text's room begins: after the module's static data. */
static uint64_t text_room(void) { return aligned(memory_start(), ALIGNMENT); }

/*
 * Whether the memory reaches up to `end`; it is grown if it doesn't. Its end says whether the engine has grown it:
 * the answer of the growth is widened to 64 bits by `wasm-opt`, and a refusal isn't -1 then.
 */
static bool reaches(uint64_t end) {
    uint64_t have = memory_end();
    if (end > have) memory_grow((end - have + PAGE - 1) / PAGE);
    return end <= memory_end();
}

/* The end of a block that begins at `start`, or 0 if no address is so high. */
static uint64_t end_of(uint64_t start, uint64_t size) {
    return start <= LIMIT && size <= LIMIT - start ? start + size : 0;
}

bool heap_lay_out(uint64_t text_bytes, uint64_t base_bytes) {
    uint64_t end_of_text = end_of(text_room(), text_bytes);
    uint64_t start_of_base = aligned(end_of_text, ALIGNMENT);
    uint64_t end_of_base = end_of(start_of_base, base_bytes);
    if (end_of_text == 0 || end_of_base == 0 || !reaches(end_of_base)) return false;
    base_room = start_of_base;
    bottom = aligned(end_of_base, ALIGNMENT);
    heap_empty();
    return true;
}

uint8_t *heap_text(void) { return pointer(text_room()); }

uint8_t *heap_base(void) { return pointer(base_room); }

void heap_empty(void) { top = last = bottom; }

uint64_t heap_mark(void) { return top; }

void heap_return(uint64_t mark) { top = last = mark; }

void *heap_take(uint64_t size, uint64_t alignment) {
    uint64_t start = aligned(top, alignment);
    uint64_t end = end_of(start, size == 0 ? 1 : size); /* so that no two blocks begin at one place */
    if (end == 0 || !reaches(end)) return NULL;
    last = start;
    top = end;
    return pointer(start);
}

void *heap_resize(void *block, uint64_t kept, uint64_t size, uint64_t alignment) {
    if (block == pointer(last)) {
        uint64_t end = end_of(last, size);
        if (end == 0 || !reaches(end)) return NULL;
        top = end;
        return block;
    }
    uint8_t *moved = heap_take(size, alignment);
    if (moved == NULL) return NULL;
    for (uint64_t at = 0; at < kept; at++) moved[at] = ((const uint8_t *)block)[at];
    return moved;
}

void heap_give(void *block) {
    if (block == pointer(last)) top = last;
}
