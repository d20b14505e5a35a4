/*
 * The heap of the module (bindings/web/module/heap.c) on a memory of this program's own, which refuses to grow beyond
 * some pages: blocks don't overlap, keep what was written, and go together; a refused growth leaves all as it was.
 */
#include "heap.h"

#include <stdio.h>
#include <stdlib.h>
#include <string.h>

enum { PAGE = 65536, START = 1000, PAGES = 8 };

static uint8_t memory[PAGES * PAGE];
static uint64_t pages = 1, most = PAGES, growths;

uint64_t memory_start(void);
uint64_t memory_end(void);
void memory_grow(uint64_t more);
uint8_t *pointer(uint64_t address);

uint64_t memory_start(void) { return START; }
uint64_t memory_end(void) { return pages * PAGE; }
void memory_grow(uint64_t more) {
    growths++;
    if (more <= most - pages) pages += more;
}
uint8_t *pointer(uint64_t address) { return memory + address; }

#define HOLDS(what)                                                              \
    do {                                                                         \
        if (!(what)) {                                                           \
            printf("FAILED: heap.c, line %d: %s\n", __LINE__, #what);            \
            exit(1);                                                             \
        }                                                                        \
    } while (0)

static uint64_t place_of(const void *block) { return (uint64_t)((const uint8_t *)block - memory); }

static void rooms_are_apart(void) {
    HOLDS(heap_lay_out(100, 50));
    HOLDS(place_of(heap_text()) >= START && place_of(heap_text()) % 16 == 0);
    HOLDS(heap_base() >= heap_text() + 100 && place_of(heap_base()) % 16 == 0);
    uint8_t *block = heap_take(1, 1);
    HOLDS(block >= heap_base() + 50);
    HOLDS(growths == 0 && pages == 1);
}

static void blocks_are_apart_and_aligned(void) {
    HOLDS(heap_lay_out(1, 1));
    uint8_t *last_end = heap_base() + 1;
    for (uint64_t size = 0; size < 200; size++) {
        uint64_t alignment = (uint64_t)1 << size % 7;
        uint8_t *block = heap_take(size, alignment);
        HOLDS(block != NULL && block >= last_end && place_of(block) % alignment == 0);
        heap_take(0, 1);
        heap_give(block);
        HOLDS((uint8_t *)heap_take(1, 1) > block);
        HOLDS(place_of(block) + size <= memory_end());
        memset(block, (int)size, size);
        last_end = block + size;
    }
}

static void resized_blocks_keep_their_bytes(void) {
    HOLDS(heap_lay_out(1, 1));
    uint8_t *first = heap_take(40, 8);
    memset(first, 7, 40);
    HOLDS(heap_resize(first, 40, 4000, 8) == first); /* the last block grows where it is */
    uint8_t *second = heap_take(16, 8);
    HOLDS(second >= first + 4000);
    uint8_t *moved = heap_resize(first, 40, 5000, 8);
    HOLDS(moved >= second + 16);
    for (int at = 0; at < 40; at++) HOLDS(moved[at] == 7);
    heap_give(moved);
    HOLDS(heap_take(5000, 8) == moved); /* the last block is free again */
    heap_give(first);
    HOLDS(heap_take(8, 8) != first); /* another one isn't */
}

static void an_emptied_heap_begins_anew(void) {
    HOLDS(heap_lay_out(10, 10));
    uint8_t *first = heap_take(3 * PAGE, 16);
    uint64_t grown = growths;
    for (int call = 0; call < 1000; call++) {
        heap_empty();
        HOLDS(heap_take(3 * PAGE, 16) == first);
    }
    HOLDS(growths == grown);
}

static void blocks_after_a_mark_are_given_up(void) {
    HOLDS(heap_lay_out(10, 10));
    uint8_t *kept = heap_take(100, 16);
    uint64_t mark = heap_mark();
    uint8_t *first = heap_take(3 * PAGE, 16);
    HOLDS(first >= kept + 100);
    uint64_t grown = growths;
    for (int call = 0; call < 1000; call++) {
        heap_return(mark);
        HOLDS(heap_take(3 * PAGE, 16) == first);
        uint8_t *second = heap_take(10, 16);
        HOLDS(second >= first + 3 * PAGE);
    }
    HOLDS(growths <= grown + 1);
}

static void a_refused_growth_leaves_all(void) {
    HOLDS(heap_lay_out(10, 10));
    uint8_t *text = heap_text(), *base = heap_base();
    uint8_t *first = heap_take(100, 16);
    uint64_t before = pages;
    HOLDS(heap_take(PAGES * PAGE, 16) == NULL);
    HOLDS(heap_resize(first, 100, PAGES * PAGE, 16) == NULL);
    HOLDS(!heap_lay_out(PAGES * PAGE, 10) && !heap_lay_out(10, PAGES * PAGE));
    HOLDS(heap_text() == text && heap_base() == base && pages == before);
    uint8_t *second = heap_take(100, 16);
    HOLDS(second >= first + 100);
    heap_empty();
    HOLDS(heap_take(100, 16) == first);
}

static void no_address_is_too_high(void) {
    HOLDS(heap_lay_out(10, 10));
    const uint64_t above = (uint64_t)1 << 32;
    const uint64_t sizes[] = {above, above - 1, UINT64_MAX, UINT64_MAX - 15, (uint64_t)1 << 63};
    uint8_t *first = heap_take(10, 16);
    for (size_t at = 0; at < sizeof sizes / sizeof *sizes; at++) {
        uint64_t before = growths;
        HOLDS(heap_take(sizes[at], 16) == NULL);
        HOLDS(heap_resize(first, 10, sizes[at], 16) == NULL);
        HOLDS(!heap_lay_out(sizes[at], 10) && !heap_lay_out(10, sizes[at]));
        HOLDS(growths == before);
    }
}

int main(void) {
    rooms_are_apart();
    blocks_are_apart_and_aligned();
    resized_blocks_keep_their_bytes();
    an_emptied_heap_begins_anew();
    blocks_after_a_mark_are_given_up();
    a_refused_growth_leaves_all();
    no_address_is_too_high();
    puts("browser: the heap keeps blocks apart, is emptied, and bears a refused growth");
    return 0;
}
