/*
 * The memory of the module: the rooms of the text and of the base, which stay between calls, and after them a heap
 * that is emptied before each call. Nothing is freed one by one: a call's blocks go together.
 */
#ifndef URLCHECK_HEAP_H
#define URLCHECK_HEAP_H

#include <stdbool.h>
#include <stddef.h>
#include <stdint.h>

/* Lays out the rooms again, empties the heap. False: the engine gives no more memory, and the rooms are as before. */
bool heap_lay_out(uint64_t text_bytes, uint64_t base_bytes);

/* Where the rooms begin. */
uint8_t *heap_text(void);
uint8_t *heap_base(void);

/* Gives up each block. */
void heap_empty(void);

/* Where the heap is free; and giving up each block that was taken from there on. */
uint64_t heap_mark(void);
void heap_return(uint64_t mark);

/* A block of this many bytes at a multiple of `alignment`, a power of two; NULL if the engine gives no more memory. */
void *heap_take(uint64_t size, uint64_t alignment);

/* The block with its first `kept` bytes, and this many bytes long; it may have moved. NULL: it is as it was. */
void *heap_resize(void *block, uint64_t kept, uint64_t size, uint64_t alignment);

/* Gives up the block if it is the last one, otherwise keeps it until the heap is emptied. */
void heap_give(void *block);

#endif
