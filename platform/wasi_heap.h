/* The heap of a WebAssembly module: see wasi_heap.c. */
#ifndef URLCHECK_WASI_HEAP_H
#define URLCHECK_WASI_HEAP_H

#include "platform.h"

/* A block of this many bytes at a multiple of 16, or NULL if the engine gives no more memory. */
void *block_take(uint64_t size);

#endif
