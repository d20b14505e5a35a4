/* The allocator of macOS's C library, and the environment. */
#ifndef URLCHECK_MACOS_STDLIB_H
#define URLCHECK_MACOS_STDLIB_H

#include <stddef.h>

void *malloc(size_t size);
void *realloc(void *block, size_t size);
void free(void *block);
char *getenv(const char *name);

#endif
