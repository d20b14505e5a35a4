/*
 * The allocator of platform.h by the names of the toolchain's archives, for code that the toolchain itself has compiled for
 * another Linux. They return the pair in two registers, as C on that machine returns such a struct. (A file of its own,
 * since the library for ARM needs it without the rest of kit.c.)
 */
#include "platform.h"

attempt rattle_alloc(uint64_t size, uint64_t alignment);
attempt rattle_realloc(void *block, uint64_t kept, uint64_t size, uint64_t alignment);
void rattle_dealloc(void *block);

attempt rattle_alloc(uint64_t size, uint64_t alignment) {
    attempt answer;
    platform_alloc(&answer, size, alignment);
    return answer;
}

attempt rattle_realloc(void *block, uint64_t kept, uint64_t size, uint64_t alignment) {
    attempt answer;
    platform_realloc(&answer, block, kept, size, alignment);
    return answer;
}

void rattle_dealloc(void *block) { platform_dealloc(block); }
