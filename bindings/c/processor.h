/* Whether this processor runs code for x86-64-v2, as the x86-64 psABI defines that level. */
#ifndef URLCHECK_PROCESSOR_H
#define URLCHECK_PROCESSOR_H

#include <cpuid.h>

static int is_x86_64_v2(void) {
    const unsigned wanted = bit_SSE3 | bit_SSSE3 | bit_CMPXCHG16B | bit_SSE4_1 | bit_SSE4_2 | bit_POPCNT;
    unsigned a, b, c, d;
    if (!__get_cpuid(1, &a, &b, &c, &d) || (c & wanted) != wanted) return 0;
    return __get_cpuid(0x80000001, &a, &b, &c, &d) && (c & bit_LAHF_LM) != 0;
}

#endif
