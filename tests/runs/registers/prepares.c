/*
 * Preloaded into an engine, counts how often the extension has a base checked, and says so on standard error at the end of
 * the process: a base that stays is to be checked once.
 */
#define _GNU_SOURCE
#include <dlfcn.h>
#include <stdio.h>

#include "urlcheck.h"

static unsigned long count;

void urlcheck_prepare_to(urlcheck_base *answer, const uint8_t *base, size_t length, uint32_t profile) {
    void (*prepare)(urlcheck_base *, const uint8_t *, size_t, uint32_t);

    *(void **)&prepare = dlsym(RTLD_NEXT, "urlcheck_prepare_to");
    count++;
    prepare(answer, base, length, profile);
}

__attribute__((destructor)) static void say(void) {
    if (count) fprintf(stderr, "bases checked: %lu\n", count);
}
