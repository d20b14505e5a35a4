/*
 * Says which build of the proved code the exports of the library for x86-64 hand their calls to: 1 is the plain one, 2 that
 * for x86-64-v2. Compiled with the sources of the exports, over builds that do nothing but answer with that number.
 */
#include "urlcheck.h"

#include <stdio.h>

/* The calls that are chosen each by a way of its own; of the others none is made here. */
#define BUILD(name, number)                                                                                            \
    uint32_t urlcheck_version_##name(void);                                                                            \
    uint32_t urlcheck_version_##name(void) { return number; }                                                          \
    urlcheck_answer urlcheck_check_##name(const uint8_t *, size_t, uint32_t, const urlcheck_base *, urlcheck_bool);    \
    urlcheck_answer urlcheck_check_##name(const uint8_t *text, size_t length, uint32_t profile,                        \
                                          const urlcheck_base *base, urlcheck_bool has_base) {                         \
        urlcheck_answer answer = {0};                                                                                  \
        answer.found.verdict = number;                                                                                 \
        answer.found.rule = has_base;                                                                                  \
        return (void)text, (void)length, (void)profile, (void)base, answer;                                            \
    }

BUILD(x86_64, 1)
BUILD(x86_64_v2, 2)

int main(void) {
    static const uint8_t text[1];
    static const urlcheck_base base;
    urlcheck_finding alone = urlcheck_check(text, 0, 0, NULL).found, none = urlcheck_check(NULL, 0, 0, NULL).found;
    urlcheck_finding against = urlcheck_check(text, 0, 0, &base).found;
    printf("%u %u %u %u\n", urlcheck_version(), alone.verdict, against.verdict, none.verdict);
    /* (the builds say by the rule whether a base was given) */
    return alone.rule != 0 || none.rule != 0 || against.rule != 1;
}
