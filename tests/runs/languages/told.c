/*
 * Calls whose text says their answer: of `77` the verdict is 77, and of `1 15` the rule is 15 too. So a package meets answers
 * that no text has from liburlcheck, or only without memory. What such a call writes has 1000 bytes, none of them UTF-8.
 * It is preloaded, or takes the place of liburlcheck, as a library of the version that VERSION says.
 */
#include <stdio.h>
#include <string.h>

#include "urlcheck.h"

#ifndef VERSION
#define VERSION 532
#endif

enum { WRITTEN = 1000 };

/* What the text says is found. */
static urlcheck_finding told(const uint8_t *text, size_t length) {
    char words[16] = "";
    unsigned verdict = 0, rule = 0;
    urlcheck_finding found = {0, 0, 0, 0};

    memcpy(words, text, length < sizeof words ? length : sizeof words - 1);
    sscanf(words, "%u %u", &verdict, &rule);
    found.verdict = verdict, found.rule = rule;
    return found;
}

/* The length of what is written, if there is room for it. */
static size_t put(uint8_t *out, size_t room) {
    if (room >= WRITTEN) memset(out, 0xff, WRITTEN);
    return WRITTEN;
}

uint32_t urlcheck_version(void) { return VERSION; }

void urlcheck_prepare_to(urlcheck_base *answer, const uint8_t *base, size_t length, uint32_t profile) {
    memset(answer, 0, sizeof *answer);
    answer->found = told(base, length);
    answer->profile = profile;
}

void urlcheck_check_to(urlcheck_answer *answer, const uint8_t *text, size_t length, uint32_t profile,
                       const urlcheck_base *base) {
    (void)profile, (void)base;
    memset(answer, 0, sizeof *answer);
    answer->found = told(text, length);
}

urlcheck_bool urlcheck_is_valid(const uint8_t *text, size_t length, uint32_t profile, const urlcheck_base *base) {
    (void)profile, (void)base;
    return told(text, length).verdict == URLCHECK_VALID;
}

void urlcheck_faults_to(urlcheck_fault_count *answer, const uint8_t *text, size_t length, uint32_t profile,
                        const urlcheck_base *base, urlcheck_fault *out, size_t room) {
    (void)profile, (void)base;
    memset(answer, 0, sizeof *answer);
    answer->found = told(text, length);
    answer->count = answer->found.verdict == URLCHECK_REFUSED;
    if (answer->count > 0 && room > 0) {
        memset(out, 0, sizeof *out);
        out->rule = answer->found.rule;
    }
}

void urlcheck_resolve_to(urlcheck_record *answer, const uint8_t *text, size_t length, uint32_t profile,
                         const uint8_t *base, size_t base_length, uint8_t *out, size_t room) {
    (void)profile, (void)base, (void)base_length;
    memset(answer, 0, sizeof *answer);
    answer->found = told(text, length);
    if (answer->found.verdict == URLCHECK_VALID) answer->length = put(out, room);
}

void urlcheck_mend_to(urlcheck_mended *answer, const uint8_t *text, size_t length, uint32_t profile, const uint8_t *base,
                      size_t base_length, uint8_t *out, size_t room) {
    (void)profile, (void)base, (void)base_length;
    memset(answer, 0, sizeof *answer);
    answer->found = told(text, length);
    if (answer->found.verdict == URLCHECK_MENDED) answer->length = put(out, room);
}

/* (of many texts the first one says the answer to all of them) */
void urlcheck_check_many_to(urlcheck_batch *answer, const uint8_t *texts, size_t length, const uint64_t *offsets,
                            size_t count, uint32_t profile, const urlcheck_base *base, uint8_t *verdicts, uint8_t *rules,
                            uint64_t *places) {
    (void)length, (void)count, (void)profile, (void)base, (void)verdicts, (void)rules, (void)places;
    memset(answer, 0, sizeof *answer);
    answer->outcome = told(texts, (size_t)offsets[1]).verdict;
}

void urlcheck_resolve_many_to(urlcheck_batch *answer, const uint8_t *texts, size_t length, const uint64_t *offsets,
                              size_t count, uint32_t profile, const uint8_t *base, size_t base_length,
                              uint8_t *verdicts, uint8_t *rules, uint64_t *places, uint64_t *ends, uint8_t *out,
                              size_t room) {
    (void)base, (void)base_length, (void)ends, (void)out, (void)room;
    urlcheck_check_many_to(answer, texts, length, offsets, count, profile, NULL, verdicts, rules, places);
}

void urlcheck_message_to(urlcheck_written *answer, const uint8_t *text, size_t length, uint32_t profile,
                         const urlcheck_base *base, uint32_t wording, uint32_t rule, size_t place, uint8_t *out,
                         size_t room) {
    (void)profile, (void)base, (void)wording, (void)rule, (void)place, (void)out, (void)room;
    memset(answer, 0, sizeof *answer);
    answer->found = told(text, length);
}

size_t urlcheck_text(uint32_t what, uint32_t number, uint8_t *out, size_t room) {
    (void)what, (void)number;
    return put(out, room);
}
