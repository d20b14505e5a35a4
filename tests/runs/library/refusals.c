/*
 * What each call answers to a number that no profile has: that, and nothing else. And what it writes through a null
 * pointer in place of room: nothing. All that a call gives is compared, and not only its verdict.
 */
#include "urlcheck.h"

#include <stdio.h>
#include <stdlib.h>
#include <string.h>

static int failed;

static void expect(int holds, const char *what) {
    if (!holds) {
        printf("FAILED: %s\n", what);
        failed = 1;
    }
}

static const uint8_t *bytes(const char *text) { return (const uint8_t *)text; }

/* ---- a number that no profile has */

/* What the calls may write to: each byte of it is 7. */
static struct {
    uint8_t bytes[64];
    urlcheck_fault faults[2];
    uint8_t verdicts[4], rules[4];
    uint64_t places[4], ends[5];
} room;

static void is_untouched(const char *call) {
    const uint8_t *at = (const uint8_t *)&room;
    for (size_t i = 0; i < sizeof room; i++) {
        if (at[i] != 7) {
            expect(0, call);
            break;
        }
    }
    memset(&room, 7, sizeof room);
}

static int is_no_profile(urlcheck_finding found) {
    return found.verdict == URLCHECK_NO_PROFILE && found.rule == 0 && found.place == 0 && found.byte_place == 0;
}

static int has_nothing(urlcheck_span part) { return !part.present && part.start == 0 && part.length == 0; }

static int has_no_parts(const urlcheck_spans *parts) {
    return has_nothing(parts->scheme) && has_nothing(parts->host) && has_nothing(parts->port) &&
           has_nothing(parts->path) && has_nothing(parts->query) && has_nothing(parts->fragment);
}

static void says_no_more(int holds, const char *call) {
    expect(holds, call);
    is_untouched(call);
}

/* The calls that answer on a text alone, or against a base: one of this number, one of a profile, or one of zeros. */
static void checks_by_none(const char *text, const urlcheck_base *base, uint32_t profile) {
    const uint8_t *it = bytes(text);
    size_t length = strlen(text);
    urlcheck_answer answer = urlcheck_check(it, length, profile, base);
    says_no_more(is_no_profile(answer.found) && has_no_parts(&answer.parts), "check by no profile");
    says_no_more(!urlcheck_is_valid(it, length, profile, base), "is_valid by no profile");
    urlcheck_fault_count count = urlcheck_faults(it, length, profile, base, room.faults, 2);
    says_no_more(is_no_profile(count.found) && !count.count, "faults by no profile");
}

/* The calls that write a text, alone where the base is null. */
static void writes_by_none(const char *text, const char *base, uint32_t profile) {
    const uint8_t *it = bytes(text), *other = base ? bytes(base) : NULL;
    uint8_t *out = room.bytes;
    size_t length = strlen(text), other_length = base ? strlen(base) : 0, most = sizeof room.bytes;
    urlcheck_mended mended = urlcheck_mend(it, length, profile, other, other_length, out, most);
    says_no_more(is_no_profile(mended.found) && !mended.kind && !mended.offered && !mended.length,
                 "mend by no profile");
    urlcheck_record record = urlcheck_resolve(it, length, profile, other, other_length, out, most);
    says_no_more(is_no_profile(record.found) && !record.length && !record.host && !record.opaque_path &&
                     has_no_parts(&record.parts),
                 "resolve by no profile");
    urlcheck_written said =
        urlcheck_message(it, length, profile, NULL, URLCHECK_WORDING_OPTIONS, URLCHECK_PERCENT, 0, out, most);
    says_no_more(is_no_profile(said.found) && !said.length, "a message by no profile");
}

/* A base that is prepared by none, and each call that takes a base. */
static void bases_by_none(const char *text, const char *base, uint32_t profile) {
    static const urlcheck_base zeros;
    const uint8_t *other = bytes(base);
    urlcheck_base held = urlcheck_prepare(other, strlen(base), profile);
    expect(is_no_profile(held.found) && held.profile == profile, "the profile of a base that is prepared by none");
    expect(!held.scheme && !held.opaque_path && !held.empty_host, "what a base is that is prepared by no profile");
    urlcheck_base known = urlcheck_prepare(other, strlen(base), URLCHECK_STANDARD);
    checks_by_none(text, NULL, profile);
    checks_by_none(text, &held, profile);
    checks_by_none(text, &known, profile);
    checks_by_none(text, &zeros, profile);
}

static int is_no_batch(urlcheck_batch batch) {
    return batch.outcome == URLCHECK_NO_PROFILE && !batch.row && !batch.valid && !batch.length;
}

/* The calls for many texts: of none, and of two. */
static void batches_by_none(uint32_t profile) {
    const uint8_t *texts = bytes("http://h/a b");
    const uint64_t offsets[] = {0, 9, 12};
    urlcheck_base base = urlcheck_prepare(texts, 9, URLCHECK_STANDARD);
    for (size_t count = 0; count <= 2; count += 2) {
        says_no_more(is_no_batch(urlcheck_check_many(texts, 12, offsets, count, profile, NULL, room.verdicts,
                                                     room.rules, room.places)),
                     "check_many by no profile");
        says_no_more(is_no_batch(urlcheck_check_many(texts, 12, offsets, count, profile, &base, room.verdicts,
                                                     room.rules, room.places)),
                     "check_many against a base by no profile");
        says_no_more(is_no_batch(urlcheck_resolve_many(texts, 12, offsets, count, profile, NULL, 0, room.verdicts,
                                                       room.rules, room.places, room.ends, room.bytes,
                                                       sizeof room.bytes)),
                     "resolve_many by no profile");
    }
}

/* No line is found in a buffer without one: of no bytes, of a valid line, of one that is refused, and from its end. */
static void lines_by_none(uint32_t profile) {
    const char *const buffers[] = {"", "http://h/\n", "a b\n", "a b", "\n", "http://h/\r\n\na b\r\n"};
    for (size_t at = 0; at < sizeof buffers / sizeof *buffers; at++) {
        size_t length = strlen(buffers[at]), places[] = {0, length, length + 1};
        for (size_t from = 0; from < sizeof places / sizeof *places; from++) {
            urlcheck_line line = urlcheck_next_refused(bytes(buffers[at]), length, places[from], profile);
            expect(is_no_profile(line.found) && !line.start && !line.length && !line.next && !line.passed,
                   "next_refused by no profile");
        }
    }
}

static void no_profile(void) {
    const uint32_t numbers[] = {3, 99, 256, UINT32_MAX};
    const char *const texts[] = {"", "http://h/", "http://h/a b", "x", "http://x_y/\xff"};
    const char *const bases[] = {"http://h/a", "no base", "\xff"};
    memset(&room, 7, sizeof room);
    for (size_t number = 0; number < sizeof numbers / sizeof *numbers; number++) {
        for (size_t text = 0; text < sizeof texts / sizeof *texts; text++) {
            writes_by_none(texts[text], NULL, numbers[number]);
            for (size_t base = 0; base < sizeof bases / sizeof *bases; base++) {
                writes_by_none(texts[text], bases[base], numbers[number]);
                bases_by_none(texts[text], bases[base], numbers[number]);
            }
        }
        batches_by_none(numbers[number]);
        lines_by_none(numbers[number]);
    }
}

/* ---- a null pointer in place of room */

#ifdef __linux__

/* All that this program, and the library in it, may write to that is neither on the stack nor taken. */
extern uint8_t __data_start[], _end[];

static uint8_t *before;

/* (byte by byte, since what a sanitizer has between two variables is read too) */
__attribute__((no_sanitize_address)) static void note_memory(void) {
    const volatile uint8_t *from = __data_start;
    for (size_t at = 0; at < (size_t)(_end - __data_start); at++) before[at] = from[at];
}

__attribute__((no_sanitize_address)) static int is_memory_as_noted(void) {
    const volatile uint8_t *now = __data_start;
    size_t at = 0;
    while (at < (size_t)(_end - __data_start) && before[at] == now[at]) at++;
    return at == (size_t)(_end - __data_start);
}

/* The call with these arguments gives the same length where it is told of room that isn't there, and writes nowhere. */
#define WRITES_NOWHERE(call, ...)                                                                                      \
    do {                                                                                                               \
        size_t length = call(__VA_ARGS__, out, sizeof out);                                                            \
        note_memory();                                                                                                 \
        size_t without = call(__VA_ARGS__, NULL, sizeof out);                                                          \
        expect(is_memory_as_noted(), #call " writes through null");                                                    \
        expect(length > 0 && without == length, #call " gives another length");                                        \
    } while (0)

static void no_room(void) {
    uint8_t out[256];
    before = malloc((size_t)(_end - __data_start));
    if (!before) {
        expect(0, "memory");
        return;
    }
    WRITES_NOWHERE(urlcheck_text, URLCHECK_RULE_NAME, URLCHECK_PERCENT);
    WRITES_NOWHERE(urlcheck_text, URLCHECK_RULE_SENTENCE, URLCHECK_PERCENT);
    WRITES_NOWHERE(urlcheck_text, URLCHECK_RULE_ADDRESS, URLCHECK_PERCENT);
    WRITES_NOWHERE(urlcheck_text, URLCHECK_RULE_REQUIRES, URLCHECK_PORT_RANGE);
    WRITES_NOWHERE(urlcheck_text, URLCHECK_FORMAT_NAME, URLCHECK_SARIF);
    WRITES_NOWHERE(urlcheck_text, URLCHECK_UNIT_NAME, URLCHECK_CODE_POINTS);
    free(before);
}

#else

static void no_room(void) {}

#endif

int main(void) {
    no_profile();
    no_room();
    if (!failed) puts("library: a number that no profile has, and null in the place of room, by all that a call gives");
    return failed;
}
