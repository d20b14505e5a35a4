/*
 * What urlcheck.js calls: the functions of include/urlcheck.h on the texts that are in the rooms, with numbers of 32
 * bits only, so that the caller needs no BigInt. An answer is at `answer_at` until the next call, in words of 32 bits,
 * and what else was written at `out_at`. The base that `prepare` has checked is held until the next one.
 */
#include "glue.h"

uint64_t proved_prepare(urlcheck_base *answer, const uint8_t *base, size_t length, uint32_t profile) PROVED("prepare");
uint64_t proved_faults(urlcheck_fault_count *answer, const uint8_t *text, size_t length, uint32_t profile,
                       const urlcheck_base *base, uint32_t has_base, urlcheck_fault *out, size_t room)
    PROVED("faults");
uint64_t proved_resolve(urlcheck_record *answer, const uint8_t *text, size_t length, uint32_t profile,
                        const uint8_t *base, size_t base_length, uint32_t has_base, uint8_t *out, size_t room)
    PROVED("resolve");
uint64_t proved_mend(urlcheck_mended *answer, const uint8_t *text, size_t length, uint32_t profile,
                     const uint8_t *base, size_t base_length, uint32_t has_base, uint8_t *out, size_t room)
    PROVED("mend");

/* Where urlcheck.js reads the faults: it knows these numbers. */
_Static_assert(offsetof(urlcheck_fault, rule) == 0 && offsetof(urlcheck_fault, place) == 8, "layout");
_Static_assert(offsetof(urlcheck_fault, byte_place) == 16 && sizeof(urlcheck_fault) == 24, "layout");

/* The faults that a first call has room for, where more are rare, and where blocks begin. */
enum { FAULTS = 64, ALIGNMENT = 16 };

uint32_t answer[ANSWER_WORDS];
void *out;
urlcheck_base held;

/* (the compiler's addresses have 64 bits, and `wasm-opt` makes them 32-bit ones, which a number of JavaScript holds) */
static uint32_t address_of(const void *it) { return (uint32_t)(uintptr_t)it; }

/* Makes rooms of this many bytes for the text and the base. Gives 0, and leaves the rooms, if there is no memory. */
uint32_t make_rooms(uint32_t text_bytes, uint32_t base_bytes) {
    return heap_lay_out(text_bytes, base_bytes);
}

uint32_t text_at(void) { return address_of(heap_text()); }

uint32_t base_at(void) { return address_of(heap_base()); }

uint32_t answer_at(void) { return address_of(answer); }

uint32_t out_at(void) { return address_of(out); }

void say(const urlcheck_finding *found, uint64_t length) {
    answer[VERDICT] = found->verdict;
    answer[RULE] = found->rule;
    answer[PLACE] = (uint32_t)found->place;
    answer[BYTE_PLACE] = (uint32_t)found->byte_place;
    answer[LENGTH] = (uint32_t)length;
}

/* Where a part ends that isn't there. */
#define ABSENT 0xffffffff

/* The end of a part, in bytes of the text. */
static uint32_t end_of(const urlcheck_span *part) {
    return part->present ? (uint32_t)(part->start + part->length) : ABSENT;
}

/* Answers where the parts of a valid text end. For another text these words mean nothing. */
static void say_parts(const urlcheck_spans *parts) {
    answer[SCHEME_END] = end_of(&parts->scheme);
    answer[HOST_END] = end_of(&parts->host);
    answer[PORT_END] = end_of(&parts->port);
    answer[PATH_START] = (uint32_t)parts->path.start;
    answer[PATH_END] = (uint32_t)(parts->path.start + parts->path.length);
    answer[QUERY_END] = end_of(&parts->query);
    answer[FRAGMENT_END] = end_of(&parts->fragment);
}

bool takes_out(uint64_t mark, uint64_t bytes) {
    heap_return(mark);
    out = heap_take(bytes, ALIGNMENT);
    if (out == NULL) say(&(urlcheck_finding){.verdict = URLCHECK_MEMORY}, 0);
    return out != NULL;
}

/* Checks a base, and holds it for the calls whose `is_held` is 1. What was found is the answer. */
void prepare(uint32_t base_length, uint32_t profile) {
    heap_empty();
    proved_prepare(&held, heap_base(), base_length, profile);
    say(&held.found, 0);
}

/* Checks the text that is in its room, and answers its verdict and its parts. */
void check(uint32_t length, uint32_t profile, uint32_t is_held) {
    urlcheck_answer checked;
    heap_empty();
    proved_check(&checked, heap_text(), length, profile, &held, is_held);
    say(&checked.found, 0);
    say_parts(&checked.parts);
}

/* All faults are at `out`. */
void faults(uint32_t length, uint32_t profile, uint32_t is_held) {
    urlcheck_fault_count counted;
    const uint8_t *text = heap_text();
    heap_empty();
    WRITE(FAULTS, sizeof(urlcheck_fault), counted.count,
          proved_faults(&counted, text, length, profile, &held, is_held, out, room));
    say(&counted.found, counted.count);
}

/* How long a base is; a length below 0 says that there is none. */
static uint32_t bytes_of_base(int32_t base_length) { return base_length < 0 ? 0 : (uint32_t)base_length; }

/* The room that a first call has for a URL's text, or a mended one: one with 256 bytes more than it is made of fits. */
static uint64_t room_for(uint32_t length, int32_t base_length) {
    return (uint64_t)length + bytes_of_base(base_length) + 256;
}

/* Whether this many bytes are the same: then the caller's string is the answer, and no other has to be made. */
static bool are_same(const uint8_t *one, const uint8_t *other, uint32_t length) {
    return __builtin_memcmp(one, other, length) == 0;
}

/* The URL's text is at `out`. A base has its bytes in its room; if its length is below 0 there is none. */
void resolve(uint32_t length, uint32_t profile, int32_t base_length) {
    urlcheck_record record;
    const uint8_t *text = heap_text(), *base = heap_base();
    heap_empty();
    WRITE(room_for(length, base_length), 1, record.length,
          proved_resolve(&record, text, length, profile, base, bytes_of_base(base_length), base_length >= 0, out, room));
    say(&record.found, record.length);
    say_parts(&record.parts);
    answer[HOST_KIND] = record.host;
    answer[OPAQUE_PATH] = record.opaque_path;
    answer[IS_SAME] = record.length == length && are_same(out, text, length);
}

/* The mended text is at `out`. */
void mend(uint32_t length, uint32_t profile, int32_t base_length) {
    urlcheck_mended mended;
    const uint8_t *text = heap_text(), *base = heap_base();
    heap_empty();
    WRITE(room_for(length, base_length), 1, mended.length,
          proved_mend(&mended, text, length, profile, base, bytes_of_base(base_length), base_length >= 0, out, room));
    say(&mended.found, mended.length);
    answer[MEND_KIND] = mended.kind;
    answer[IS_OFFERED] = mended.offered;
}

uint32_t version(void) { return urlcheck_version(); }
