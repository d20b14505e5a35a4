/*
 * What the compiler's code calls, and other machines find in their C library; a module has none. These are copies of
 * bytes, 32 and 8 at a time, and numbers of 128 bits. Their names and their meaning are the compiler's.
 */
#include <stddef.h>
#include <stdint.h>

/* Bytes at any address that are read and written at once. */
typedef struct __attribute__((packed, may_alias)) {
    uint64_t word[4];
} block;

/* The same of 8 bytes. */
typedef struct __attribute__((packed, may_alias)) {
    uint64_t whole;
} word;

void *memset(void *start, int byte, size_t count) {
    uint64_t filled = (uint8_t)byte * 0x0101010101010101;
    uint8_t *bytes = start;
    for (; count >= sizeof(block); count -= sizeof(block), bytes += sizeof(block)) {
        *(block *)bytes = (block){{filled, filled, filled, filled}};
    }
    for (; count >= sizeof(word); count -= sizeof(word), bytes += sizeof(word)) ((word *)bytes)->whole = filled;
    for (; count > 0; count--) *bytes++ = (uint8_t)byte;
    return start;
}

/* Copies from the first byte on: right where `to` is before `from`, or the two don't overlap. */
static void copy_upwards(uint8_t *to, const uint8_t *from, size_t count) {
    for (; count >= sizeof(block); count -= sizeof(block), to += sizeof(block), from += sizeof(block)) {
        // (all is read before it is written, since the two may overlap in part)
        const block read = *(const block *)from;
        *(block *)to = read;
    }
    for (; count >= sizeof(word); count -= sizeof(word), to += sizeof(word), from += sizeof(word)) {
        *(word *)to = *(const word *)from;
    }
    for (; count > 0; count--) *to++ = *from++;
}

void *memcpy(void *restrict to, const void *restrict from, size_t count) {
    copy_upwards(to, from, count);
    return to;
}

void *memmove(void *to, const void *from, size_t count) {
    uint8_t *written = to;
    const uint8_t *read = from;
    if ((uintptr_t)written <= (uintptr_t)read) {
        copy_upwards(written, read, count);
    } else {
        while (count-- > 0) written[count] = read[count];
    }
    return to;
}

int memcmp(const void *one, const void *other, size_t count) {
    const uint8_t *first = one, *second = other;
    size_t at = 0;
    while (count - at >= sizeof(word) && ((const word *)(first + at))->whole == ((const word *)(second + at))->whole) {
        at += sizeof(word);
    }
    for (; at < count; at++) {
        if (first[at] != second[at]) return first[at] < second[at] ? -1 : 1;
    }
    return 0;
}

/* Numbers of 128 bits: shifts, by 0 to 127, and products. */
typedef union {
    unsigned __int128 whole;
    struct {
        uint64_t low, high;
    } half;
} wide;

unsigned __int128 __lshrti3(unsigned __int128 number, int count) {
    wide given = {.whole = number}, shifted;
    if (count == 0) return number;
    if (count >= 64) {
        shifted.half.low = given.half.high >> (count - 64);
        shifted.half.high = 0;
    } else {
        shifted.half.low = given.half.low >> count | given.half.high << (64 - count);
        shifted.half.high = given.half.high >> count;
    }
    return shifted.whole;
}

unsigned __int128 __ashlti3(unsigned __int128 number, int count) {
    wide given = {.whole = number}, shifted;
    if (count == 0) return number;
    if (count >= 64) {
        shifted.half.low = 0;
        shifted.half.high = given.half.low << (count - 64);
    } else {
        shifted.half.low = given.half.low << count;
        shifted.half.high = given.half.high << count | given.half.low >> (64 - count);
    }
    return shifted.whole;
}

/* All 128 bits of a product of two words. */
static wide product(uint64_t one, uint64_t other) {
    const uint64_t low = 0xffffffff;
    uint64_t lows = (one & low) * (other & low), highs = (one >> 32) * (other >> 32);
    uint64_t first = (one >> 32) * (other & low), second = (one & low) * (other >> 32);
    uint64_t middle = (lows >> 32) + (first & low) + (second & low);
    return (wide){.half = {(lows & low) | middle << 32, highs + (first >> 32) + (second >> 32) + (middle >> 32)}};
}

unsigned __int128 __multi3(unsigned __int128 one, unsigned __int128 other) {
    wide first = {.whole = one}, second = {.whole = other};
    wide whole = product(first.half.low, second.half.low);
    whole.half.high += first.half.low * second.half.high + first.half.high * second.half.low;
    return whole.whole;
}
