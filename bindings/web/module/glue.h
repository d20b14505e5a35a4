/*
 * What the parts of the glue share: the answer that urlcheck.js reads, the room of what is written, and the base that
 * is held.
 */
#ifndef URLCHECK_GLUE_H
#define URLCHECK_GLUE_H

#include "heap.h"
/* (the proved functions have the names of the inline ones) */
#define URLCHECK_NO_INLINE
#include "urlcheck.h"

/*
 * The functions of the header as the kit lays out their calls on x86-64, which are compiled here for another machine:
 * the answer's address comes first, and is given back.
 */
#define PROVED(name) __asm__("urlcheck_" name)
uint64_t proved_check(urlcheck_answer *answer, const uint8_t *text, size_t length, uint32_t profile,
                      const urlcheck_base *base, uint32_t has_base) PROVED("check");

/* Where an answer has its words of 32 bits: layout.js has the same numbers. At LENGTH is how much a call has written. */
enum {
    VERDICT, RULE, PLACE, BYTE_PLACE, LENGTH,
    SCHEME_END = 5, HOST_END, PORT_END, PATH_START, PATH_END, QUERY_END, FRAGMENT_END, HOST_KIND, OPAQUE_PATH, IS_SAME,
    MEND_KIND = 5, IS_OFFERED,
    LINES = 5, EMPTY_LINES, NEXT_LINE,
    ANSWER_WORDS = 15
};

/* The answer of a call. */
extern uint32_t answer[ANSWER_WORDS];

/* What else a call has written. */
extern void *out;

extern urlcheck_base held;

/* Answers what was found, and a length. */
void say(const urlcheck_finding *found, uint64_t length);

/* Gives up the blocks after the mark, and takes this many bytes for `out`; if there are none it says so. */
bool takes_out(uint64_t mark, uint64_t bytes);

/*
 * Runs a call that writes `room` elements of a size to `out`, at first as many as are given, and then as many as it
 * needs; if there is no memory for them the function ends.
 */
#define WRITE(first, size, needed, call)                                   \
    do {                                                                   \
        uint64_t mark = heap_mark(), room = (first);                       \
        if (!takes_out(mark, room * (size))) return;                       \
        (void)(call);                                                      \
        if ((needed) <= room) break;                                       \
        room = (needed);                                                   \
        if (!takes_out(mark, room * (size))) return;                       \
        (void)(call);                                                      \
    } while (0)

#endif
