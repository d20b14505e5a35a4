/*
 * Checks and resolves the lines of a file by the calls for many texts, and compares each row with what a call on that text
 * says: batches FILE [time]. Then hands in what is wrong: each is an outcome of its own, and nothing is written. With
 * the word `time` it says how long a text takes by each call.
 */
#include "urlcheck.h"

#include <stdio.h>
#include <stdlib.h>
#include <string.h>
#include <time.h>

static void fail(const char *what, size_t row) {
    fprintf(stderr, "batches: %s, row %zu\n", what, row);
    exit(1);
}

static void *taken(size_t count, size_t size) {
    void *room = calloc(count ? count : 1, size);
    if (!room) fail("memory", 0);
    return room;
}

/* The lines of a file in a buffer, each without what ends it, and where they begin. */
typedef struct {
    uint8_t *bytes, *texts;
    size_t length, whole, count;
    uint64_t *offsets;
} list;

static list read_list(const char *name) {
    FILE *file = fopen(name, "rb");
    if (!file || fseek(file, 0, SEEK_END) != 0) fail("the file can't be opened", 0);
    list read = {0};
    read.whole = (size_t)ftell(file);
    rewind(file);
    read.bytes = taken(read.whole, 1);
    if (fread(read.bytes, 1, read.whole, file) != read.whole) fail("the file can't be read", 0);
    fclose(file);
    size_t lines = 0;
    for (size_t at = 0; at < read.whole; at++) lines += read.bytes[at] == '\n';
    read.texts = taken(read.whole, 1);
    read.offsets = taken(lines + 2, sizeof *read.offsets);
    for (size_t at = 0; at < read.whole;) {
        const uint8_t *end = memchr(read.bytes + at, '\n', read.whole - at);
        size_t line = end ? (size_t)(end - (read.bytes + at)) : read.whole - at;
        size_t text = end && line && read.bytes[at + line - 1] == '\r' ? line - 1 : line;
        memcpy(read.texts + read.length, read.bytes + at, text);
        read.length += text;
        read.count++;
        read.offsets[read.count] = read.length;
        at += line + 1;
    }
    /* (in memory of exactly its length, so that a read beyond it is seen) */
    uint8_t *exact = taken(read.length, 1);
    memcpy(exact, read.texts, read.length);
    free(read.texts);
    read.texts = exact;
    return read;
}

static urlcheck_finding found_at(const list *all, size_t row, uint32_t profile, const urlcheck_base *base) {
    return urlcheck_check(all->texts + all->offsets[row], all->offsets[row + 1] - all->offsets[row], profile, base).found;
}

/* Each row of each column is what the check of that text says, alone or against a base. */
static void compare(const list *all, uint32_t profile, const urlcheck_base *base) {
    uint8_t *verdicts = taken(all->count, 1), *rules = taken(all->count, 1);
    uint64_t *places = taken(all->count, sizeof *places);
    urlcheck_batch answer = urlcheck_check_many(all->texts, all->length, all->offsets, all->count, profile, base,
                                                verdicts, rules, places);
    if (answer.outcome != URLCHECK_DONE || answer.row || answer.length) fail("the batch isn't done", 0);
    size_t valid = 0;
    for (size_t row = 0; row < all->count; row++) {
        urlcheck_finding found = found_at(all, row, profile, base);
        if (verdicts[row] != found.verdict || rules[row] != found.rule || places[row] != found.place) {
            fail("a row isn't the check's answer", row);
        }
        valid += found.verdict == URLCHECK_VALID;
    }
    if (answer.valid != valid) fail("another count of valid texts", valid);
    urlcheck_batch counted =
        urlcheck_check_many(all->texts, all->length, all->offsets, all->count, profile, base, NULL, NULL, NULL);
    if (counted.outcome != URLCHECK_DONE || counted.valid != valid) fail("columns change the count", counted.valid);
    memset(verdicts, 99, all->count);
    memset(places, 99, all->count * sizeof *places);
    urlcheck_check_many(all->texts, all->length, all->offsets, all->count, profile, base, NULL, rules, NULL);
    for (size_t row = 0; row < all->count; row++) {
        if (rules[row] != found_at(all, row, profile, base).rule) fail("a column alone isn't filled", row);
        if (verdicts[row] != 99) fail("a column that is left out is written", row);
    }
    free(verdicts);
    free(rules);
    free(places);
}

static const char *const BASES[] = {
    "http://h/a/b", "urn:a", "file:///x", "", "no base", "\xc3\xa9\xff", "http://h/\xc3\xa9 b",
};

/* Against a base of each profile, one that is refused, and one of zeros: only the first is one by this profile. */
static void compare_bases(const list *all, uint32_t profile) {
    static const urlcheck_base zeros;
    compare(all, profile, NULL);
    compare(all, profile, &zeros);
    for (size_t at = 0; at < sizeof BASES / sizeof *BASES; at++) {
        urlcheck_base base = urlcheck_prepare((const uint8_t *)BASES[at], strlen(BASES[at]), profile);
        compare(all, profile, &base);
        compare(all, (profile + 1) % 3, &base);
    }
}

/* How texts are resolved: by a profile, and against these bytes if they aren't null. */
typedef struct {
    uint32_t profile;
    const uint8_t *base;
    size_t base_length;
} setting;

static urlcheck_batch resolve_all(const list *all, const setting *by, uint8_t *verdicts, uint8_t *rules,
                                  uint64_t *places, uint64_t *ends, uint8_t *out, size_t room) {
    return urlcheck_resolve_many(all->texts, all->length, all->offsets, all->count, by->profile, by->base,
                                 by->base_length, verdicts, rules, places, ends, out, room);
}

/* The columns and the text of a row have what urlcheck_resolve says of that text by itself. */
static void compare_resolved_row(const list *all, size_t row, const setting *by, const uint8_t *written, size_t length,
                                 urlcheck_finding found) {
    static uint8_t room[1 << 18];
    urlcheck_record alone = urlcheck_resolve(all->texts + all->offsets[row], all->offsets[row + 1] - all->offsets[row],
                                             by->profile, by->base, by->base_length, room, sizeof room);
    if (alone.length > sizeof room) fail("a text is too long for this run", row);
    if (found.verdict != alone.found.verdict || found.rule != alone.found.rule || found.place != alone.found.place) {
        fail("a row isn't the answer of resolve", row);
    }
    if (length != alone.length || (length && memcmp(written, room, length) != 0)) fail("another text of a record", row);
}

/* Each row is what urlcheck_resolve says of that text; the texts are written where they have exactly room. */
static void compare_resolved(const list *all, const setting *by) {
    uint8_t *verdicts = taken(all->count, 1), *rules = taken(all->count, 1), small = 9;
    uint64_t *places = taken(all->count, sizeof *places), *ends = taken(all->count + 1, sizeof *ends);
    urlcheck_batch asked = resolve_all(all, by, NULL, NULL, NULL, NULL, NULL, 0);
    uint8_t *out = taken(asked.length, 1);
    if (asked.length && resolve_all(all, by, NULL, NULL, NULL, ends, &small, 0).length != asked.length) {
        fail("columns change the length", asked.length);
    }
    if (small != 9 || ends[all->count] != asked.length) fail("no end of the texts without room for them", 0);
    if (asked.length) {
        memset(out, 7, asked.length);
        resolve_all(all, by, NULL, NULL, NULL, NULL, out, asked.length - 1);
        for (size_t at = 0; at < asked.length; at++) {
            if (out[at] != 7) fail("texts are written that don't fit", at);
        }
    }
    urlcheck_batch answer = resolve_all(all, by, verdicts, rules, places, ends, out, asked.length);
    size_t valid = 0;
    if (answer.outcome != URLCHECK_DONE || answer.row || answer.length != asked.length || ends[0] != 0) {
        fail("the texts aren't resolved", 0);
    }
    for (size_t row = 0; row < all->count; row++) {
        urlcheck_finding found = {verdicts[row], rules[row], (size_t)places[row], 0};
        compare_resolved_row(all, row, by, out + ends[row], (size_t)(ends[row + 1] - ends[row]), found);
        valid += found.verdict == URLCHECK_VALID;
    }
    if (answer.valid != valid || asked.valid != valid) fail("another count of texts that denote a record", valid);
    free(verdicts);
    free(rules);
    free(places);
    free(ends);
    free(out);
}

/* Alone, and against each base: of one that isn't valid each row says so. */
static void compare_resolved_bases(const list *all, uint32_t profile) {
    setting by = {profile, NULL, 0};
    compare_resolved(all, &by);
    for (size_t at = 0; at < sizeof BASES / sizeof *BASES; at++) {
        by.base = (const uint8_t *)BASES[at];
        by.base_length = strlen(BASES[at]);
        compare_resolved(all, &by);
    }
}

/* The refused lines, one after the other, are those that the check refuses. */
static void walk(const list *all, uint32_t profile) {
    size_t from = 0, row = 0;
    for (;;) {
        urlcheck_line line = urlcheck_next_refused(all->bytes, all->whole, from, profile);
        for (size_t passed = 0; passed < line.passed; passed++, row++) {
            if (found_at(all, row, profile, NULL).verdict != URLCHECK_VALID) fail("a refused line is passed over", row);
        }
        if (line.found.verdict == URLCHECK_VALID) {
            if (row != all->count || line.start != all->whole || line.next != all->whole || line.length) {
                fail("a line is left", row);
            }
            return;
        }
        urlcheck_finding found = found_at(all, row, profile, NULL);
        if (memcmp(&found, &line.found, sizeof found) != 0) fail("a line isn't the check's answer", row);
        size_t length = all->offsets[row + 1] - all->offsets[row];
        if (line.length != length || line.start < from || line.next <= line.start || line.next > all->whole ||
            (length && memcmp(all->bytes + line.start, all->texts + all->offsets[row], length) != 0)) {
            fail("another text than the line's", row);
        }
        from = line.next;
        row++;
    }
}

static void is_untouched(const uint8_t *bytes, size_t count) {
    for (size_t at = 0; at < count; at++) {
        if (bytes[at] != 7) fail("bad input is written for", at);
    }
}

static void bad_offsets(uint64_t first, uint64_t second, uint64_t third, size_t row) {
    const uint64_t offsets[] = {first, second, third};
    uint8_t columns[3][16];
    memset(columns, 7, sizeof columns);
    urlcheck_batch answer = urlcheck_check_many((const uint8_t *)"http://h/", 9, offsets, 2, 0, NULL, columns[0],
                                                columns[1], (uint64_t *)(void *)columns[2]);
    if (answer.outcome != URLCHECK_NO_OFFSETS || answer.row != row || answer.valid) fail("wrong offsets pass", row);
    is_untouched(columns[0], sizeof columns);
}

static void bad_input(void) {
    const uint8_t *text = (const uint8_t *)"http://h/";
    const uint64_t offsets[] = {0, 4, 9};
    uint8_t column[2] = {7, 7};
    bad_offsets(0, 4, 10, 1);
    bad_offsets(0, 10, 9, 0);
    bad_offsets(4, 3, 9, 0);
    bad_offsets(0, 9, 8, 1);
    if (urlcheck_check_many(text, 9, offsets, 2, 3, NULL, column, column, NULL).outcome != URLCHECK_NO_PROFILE) {
        fail("a profile of no number", 0);
    }
    if (urlcheck_check_many(NULL, 9, offsets, 2, 0, NULL, column, NULL, NULL).outcome != URLCHECK_NULL ||
        urlcheck_check_many(text, 9, NULL, 2, 0, NULL, column, NULL, NULL).outcome != URLCHECK_NULL ||
        urlcheck_next_refused(NULL, 1, 0, 0).found.verdict != URLCHECK_NULL) {
        fail("a null pointer passes", 0);
    }
    is_untouched(column, sizeof column);
    if (urlcheck_check_many(NULL, 0, NULL, 0, 0, NULL, NULL, NULL, NULL).outcome != URLCHECK_DONE ||
        urlcheck_next_refused(NULL, 0, 0, 0).found.verdict != URLCHECK_VALID) {
        fail("no texts aren't checked", 0);
    }
    urlcheck_line after = urlcheck_next_refused(text, 9, 10, 0);
    if (after.found.verdict != URLCHECK_NO_PLACE || after.next || after.passed) fail("a place after the end", 10);
    if (urlcheck_next_refused(text, 9, 0, 3).found.verdict != URLCHECK_NO_PROFILE) fail("a profile of no number", 3);
}

static void bad_resolving(void) {
    const uint8_t *text = (const uint8_t *)"http://h/";
    const uint64_t offsets[] = {0, 10}, whole[] = {0, 9}, longest = 9;
    uint8_t column = 7, out[9];
    uint64_t ends[2] = {longest, longest};
    memset(out, 7, sizeof out);
    urlcheck_batch answer = urlcheck_resolve_many(text, 9, offsets, 1, 0, NULL, 0, &column, NULL, NULL, ends, out, 9);
    if (answer.outcome != URLCHECK_NO_OFFSETS || answer.row || answer.length) fail("wrong offsets are resolved", 0);
    answer = urlcheck_resolve_many(text, 9, whole, 1, 3, NULL, 0, &column, NULL, NULL, ends, out, 9);
    if (answer.outcome != URLCHECK_NO_PROFILE) fail("texts are resolved by no profile", 3);
    const urlcheck_batch null[] = {
        urlcheck_resolve_many(NULL, 9, whole, 1, 0, NULL, 0, &column, NULL, NULL, ends, out, 9),
        urlcheck_resolve_many(text, 9, NULL, 1, 0, NULL, 0, &column, NULL, NULL, ends, out, 9),
        urlcheck_resolve_many(text, 9, whole, 1, 0, NULL, 9, &column, NULL, NULL, ends, out, 9),
        urlcheck_resolve_many(text, 9, whole, 1, 0, NULL, 0, &column, NULL, NULL, ends, NULL, 9),
    };
    for (size_t at = 0; at < 4; at++) {
        if (null[at].outcome != URLCHECK_NULL) fail("null is resolved", at);
    }
    is_untouched(&column, 1);
    is_untouched(out, sizeof out);
    if (ends[0] != longest || ends[1] != longest) fail("ends are written for bad input", 0);
    answer = urlcheck_resolve_many(NULL, 0, NULL, 0, 0, NULL, 0, NULL, NULL, NULL, ends, NULL, 0);
    if (answer.outcome != URLCHECK_DONE || answer.length || ends[0] != 0 || ends[1] != longest) fail("no texts", 0);
}

static double seconds(void) {
    struct timespec now;
    clock_gettime(CLOCK_PROCESS_CPUTIME_ID, &now);
    return (double)now.tv_sec + (double)now.tv_nsec / 1e9;
}

static void say_time(const list *all) {
    uint8_t *verdicts = taken(all->count, 1), *rules = taken(all->count, 1);
    uint64_t *places = taken(all->count, sizeof *places);
    for (int round = 0; round < 5; round++) {
        double start = seconds();
        size_t valid =
            urlcheck_check_many(all->texts, all->length, all->offsets, all->count, 0, NULL, verdicts, rules, places).valid;
        double many = seconds();
        size_t each = 0;
        for (size_t row = 0; row < all->count; row++) each += found_at(all, row, 0, NULL).verdict == URLCHECK_VALID;
        double one = seconds(), lines;
        size_t refused = 0;
        for (size_t from = 0;; refused++) {
            urlcheck_line line = urlcheck_next_refused(all->bytes, all->whole, from, 0);
            if (line.found.verdict == URLCHECK_VALID) break;
            from = line.next;
        }
        lines = seconds();
        if (each != valid || valid + refused != all->count) fail("the counts differ", valid);
        printf("batches: %zu texts, check_many %.3f, check %.3f, next_refused %.3f microseconds a text\n", all->count,
               (many - start) * 1e6 / (double)all->count, (one - many) * 1e6 / (double)all->count,
               (lines - one) * 1e6 / (double)all->count);
    }
    free(verdicts);
    free(rules);
    free(places);
}

int main(int count, char **words) {
    if (count < 2) fail("usage: batches FILE [time]", 0);
    list all = read_list(words[1]);
    if (count > 2) say_time(&all);
    for (uint32_t profile = 0; profile < 3; profile++) {
        compare_bases(&all, profile);
        compare_resolved_bases(&all, profile);
        walk(&all, profile);
    }
    bad_input();
    bad_resolving();
    printf("batches: %zu texts, each row as the check, alone and against bases, and the record of the text\n", all.count);
    free(all.bytes);
    free(all.texts);
    free(all.offsets);
    return 0;
}
