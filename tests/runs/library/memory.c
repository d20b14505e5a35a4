/*
 * Each allocation of a call is refused in turn, by a malloc and a realloc that count: the call then says so, gives back
 * all that it took, and doesn't touch the caller's buffer. What is empty, fixed or refused asks for none. Then come all
 * the faults of units repeated a million times, and last a text of 100 MB. Linked with --wrap of malloc, realloc and free.
 */
#include "urlcheck.h"

#include <stdio.h>
#include <stdlib.h>
#include <string.h>

void *__real_malloc(size_t size);
void *__real_realloc(void *block, size_t size);
void __real_free(void *block);

static long held, until = -1;

static int is_refused(void) { return until >= 0 && until-- == 0; }

void *__wrap_malloc(size_t size) {
    if (is_refused()) return NULL;
    void *block = __real_malloc(size);
    held += block != NULL;
    return block;
}

void *__wrap_realloc(void *block, size_t size) {
    if (is_refused()) return NULL;
    void *grown = __real_realloc(block, size);
    held += block == NULL && grown != NULL;
    return grown;
}

void __wrap_free(void *block) {
    held -= block != NULL;
    __real_free(block);
}

static int failed;

/* Room for the longest of the texts that are asked for. */
enum { ROOM = 16384 };

static void expect(int holds, const char *what) {
    if (!holds) {
        printf("FAILED: %s\n", what);
        failed = 1;
    }
}

static const char TEXT[] = "http://FA\xc3\x9f.de:81/a/../\xe6\x97\xa5?\xc3\xa9#x";
static const char WRONG[] = "http://x_y:z/ ^%";
static const char ESCAPED[] = "http://B%C3%BCcher.%64e/";
static const char MENDABLE[] = "//fa\xc3\x9f.de/a b%";
static const char BASE[] = "http://B\xc3\xbc" "cher.de/d/e";

/* A diagnostic on a text, with a mended one. */
static uint32_t diagnostic(uint32_t format, uint8_t *out, size_t room) {
    static const char rule[] = "code-point", message[] = "no code point of a URL";
    const urlcheck_region region = {1, 1, 1, 2};
    urlcheck_reported it = {0};
    it.numbers.region = it.numbers.fix_region = region;
    it.numbers.place = 13;
    it.numbers.kind = URLCHECK_CHANGED;
    it.numbers.offered = 1;
    it.file = it.fix = (const uint8_t *)BASE, it.file_length = it.fix_length = sizeof BASE - 1;
    it.rule = (const uint8_t *)rule, it.rule_length = sizeof rule - 1;
    it.message = (const uint8_t *)message, it.message_length = sizeof message - 1;
    it.text = (const uint8_t *)WRONG, it.text_length = sizeof WRONG - 1;
    return urlcheck_diagnostic(format, 1, 1, &it, out, room).found.verdict;
}

/* The verdict against a base that is prepared, by the check and by all the faults. */
static uint32_t against(const uint8_t *text, size_t length, uint32_t profile, urlcheck_fault *faults, size_t room) {
    urlcheck_base base = urlcheck_prepare((const uint8_t *)BASE, sizeof BASE - 1, profile);
    if (base.found.verdict != URLCHECK_VALID) return base.found.verdict;
    if (faults) return urlcheck_faults(text, length, profile, &base, faults, room).found.verdict;
    return urlcheck_check(text, length, profile, &base).found.verdict;
}

/* One call of each kind that allocates; the verdict. */
static uint32_t call(int kind, uint8_t *out, size_t room) {
    const uint8_t *text = (const uint8_t *)TEXT, *wrong = (const uint8_t *)WRONG, *base = (const uint8_t *)BASE;
    const uint8_t *mendable = (const uint8_t *)MENDABLE;
    size_t length = sizeof TEXT - 1, wrong_length = sizeof WRONG - 1, base_length = sizeof BASE - 1;
    size_t mendable_length = sizeof MENDABLE - 1;
    urlcheck_fault faults[8];
    switch (kind) {
    case 0: return urlcheck_check(text, length, URLCHECK_STANDARD, NULL).found.verdict;
    case 1: return against(text, length, URLCHECK_STANDARD, NULL, 0);
    case 2: return urlcheck_resolve(text, length, URLCHECK_WIDE, NULL, 0, out, room).found.verdict;
    case 3: return urlcheck_resolve(text, 0, URLCHECK_STANDARD, base, base_length, out, room).found.verdict;
    case 4: return urlcheck_faults(wrong, wrong_length, URLCHECK_STANDARD, NULL, faults, 8).found.verdict;
    case 5: return against(wrong, wrong_length, URLCHECK_WIDE, faults, 8);
    case 6: return urlcheck_check((const uint8_t *)ESCAPED, sizeof ESCAPED - 1, URLCHECK_PARSER, NULL).found.verdict;
    case 7:
        return urlcheck_message(wrong, wrong_length, URLCHECK_STANDARD, NULL, URLCHECK_WORDING_OPTIONS,
                                URLCHECK_CODE_POINT, 13, out, room)
            .found.verdict;
    case 8: return diagnostic(URLCHECK_CARET, out, room);
    case 9: return diagnostic(URLCHECK_JSON, out, room);
    case 10: return diagnostic(URLCHECK_SARIF, out, room);
    case 11: return urlcheck_report_begin(URLCHECK_SARIF, URLCHECK_UTF16, out, room).found.verdict;
    case 12: return urlcheck_report_file_begin(URLCHECK_CHECKSTYLE, base, base_length, out, room).found.verdict;
    case 13: {
        const uint64_t offsets[] = {0, sizeof TEXT - 1};
        uint8_t verdict = URLCHECK_DONE;
        uint32_t outcome =
            urlcheck_check_many(text, length, offsets, 1, URLCHECK_STANDARD, NULL, &verdict, NULL, NULL).outcome;
        return outcome == URLCHECK_DONE ? verdict : outcome;
    }
    case 14: return urlcheck_next_refused(text, length, 0, URLCHECK_STANDARD).found.verdict;
    case 15: {
        urlcheck_record record;
        urlcheck_resolve_to(&record, text, length, URLCHECK_WIDE, NULL, 0, out, room);
        return record.found.verdict;
    }
    case 16: {
        const uint64_t offsets[] = {0, sizeof TEXT - 1};
        uint8_t verdict = URLCHECK_DONE;
        uint32_t outcome = urlcheck_resolve_many(text, length, offsets, 1, URLCHECK_STANDARD, base, base_length, &verdict,
                                                 NULL, NULL, NULL, out, room)
                               .outcome;
        return outcome == URLCHECK_DONE ? verdict : outcome;
    }
    case 17: return diagnostic(URLCHECK_JUNIT, out, room);
    case 18: return diagnostic(URLCHECK_GITLAB, out, room);
    case 19: return diagnostic(URLCHECK_RDJSON, out, room);
    case 20: return urlcheck_report_file_begin(URLCHECK_JUNIT, base, base_length, out, room).found.verdict;
    default:
        return urlcheck_mend(mendable, mendable_length, URLCHECK_WIDE, base, base_length, out, room)
            .found.verdict;
    }
}

/* The verdict of a call with all memory. */
static uint32_t wanted(int kind) {
    if (kind < 4) return URLCHECK_VALID;
    if (kind < 6) return URLCHECK_REFUSED;
    if (kind == 6 || (kind >= 13 && kind <= 16)) return URLCHECK_VALID;
    return kind < 21 ? URLCHECK_DONE : URLCHECK_MENDED;
}

static void refuse_each(int kind) {
    static const uint8_t blank[ROOM];
    for (long nth = 0; nth < 10000; nth++) {
        uint8_t out[ROOM] = {0};
        long before = held;
        until = nth;
        uint32_t verdict = call(kind, out, sizeof out);
        int was_refused = until < 0;
        until = -1;
        expect(held == before, "a call kept memory");
        if (!was_refused) {
            expect(nth > 0, "no allocation was seen");
            expect(verdict == wanted(kind), "another verdict with all memory");
            printf("library: call %d, %ld allocations refused in turn\n", kind, nth);
            return;
        }
        expect(verdict == URLCHECK_MEMORY, "out of memory wasn't reported");
        expect(memcmp(out, blank, sizeof out) == 0, "the buffer was written to");
    }
    expect(0, "no end of allocations");
}

/* This was answered, and no allocation was asked for. */
static void is_without_memory(uint32_t verdict, uint32_t wanted) {
    expect(until == 0, "an allocation for what takes none");
    expect(verdict == wanted, "another verdict without memory");
}

/* What is empty, fixed or refused takes no memory. */
static void take_none(void) {
    const uint8_t *file = (const uint8_t *)BASE, *text = (const uint8_t *)WRONG;
    size_t length = sizeof BASE - 1;
    uint8_t out[ROOM];
    until = 0;
    for (uint32_t format = URLCHECK_GNU; format <= URLCHECK_RDJSON; format++) {
        uint32_t unit = format == URLCHECK_RDJSON ? URLCHECK_BYTES : URLCHECK_CODE_POINTS;
        is_without_memory(urlcheck_report_file_end(format, out, ROOM).found.verdict, URLCHECK_DONE);
        is_without_memory(urlcheck_report_end(format, URLCHECK_WHOLE, out, ROOM).found.verdict, URLCHECK_DONE);
        if (format != URLCHECK_SARIF)
            is_without_memory(urlcheck_report_begin(format, unit, out, ROOM).found.verdict, URLCHECK_DONE);
        if (format != URLCHECK_CHECKSTYLE && format != URLCHECK_JUNIT)
            is_without_memory(urlcheck_report_file_begin(format, file, length, out, ROOM).found.verdict, URLCHECK_DONE);
        is_without_memory(diagnostic(format + 9, out, ROOM), URLCHECK_NO_FORMAT);
    }
    is_without_memory(urlcheck_message(text, 3, 0, NULL, 0, 1, 4, out, ROOM).found.verdict, URLCHECK_NO_PLACE);
    is_without_memory(urlcheck_message(text, 3, 0, NULL, 0, 0, 3, out, ROOM).found.verdict, URLCHECK_NO_RULE);
    is_without_memory(urlcheck_message(text, 3, 0, NULL, 4, 1, 3, out, ROOM).found.verdict, URLCHECK_NO_WORDING);
    is_without_memory(urlcheck_mend(file, 9, 0, NULL, 0, out, ROOM).found.verdict, URLCHECK_NO_UTF8);
    until = -1;
    printf("library: what is empty, fixed or refused takes no memory\n");
}

/* A unit a million times between two texts: where its first fault is, its rule, how many code points lie between two of
   them, and how many of them a unit has, under each profile. Worked out by hand from the URL Standard, section 4.3. */
static const struct repeated {
    const char *base, *before, *unit, *after;
    size_t place;
    uint32_t rule;
    size_t step, each;
} REPEATED[] = {
    {NULL, "http://h/", "%", "", 9, URLCHECK_PERCENT, 1, 1},
    {NULL, "http://h/", "[", "", 9, URLCHECK_CODE_POINT, 1, 1},
    {NULL, "http://h:", "%41", "/", 9, URLCHECK_PORT_DIGIT, 3, 1},
    {NULL, "http://h:", "%", "/", 9, URLCHECK_PORT_DIGIT, 1, 1},
    {NULL, "http://h:", "\xc3\xa9", "/", 9, URLCHECK_PORT_DIGIT, 1, 1},
    {NULL, "http://h:", "[", "/", 9, URLCHECK_PORT_DIGIT, 1, 1},
    {NULL, "http://h:", "@", "/", 9, URLCHECK_PORT_DIGIT, 1, 1},
    {NULL, "http://h:", ".", "/", 9, URLCHECK_PORT_DIGIT, 1, 1},
    {NULL, "http://h:", "xn--", "/", 9, URLCHECK_PORT_DIGIT, 1, 4},
    {NULL, "http://h:", "-", "/", 9, URLCHECK_PORT_DIGIT, 1, 1},
    {NULL, "http://h/?", "%", "", 10, URLCHECK_PERCENT, 1, 1},
    {NULL, "http://h/?", "[", "", 10, URLCHECK_CODE_POINT, 1, 1},
    {"http://h/a/b?q", "", "%", "", 0, URLCHECK_PERCENT, 1, 1},
    {"http://h/a/b?q", "", "[", "", 0, URLCHECK_CODE_POINT, 1, 1},
};
enum { MILLION = 1000000 };

static void list_faults_of(const struct repeated *row, const uint8_t *text, size_t length, uint32_t profile) {
    size_t wanted = row->each * MILLION;
    urlcheck_fault *all = malloc(wanted * sizeof *all);
    if (!all) exit(1);
    const uint8_t *base = (const uint8_t *)row->base;
    urlcheck_base held;
    if (base) held = urlcheck_prepare(base, strlen(row->base), profile);
    urlcheck_fault_count found = urlcheck_faults(text, length, profile, base ? &held : NULL, all, wanted);
    expect(found.found.verdict == URLCHECK_REFUSED && found.count == wanted, "another count of a million faults");
    expect(found.found.place == row->place && found.found.rule == row->rule, "another first one of a million faults");
    for (size_t at = 0; at < wanted && found.count == wanted; at++) {
        int is_there = all[at].place == row->place + at * row->step && all[at].rule == row->rule;
        if (!is_there) found.count = 0;
    }
    expect(found.count == wanted, "another one of a million faults");
    free(all);
}

static void list_faults(void) {
    for (size_t at = 0; at < sizeof REPEATED / sizeof *REPEATED; at++) {
        const struct repeated *row = &REPEATED[at];
        size_t front = strlen(row->before), size = strlen(row->unit), end = strlen(row->after);
        uint8_t *text = malloc(front + size * MILLION + end);
        if (!text) exit(1);
        memcpy(text, row->before, front);
        for (size_t unit = 0; unit < MILLION; unit++) memcpy(text + front + unit * size, row->unit, size);
        memcpy(text + front + size * MILLION, row->after, end);
        for (uint32_t profile = 0; profile < 3; profile++) {
            list_faults_of(row, text, front + size * MILLION + end, profile);
        }
        free(text);
    }
    printf("library: all the faults of units repeated %d times\n", MILLION);
}

static void check_100_mb(void) {
    size_t size = 100u << 20, front = sizeof "http://h/" - 1;
    uint8_t *text = malloc(size);
    if (!text) exit(1);
    memset(text, 'a', size);
    memcpy(text, "http://h/", front);
    urlcheck_answer answer = urlcheck_check(text, size, URLCHECK_STANDARD, NULL);
    expect(answer.found.verdict == URLCHECK_VALID, "100 MB refused");
    expect(answer.parts.path.start == front - 1 && answer.parts.path.length == size - front + 1, "the path of 100 MB");
    text[size - 3] = 0xe2;
    text[size - 2] = 0x82;
    text[size - 1] = 0xac;
    text[size - 4] = '%';
    answer = urlcheck_check(text, size, URLCHECK_STANDARD, NULL);
    expect(answer.found.verdict == URLCHECK_REFUSED && answer.found.rule == URLCHECK_PERCENT, "100 MB with a bare %");
    expect(answer.found.place == size - 4 && answer.found.byte_place == size - 4, "the place in 100 MB");
    text[size - 1] = 'x';
    answer = urlcheck_check(text, size, URLCHECK_STANDARD, NULL);
    expect(answer.found.verdict == URLCHECK_NO_UTF8 && answer.found.byte_place == size - 3, "100 MB of no UTF-8");
    free(text);
    printf("library: a text of %zu bytes\n", size);
}

int main(void) {
    for (int kind = 0; kind < 22; kind++) refuse_each(kind);
    take_none();
    list_faults();
    check_100_mb();
    return failed;
}
