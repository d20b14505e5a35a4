/*
 * Answers each case of a file of cases (see cases.py) by the library, in each profile, a line each. With the word
 * `places` after the file a line has where the parts of a valid text are, and is empty for each other text; with
 * `mended` it says what `urlcheck mend` says. No bytes are handed in by a null pointer.
 */
#include "urlcheck.h"

#include <stdio.h>
#include <stdlib.h>
#include <string.h>

#define NONE UINT32_MAX

typedef struct {
    uint8_t *bytes;
    uint32_t length; /* NONE: absent */
} text;

static void fail(const char *what) {
    fprintf(stderr, "answers: %s\n", what);
    exit(1);
}

/* A length in four bytes, lowest first, and so many bytes in memory of their own: a read beyond them is seen. */
static int read_text(FILE *file, text *read) {
    uint8_t front[4];
    size_t count = fread(front, 1, 4, file);
    if (count == 0) return 0;
    if (count != 4) fail("a length is cut off");
    read->length = (uint32_t)front[0] | (uint32_t)front[1] << 8 | (uint32_t)front[2] << 16 | (uint32_t)front[3] << 24;
    size_t length = read->length == NONE ? 0 : read->length;
    read->bytes = length ? malloc(length) : NULL;
    if (length && !read->bytes) fail("memory");
    if (length && fread(read->bytes, 1, length, file) != length) fail("a text is cut off");
    return 1;
}

static void print_bytes(const uint8_t *bytes, size_t length) {
    if (length) fwrite(bytes, 1, length, stdout);
}

static void print_rule(uint32_t rule) {
    uint8_t name[19];
    print_bytes(name, urlcheck_text(URLCHECK_RULE_NAME, rule, name, sizeof name));
}

static void print_part(const text *given, urlcheck_span span) {
    putchar('\t');
    if (!span.present) {
        if (span.start != 0 || span.length != 0) fail("a span that is absent isn't zero");
        putchar('-');
        return;
    }
    putchar('+');
    if (span.start > given->length || span.length > given->length - span.start) fail("a span leaves the text");
    if (span.length) print_bytes(given->bytes + span.start, span.length);
}

static int is_same(urlcheck_finding one, urlcheck_finding other) {
    return one.verdict == other.verdict && one.rule == other.rule && one.place == other.place
           && one.byte_place == other.byte_place;
}

/* The bytes of a base: null where there is none, and of an empty one a place with no bytes. */
static const uint8_t *base_bytes(const text *base) {
    static const uint8_t empty[1];
    if (base->length == NONE) return NULL;
    return base->length ? base->bytes : empty;
}

static size_t base_length(const text *base) { return base->length == NONE ? 0 : base->length; }

/* A base that is held, or null where there is none. */
static const urlcheck_base *hold(const text *base, uint32_t profile, urlcheck_base *held) {
    if (base->length == NONE) return NULL;
    *held = urlcheck_prepare(base_bytes(base), base->length, profile);
    return held;
}

static urlcheck_record resolve(const text *given, const text *base, uint32_t profile, uint8_t *out, size_t room) {
    return urlcheck_resolve(given->bytes, given->length, profile, base_bytes(base), base_length(base), out, room);
}

static urlcheck_fault_count faults(const text *given, const text *base, uint32_t profile, urlcheck_fault *out,
                                   size_t room) {
    urlcheck_base held;
    return urlcheck_faults(given->bytes, given->length, profile, hold(base, profile, &held), out, room);
}

/* The end of a part that is here, after a delimiter in the text, or this place where it is absent. */
static size_t after(const uint8_t *whole, urlcheck_span part, size_t at, const char *mark) {
    size_t front = strlen(mark);
    if (!part.present) {
        if (part.start || part.length) fail("a part that is absent has a place");
        return at;
    }
    if (part.start != at + front || memcmp(whole + at, mark, front) != 0) fail("a part stands elsewhere in a record");
    return part.start + part.length;
}

/* The parts of a record, with their delimiters, are its text, but for the `/.` before a path. */
static void join_parts(const uint8_t *whole, size_t length, urlcheck_record record) {
    urlcheck_spans parts = record.parts;
    size_t at = after(whole, parts.scheme, 0, "");
    if (!parts.scheme.present || !parts.path.present || at >= length || whole[at] != ':') fail("no scheme of a record");
    at = after(whole, parts.port, after(whole, parts.host, at + 1, "//"), ":");
    if (!parts.host.present && parts.path.start == at + 2 && memcmp(whole + at, "/.//", 4) == 0) at += 2;
    at = after(whole, parts.query, after(whole, parts.path, at, ""), "?");
    if (after(whole, parts.fragment, at, "#") != length) fail("the parts of a record aren't its text");
    if ((record.host != 0) != parts.host.present) fail("a kind of no host");
    if ((record.host == URLCHECK_EMPTY_HOST) != (parts.host.present && !parts.host.length)) fail("an empty host");
    int is_slashed = parts.path.length && whole[parts.path.start] == '/';
    if (record.opaque_path ? is_slashed : parts.path.length && !is_slashed) fail("a path of another kind");
}

/* The record's text, asked for with no room, and then with exactly the room that it needs. */
static void print_record(const text *given, const text *base, uint32_t profile, urlcheck_finding found) {
    uint8_t small = 'x';
    urlcheck_record asked = resolve(given, base, profile, &small, 0), written;
    if (!is_same(asked.found, found) || small != 'x') fail("resolve and check differ, or more was written than fits");
    if (resolve(given, base, profile, NULL, 0).length != asked.length) fail("a null buffer changes a length");
    uint8_t *out = malloc(asked.length ? asked.length : 1);
    if (!out) fail("memory");
    urlcheck_resolve_to(&written, given->bytes, given->length, profile, base_bytes(base), base_length(base), out,
                        asked.length);
    if (!is_same(written.found, found) || written.length != asked.length) fail("two lengths of one record");
    if (memcmp(&written.parts, &asked.parts, sizeof asked.parts) != 0) fail("room changes the parts of a record");
    if (found.verdict == URLCHECK_VALID) {
        join_parts(out, written.length, written);
        putchar('\t');
        print_bytes(out, written.length);
    } else if (written.length != 0) {
        fail("a length without a record");
    }
    free(out);
}

/* All the faults, asked for with room for two, and then with room for all. */
static void print_faults(const text *given, const text *base, uint32_t profile, urlcheck_finding found) {
    urlcheck_fault first[2];
    urlcheck_fault_count asked = faults(given, base, profile, first, 2);
    if (!is_same(asked.found, found)) fail("faults and check differ");
    if (faults(given, base, profile, NULL, 0).count != asked.count) fail("a null buffer changes a count");
    if ((asked.count > 0) != (found.verdict == URLCHECK_REFUSED)) fail("a count of faults that the verdict denies");
    urlcheck_fault *all = malloc((asked.count ? asked.count : 1) * sizeof *all);
    if (!all) fail("memory");
    urlcheck_fault_count written = faults(given, base, profile, all, asked.count);
    if (written.count != asked.count) fail("two counts of one text");
    for (size_t at = 0; at < written.count; at++) {
        int is_front = at >= 2 || (all[at].rule == first[at].rule && all[at].place == first[at].place);
        if (!is_front) fail("two fronts of one list");
        printf("\t%zu %zu ", all[at].place, all[at].byte_place);
        print_rule(all[at].rule);
    }
    free(all);
}

static urlcheck_answer check(const text *given, const text *base, uint32_t profile) {
    urlcheck_base made, held;
    if (base->length == NONE) return urlcheck_check(given->bytes, given->length, profile, NULL);
    made = held = urlcheck_prepare(base_bytes(base), base->length, profile);
    memset(&made, 0xff, sizeof made);
    return urlcheck_check(given->bytes, given->length, profile, &held);
}

static int is_same_span(urlcheck_span one, urlcheck_span other) {
    return one.present == other.present && one.start == other.start && one.length == other.length;
}

static int is_same_answer(urlcheck_answer one, urlcheck_answer other) {
    return is_same(one.found, other.found) && is_same_span(one.parts.scheme, other.parts.scheme)
           && is_same_span(one.parts.host, other.parts.host) && is_same_span(one.parts.port, other.parts.port)
           && is_same_span(one.parts.path, other.parts.path) && is_same_span(one.parts.query, other.parts.query)
           && is_same_span(one.parts.fragment, other.parts.fragment);
}

/* The answer to a pointer and the bare verdict are as the check gives them, and a base of another profile isn't one. */
static void compare_calls(const text *given, const text *base, uint32_t profile, urlcheck_answer answer) {
    urlcheck_base held;
    const urlcheck_base *prepared = hold(base, profile, &held);
    urlcheck_answer pointed;
    urlcheck_check_to(&pointed, given->bytes, given->length, profile, prepared);
    if (!is_same_answer(pointed, answer)) fail("check_to differs");
    int valid = answer.found.verdict == URLCHECK_VALID;
    if (urlcheck_is_valid(given->bytes, given->length, profile, prepared) != valid) fail("is_valid and check differ");
    if (!prepared || answer.found.verdict == URLCHECK_NO_UTF8) return;
    uint32_t other = (profile + 1) % 3;
    if (urlcheck_check(given->bytes, given->length, other, prepared).found.verdict != URLCHECK_NO_BASE) {
        fail("a base of another profile");
    }
    if (urlcheck_is_valid(given->bytes, given->length, other, prepared)) fail("a base of another profile");
}

/* What isn't a base that was prepared isn't one for each call. */
static void refuse_stray_bases(void) {
    static const urlcheck_base zeros;
    const uint8_t bytes[] = "http://h/";
    urlcheck_base held = urlcheck_prepare(bytes, 9, URLCHECK_STANDARD);
    if (urlcheck_check(bytes, 9, 0, &held).found.verdict != URLCHECK_VALID) fail("a base that is held");
    held.profile = 3;
    if (urlcheck_check(bytes, 9, 0, &held).found.verdict != URLCHECK_NO_BASE) fail("a base of no profile");
    held.profile = URLCHECK_STANDARD, held.scheme = 6;
    if (urlcheck_check(bytes, 9, 0, &held).found.verdict != URLCHECK_NO_BASE) fail("a base of no kind");
    held.found.verdict = URLCHECK_REFUSED;
    if (urlcheck_check(bytes, 9, 0, &held).found.verdict != URLCHECK_NO_BASE) fail("a base with the verdict of a text");
    held.found.verdict = URLCHECK_BASE_REFUSED, held.found.rule = 256;
    if (urlcheck_check(bytes, 9, 0, &held).found.verdict != URLCHECK_NO_BASE) fail("a base that no rule refuses");
    if (urlcheck_check(bytes, 9, 0, &zeros).found.verdict != URLCHECK_NO_BASE) fail("a base of zeros");
    if (urlcheck_faults(bytes, 9, 0, &zeros, NULL, 0).found.verdict != URLCHECK_NO_BASE) fail("a base of zeros");
    if (urlcheck_is_valid(bytes, 9, 0, &zeros)) fail("a base of zeros");
    /* A kind of bases may be one that no base has: a special scheme with an opaque path. */
    const uint8_t reference[] = "//g/x", secure[] = "https://h/";
    held = urlcheck_prepare(secure, 10, URLCHECK_STANDARD);
    held.opaque_path = 1;
    urlcheck_finding found = urlcheck_check(reference, 5, 0, &held).found;
    int is_refused = found.verdict == URLCHECK_REFUSED && found.rule == URLCHECK_OPAQUE_BASE && found.place == 0;
    if (!is_refused || urlcheck_is_valid(reference, 5, 0, &held)) fail("a special base with an opaque path");
}

static void answer(const text *given, const text *base, uint32_t profile) {
    urlcheck_answer answer = check(given, base, profile);
    urlcheck_finding found = answer.found;
    printf("%u", found.verdict);
    if (found.rule) {
        printf(" %zu %zu ", found.place, found.byte_place);
        print_rule(found.rule);
    }
    if (found.verdict == URLCHECK_VALID) {
        print_part(given, answer.parts.scheme);
        print_part(given, answer.parts.host);
        print_part(given, answer.parts.port);
        print_part(given, answer.parts.path);
        print_part(given, answer.parts.query);
        print_part(given, answer.parts.fragment);
    }
    compare_calls(given, base, profile, answer);
    print_record(given, base, profile, found);
    print_faults(given, base, profile, found);
    putchar('\n');
}

static void print_place(const char *name, urlcheck_span span) {
    if (span.present) printf("%s %zu %zu ", name, span.start, span.length);
}

static void place(const text *given, const text *base, uint32_t profile) {
    urlcheck_answer answer = check(given, base, profile);
    print_place("scheme", answer.parts.scheme);
    print_place("host", answer.parts.host);
    print_place("port", answer.parts.port);
    print_place("path", answer.parts.path);
    print_place("query", answer.parts.query);
    print_place("fragment", answer.parts.fragment);
    putchar('\n');
}

static urlcheck_mended mend(const text *given, const text *base, uint32_t profile, uint8_t *out, size_t room) {
    return urlcheck_mend(given->bytes, given->length, profile, base_bytes(base), base_length(base), out, room);
}

/* The mended text, asked for with no room, and then with exactly the room that it needs, in memory of its own. */
static void print_mended(const text *given, const text *base, uint32_t profile, urlcheck_mended asked) {
    static const char *const kinds[] = {"", "same", "escaped", "changed"};
    uint8_t *out = malloc(asked.length ? asked.length : 1);
    if (!out) fail("memory");
    urlcheck_mended written = mend(given, base, profile, out, asked.length);
    if (!is_same(written.found, asked.found) || written.length != asked.length) fail("two mended texts of one");
    if (written.kind != asked.kind || asked.kind < 1 || asked.kind > 3) fail("a kind of a mended text");
    if (written.offered != asked.offered || asked.offered > 1) fail("whether a mended text is offered");
    printf("mended %s\t", kinds[asked.kind]);
    print_bytes(out, asked.length);
    free(out);
}

static void mended(const text *given, const text *base, uint32_t profile) {
    uint8_t small = 'x';
    urlcheck_mended asked = mend(given, base, profile, &small, 0);
    if (small != 'x') fail("more was written than fits");
    if (mend(given, base, profile, NULL, 0).length != asked.length) fail("a null buffer changes a length");
    if (asked.found.verdict == URLCHECK_MENDED) {
        print_mended(given, base, profile, asked);
    } else {
        if (asked.length || asked.kind || asked.offered) fail("a length or a kind without a mended text");
        if (!is_same(asked.found, check(given, base, profile).found)) fail("mend and check differ");
        if (asked.found.verdict == URLCHECK_VALID) printf("valid");
        if (asked.found.verdict == URLCHECK_REFUSED) printf("none\trefused %zu ", asked.found.place);
        if (asked.found.verdict == URLCHECK_BASE_REFUSED) printf("base refused %zu ", asked.found.place);
        if (asked.found.rule) print_rule(asked.found.rule);
    }
    putchar('\n');
}

int main(int count, char **words) {
    int is_place = count == 3 && strcmp(words[2], "places") == 0;
    int is_mended = count == 3 && strcmp(words[2], "mended") == 0;
    void (*say)(const text *, const text *, uint32_t) = is_place ? place : is_mended ? mended : answer;
    if (count != 2 + is_place + is_mended) fail("usage: answers CASES [places|mended]");
    if (urlcheck_text(URLCHECK_RULE_NAME, URLCHECK_PERCENT, NULL, 0) != 7) fail("a null buffer changes the length of a name");
    if (urlcheck_version() != URLCHECK_VERSION) fail("the header has another version than the library");
    refuse_stray_bases();
    FILE *file = fopen(words[1], "rb");
    if (!file) fail("the cases can't be opened");
    text given, base;
    while (read_text(file, &given)) {
        if (!read_text(file, &base)) fail("a case is cut off");
        say(&given, &base, URLCHECK_STANDARD);
        say(&given, &base, URLCHECK_WIDE);
        say(&given, &base, URLCHECK_PARSER);
        free(given.bytes);
        free(base.bytes);
    }
    fclose(file);
    return 0;
}
