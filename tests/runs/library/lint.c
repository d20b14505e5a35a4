/*
 * Reports on the lines of a file as `urlcheck lint` does, only by the library's calls: lint FILE NAME FORMAT UNIT COLOURED,
 * the last three by their numbers. Each text is asked for with no room, with one byte too few and with exactly its room.
 */
#include "urlcheck.h"

#include <stdio.h>
#include <stdlib.h>
#include <string.h>

static uint32_t format, unit, is_coloured;
static const char *name;

static void fail(const char *what) {
    fprintf(stderr, "lint: %s\n", what);
    exit(1);
}

static void *taken(size_t bytes) {
    void *room = malloc(bytes ? bytes : 1);
    if (!room) fail("memory");
    return room;
}

/* A call that writes a text, with all but where it is written. */
typedef struct {
    enum { BEGIN, FILE_BEGIN, DIAGNOSTIC, FILE_END, END, MESSAGE } call;
    uint32_t is_first, rule; /* (the rule by its number) */
    urlcheck_reported reported;
} asked;

static urlcheck_written written(const asked *it, uint8_t *out, size_t room) {
    const urlcheck_reported *of = &it->reported;
    switch (it->call) {
        case BEGIN: return urlcheck_report_begin(format, unit, out, room);
        case FILE_BEGIN: return urlcheck_report_file_begin(format, (const uint8_t *)name, strlen(name), out, room);
        case FILE_END: return urlcheck_report_file_end(format, out, room);
        case END: return urlcheck_report_end(format, URLCHECK_WHOLE, out, room);
        case MESSAGE:
            return urlcheck_message(of->text, of->text_length, URLCHECK_STANDARD, NULL, URLCHECK_WORDING_OPTIONS,
                                    it->rule, of->numbers.place, out, room);
        default: return urlcheck_diagnostic(format, is_coloured, it->is_first, of, out, room);
    }
}

/* The text of a call, in memory of exactly its length, and what else that answers. */
static uint8_t *text_and_answer(const asked *it, size_t *length, urlcheck_written *answer) {
    urlcheck_written first = written(it, NULL, 0);
    if (first.found.verdict != URLCHECK_DONE) fail("a text isn't given");
    uint8_t *out = taken(first.length);
    if (first.length) {
        memset(out, 'x', first.length);
        urlcheck_written small = written(it, out, first.length - 1);
        if (small.length != first.length || small.found.verdict != URLCHECK_DONE) fail("room changes a length");
        for (size_t i = 0; i < first.length; i++) {
            if (out[i] != 'x') fail("more is written than there is room for");
        }
    }
    *answer = written(it, out, first.length);
    if (answer->length != first.length) fail("a length isn't the same");
    *length = first.length;
    return out;
}

static void say(const asked *it) {
    size_t length;
    urlcheck_written answer;
    uint8_t *out = text_and_answer(it, &length, &answer);
    if (length && fwrite(out, 1, length, stdout) != length) fail("the output failed");
    free(out);
}

static size_t code_points(const uint8_t *text, size_t length) {
    size_t count = 0;
    for (size_t i = 0; i < length; i++) count += (text[i] & 0xC0) != 0x80;
    return count;
}

static uint64_t column(const uint8_t *text, size_t length, size_t place) {
    urlcheck_counted told = urlcheck_column(text, length, unit, 1, place);
    if (told.found.verdict != URLCHECK_DONE) fail("a column isn't told");
    return told.column;
}

/* A fixed text of the rule, in memory of exactly its length. A rule of lines has no address. */
static const uint8_t *rule_text(uint32_t what, uint32_t rule, size_t *length) {
    int is_there = what != URLCHECK_RULE_ADDRESS || rule < URLCHECK_LINE_NO_UTF8;
    *length = urlcheck_text(what, rule, NULL, 0);
    uint8_t *out = taken(*length);
    if (urlcheck_text(what, rule, out, *length) != *length || (*length > 0) != is_there) fail("no text of a rule");
    return out;
}

/* The region of one line. */
static urlcheck_region region_in(uint64_t line, uint64_t from, uint64_t to) {
    urlcheck_region region = {line, from, line, to};
    return region;
}

/* The mended text, where there is one and the format says it. */
static void mend(asked *it, const uint8_t *text, size_t length, uint64_t line) {
    urlcheck_mended told = urlcheck_mend(text, length, URLCHECK_STANDARD, NULL, 0, NULL, 0);
    if (!urlcheck_shows_mended(format) || told.found.verdict != URLCHECK_MENDED) return;
    uint8_t *mended = taken(told.length);
    urlcheck_mend(text, length, URLCHECK_STANDARD, NULL, 0, mended, told.length);
    it->reported.fix = mended;
    it->reported.fix_length = told.length;
    it->reported.numbers.kind = told.kind;
    it->reported.numbers.offered = told.offered;
    it->reported.numbers.fix_region = region_in(line, 1, column(text, length, code_points(text, length)));
}

/* What is wrong with a line: its rule, its place and its text. Not so where nothing is. */
static int find(asked *it, const uint8_t *text, size_t length, uint64_t line) {
    static const uint8_t replacement[] = {0xEF, 0xBF, 0xBD};
    urlcheck_reported *of = &it->reported;
    urlcheck_finding found = urlcheck_check(text, length, URLCHECK_STANDARD, NULL).found;
    of->text = text;
    of->text_length = length;
    if (length > 65536) {
        it->rule = URLCHECK_LINE_TOO_LONG;
        of->text = NULL;
        of->text_length = 0;
    } else if (found.verdict == URLCHECK_NO_UTF8) {
        if (length != 1) fail("no line of the file but one byte may be no UTF-8");
        it->rule = URLCHECK_LINE_NO_UTF8;
        of->text = replacement;
        of->text_length = 3;
    } else if (found.verdict == URLCHECK_REFUSED) {
        it->rule = found.rule;
        of->numbers.place = found.place;
        mend(it, text, length, line);
    } else {
        return 0;
    }
    return 1;
}

static void report(const uint8_t *text, size_t length, uint64_t line, int *is_first) {
    asked it;
    memset(&it, 0, sizeof it);
    it.call = DIAGNOSTIC;
    it.is_first = (uint32_t)*is_first;
    urlcheck_reported *of = &it.reported;
    if (!find(&it, text, length, line)) return;
    uint64_t from = column(of->text, of->text_length, of->numbers.place), to = from;
    if (it.rule < URLCHECK_LINE_NO_UTF8 && of->numbers.place < code_points(of->text, of->text_length))
        to = column(of->text, of->text_length, of->numbers.place + 1);
    of->numbers.region = region_in(line, from, to);
    of->file = (const uint8_t *)name;
    of->file_length = strlen(name);
    of->rule = rule_text(URLCHECK_RULE_NAME, it.rule, &of->rule_length);
    of->uri = rule_text(URLCHECK_RULE_ADDRESS, it.rule, &of->uri_length);
    asked message = it;
    message.call = MESSAGE;
    urlcheck_written answer;
    of->message = text_and_answer(&message, &of->message_length, &answer);
    of->numbers.named = answer.found.place;
    say(&it);
    *is_first = 0;
    free((void *)of->rule);
    free((void *)of->uri);
    free((void *)of->message);
    free((void *)of->fix);
}

int main(int count, char **words) {
    if (count != 6) fail("usage: lint FILE NAME FORMAT UNIT COLOURED");
    name = words[2];
    format = (uint32_t)atoi(words[3]);
    unit = (uint32_t)atoi(words[4]);
    is_coloured = (uint32_t)atoi(words[5]);
    FILE *file = fopen(words[1], "rb");
    if (!file || fseek(file, 0, SEEK_END) != 0) fail("the file can't be opened");
    size_t length = (size_t)ftell(file);
    rewind(file);
    uint8_t *bytes = taken(length);
    if (fread(bytes, 1, length, file) != length) fail("the file can't be read");
    fclose(file);
    asked round;
    memset(&round, 0, sizeof round);
    say(&round);
    round.call = FILE_BEGIN;
    say(&round);
    int is_first = 1;
    uint64_t line = 0;
    for (size_t at = 0; at < length;) {
        const uint8_t *end = memchr(bytes + at, '\n', length - at);
        size_t whole = end ? (size_t)(end - (bytes + at)) : length - at;
        size_t text = end && whole && bytes[at + whole - 1] == '\r' ? whole - 1 : whole;
        line++;
        if (text) {
            /* (a copy of its own, so that a read beyond it is seen) */
            uint8_t *copy = taken(text);
            memcpy(copy, bytes + at, text);
            report(copy, text, line, &is_first);
            free(copy);
        }
        at += whole + 1;
    }
    round.call = FILE_END;
    say(&round);
    round.call = END;
    say(&round);
    free(bytes);
    return 0;
}
