/*
 * Hands bytes of any kind to the calls for many texts, for records and for reports, for libFuzzer. By hand, with
 * `tools/build-library`:
 *
 *   clang -g -O1 -fsanitize=fuzzer,address,undefined -I library/include tests/runs/library/fuzz.c \
 *       library/lib/liburlcheck.a -o fuzz
 *   ./fuzz -runs=1000000 -max_len=256
 *
 * It stops where a row isn't the check's answer, where more is written than there is room for or anything with no room,
 * or where two calls differ.
 */
#include "urlcheck.h"

#include <stdlib.h>
#include <string.h>

int LLVMFuzzerTestOneInput(const uint8_t *data, size_t size);

static void must(int holds) {
    if (!holds) abort();
}

/* What is left of the input; numbers come off its front, mostly small. */
static const uint8_t *input;
static size_t left;

static uint64_t number(void) {
    if (!left) return 0;
    uint8_t first = *input;
    input++;
    left--;
    if (first < 0xF0) return first % 24;
    uint64_t wide = 0;
    for (int i = 0; i < 8 && left; i++, input++, left--) wide = wide << 8 | *input;
    return first < 0xF8 ? wide : wide & 0xFFFFFFFF;
}

static void many(void) {
    uint64_t offsets[5], places[4];
    uint8_t verdicts[4] = {99, 99, 99, 99}, rules[4];
    for (int i = 0; i < 5; i++) offsets[i] = number();
    uint32_t profile = (uint32_t)number();
    urlcheck_base held = urlcheck_prepare(input, left / 2, (uint32_t)number() % 4), *base = number() % 2 ? &held : NULL;
    urlcheck_batch wide = urlcheck_check_many(input, left, offsets, 4, profile, base, verdicts, rules, places);
    if (wide.outcome != URLCHECK_DONE) {
        must(wide.outcome == (profile > 2 ? URLCHECK_NO_PROFILE : URLCHECK_NO_OFFSETS) && verdicts[0] == 99);
        return;
    }
    for (int i = 0; i < 4; i++) {
        urlcheck_finding found = urlcheck_check(input + offsets[i], offsets[i + 1] - offsets[i], profile, base).found;
        must(verdicts[i] == found.verdict && rules[i] == found.rule && places[i] == found.place);
    }
}

static void lines(void) {
    size_t from = number();
    uint32_t profile = (uint32_t)number();
    urlcheck_line line = urlcheck_next_refused(input, left, from, profile);
    if (profile > 2 || from > left) {
        must(line.found.verdict == (profile > 2 ? URLCHECK_NO_PROFILE : URLCHECK_NO_PLACE) && !line.next);
        return;
    }
    if (line.found.verdict == URLCHECK_VALID) {
        must(line.start == left && line.next == left);
        return;
    }
    must(line.start >= from && line.length <= left - line.start && line.next > line.start && line.next <= left);
    urlcheck_finding found = urlcheck_check(input + line.start, line.length, profile, NULL).found;
    must(memcmp(&found, &line.found, sizeof found) == 0);
}

enum { MESSAGE, DIAGNOSTIC, BEGIN, FILE_BEGIN, FILE_END, END, CALLS };

/* What the calls that write a text are given besides what is left of the input. */
typedef struct {
    uint32_t profile, wording, rule, first, second;
    size_t place;
    const urlcheck_base *base;
    urlcheck_reported reported;
} numbers;

static urlcheck_written written(int call, const numbers *it, uint8_t *out, size_t room) {
    switch (call) {
        case MESSAGE:
            return urlcheck_message(input, left, it->profile, it->base, it->wording, it->rule, it->place, out, room);
        case BEGIN: return urlcheck_report_begin(it->first, it->second, out, room);
        case FILE_BEGIN: return urlcheck_report_file_begin(it->first, input, left, out, room);
        case FILE_END: return urlcheck_report_file_end(it->first, out, room);
        case END: return urlcheck_report_end(it->first, it->second, out, room);
        default: return urlcheck_diagnostic(it->first, it->wording, it->second, &it->reported, out, room);
    }
}

static urlcheck_region region(void) {
    urlcheck_region read = {number(), number(), number(), number()};
    return read;
}

static void texts(int call) {
    static const uint32_t rules[] = {101, 102, 103, 104, 105, 106, 107, 108};
    numbers it = {0};
    urlcheck_reported *of = &it.reported;
    it.profile = (uint32_t)number();
    it.wording = (uint32_t)number() % 5;
    it.rule = (uint32_t)number();
    if (it.rule > 15 && it.rule < 24) it.rule = rules[it.rule - 16];
    it.place = of->numbers.place = number();
    of->numbers.named = number();
    of->numbers.region = region();
    of->numbers.fix_region = region();
    of->numbers.repeat = number();
    of->numbers.kind = (uint32_t)number() % 5;
    of->numbers.offered = (uint32_t)number() % 2;
    it.first = (uint32_t)number() % 11;
    it.second = (uint32_t)number() % 6;
    size_t part = left / 7;
    of->file = input, of->file_length = part;
    of->rule = input + part, of->rule_length = part;
    of->uri = input + 2 * part, of->uri_length = part;
    of->message = input + 3 * part, of->message_length = part;
    of->within = input + 4 * part, of->within_length = part;
    of->text = input + 5 * part, of->text_length = part;
    of->fix = input + 6 * part, of->fix_length = part;
    urlcheck_base held = urlcheck_prepare(input, part, it.second % 3);
    it.base = it.first % 2 ? &held : NULL;
    uint8_t none = 'x';
    urlcheck_written asked = written(call, &it, &none, 0);
    must(none == 'x');
    if (asked.found.verdict != URLCHECK_DONE) {
        must(asked.length == 0 && asked.found.verdict >= URLCHECK_NO_UTF8);
        return;
    }
    uint8_t *out = malloc(asked.length + 1);
    must(out != NULL);
    memset(out, 0xFF, asked.length + 1);
    if (asked.length) {
        must(written(call, &it, out, asked.length - 1).length == asked.length);
        for (size_t i = 0; i <= asked.length; i++) must(out[i] == 0xFF);
    }
    must(written(call, &it, out, asked.length + 1).length == asked.length && out[asked.length] == 0xFF);
    /* (no text has the byte FF) */
    for (size_t i = 0; i < asked.length; i++) must(out[i] != 0xFF);
    free(out);
}

static void column(void) {
    uint32_t unit = (uint32_t)number();
    uint64_t start = number();
    size_t place = number();
    urlcheck_counted told = urlcheck_column(input, left, unit, start, place);
    must((told.found.verdict == URLCHECK_DONE) == (told.column != 0));
    if (told.column) must(told.column >= start && told.column <= start + 8 * (uint64_t)place);
}

/* What a base is by one profile it isn't by another, and the two ways to get an answer give one. */
static void held(void) {
    uint32_t profile = (uint32_t)number() % 4, other = (uint32_t)number() % 4;
    size_t half = left / 2;
    const uint8_t *text = input + half;
    urlcheck_base base = urlcheck_prepare(input, half, profile);
    urlcheck_answer answer = urlcheck_check(text, half, other, &base), pointed;
    urlcheck_check_to(&pointed, text, half, other, &base);
    must(memcmp(&answer.found, &pointed.found, sizeof answer.found) == 0);
    must(urlcheck_is_valid(text, half, other, &base) == (answer.found.verdict == URLCHECK_VALID));
    must(urlcheck_faults(text, half, other, &base, NULL, 0).found.verdict == answer.found.verdict);
    if (profile != other && other < 3) {
        must(answer.found.verdict == URLCHECK_NO_BASE || answer.found.verdict == URLCHECK_NO_UTF8);
    }
    if (profile != other) return;
    urlcheck_mended made = urlcheck_mend(text, half, profile, input, half, NULL, 0);
    must(made.kind == 0 ? memcmp(&made.found, &answer.found, sizeof made.found) == 0
                        : answer.found.verdict == URLCHECK_REFUSED && made.length > 0 && made.offered <= 1);
}

/* The parts of a record lie one after the other in its text. */
static void in_order(const urlcheck_spans *parts, size_t length) {
    const urlcheck_span *const all[] = {&parts->scheme, &parts->host, &parts->port, &parts->path, &parts->query, &parts->fragment};
    size_t end = 0;
    for (int i = 0; i < 6; i++) {
        if (!all[i]->present) continue;
        must(all[i]->start >= end && all[i]->start <= length && all[i]->length <= length - all[i]->start);
        end = all[i]->start + all[i]->length;
    }
}

static void records(void) {
    uint8_t one[2048], other[2048];
    uint32_t profile = (uint32_t)number() % 4;
    size_t half = left / 2;
    const uint8_t *text = input + half;
    memset(one, 7, sizeof one);
    memset(other, 7, sizeof other);
    urlcheck_record placed = urlcheck_resolve(text, half, profile, input, half, one, sizeof one), pointed;
    in_order(&placed.parts, placed.length);
    must((placed.parts.host.present == 1) == (placed.host != 0) && placed.host <= URLCHECK_EMPTY_HOST);
    urlcheck_resolve_to(&pointed, text, half, profile, input, half, other, sizeof other);
    must(memcmp(&pointed.found, &placed.found, sizeof placed.found) == 0 && pointed.length == placed.length);
    must(pointed.parts.path.start == placed.parts.path.start && memcmp(one, other, sizeof one) == 0);
    urlcheck_base base = urlcheck_prepare(input, half, profile);
    urlcheck_finding found = urlcheck_check(text, half, profile, &base).found;
    must(memcmp(&found, &placed.found, sizeof found) == 0);
    urlcheck_record alone = urlcheck_resolve(text, half, profile, NULL, 0, one, 0);
    found = urlcheck_check(text, half, profile, NULL).found;
    must(memcmp(&found, &alone.found, sizeof found) == 0 && memcmp(one, other, sizeof one) == 0);
}

static void resolved_many(void) {
    uint64_t offsets[5], ends[5];
    uint8_t verdicts[4], none = 'x', one[2048];
    for (int i = 0; i < 5; i++) offsets[i] = number();
    uint32_t profile = (uint32_t)number() % 3;
    const uint8_t *base = number() % 2 ? input : NULL;
    size_t base_length = base ? left / 2 : 0;
    urlcheck_batch asked = urlcheck_resolve_many(input, left, offsets, 4, profile, base, base_length, verdicts, NULL, NULL,
                                                 ends, &none, 0);
    must(none == 'x');
    if (asked.outcome != URLCHECK_DONE) return;
    uint8_t *out = malloc(asked.length + 1);
    must(out != NULL);
    out[asked.length] = 0xFF;
    urlcheck_batch made = urlcheck_resolve_many(input, left, offsets, 4, profile, base, base_length, NULL, NULL, NULL, NULL,
                                                out, asked.length);
    must(made.length == asked.length && made.valid == asked.valid && out[asked.length] == 0xFF);
    for (int i = 0; i < 4; i++) {
        urlcheck_record found =
            urlcheck_resolve(input + offsets[i], offsets[i + 1] - offsets[i], profile, base, base_length, one, sizeof one);
        must(found.found.verdict == verdicts[i] && found.length == ends[i + 1] - ends[i] && found.length <= sizeof one);
        must(memcmp(one, out + ends[i], found.length) == 0);
    }
    free(out);
}

static void names(void) {
    uint32_t first = (uint32_t)number(), second = (uint32_t)number();
    uint8_t out[128];
    memset(out, 0xFF, sizeof out);
    size_t length = urlcheck_text(first, second, out, sizeof out);
    must(length < sizeof out && out[length] == 0xFF);
    must(first < 10 || length == 0);
    must(urlcheck_example_place(first) < 32);
    must(!urlcheck_takes_unit(first, second) || (first < 9 && second < 4));
    must(!urlcheck_shows_mended(first) || first < 9);
}

int LLVMFuzzerTestOneInput(const uint8_t *data, size_t size) {
    if (size < 1) return 0;
    int call = data[0] % 13;
    input = data + 1;
    left = size - 1;
    if (call < CALLS) texts(call);
    else if (call == 6) many();
    else if (call == 7) lines();
    else if (call == 8) column();
    else if (call == 9) held();
    else if (call == 10) records();
    else if (call == 11) resolved_many();
    else names();
    return 0;
}
