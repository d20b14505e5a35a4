/*
 * The reports of include/urlcheck.h, and the texts that the library has of rules, formats and units, at `out`. The
 * text is in its room; the room of the base has the name of the file, and after it the mended text.
 */
#include "glue.h"

uint64_t proved_report_begin(urlcheck_written *answer, uint32_t format, uint32_t unit, uint8_t *out, size_t room)
    PROVED("report_begin");
uint64_t proved_report_file_begin(urlcheck_written *answer, uint32_t format, const uint8_t *file, size_t length,
                                  uint8_t *out, size_t room) PROVED("report_file_begin");
uint64_t proved_report_file_end(urlcheck_written *answer, uint32_t format, uint8_t *out, size_t room)
    PROVED("report_file_end");
uint64_t proved_report_end(urlcheck_written *answer, uint32_t format, uint32_t completion, uint8_t *out, size_t room)
    PROVED("report_end");
uint64_t proved_diagnostic(urlcheck_written *answer, uint32_t format, uint32_t is_coloured, uint32_t is_first,
                           const urlcheck_reported_numbers *numbers, const uint8_t *file, size_t file_length,
                           const uint8_t *rule, size_t rule_length, const uint8_t *uri, size_t uri_length,
                           const uint8_t *message, size_t message_length, const uint8_t *within, size_t within_length,
                           const uint8_t *text, size_t length, const uint8_t *fix, size_t fix_length, uint8_t *out,
                           size_t room) PROVED("diagnostic");
uint64_t proved_message(urlcheck_written *answer, const uint8_t *text, size_t length, uint32_t profile,
                        const urlcheck_base *base, uint32_t has_base, uint32_t wording, uint32_t rule, size_t place,
                        uint8_t *out, size_t room) PROVED("message");
uint64_t proved_column(urlcheck_counted *answer, const uint8_t *text, size_t length, uint32_t unit, uint64_t start,
                       size_t place) PROVED("column");

/* The bytes that a first call has room for, where more are rare, and those that each fixed text of the library fits. */
enum { SHORT = 2048, LONGEST = 4096 };

/* Has a call write a text after what is on the heap, and says how it ended. */
#define WRITE_TEXT(call)                              \
    urlcheck_written written;                         \
    WRITE(SHORT, 1, written.length, call);            \
    say(&written.found, written.length)

void report_begin(uint32_t format, uint32_t unit) {
    heap_empty();
    WRITE_TEXT(proved_report_begin(&written, format, unit, out, room));
}

void report_file_begin(uint32_t format, uint32_t file_length) {
    heap_empty();
    WRITE_TEXT(proved_report_file_begin(&written, format, heap_base(), file_length, out, room));
}

void report_file_end(uint32_t format) {
    heap_empty();
    WRITE_TEXT(proved_report_file_end(&written, format, out, room));
}

void report_end(uint32_t format, uint32_t completion) {
    heap_empty();
    WRITE_TEXT(proved_report_end(&written, format, completion, out, room));
}

/* The sentence on a violation of the text, alone or against the base that is held. */
void message(uint32_t length, uint32_t profile, uint32_t is_held, uint32_t wording, uint32_t rule, uint32_t place) {
    heap_empty();
    WRITE_TEXT(proved_message(&written, heap_text(), length, profile, &held, is_held, wording, rule, place, out, room));
}

/* The column of a place of the text, which begins in the column `start`, and 0 if there is none, which is said. */
static uint64_t column_of(uint32_t length, uint32_t unit, uint64_t start, uint64_t place) {
    urlcheck_counted counted;
    proved_column(&counted, heap_text(), length, unit, start, place);
    if (counted.found.verdict != URLCHECK_DONE) say(&counted.found, 0);
    return counted.column;
}

/* How many code points a text in UTF-8 has. */
static uint64_t code_points(const uint8_t *text, uint32_t length) {
    uint64_t count = 0;
    for (uint32_t at = 0; at < length; at++) count += (text[at] & 0xc0) != 0x80;
    return count;
}

/* A fixed text of the library on the heap. */
typedef struct {
    const uint8_t *bytes;
    size_t length;
} fixed_text;

/* Takes one, or says that there is no memory. */
static bool takes_text(fixed_text *taken, uint32_t what, uint32_t number) {
    if (!takes_out(heap_mark(), LONGEST)) return false;
    *taken = (fixed_text){out, urlcheck_text(what, number, out, LONGEST)};
    return true;
}

/*
 * What is reported of a violation of the text, which begins in the column `column`, and whose sentence `message` has
 * just written, with the place that it names. In the room of the base is the name of the file, and after it the fix, if its kind isn't 0.
 */
void diagnostic(uint32_t format, uint32_t unit, uint32_t is_first, uint32_t rule, uint32_t place, uint32_t line,
                uint32_t column, uint32_t length, uint32_t file_length, uint32_t kind, uint32_t is_offered,
                uint32_t fix_length) {
    const uint8_t *said = out, *text = heap_text(), *file = heap_base();
    size_t said_length = answer[LENGTH], named = answer[PLACE];
    uint64_t points = code_points(text, length);
    bool has_point = rule < URLCHECK_LINE_NO_UTF8 && place < points;
    urlcheck_region whole = {line, column, line, column_of(length, unit, column, points)};
    urlcheck_region wrong = {line, column_of(length, unit, column, place), line, 0};
    if (wrong.column == 0 || whole.end_column == 0) return;
    wrong.end_column = has_point ? column_of(length, unit, column, (uint64_t)place + 1) : wrong.column;
    urlcheck_reported_numbers numbers = {
        .region = wrong, .place = place, .kind = kind, .offered = is_offered, .named = named};
    if (kind != 0) numbers.fix_region = whole;
    fixed_text name, address;
    if (!takes_text(&name, URLCHECK_RULE_NAME, rule) || !takes_text(&address, URLCHECK_RULE_ADDRESS, rule)) return;
    WRITE_TEXT(proved_diagnostic(&written, format, 0, is_first, &numbers, file, file_length, name.bytes, name.length,
                                 address.bytes, address.length, said, said_length, file, 0, text, length,
                                 file + file_length, fix_length, out, room));
}

uint32_t shows_mended(uint32_t format) { return urlcheck_shows_mended(format); }

uint32_t takes_unit(uint32_t format, uint32_t unit) { return urlcheck_takes_unit(format, unit); }

uint32_t example_place(uint32_t rule) { return (uint32_t)urlcheck_example_place(rule); }

/* A text of the library, for which each has room; its length is given, and is 0 if no number is such a one. */
uint32_t text(uint32_t what, uint32_t number) {
    fixed_text taken;
    heap_empty();
    return takes_text(&taken, what, number) ? (uint32_t)taken.length : 0;
}
