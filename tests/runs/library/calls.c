/*
 * The calls of reports, columns, explanations, records and held bases on texts that are written out: what they give, and what
 * they answer to a number of nothing, a place after the end, a column out of range, bytes that aren't UTF-8 and null
 * pointers. Expected texts are from docs/COMMANDS.md and docs/rules/, places and columns are counted by hand.
 */
#include "urlcheck.h"

#include <stdio.h>
#include <string.h>

static int failed;

static void expect(int holds, const char *what) {
    if (!holds) {
        printf("FAILED: %s\n", what);
        failed = 1;
    }
}

static const uint8_t *bytes(const char *text) { return (const uint8_t *)text; }

static uint8_t out[4096];

/* The call gave this text, and left what is after it. */
static void gives(urlcheck_written answer, const char *text) {
    size_t length = strlen(text);
    expect(answer.found.verdict == URLCHECK_DONE && answer.length == length, text);
    expect(memcmp(out, text, length) == 0 && out[length] == 7, text);
    memset(out, 7, sizeof out);
}

/* The call gave no text for this reason, and wrote nothing. */
static void refuses(urlcheck_written answer, uint32_t outcome, const char *what) {
    expect(answer.found.verdict == outcome && answer.length == 0, what);
    for (size_t i = 0; i < sizeof out; i++) {
        if (out[i] != 7) {
            expect(0, what);
            break;
        }
    }
    memset(out, 7, sizeof out);
}

static urlcheck_written message_in(uint32_t wording, const char *text, uint32_t profile, uint32_t rule, size_t place) {
    return urlcheck_message(bytes(text), strlen(text), profile, NULL, wording, rule, place, out, sizeof out);
}

static urlcheck_written message(const char *text, uint32_t profile, uint32_t rule, size_t place) {
    return message_in(URLCHECK_WORDING_OPTIONS, text, profile, rule, place);
}

/* A sentence of the standard profile against a base that was prepared by this one. */
static urlcheck_written message_against(const char *base, uint32_t by, const char *text, uint32_t rule, size_t place) {
    urlcheck_base held = urlcheck_prepare(bytes(base), strlen(base), by);
    return urlcheck_message(bytes(text), strlen(text), URLCHECK_STANDARD, &held, URLCHECK_WORDING_OPTIONS, rule, place, out,
                            sizeof out);
}

/* A wider profile is named if it accepts the text against the base. */
static void messages_against(void) {
    static const char LOW_LINE[] = "U+005F LOW LINE is not allowed in a domain";
    static const char ALLOWED[] = "U+005F LOW LINE is not allowed in a domain; --profile wide allows it";
    gives(message("//x_y/", 0, URLCHECK_HOST_DOMAIN, 3), LOW_LINE);
    gives(message_against("http://h/", 0, "//x_y/", URLCHECK_HOST_DOMAIN, 3), ALLOWED);
    gives(message_against("http://h/", 0, "//x_y/ ", URLCHECK_HOST_DOMAIN, 3), LOW_LINE);
    urlcheck_written refused = message_against("h i", 0, "//x_y/", URLCHECK_HOST_DOMAIN, 3);
    expect(refused.found.rule == URLCHECK_NO_SCHEME && refused.found.place == 0, "why a message's base is refused");
    refuses(refused, URLCHECK_BASE_REFUSED, "a message against a base that is refused");
    refuses(message_against("http://h/", URLCHECK_WIDE, "//x_y/", URLCHECK_HOST_DOMAIN, 3), URLCHECK_NO_BASE,
            "a message against a base of another profile");
}

static void messages(void) {
    gives(message("http://h/a b", 0, URLCHECK_CODE_POINT, 10), "U+0020 SPACE is not allowed in a URL");
    gives(message("http://x_y/", 0, URLCHECK_HOST_DOMAIN, 7), "U+005F LOW LINE is not allowed in a domain; --profile wide allows it");
    gives(message("", 0, URLCHECK_LINE_TOO_LONG, 0), "this line has more than 65536 bytes");
    gives(message("a", 0, URLCHECK_LINE_NO_COLUMN, 0),
          "this line isn't FILE:LINE:COLUMN:LINK, since COLUMN is missing");
    refuses(message("a", 3, URLCHECK_PERCENT, 0), URLCHECK_NO_PROFILE, "a message by no profile");
    refuses(message("a", 0, 0, 0), URLCHECK_NO_RULE, "a message of rule 0");
    refuses(message("a", 0, 15, 0), URLCHECK_NO_RULE, "a message of rule 15");
    refuses(message("a", 0, 109, 0), URLCHECK_NO_RULE, "a message of rule 109");
    refuses(message("a", 0, URLCHECK_PERCENT, 2), URLCHECK_NO_PLACE, "a message at a place after the end");
    urlcheck_written foreign = message("\xc3\xa9\xff", 0, URLCHECK_PERCENT, 0);
    expect(foreign.found.place == 1 && foreign.found.byte_place == 2, "where a message's text is no UTF-8");
    refuses(foreign, URLCHECK_NO_UTF8, "a message on what is no UTF-8");
    refuses(message_in(4, "a", 0, URLCHECK_PERCENT, 0), URLCHECK_NO_WORDING, "a message in no wording");
    refuses(urlcheck_message(NULL, 1, 0, NULL, 0, 1, 0, out, sizeof out), URLCHECK_NULL, "a message on null");
    refuses(urlcheck_message(bytes("a"), 1, 0, NULL, 0, 1, 0, NULL, 9), URLCHECK_NULL, "a message into null");
}

/* A message answers the place of the code point that it names, in code points and in bytes: that of the violation, or one
 * further on in the host. */
static void named_places(void) {
    urlcheck_finding found = message("http://\xc3\xa9_y/", 0, URLCHECK_HOST_DOMAIN, 7).found;
    expect(found.place == 8 && found.byte_place == 9, "the place of a code point that no domain has");
    found = message("http://[1::g]/", 0, URLCHECK_HOST_IPV6, 7).found;
    expect(found.place == 11 && found.byte_place == 11, "the place of what is no hex digit");
    found = message("http://h/a b", 0, URLCHECK_CODE_POINT, 10).found;
    expect(found.place == 10 && found.byte_place == 10, "the place of what no URL has");
    memset(out, 7, sizeof out);
}

static const char TEXT[] = "http://h/a b", MENDED[] = "http://h/a%20b";

/* Puts a text into a diagnostic. */
#define SAYS(it, member, value) ((it)->member = bytes(value), (it)->member##_length = strlen(value))

/* A diagnostic on TEXT, which is in line 3 of a file from column 5 on. */
static urlcheck_reported space(void) {
    const urlcheck_region region = {3, 15, 3, 16}, whole = {3, 5, 3, 17};
    urlcheck_reported it = {0};
    it.numbers.region = region;
    it.numbers.fix_region = whole;
    it.numbers.place = 10;
    it.numbers.kind = URLCHECK_SAME;
    it.numbers.offered = 1;
    SAYS(&it, file, "a.md");
    SAYS(&it, rule, "code-point");
    SAYS(&it, uri, "https://url.spec.whatwg.org/#url-code-points");
    SAYS(&it, message, "U+0020 SPACE is not allowed in a URL");
    SAYS(&it, text, TEXT);
    SAYS(&it, fix, MENDED);
    return it;
}

static urlcheck_written diagnostic(uint32_t format, const urlcheck_reported *it) {
    return urlcheck_diagnostic(format, 0, 1, it, out, sizeof out);
}

/* The formats in which an end or an edit is. */
static void more_diagnostics(urlcheck_reported it) {
    gives(diagnostic(URLCHECK_RDJSON, &it),
          "{\"code\":{\"url\":\"https://url.spec.whatwg.org/#url-code-points\",\"value\":\"code-point\"},"
          "\"location\":{\"path\":\"a.md\",\"range\":{\"end\":{\"column\":16,\"line\":3},\"start\":{\"column\":15,"
          "\"line\":3}}},\"message\":\"U+0020 SPACE is not allowed in a URL\",\"severity\":\"ERROR\",\"suggestions\":[{"
          "\"range\":{\"end\":{\"column\":17,\"line\":3},\"start\":{\"column\":5,\"line\":3}},"
          "\"text\":\"http://h/a%20b\"}]}\n");
    SAYS(&it, file, "a&b");
    gives(diagnostic(URLCHECK_JUNIT, &it),
          "<testcase classname=\"a&amp;b\" name=\"3:15 code-point\"><failure type=\"code-point\" "
          "message=\"U+0020 SPACE is not allowed in a URL\">http://h/a b</failure></testcase>\n");
}

/* At which place of a diagnostic this part is, or -1. */
static ptrdiff_t place_of(const char *part, uint32_t format, const urlcheck_reported *it) {
    out[diagnostic(format, it).length] = 0;
    const char *found = strstr((const char *)out, part);
    ptrdiff_t place = found ? found - (const char *)out : -1;
    memset(out, 7, sizeof out);
    return place;
}

static void diagnostics(void) {
    urlcheck_reported it = space();
    gives(diagnostic(URLCHECK_GNU, &it), "a.md:3:15: error: U+0020 SPACE is not allowed in a URL [code-point]\n");
    gives(diagnostic(URLCHECK_JSON, &it),
          "{\"column\":15,\"cut\":false,\"file\":\"a.md\",\"kind\":\"same\",\"line\":3,\"mended\":\"http://h/a%20b\","
          "\"message\":\"U+0020 SPACE is not allowed in a URL\",\"offered\":true,\"rule\":\"code-point\","
          "\"text\":\"http://h/a b\"}\n");
    const char *fix = "\"deletedRegion\":{\"endColumn\":17,\"startColumn\":5,\"startLine\":3}";
    expect(place_of(fix, URLCHECK_SARIF, &it) > 0, "the region of a fix");
    expect(place_of("{\"fixes\":", URLCHECK_SARIF, &it) == 0, "no comma before the first result");
    const char *region = "\"region\":{\"endColumn\":16,\"startColumn\":15,\"startLine\":3}";
    expect(place_of(region, URLCHECK_SARIF, &it) > 0, "the region of a result");
    more_diagnostics(it);
    it.numbers.offered = 0;
    expect(place_of("{\"level\":", URLCHECK_SARIF, &it) == 0, "no fix that isn't offered");
    it = space();
    memset(&it.numbers.fix_region, 0, sizeof it.numbers.fix_region);
    expect(place_of("{\"level\":", URLCHECK_SARIF, &it) == 0, "no fix without a region");
    expect(place_of("\"suggestions\"", URLCHECK_RDJSON, &it) == -1, "no suggestion without a region");
    expect(place_of("\"mended\":\"http://h/a%20b\"", URLCHECK_JSON, &it) > 0, "a mended text without a region");
    urlcheck_written pointed;
    urlcheck_diagnostic_to(&pointed, URLCHECK_GNU, 0, 1, &it, out, sizeof out);
    gives(pointed, "a.md:3:15: error: U+0020 SPACE is not allowed in a URL [code-point]\n");
}

/* What says where in the file a text is comes after the message, with the escapes of the format. */
static void parts_of_files(void) {
    urlcheck_reported it = space();
    SAYS(&it, message, "no page is there");
    SAYS(&it, within, "row <2>");
    gives(diagnostic(URLCHECK_GNU, &it), "a.md:3:15: error: no page is there, in row <2> [code-point]\n");
    const char *message = "message=\"no page is there, in row &lt;2&gt;\" source=";
    expect(place_of(message, URLCHECK_CHECKSTYLE, &it) > 0, "what says where in the file a text is");
}

/* In a list of JSON a comma is before each diagnostic but the first one. */
static void commas(void) {
    urlcheck_reported it = space();
    for (uint32_t format = URLCHECK_GNU; format <= URLCHECK_RDJSON; format++) {
        int is_list = format == URLCHECK_SARIF || format == URLCHECK_GITLAB || format == URLCHECK_RDJSON;
        urlcheck_written first = urlcheck_diagnostic(format, 0, 1, &it, out, sizeof out);
        expect(out[0] != ',', "a comma before the first diagnostic");
        urlcheck_written next = urlcheck_diagnostic(format, 0, 0, &it, out, sizeof out);
        expect((out[0] == ',') == is_list && next.length == first.length + (size_t)is_list, "a comma between diagnostics");
    }
    memset(out, 7, sizeof out);
}

/* A text that isn't offered is in a note, but where the message says which part of the link is meant. */
static void notes(void) {
    urlcheck_reported it = space();
    it.numbers.offered = 0;
    expect(place_of("\nnote: the same URL, written validly, is http://h/a%20b\n", URLCHECK_CARET, &it) > 0, "a note");
    it.numbers.place = 4;
    SAYS(&it, text, "URL: https://example.com/ x");
    expect(place_of("    ^\n", URLCHECK_CARET, &it) > 0, "a link after a space");
    expect(place_of("note:", URLCHECK_CARET, &it) == -1, "no note of a link after a space");
    SAYS(&it, text, "https://https//example.com/x");
    expect(place_of("note:", URLCHECK_CARET, &it) == -1, "no note of two schemes");
    expect(place_of("\"mended\":\"http://h/a%20b\"", URLCHECK_JSON, &it) > 0, "a mended text that is in no note");
    it.numbers.offered = 1;
    expect(place_of("\nhelp: write http://h/a%20b\n", URLCHECK_CARET, &it) > 0, "a text that is offered all the same");
}

/* The caret is below the code point that the message names, but not before the wrong place. */
static void carets(void) {
    urlcheck_reported it = space();
    expect(place_of("\n          ^\n", URLCHECK_CARET, &it) > 0, "a caret below the wrong place");
    it.numbers.named = 11;
    expect(place_of("\n           ^\n", URLCHECK_CARET, &it) > 0, "a caret below what the message names");
    it.numbers.named = 9;
    expect(place_of("\n          ^\n", URLCHECK_CARET, &it) > 0, "no caret before the wrong place");
}

/* A diagnostic in which a member has this value is refused so. */
#define REFUSES_WITH(member, value, outcome, what) \
    do { \
        urlcheck_reported wrong = space(); \
        wrong.numbers.member = value; \
        refuses(diagnostic(0, &wrong), outcome, what); \
    } while (0)

/* One in which a text isn't UTF-8, or null. */
#define REFUSES_TEXT(member, outcome) \
    do { \
        urlcheck_reported wrong = space(); \
        SAYS(&wrong, member, "\xff"); \
        refuses(diagnostic(0, &wrong), outcome, #member " is no UTF-8"); \
        wrong.member = NULL; \
        refuses(diagnostic(0, &wrong), URLCHECK_NULL, #member " is null"); \
    } while (0)

static void bad_diagnostics(void) {
    urlcheck_reported it = space();
    refuses(diagnostic(9, &it), URLCHECK_NO_FORMAT, "a diagnostic in no format");
    REFUSES_TEXT(file, URLCHECK_FILE_NO_UTF8);
    REFUSES_TEXT(rule, URLCHECK_REPORTED_NO_UTF8);
    REFUSES_TEXT(uri, URLCHECK_REPORTED_NO_UTF8);
    REFUSES_TEXT(message, URLCHECK_REPORTED_NO_UTF8);
    REFUSES_TEXT(within, URLCHECK_REPORTED_NO_UTF8);
    REFUSES_TEXT(text, URLCHECK_NO_UTF8);
    REFUSES_TEXT(fix, URLCHECK_MENDED_NO_UTF8);
    const uint64_t beyond[] = {0, 4294967296, UINT64_MAX};
    for (int i = 0; i < 3; i++) {
        REFUSES_WITH(region.line, beyond[i], URLCHECK_NO_COLUMN, "a line out of range");
        REFUSES_WITH(region.column, beyond[i], URLCHECK_NO_COLUMN, "a column out of range");
        REFUSES_WITH(region.end_line, beyond[i], URLCHECK_NO_COLUMN, "a last line out of range");
        REFUSES_WITH(region.end_column, beyond[i], URLCHECK_NO_COLUMN, "an end out of range");
        REFUSES_WITH(fix_region.line, beyond[i], URLCHECK_NO_COLUMN, "the line of a fix out of range");
        REFUSES_WITH(fix_region.column, beyond[i], URLCHECK_NO_COLUMN, "the column of a fix out of range");
        REFUSES_WITH(fix_region.end_line, beyond[i], URLCHECK_NO_COLUMN, "the last line of a fix out of range");
        REFUSES_WITH(fix_region.end_column, beyond[i], URLCHECK_NO_COLUMN, "the end of a fix out of range");
    }
    REFUSES_WITH(region.end_column, 14, URLCHECK_NO_COLUMN, "a region that ends before it begins");
    REFUSES_WITH(region.end_line, 2, URLCHECK_NO_COLUMN, "a region that ends in a line before");
    REFUSES_WITH(kind, 4, URLCHECK_NO_KIND, "a diagnostic of no kind");
    REFUSES_WITH(place, 13, URLCHECK_NO_PLACE, "a diagnostic after the end");
    REFUSES_WITH(named, 13, URLCHECK_NO_PLACE, "a message that names a place after the end");
    refuses(diagnostic(0, NULL), URLCHECK_NULL, "no diagnostic");
    refuses(urlcheck_diagnostic(0, 0, 1, &it, NULL, 9), URLCHECK_NULL, "a diagnostic into null");
}

static void rounds(void) {
    gives(urlcheck_report_begin(URLCHECK_GNU, URLCHECK_SCREEN, out, sizeof out), "");
    gives(urlcheck_report_begin(URLCHECK_CHECKSTYLE, URLCHECK_BYTES, out, sizeof out),
          "<?xml version=\"1.0\" encoding=\"UTF-8\"?>\n<checkstyle version=\"4.3\">\n");
    gives(urlcheck_report_file_begin(URLCHECK_CHECKSTYLE, bytes("a&b"), 3, out, sizeof out),
          "<file name=\"a&amp;b\">\n");
    gives(urlcheck_report_file_end(URLCHECK_CHECKSTYLE, out, sizeof out), "</file>\n");
    gives(urlcheck_report_end(URLCHECK_CHECKSTYLE, URLCHECK_UNREAD, out, sizeof out), "</checkstyle>\n");
    gives(urlcheck_report_begin(URLCHECK_JUNIT, URLCHECK_BYTES, out, sizeof out),
          "<?xml version=\"1.0\" encoding=\"UTF-8\"?>\n<testsuites name=\"urlcheck\">\n");
    gives(urlcheck_report_file_begin(URLCHECK_JUNIT, bytes("a&b"), 3, out, sizeof out),
          "<testsuite name=\"a&amp;b\">\n<testcase classname=\"a&amp;b\" name=\"file\"/>\n");
    gives(urlcheck_report_file_end(URLCHECK_JUNIT, out, sizeof out), "</testsuite>\n");
    gives(urlcheck_report_end(URLCHECK_JUNIT, URLCHECK_STOPPED, out, sizeof out),
          "<testsuite name=\"urlcheck\">\n<testcase classname=\"urlcheck\" name=\"run\"><error "
          "message=\"the run stopped, and standard error says why\"/></testcase>\n</testsuite>\n</testsuites>\n");
    gives(urlcheck_report_begin(URLCHECK_GITLAB, URLCHECK_BYTES, out, sizeof out), "[\n");
    gives(urlcheck_report_end(URLCHECK_GITLAB, URLCHECK_UNREAD, out, sizeof out), "]\n");
    gives(urlcheck_report_begin(URLCHECK_RDJSON, URLCHECK_BYTES, out, sizeof out),
          "{\"source\":{\"name\":\"urlcheck\"},"
          "\"severity\":\"ERROR\",\"diagnostics\":[\n");
    gives(urlcheck_report_end(URLCHECK_RDJSON, URLCHECK_UNREAD, out, sizeof out), "]}\n");
    gives(urlcheck_report_end(URLCHECK_SARIF, URLCHECK_WHOLE, out, sizeof out),
          "],\"invocations\":[{\"executionSuccessful\":true}]}]}\n");
    refuses(urlcheck_report_begin(9, 0, out, sizeof out), URLCHECK_NO_FORMAT, "a beginning in no format");
    refuses(urlcheck_report_begin(0, 4, out, sizeof out), URLCHECK_NO_UNIT, "a beginning in no unit");
    refuses(urlcheck_report_begin(URLCHECK_SARIF, URLCHECK_BYTES, out, sizeof out), URLCHECK_NO_UNIT,
            "SARIF with bytes");
    refuses(urlcheck_report_begin(URLCHECK_SARIF, URLCHECK_SCREEN, out, sizeof out), URLCHECK_NO_UNIT,
            "SARIF with the columns of a screen");
    refuses(urlcheck_report_file_begin(9, NULL, 0, out, sizeof out), URLCHECK_NO_FORMAT, "a file in no format");
    refuses(urlcheck_report_file_begin(5, bytes("\xff"), 1, out, sizeof out), URLCHECK_FILE_NO_UTF8, "a file's name");
    refuses(urlcheck_report_file_begin(5, NULL, 1, out, sizeof out), URLCHECK_NULL, "a file's name of null");
    refuses(urlcheck_report_file_end(9, out, sizeof out), URLCHECK_NO_FORMAT, "a file's end in no format");
    refuses(urlcheck_report_end(9, 0, out, sizeof out), URLCHECK_NO_FORMAT, "an end in no format");
    refuses(urlcheck_report_end(4, 3, out, sizeof out), URLCHECK_NO_COMPLETION, "an end by no completion");
    expect(urlcheck_shows_mended(URLCHECK_CARET) && urlcheck_shows_mended(URLCHECK_SARIF), "who shows mended texts");
    expect(!urlcheck_shows_mended(URLCHECK_GNU) && !urlcheck_shows_mended(9), "who shows none");
    expect(urlcheck_takes_unit(URLCHECK_SARIF, URLCHECK_UTF16) && !urlcheck_takes_unit(URLCHECK_SARIF, URLCHECK_BYTES)
               && !urlcheck_takes_unit(9, 0) && !urlcheck_takes_unit(0, 4)
               && urlcheck_takes_unit(URLCHECK_RDJSON, URLCHECK_BYTES)
               && !urlcheck_takes_unit(URLCHECK_RDJSON, URLCHECK_CODE_POINTS),
           "which units are taken");
}

/* A text with a combining mark, a wide code point, one beyond U+FFFF and a tab; and the column after each. */
static void columns(void) {
    const char *text = "e\xcc\x81\xe6\x97\xa5\xf0\x9f\x98\x80\ta";
    const uint64_t wanted[4][7] = {
        {1, 2, 3, 4, 5, 6, 7}, {1, 2, 4, 7, 11, 12, 13}, {1, 2, 3, 4, 6, 7, 8}, {1, 2, 2, 4, 6, 9, 10}};
    for (uint32_t unit = 0; unit < 4; unit++) {
        for (size_t place = 0; place < 7; place++) {
            urlcheck_counted told = urlcheck_column(bytes(text), strlen(text), unit, 1, place);
            expect(told.found.verdict == URLCHECK_DONE && told.column == wanted[unit][place], "a column");
        }
    }
    expect(urlcheck_column(bytes("ab"), 2, 0, 4294967295, 2).column == 4294967297, "a column beyond 32 bits");
    expect(urlcheck_column(bytes("ab"), 2, 0, 0, 0).found.verdict == URLCHECK_NO_COLUMN, "from column 0");
    expect(urlcheck_column(bytes("ab"), 2, 0, 4294967296, 0).found.verdict == URLCHECK_NO_COLUMN, "from 2^32");
    expect(urlcheck_column(bytes("ab"), 2, 4, 1, 0).found.verdict == URLCHECK_NO_UNIT, "in no unit");
    expect(urlcheck_column(bytes("ab"), 2, 0, 1, 3).found.verdict == URLCHECK_NO_PLACE, "after the end");
    expect(urlcheck_column(bytes("a\xff"), 2, 0, 1, 0).found.verdict == URLCHECK_NO_UTF8, "of no UTF-8");
    expect(urlcheck_column(NULL, 2, 0, 1, 0).found.verdict == URLCHECK_NULL, "of null");
    expect(urlcheck_column(NULL, 0, 0, 5, 0).column == 5, "of nothing");
}

static void is_text(size_t length, const char *text) {
    expect(length == strlen(text) && memcmp(out, text, length) == 0 && out[length] == 7, text);
    memset(out, 7, sizeof out);
}

static void is_fixed(uint32_t what, uint32_t number, const char *text) {
    is_text(urlcheck_text(what, number, out, sizeof out), text);
    expect(urlcheck_text(what, number, NULL, 9) == strlen(text), "a fixed text into null");
}

static void names(void) {
    const char *formats[] = {"gnu", "caret", "json", "github", "sarif", "checkstyle", "junit", "gitlab", "rdjson", ""};
    const char *units[] = {"code-points", "bytes", "utf16", "screen", ""};
    const char *lines[] = {"",            "not-utf8",    "line-too-long", "not-located", "not-located",
                           "not-located", "not-located", "not-located",   "not-located", ""};
    for (uint32_t i = 0; i < 10; i++) is_fixed(URLCHECK_FORMAT_NAME, i, formats[i]);
    for (uint32_t i = 0; i < 5; i++) is_fixed(URLCHECK_UNIT_NAME, i, units[i]);
    for (uint32_t i = 0; i < 10; i++) is_fixed(URLCHECK_RULE_NAME, 100 + i, lines[i]);
    is_fixed(URLCHECK_RULE_NAME, URLCHECK_PERCENT, "percent");
    is_fixed(URLCHECK_RULE_NAME, 0, "");
    is_fixed(URLCHECK_RULE_NAME, 15, "");
    is_fixed(URLCHECK_RULE_SENTENCE, URLCHECK_CODE_POINT, "this code point is not allowed in a URL");
    is_fixed(URLCHECK_RULE_ADDRESS, URLCHECK_PORT_RANGE, "https://url.spec.whatwg.org/#url-port-string");
    is_fixed(URLCHECK_RULE_ADDRESS, URLCHECK_LINE_NO_UTF8, "");
    is_fixed(URLCHECK_RULE_ADDRESS, 15, "");
    is_fixed(URLCHECK_RULE_REQUIRES, URLCHECK_PORT_RANGE, "A port is at most 65535.");
    is_fixed(URLCHECK_RULE_SECTION, URLCHECK_PORT_RANGE, "4.3, URL-port string");
    is_fixed(URLCHECK_EXAMPLE_BASE, URLCHECK_PORT_RANGE, "");
    is_fixed(URLCHECK_EXAMPLE_BASE, URLCHECK_OPAQUE_BASE, "urn:isbn:0451450523");
    is_fixed(URLCHECK_EXAMPLE, URLCHECK_PORT_RANGE, "http://h:65536/");
    is_fixed(URLCHECK_EXAMPLE_MENDED, URLCHECK_PORT_RANGE, "http://h:65535/");
    is_fixed(URLCHECK_EXAMPLE, URLCHECK_LINE_TOO_LONG, "");
    is_fixed(10, URLCHECK_PORT_RANGE, "");
    is_fixed(URLCHECK_RULE_REQUIRES, 15, "");
    expect(urlcheck_example_place(URLCHECK_PORT_RANGE) == 9 && urlcheck_example_place(0) == 0, "an example's place");
}

/* A part has this text, or is absent. */
static void has_part(urlcheck_span part, const char *text, const char *what) {
    if (!text) {
        expect(!part.present && part.start == 0 && part.length == 0, what);
        return;
    }
    expect(part.present && part.length == strlen(text), what);
    expect(memcmp(out + part.start, text, part.length) == 0, what);
}

/* A text, the text of its record, the parts of that as the URL Standard, section 4.5, writes them one after the other,
   where the host begins, of which kind it is, and whether the path is opaque. Counted by hand. */
static const struct placed {
    const char *text, *written, *scheme, *host, *port, *path, *query, *fragment;
    size_t host_start, path_start;
    uint32_t host_kind, opaque;
} PLACED[] = {
    {"HTTP://H:8080/a/../b?q#f", "http://h:8080/b?q#f", "http", "h", "8080", "/b", "q", "f", 7, 13, URLCHECK_DOMAIN, 0},
    {"http://h:80", "http://h/", "http", "h", NULL, "/", NULL, NULL, 7, 8, URLCHECK_DOMAIN, 0},
    {"ws://1.2.3.4/?#", "ws://1.2.3.4/?#", "ws", "1.2.3.4", NULL, "/", "", "", 5, 12, URLCHECK_IPV4, 0},
    {"http://[1:0:0:0:0:0:0:2]:1/", "http://[1::2]:1/", "http", "[1::2]", "1", "/", NULL, NULL, 7, 15, URLCHECK_IPV6, 0},
    {"a://O%41/p", "a://O%41/p", "a", "O%41", NULL, "/p", NULL, NULL, 4, 8, URLCHECK_OPAQUE_HOST, 0},
    {"a:///", "a:///", "a", "", NULL, "/", NULL, NULL, 4, 4, URLCHECK_EMPTY_HOST, 0},
    {"file:///x", "file:///x", "file", "", NULL, "/x", NULL, NULL, 7, 7, URLCHECK_EMPTY_HOST, 0},
    {"a://", "a://", "a", "", NULL, "", NULL, NULL, 4, 4, URLCHECK_EMPTY_HOST, 0},
    {"a:/b/c", "a:/b/c", "a", NULL, NULL, "/b/c", NULL, NULL, 0, 2, 0, 0},
    {"urn:x:y?q", "urn:x:y?q", "urn", NULL, NULL, "x:y", "q", NULL, 0, 4, 0, 1},
    {"a:", "a:", "a", NULL, NULL, "", NULL, NULL, 0, 2, 0, 1},
};

static void is_placed(const struct placed *row, urlcheck_record record) {
    expect(record.found.verdict == URLCHECK_VALID && record.length == strlen(row->written), row->text);
    expect(memcmp(out, row->written, record.length) == 0 && out[record.length] == 7, row->text);
    has_part(record.parts.scheme, row->scheme, row->text);
    has_part(record.parts.host, row->host, row->text);
    has_part(record.parts.port, row->port, row->text);
    has_part(record.parts.path, row->path, row->text);
    has_part(record.parts.query, row->query, row->text);
    has_part(record.parts.fragment, row->fragment, row->text);
    expect(record.parts.scheme.start == 0 && record.parts.host.start == row->host_start, row->text);
    expect(record.parts.path.start == row->path_start, row->text);
    expect(record.host == row->host_kind && record.opaque_path == row->opaque, row->text);
    memset(out, 7, sizeof out);
}

/* No record is given for this reason, and nothing is written. */
static void is_unplaced(urlcheck_record record, uint32_t outcome, const char *what) {
    static const urlcheck_spans none;
    expect(record.found.verdict == outcome && record.length == 0 && record.host == 0 && !record.opaque_path, what);
    expect(memcmp(&record.parts, &none, sizeof none) == 0 && out[0] == 7, what);
}

static void records(void) {
    for (size_t at = 0; at < sizeof PLACED / sizeof *PLACED; at++) {
        const struct placed *row = &PLACED[at];
        size_t length = strlen(row->text);
        is_placed(row, urlcheck_resolve(bytes(row->text), length, URLCHECK_STANDARD, NULL, 0, out, sizeof out));
        urlcheck_record asked = urlcheck_resolve(bytes(row->text), length, URLCHECK_STANDARD, NULL, 0, NULL, 0);
        expect(asked.length == strlen(row->written) && asked.parts.path.start == row->path_start, row->text);
    }
    /* A path that would be read as one with a host has `/.` before it, which isn't a part of it. */
    const struct placed dotted = {"..//x", "a:/.//x", "a", NULL, NULL, "//x", NULL, NULL, 0, 4, 0, 0};
    is_placed(&dotted, urlcheck_resolve(bytes("..//x"), 5, 0, bytes("a:/b"), 4, out, sizeof out));
    is_unplaced(urlcheck_resolve(bytes("a b"), 3, 0, NULL, 0, out, 9), URLCHECK_REFUSED, "a record of a refused text");
    is_unplaced(urlcheck_resolve(bytes("\xff"), 1, 0, NULL, 0, out, 9), URLCHECK_NO_UTF8, "a record of no UTF-8");
    is_unplaced(urlcheck_resolve(bytes("a:"), 2, 3, NULL, 0, out, 9), URLCHECK_NO_PROFILE, "a record by no profile");
    is_unplaced(urlcheck_resolve(bytes("x"), 1, 0, bytes("a"), 1, out, 9), URLCHECK_BASE_REFUSED,
                "a record against a refused base");
    is_unplaced(urlcheck_resolve(bytes("x"), 1, 0, bytes(""), 0, out, 9), URLCHECK_BASE_REFUSED,
                "a record against an empty base");
    is_unplaced(urlcheck_resolve(bytes("x"), 1, 0, bytes("\xff"), 1, out, 9), URLCHECK_BASE_NO_UTF8,
                "a record against a base of no UTF-8");
    is_unplaced(urlcheck_resolve(NULL, 1, 0, NULL, 0, out, 9), URLCHECK_NULL, "a record of null");
    is_unplaced(urlcheck_resolve(bytes("a:"), 2, 0, NULL, 0, NULL, 9), URLCHECK_NULL, "a record into null");
    is_unplaced(urlcheck_resolve(bytes("x"), 1, 0, NULL, 1, out, 9), URLCHECK_NULL, "a base of null");
}

static urlcheck_mended mend(const char *text, const char *base) {
    return urlcheck_mend(bytes(text), strlen(text), 0, base ? bytes(base) : NULL, base ? strlen(base) : 0, out,
                         sizeof out);
}

/* What is mended has this text, of this kind, and reports say to write it or not. */
static void is_mended(urlcheck_mended mended, uint32_t kind, uint32_t offered, const char *text) {
    expect(mended.found.verdict == URLCHECK_MENDED && mended.kind == kind && mended.offered == offered, text);
    is_text(mended.length, text);
}

static void is_unmended(urlcheck_mended mended, uint32_t outcome, const char *what) {
    expect(mended.found.verdict == outcome && !mended.kind && !mended.offered && !mended.length && out[0] == 7, what);
}

static void mended_texts(void) {
    is_mended(mend("http://h/a b", NULL), URLCHECK_SAME, 1, "http://h/a%20b");
    is_mended(mend("x y", "http://h/a/b"), URLCHECK_SAME, 1, "x%20y");
    /* (a template: a parser escapes it so too, and yet it isn't to be written so) */
    is_mended(mend("http://h/{{a}}", NULL), URLCHECK_SAME, 0, "http://h/%7B%7Ba%7D%7D");
    is_unmended(mend("http://h/", NULL), URLCHECK_VALID, "a valid text is mended");
    is_unmended(mend("x", "http://h/"), URLCHECK_VALID, "a valid reference is mended");
    is_unmended(mend("a", NULL), URLCHECK_REFUSED, "a text without a scheme is mended");
    is_unmended(mend("x", "a"), URLCHECK_BASE_REFUSED, "a text is mended against a refused base");
    is_unmended(mend("x", ""), URLCHECK_BASE_REFUSED, "a text is mended against an empty base");
    is_unmended(urlcheck_mend(bytes("x"), 1, 0, NULL, 1, out, 9), URLCHECK_NULL, "a base of null");
    is_unmended(urlcheck_mend(NULL, 1, 0, NULL, 0, out, 9), URLCHECK_NULL, "null is mended");
    is_unmended(urlcheck_mend(bytes("a b"), 3, 0, NULL, 0, NULL, 9), URLCHECK_NULL, "mended into null");
}

/* What a text is against a base that is held: the verdict, the rule and the place in code points and in bytes. */
static void finds(const char *text, uint32_t profile, const urlcheck_base *base, urlcheck_finding wanted) {
    urlcheck_answer answer = urlcheck_check(bytes(text), strlen(text), profile, base);
    expect(memcmp(&answer.found, &wanted, sizeof wanted) == 0, text);
    int is_valid = urlcheck_is_valid(bytes(text), strlen(text), profile, base);
    expect(is_valid == (wanted.verdict == URLCHECK_VALID), text);
    urlcheck_fault_count count = urlcheck_faults(bytes(text), strlen(text), profile, base, NULL, 0);
    expect(memcmp(&count.found, &wanted, sizeof wanted) == 0, text);
    expect((count.count > 0) == (wanted.verdict == URLCHECK_REFUSED), text);
}

static urlcheck_finding finding(uint32_t verdict, uint32_t rule, size_t place, size_t byte_place) {
    urlcheck_finding found = {verdict, rule, place, byte_place};
    return found;
}

static urlcheck_base prepared(const char *base, uint32_t profile) {
    return urlcheck_prepare(bytes(base), strlen(base), profile);
}

/* A text is refused so up to the profile of this number, which takes it as the wider ones do. */
static void is_taken_from(const char *text, uint32_t first, urlcheck_finding refused) {
    for (uint32_t profile = 0; profile < 3; profile++) {
        finds(text, profile, NULL, profile < first ? refused : finding(URLCHECK_VALID, 0, 0, 0));
    }
}

static void profiles(void) {
    is_taken_from("http://x_y/", 1, finding(URLCHECK_REFUSED, URLCHECK_HOST_DOMAIN, 7, 7));
    is_taken_from("http://1.2.3/", 2, finding(URLCHECK_REFUSED, URLCHECK_HOST_NUMBER, 7, 7));
    is_taken_from("http://a%2Db/", 2, finding(URLCHECK_REFUSED, URLCHECK_HOST_DOMAIN, 7, 7));
    is_taken_from("file://", 2, finding(URLCHECK_REFUSED, URLCHECK_HOST_MISSING, 7, 7));
    is_taken_from("urn:a b", 2, finding(URLCHECK_REFUSED, URLCHECK_CODE_POINT, 5, 5));
    is_taken_from("http://xn--a/", 3, finding(URLCHECK_REFUSED, URLCHECK_HOST_DOMAIN, 7, 7));
    is_taken_from("http://h/\xc3\xa9 b", 3, finding(URLCHECK_REFUSED, URLCHECK_CODE_POINT, 10, 11));
    is_taken_from("http://h/\xc3\xa9\xff", 3, finding(URLCHECK_NO_UTF8, 0, 10, 11));
}

static void held_bases(void) {
    const urlcheck_finding valid = finding(URLCHECK_VALID, 0, 0, 0), no_base = finding(URLCHECK_NO_BASE, 0, 0, 0);
    urlcheck_base wide = prepared("ws://h/a", 1), opaque = prepared("urn:a", 0), hosted = prepared("file://h/a", 0);
    urlcheck_base local = prepared("file:///a", 0), parsers = prepared("file://h/C:/a", 2);
    expect(wide.profile == 1 && wide.scheme == 2 && !wide.opaque_path && !wide.empty_host, "a base that is held");
    expect(local.scheme == 4 && local.empty_host == 1 && opaque.scheme == 5 && opaque.opaque_path == 1, "its kind");
    finds("//x_:80/b", 1, &wide, valid);
    finds("a\xff", 1, &wide, finding(URLCHECK_NO_UTF8, 0, 1, 1));
    finds("//x/b", 0, &wide, no_base);
    finds("//x/b", 2, &wide, no_base);
    finds("a\xff", 0, &wide, finding(URLCHECK_NO_UTF8, 0, 1, 1));
    finds("x", 3, &wide, finding(URLCHECK_NO_PROFILE, 0, 0, 0));
    finds("x", 0, &opaque, finding(URLCHECK_REFUSED, URLCHECK_OPAQUE_BASE, 0, 0));
    finds("#x", 0, &opaque, valid);
    finds("/C:/x", 0, &hosted, finding(URLCHECK_REFUSED, URLCHECK_DRIVE_AFTER_HOST, 0, 0));
    finds("/C:/x", 0, &local, valid);
    finds("/C:/x", 2, &parsers, valid);
    finds("//C:/x", 2, &parsers, finding(URLCHECK_REFUSED, URLCHECK_HOST_DOMAIN, 2, 2));
    urlcheck_base refused = prepared("http://h/\xc3\xa9 b", 0), broken = prepared("h\xff", 0), none = prepared("a:", 9);
    finds("x", 0, &refused, finding(URLCHECK_BASE_REFUSED, URLCHECK_CODE_POINT, 10, 11));
    finds("x", 1, &refused, no_base);
    finds("a\xff", 0, &refused, finding(URLCHECK_NO_UTF8, 0, 1, 1));
    finds("x", 0, &broken, finding(URLCHECK_BASE_NO_UTF8, 0, 1, 1));
    finds("x", 0, &none, no_base);
    finds("a\xff", 9, &none, finding(URLCHECK_NO_PROFILE, 0, 0, 0));
    urlcheck_base lacking = urlcheck_prepare(NULL, 1, 0);
    expect(lacking.found.verdict == URLCHECK_NULL && lacking.scheme == 0, "a base of null");
    finds("x", 0, &lacking, no_base);
    expect(urlcheck_check(NULL, 1, 0, NULL).found.verdict == URLCHECK_NULL && !urlcheck_is_valid(NULL, 1, 0, NULL) &&
               urlcheck_faults(NULL, 1, 0, &wide, NULL, 0).found.verdict == URLCHECK_NULL &&
               urlcheck_faults(bytes("x"), 1, 0, NULL, NULL, 1).found.verdict == URLCHECK_NULL,
           "a text of null");
    finds("", 0, NULL, finding(URLCHECK_REFUSED, URLCHECK_NO_SCHEME, 0, 0));
}

/* A byte beyond ASCII is seen at each place of a text, whatever its length. */
static void ascii(void) {
    uint8_t text[100];
    for (size_t length = 1; length < sizeof text; length++) {
        for (size_t place = 0; place < length; place++) {
            memset(text, 0x7F, sizeof text);
            text[place] = 0x80;
            urlcheck_finding found = urlcheck_check(text, length, 0, NULL).found;
            expect(found.verdict == URLCHECK_NO_UTF8 && found.place == place && found.byte_place == place, "ASCII");
        }
    }
}

int main(void) {
    memset(out, 7, sizeof out);
    messages();
    messages_against();
    named_places();
    diagnostics();
    parts_of_files();
    carets();
    commas();
    notes();
    bad_diagnostics();
    rounds();
    columns();
    names();
    records();
    mended_texts();
    profiles();
    held_bases();
    ascii();
    if (!failed) puts("library: reports, columns, fixed texts, records, mended texts and bases, and bad input of each");
    return failed;
}
