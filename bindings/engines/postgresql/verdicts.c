/* What is said about a url: whether it is valid, its first fault, its parts, and an error in place of a refusal. */
#include "arguments.h"

#include "access/htup_details.h"
#include "funcapi.h"
#include "mb/pg_wchar.h"
#include "utils/builtins.h"

PG_MODULE_MAGIC;

PG_FUNCTION_INFO_V1(pg_url_is_valid);
PG_FUNCTION_INFO_V1(pg_url_require);
PG_FUNCTION_INFO_V1(pg_url_rule);
PG_FUNCTION_INFO_V1(pg_url_place);
PG_FUNCTION_INFO_V1(pg_url_message);
PG_FUNCTION_INFO_V1(pg_url_scheme);
PG_FUNCTION_INFO_V1(pg_url_host);
PG_FUNCTION_INFO_V1(pg_url_port);
PG_FUNCTION_INFO_V1(pg_url_path);
PG_FUNCTION_INFO_V1(pg_url_query);
PG_FUNCTION_INFO_V1(pg_url_fragment);
PG_FUNCTION_INFO_V1(pg_url_check);
PG_FUNCTION_INFO_V1(pg_urlcheck_version);

Datum pg_url_is_valid(PG_FUNCTION_ARGS) {
    request request;

    if (!read_request(fcinfo, &request, true)) PG_RETURN_NULL();
    PG_RETURN_BOOL(!is_refused(checked(&request).found));
}

/* An error shows at most this many bytes on each side of a wrong place, and a mended text only for a url this short. */
enum { SHOWN = 100, HINTED = 1000 };

/* The bytes of the url around a place that an error shows, whole characters, and whether some are left out. */
static char *shown_around(slice url, size_t place) {
    size_t from = place > SHOWN ? place - SHOWN : 0, to = url.length - place > SHOWN ? place + SHOWN : url.length;
    text *part;

    while (from < place && (url.bytes[from] & 0xc0) == 0x80) from++;
    while (to > place && to < url.length && (url.bytes[to] & 0xc0) == 0x80) to--;
    part = text_of(url.bytes + from, to - from);
    return psprintf("%s%s%s", from > 0 ? "..." : "", text_to_cstring(part), to < url.length ? "..." : "");
}

/* What an error shows of the url: the text, or what is around the place. Bytes that aren't UTF-8 end it. */
static char *shown(slice url, urlcheck_finding found) {
    slice front = {url.bytes, found.byte_place};

    return shown_around(found.verdict == URLCHECK_NO_UTF8 ? front : url, found.byte_place);
}

/* What is said before a mended text: that it is a text in the url's place if it is offered, otherwise what it is. */
static const char *hint_before(urlcheck_mended answer) {
    if (!answer.offered) return psprintf("Something else may be meant; %s", kind_phrase(answer.kind));
    return answer.kind == URLCHECK_CHANGED ? "A valid text in its place (it may denote another URL): "
                                           : "A valid text in its place: ";
}

/* What to write in its place, or null. (A long one wouldn't be read.) */
static char *hint(const request *request) {
    uint8_t *out;
    urlcheck_mended answer;

    if (request->url.length > HINTED) return NULL;
    answer = written(request, true, &out);
    if (answer.found.verdict != URLCHECK_MENDED) return NULL;
    return psprintf("%s%s", hint_before(answer), text_to_cstring(text_of(out, answer.length)));
}

/* Raises the error of url_require: the message, the place as a detail, and a mended text as a hint. */
static void refuse(const request *request, urlcheck_finding found) {
    char name[NAME_ROOM], *advice = hint(request);

    ereport(ERROR, (errcode(ERRCODE_CHECK_VIOLATION),
                    errmsg("invalid URL: %s", text_to_cstring(message_text(request, found))),
                    errdetail("Rule %s at place %d of \"%s\".", rule_name(found.rule, name), sql_place(found.place),
                              shown(request->url, found)),
                    advice ? errhint("%s", advice) : 0));
}

/* True, or an error that says what is wrong, where, and what to write: for constraints. */
Datum pg_url_require(PG_FUNCTION_ARGS) {
    request request;
    urlcheck_finding found;

    if (!read_request(fcinfo, &request, true)) PG_RETURN_NULL();
    found = checked(&request).found;
    if (is_refused(found)) refuse(&request, found);
    PG_RETURN_BOOL(true);
}

/* Reads the arguments, and what is wrong with the url: false if nothing is. */
static bool read_refused(FunctionCallInfo fcinfo, request *request, urlcheck_finding *found) {
    if (!read_request(fcinfo, request, true)) return false;
    *found = checked(request).found;
    return is_refused(*found);
}

Datum pg_url_rule(PG_FUNCTION_ARGS) {
    char name[NAME_ROOM];
    request request;
    urlcheck_finding found;

    if (!read_refused(fcinfo, &request, &found)) PG_RETURN_NULL();
    PG_RETURN_TEXT_P(cstring_to_text(rule_name(found.rule, name)));
}

Datum pg_url_place(PG_FUNCTION_ARGS) {
    request request;
    urlcheck_finding found;

    if (!read_refused(fcinfo, &request, &found)) PG_RETURN_NULL();
    PG_RETURN_INT32(sql_place(found.place));
}

Datum pg_url_message(PG_FUNCTION_ARGS) {
    request request;
    urlcheck_finding found;

    if (!read_refused(fcinfo, &request, &found)) PG_RETURN_NULL();
    PG_RETURN_TEXT_P(message_text(&request, found));
}

/* A part of the url, or NULL if the url is refused or lacks it. */
static Datum part(FunctionCallInfo fcinfo, int number) {
    request request;
    urlcheck_answer answer;
    urlcheck_span span;

    if (!read_request(fcinfo, &request, true)) PG_RETURN_NULL();
    answer = checked(&request);
    span = part_of(&answer.parts, number);
    if (!span.present) PG_RETURN_NULL();
    PG_RETURN_TEXT_P(text_of(request.url.bytes + span.start, span.length));
}

/* (each by its number in the order of urlcheck_spans) */
Datum pg_url_scheme(PG_FUNCTION_ARGS) { return part(fcinfo, 0); }
Datum pg_url_host(PG_FUNCTION_ARGS) { return part(fcinfo, 1); }
Datum pg_url_port(PG_FUNCTION_ARGS) { return part(fcinfo, 2); }
Datum pg_url_path(PG_FUNCTION_ARGS) { return part(fcinfo, 3); }
Datum pg_url_query(PG_FUNCTION_ARGS) { return part(fcinfo, 4); }
Datum pg_url_fragment(PG_FUNCTION_ARGS) { return part(fcinfo, 5); }

/* The columns of a url_answer. */
enum { VALID, RULE, PLACE, MESSAGE, PARTS, COLUMNS = PARTS + PART_COUNT };

/* Sets a column of the row, which is NULL before. */
static void put(Datum *values, bool *nulls, int column, Datum value) {
    values[column] = value;
    nulls[column] = false;
}

/* The columns of a refused url, of its first fault. */
static void put_refusal(const request *request, urlcheck_finding found, Datum *values, bool *nulls) {
    char name[NAME_ROOM];

    put(values, nulls, RULE, CStringGetTextDatum(rule_name(found.rule, name)));
    put(values, nulls, PLACE, Int32GetDatum(sql_place(found.place)));
    put(values, nulls, MESSAGE, PointerGetDatum(message_text(request, found)));
}

/* The columns of a valid url: the parts that it has. */
static void put_parts(slice url, const urlcheck_spans *parts, Datum *values, bool *nulls) {
    for (int number = 0; number < PART_COUNT; number++) {
        urlcheck_span span = part_of(parts, number);
        if (span.present)
            put(values, nulls, PARTS + number, PointerGetDatum(text_of(url.bytes + span.start, span.length)));
    }
}

Datum pg_url_check(PG_FUNCTION_ARGS) {
    Datum values[COLUMNS] = {0};
    bool nulls[COLUMNS];
    request request;
    urlcheck_answer answer;

    if (!read_request(fcinfo, &request, true)) PG_RETURN_NULL();
    answer = checked(&request);
    memset(nulls, true, sizeof nulls);
    put(values, nulls, VALID, BoolGetDatum(!is_refused(answer.found)));
    if (is_refused(answer.found))
        put_refusal(&request, answer.found, values, nulls);
    else
        put_parts(request.url, &answer.parts, values, nulls);
    PG_RETURN_DATUM(HeapTupleGetDatum(heap_form_tuple(row_type(fcinfo), values, nulls)));
}

Datum pg_urlcheck_version(PG_FUNCTION_ARGS) {
    uint32_t number = urlcheck_version();

    PG_RETURN_TEXT_P(cstring_to_text(psprintf("%u.%u.%u", number / 10000, number / 100 % 100, number % 100)));
}
