/* What is said about a row by one value: its verdict, its first fault, a part, or a text that is made of it. */
#include <stdlib.h>

#include "rows.h"

DUCKDB_EXTENSION_EXTERN

/* The room that most texts fit in, so that one call writes them; a longer one is written by a second call. */
enum { MOST = 512 };

/* What is said about a refused text: false if that is an error. */
static bool put_refusal(duckdb_function_info call, cell out, question question, const request *request,
                        urlcheck_finding found) {
    char words[MESSAGE_ROOM], said[ERROR_ROOM];

    switch (question) {
        case IS_VALID: put_bool(out, false); return true;
        case REQUIRE: duckdb_scalar_function_set_error(call, refusal_error(request, found, said)); return false;
        case RULE: put_words(out, rule_name(found.rule, words)); return true;
        case PLACE: put_place(out, found.place); return true;
        case MESSAGE: put_words(out, url_message(request, found, words)); return true;
        default: put_null(out); return true;
    }
}

/* Writes a part, or NULL if the url lacks it. */
static void put_part(cell out, slice url, urlcheck_span span) {
    if (span.present)
        put_text(out, url.bytes + span.start, span.length);
    else
        put_null(out);
}

bool put_verdict(duckdb_function_info call, cell out, question question, const request *request) {
    urlcheck_answer answer = check_request(request);

    if (stops(call, request, answer.found)) return false;
    if (answer.found.verdict != URLCHECK_VALID) return put_refusal(call, out, question, request, answer.found);
    if (question >= PARTS)
        put_part(out, request->url, part_of(&answer.parts, (int)(question - PARTS)));
    else if (question == IS_VALID || question == REQUIRE)
        put_bool(out, true);
    else
        put_null(out);
    return true;
}

/* What is made of a url as a text: false if the call has ended with an error. */
bool put_written(duckdb_function_info call, cell out, question question, const request *request) {
    bool mends = question == MEND, is_done;
    uint8_t most[MOST], *text = most;
    urlcheck_mended answer = write_request(request, mends, most, MOST);

    if (answer.length > MOST) {
        text = malloc(answer.length);
        if (!text) return !stops_without_memory(call);
        answer = write_request(request, mends, text, answer.length);
    }
    is_done = !stops(call, request, answer.found);
    if (is_done && mends && answer.found.verdict == URLCHECK_VALID)
        put_text(out, request->url.bytes, request->url.length);
    else if (is_done && answer.found.verdict == (mends ? URLCHECK_MENDED : URLCHECK_VALID))
        put_text(out, text, answer.length);
    else if (is_done)
        put_null(out);
    if (text != most) free(text);
    return is_done;
}

/* How the mended text differs from the url, or whether it is offered. */
bool put_mended(duckdb_function_info call, cell out, question question, const request *request) {
    urlcheck_mended answer = mend_request(request, NULL, 0);

    if (stops(call, request, answer.found)) return false;
    if (answer.found.verdict != URLCHECK_MENDED)
        put_null(out);
    else if (question == MEND_KIND)
        put_words(out, kind_name(answer.kind));
    else
        put_bool(out, answer.offered != 0);
    return true;
}
