/* What an error says in an engine that has one text for it. */
#ifndef URLCHECK_ERRORS_H
#define URLCHECK_ERRORS_H

#include <stdio.h>

#include "request.h"

/* Room for what an error says, with its NUL, and for the text in it to write in place of a url. */
enum { ERROR_ROOM = 1024, ADVICE_ROOM = 512 };

#define NO_PROFILE "unrecognized profile: valid profiles are " PROFILE_NAMES

/* How a call of the library has ended: with an answer, without memory for it, or with an error. */
typedef enum end { ANSWERED, WITHOUT_MEMORY, FAILED } end;

/* How a call has ended, and what its error is: that the base is refused, or a verdict that this extension doesn't know. */
static inline end end_of(const request *request, urlcheck_finding found, char said[ERROR_ROOM]) {
    char name[NAME_ROOM], message[MESSAGE_ROOM];

    switch (found.verdict) {
        case URLCHECK_VALID:
        case URLCHECK_REFUSED:
        case URLCHECK_NO_UTF8:
        case URLCHECK_MENDED: return ANSWERED;
        case URLCHECK_MEMORY: return WITHOUT_MEMORY;
        case URLCHECK_BASE_REFUSED:
        case URLCHECK_BASE_NO_UTF8:
            snprintf(said, ERROR_ROOM, "invalid base URL: %s (rule %s at place %zu of the base)",
                     base_message(request, found, message), rule_name(found.rule, name), found.place + 1);
            return FAILED;
        default: snprintf(said, ERROR_ROOM, "the library for urlcheck answers %u", (unsigned)found.verdict); return FAILED;
    }
}

/* What is said before a mended text. */
static inline const char *advice_before(urlcheck_mended answer) {
    if (!answer.offered) return kind_phrase(answer.kind);
    return answer.kind == URLCHECK_CHANGED ? "a valid text in its place, maybe of another URL: "
                                           : "a valid text in its place: ";
}

/* What is wrong with the url, where, and what to write in its place. */
static inline const char *refusal_error(const request *request, urlcheck_finding found, char said[ERROR_ROOM]) {
    char name[NAME_ROOM], message[MESSAGE_ROOM];
    uint8_t out[ADVICE_ROOM];
    urlcheck_mended answer = {{0, 0, 0, 0}, 0, 0, 0};
    const char *joined = "", *advice = "";
    int length = 0;

    /* (a long one wouldn't be read) */
    if (request->url.length <= ADVICE_ROOM) answer = mend_request(request, out, ADVICE_ROOM);
    if (answer.found.verdict == URLCHECK_MENDED && answer.length <= ADVICE_ROOM)
        joined = "; ", advice = advice_before(answer), length = (int)answer.length;
    snprintf(said, ERROR_ROOM, "invalid URL: %s (rule %s at place %zu)%s%s%.*s", url_message(request, found, message),
             rule_name(found.rule, name), found.place + 1, joined, advice, length, (const char *)out);
    return said;
}

#endif
