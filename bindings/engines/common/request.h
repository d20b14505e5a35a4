/*
 * What a call of (url [, base [, profile]]) asks in each engine, and the library's answers to it. A place is said as SQL
 * counts characters, from 1, so that substr(url, place, 1) is what is there.
 */
#ifndef URLCHECK_REQUEST_H
#define URLCHECK_REQUEST_H

#include "names.h"

/* Bytes that are read as UTF-8. */
typedef struct slice {
    const uint8_t *bytes;
    size_t length;
} slice;

/* What a call asks. If the url is checked by itself, the base's bytes and `prepared` are null. */
typedef struct request {
    slice url;
    slice base;
    const urlcheck_base *prepared; /* the base, checked under the profile */
    urlcheck_base own;             /* what `prepared` points to if nothing else holds it */
    uint32_t profile;
} request;

/* The verdict on the url, with its parts. */
static inline urlcheck_answer check_request(const request *request) {
    return urlcheck_check(request->url.bytes, request->url.length, request->profile, request->prepared);
}

/* The faults of the url. Bytes that aren't UTF-8 are one fault, of no rule. */
static inline urlcheck_fault_count list_request(const request *request, urlcheck_fault *out, size_t room) {
    urlcheck_fault_count answer =
        urlcheck_faults(request->url.bytes, request->url.length, request->profile, request->prepared, out, room);

    if (answer.found.verdict == URLCHECK_NO_UTF8 && room > 0) {
        out[0] = (urlcheck_fault){0, answer.found.place, answer.found.byte_place};
        answer.count = 1;
    }
    return answer;
}

/* A valid text in the url's place. */
static inline urlcheck_mended mend_request(const request *request, uint8_t *out, size_t room) {
    slice url = request->url, base = request->base;

    return urlcheck_mend(url.bytes, url.length, request->profile, base.bytes, base.length, out, room);
}

/* A text that is made of the url: a valid one in its place, or the text of its URL record, whose kind is 0. */
static inline urlcheck_mended write_request(const request *request, int mends, uint8_t *out, size_t room) {
    slice url = request->url, base = request->base;
    urlcheck_mended answer = {{0, 0, 0, 0}, 0, 0, 0};
    urlcheck_record record;

    if (mends) return mend_request(request, out, room);
    record = urlcheck_resolve(url.bytes, url.length, request->profile, base.bytes, base.length, out, room);
    answer.found = record.found, answer.length = record.length;
    return answer;
}

/* How many parts there are. Each engine has a function for each, by its number in the order of urlcheck_spans. */
enum { PART_COUNT = 6 };

static inline urlcheck_span part_of(const urlcheck_spans *parts, int part) {
    const urlcheck_span all[PART_COUNT] = {parts->scheme, parts->host,  parts->port,
                                           parts->path,   parts->query, parts->fragment};
    return all[part];
}

/* Room for the longest message, with its NUL. */
enum { MESSAGE_ROOM = 256 };

/* The sentence of a rule, which knows no text. */
static inline const char *rule_sentence(uint32_t rule, char message[MESSAGE_ROOM]) {
    size_t length = urlcheck_text(URLCHECK_RULE_SENTENCE, rule, (uint8_t *)message, MESSAGE_ROOM - 1);

    /* (a later library may have a longer sentence, of which nothing is written) */
    if (length >= MESSAGE_ROOM) return "it is not a valid URL string";
    message[length] = 0;
    return message;
}

/*
 * What is wrong with a text at a place by a rule; if there is no memory for that, the sentence of the rule. Of bytes
 * that aren't UTF-8 no rule says anything.
 */
static inline const char *message_on(slice text, uint32_t profile, const urlcheck_base *base, urlcheck_finding found,
                                     char message[MESSAGE_ROOM]) {
    urlcheck_written written;

    if (found.rule == 0) return "the bytes from here on are not UTF-8";
    written = urlcheck_message(text.bytes, text.length, profile, base, URLCHECK_WORDING_SQL, found.rule, found.place,
                               (uint8_t *)message, MESSAGE_ROOM - 1);
    if (written.found.verdict != URLCHECK_DONE || written.length >= MESSAGE_ROOM)
        return rule_sentence(found.rule, message);
    message[written.length] = 0;
    return message;
}

/* What is wrong with the url at its first fault. */
static inline const char *url_message(const request *request, urlcheck_finding found, char message[MESSAGE_ROOM]) {
    return message_on(request->url, request->profile, request->prepared, found, message);
}

/* A message takes time by the length of its text, so all faults of a longer one would take the square of that. */
enum { NAMING = 4096 };

/* What is wrong with the url at one of its faults: in a text that is longer than NAMING, the sentence of the rule. */
static inline const char *fault_message(const request *request, urlcheck_fault fault, char message[MESSAGE_ROOM]) {
    urlcheck_finding found = {URLCHECK_REFUSED, fault.rule, fault.place, fault.byte_place};

    if (fault.rule != 0 && request->url.length > NAMING) return rule_sentence(fault.rule, message);
    return url_message(request, found, message);
}

/* Why the base is refused. (It has no base, so the sentence of `no-scheme`, which speaks of one, isn't meant.) */
static inline const char *base_message(const request *request, urlcheck_finding found, char message[MESSAGE_ROOM]) {
    if (found.rule == URLCHECK_NO_SCHEME) return "it has no scheme";
    return message_on(request->base, request->profile, NULL, found, message);
}

#endif
