/* The arguments of a call, and answers to it that are errors in place of a verdict. */
#ifndef URLCHECK_ARGUMENTS_H
#define URLCHECK_ARGUMENTS_H

#include "postgres.h"

#include "access/tupdesc.h"
#include "fmgr.h"

#include "request.h"

/*
 * Reads the arguments, as texts in UTF-8, whatever the database's encoding is: false if the url is NULL. A base that is
 * NULL is left out, and a profile that is NULL is the standard one. If `keeps` is set, the base is kept in fn_extra for the
 * next call from the same place.
 */
bool read_request(FunctionCallInfo fcinfo, request *request, bool keeps);

/* The row type that the function returns, looked up once for each place that calls it. */
TupleDesc row_type(FunctionCallInfo fcinfo);

/* A text of the database, of bytes in UTF-8. */
text *text_of(const uint8_t *bytes, size_t length);

/* What is wrong with the url at its first fault, as a text of the database. */
text *message_text(const request *request, urlcheck_finding found);

/* Raises an error unless the text was checked. */
void stop_unless_checked(const request *request, urlcheck_finding found);

/* Whether the text is refused, or isn't UTF-8. */
static inline bool is_refused(urlcheck_finding found) {
    return found.verdict == URLCHECK_REFUSED || found.verdict == URLCHECK_NO_UTF8;
}

/* The answer of the check. */
urlcheck_answer checked(const request *request);

/* A text that is made of the url, as write_request says, in `out`. */
urlcheck_mended written(const request *request, bool mends, uint8_t **out);

/* The place as SQL counts characters, from 1. */
static inline int32 sql_place(size_t place) { return (int32)place + 1; }

#endif
