/* Texts that are made of a url: the text of its URL record, a valid one in its place, and the list of its faults. */
#include "arguments.h"

#include "access/htup_details.h"
#include "funcapi.h"
#include "miscadmin.h"
#include "utils/builtins.h"
#include "utils/memutils.h"

PG_FUNCTION_INFO_V1(pg_url_resolve);
PG_FUNCTION_INFO_V1(pg_url_mend);
PG_FUNCTION_INFO_V1(pg_url_mend_kind);
PG_FUNCTION_INFO_V1(pg_url_mend_offered);
PG_FUNCTION_INFO_V1(pg_url_faults);

/* The room that most texts fit in, so that one call writes them; a longer one is written by a second call. */
enum { MOST = 512 };

urlcheck_mended written(const request *request, bool mends, uint8_t **out) {
    urlcheck_mended answer;

    *out = palloc(MOST);
    answer = write_request(request, mends, *out, MOST);
    stop_unless_checked(request, answer.found);
    if (answer.length > MOST) {
        pfree(*out);
        *out = palloc(answer.length);
        stop_unless_checked(request, write_request(request, mends, *out, answer.length).found);
    }
    return answer;
}

Datum pg_url_resolve(PG_FUNCTION_ARGS) {
    request request;
    uint8_t *out;
    urlcheck_mended answer;

    if (!read_request(fcinfo, &request, true)) PG_RETURN_NULL();
    answer = written(&request, false, &out);
    if (answer.found.verdict != URLCHECK_VALID) PG_RETURN_NULL();
    PG_RETURN_TEXT_P(text_of(out, answer.length));
}

/* The url if it is valid, a mended text if one is given, and otherwise NULL. */
Datum pg_url_mend(PG_FUNCTION_ARGS) {
    request request;
    uint8_t *out;
    urlcheck_mended answer;

    if (!read_request(fcinfo, &request, true)) PG_RETURN_NULL();
    answer = written(&request, true, &out);
    if (answer.found.verdict == URLCHECK_VALID) PG_RETURN_TEXT_P(PG_GETARG_TEXT_PP(0));
    if (answer.found.verdict != URLCHECK_MENDED) PG_RETURN_NULL();
    PG_RETURN_TEXT_P(text_of(out, answer.length));
}

/* How the url is mended: false if it is valid, or no text is given in its place. */
static bool read_mended(FunctionCallInfo fcinfo, urlcheck_mended *answer) {
    request request;

    if (!read_request(fcinfo, &request, true)) return false;
    *answer = mend_request(&request, NULL, 0);
    stop_unless_checked(&request, answer->found);
    return answer->found.verdict == URLCHECK_MENDED;
}

Datum pg_url_mend_kind(PG_FUNCTION_ARGS) {
    urlcheck_mended answer;

    if (!read_mended(fcinfo, &answer)) PG_RETURN_NULL();
    PG_RETURN_TEXT_P(cstring_to_text(kind_name(answer.kind)));
}

Datum pg_url_mend_offered(PG_FUNCTION_ARGS) {
    urlcheck_mended answer;

    if (!read_mended(fcinfo, &answer)) PG_RETURN_NULL();
    PG_RETURN_BOOL(answer.offered != 0);
}

/*
 * The faults of a url, and how many there are. Few texts have more than 16; for those that have, the library is called
 * again. A list that the memory of one value can't hold is refused.
 */
static urlcheck_fault *list_faults(const request *request, uint64 *count) {
    size_t room = 16, most = MaxAllocSize / sizeof(urlcheck_fault);
    urlcheck_fault *list = palloc(room * sizeof *list);
    urlcheck_fault_count answer = list_request(request, list, room);

    if (answer.count > room) {
        room = answer.count;
        pfree(list);
        if (room > most)
            ereport(ERROR, (errcode(ERRCODE_PROGRAM_LIMIT_EXCEEDED),
                            errmsg("number of faults (%zu) exceeds limit (%zu)", room, most)));
        list = palloc(room * sizeof *list);
        answer = list_request(request, list, room);
    }
    stop_unless_checked(request, answer.found);
    *count = answer.count;
    return list;
}

/* What the calls of one list hold. */
typedef struct listed {
    request request;
    urlcheck_fault *faults;
} listed;

/* The row of a fault: its rule, its place and its message. */
static HeapTuple fault_row(TupleDesc row, const listed *listed, uint64 number) {
    char name[NAME_ROOM], message[MESSAGE_ROOM];
    urlcheck_fault fault = listed->faults[number];
    const char *said = fault_message(&listed->request, fault, message);
    Datum values[3];
    bool nulls[3] = {false, false, false};

    values[0] = CStringGetTextDatum(rule_name(fault.rule, name));
    values[1] = Int32GetDatum(sql_place(fault.place));
    values[2] = PointerGetDatum(text_of((const uint8_t *)said, strlen(said)));
    return heap_form_tuple(row, values, nulls);
}

/* Keeps the url as long as its list, where messages read it. */
static void keep_url(slice *url) {
    uint8_t *copy;

    if (url->length > NAMING) return;
    copy = palloc(url->length + 1);
    memcpy(copy, url->bytes, url->length);
    url->bytes = copy;
}

/* What the first call of a list does for all: it reads the arguments, and finds the faults. */
static void begin_faults(FunctionCallInfo fcinfo, FuncCallContext *calls) {
    MemoryContext before = MemoryContextSwitchTo(calls->multi_call_memory_ctx);
    listed *listed = palloc0(sizeof *listed);
    TupleDesc row;

    if (get_call_result_type(fcinfo, NULL, &row) != TYPEFUNC_COMPOSITE)
        elog(ERROR, "return type must be a row type");
    calls->tuple_desc = BlessTupleDesc(row);
    calls->max_calls = 0;
    calls->user_fctx = listed;
    /* (the base can't be kept in fn_extra, which the calls of one list hold) */
    if (read_request(fcinfo, &listed->request, false)) {
        keep_url(&listed->request.url);
        listed->faults = list_faults(&listed->request, &calls->max_calls);
    }
    MemoryContextSwitchTo(before);
}

Datum pg_url_faults(PG_FUNCTION_ARGS) {
    FuncCallContext *calls;
    HeapTuple row;

    if (SRF_IS_FIRSTCALL()) begin_faults(fcinfo, SRF_FIRSTCALL_INIT());
    calls = SRF_PERCALL_SETUP();
    CHECK_FOR_INTERRUPTS();
    if (calls->call_cntr >= calls->max_calls) SRF_RETURN_DONE(calls);
    row = fault_row(calls->tuple_desc, calls->user_fctx, calls->call_cntr);
    SRF_RETURN_NEXT(calls, HeapTupleGetDatum(row));
}
