/* The arguments of the functions: texts in the database's encoding, profiles by name, bases that are checked once. */
#include "arguments.h"

#include "catalog/namespace.h"
#include "funcapi.h"
#include "mb/pg_wchar.h"
#include "utils/builtins.h"
#include "utils/memutils.h"

/* What is kept between the calls from one place of a statement, in fn_extra. */
typedef struct kept {
    slice text; /* of the base */
    urlcheck_base base;
    TupleDesc row;
} kept;

/* What is kept for this place of the statement, which begins as zeros. */
static kept *kept_of(FmgrInfo *place) {
    if (place->fn_extra == NULL) place->fn_extra = MemoryContextAllocZero(place->fn_mcxt, sizeof(kept));
    return place->fn_extra;
}

/* Whether bytes mean the same in UTF-8 as in the encoding, as ASCII does in each that a server can have. */
static bool is_plain(const char *bytes, size_t length, int encoding) {
    if (encoding == PG_UTF8 || encoding == PG_SQL_ASCII) return true;
    for (size_t at = 0; at < length; at++)
        if (IS_HIGHBIT_SET(bytes[at])) return false;
    return true;
}

#if PG_VERSION_NUM >= 140000
/* The text in UTF-8. If only its beginning has a form in UTF-8, that ends with a byte that no UTF-8 has. */
static slice in_utf8(const char *bytes, int length, int encoding) {
    Oid conversion = FindDefaultConversionProc(encoding, PG_UTF8);
    size_t room = (size_t)length * MAX_CONVERSION_GROWTH + 2;
    char *out;
    int taken;
    slice read;

    if (!OidIsValid(conversion))
        ereport(ERROR, (errcode(ERRCODE_UNDEFINED_FUNCTION),
                        errmsg("no default conversion to UTF8 exists for the encoding \"%s\"",
                               pg_encoding_to_char(encoding))));
    if (room > MaxAllocSize) room = MaxAllocSize;
    out = palloc(room);
    taken = pg_do_encoding_conversion_buf(conversion, encoding, PG_UTF8, (unsigned char *)bytes, length,
                                          (unsigned char *)out, (int)room - 1, true);
    read.bytes = (const uint8_t *)out;
    read.length = strlen(out);
    if (taken < length) out[read.length++] = '\xff';
    return read;
}
#else
/* The text in UTF-8, or an error if it has no form there. */
static slice in_utf8(const char *bytes, int length, int encoding) {
    slice read;

    read.bytes = (const uint8_t *)pg_server_to_any(bytes, length, PG_UTF8);
    read.length = strlen((const char *)read.bytes);
    return read;
}
#endif

/* An argument in UTF-8: its own bytes if they mean the same, otherwise converted ones. */
static slice slice_of(text *argument) {
    const char *bytes = VARDATA_ANY(argument);
    int length = VARSIZE_ANY_EXHDR(argument), encoding = GetDatabaseEncoding();
    slice read = {(const uint8_t *)bytes, (size_t)length};

    return is_plain(bytes, read.length, encoding) ? read : in_utf8(bytes, length, encoding);
}

text *text_of(const uint8_t *bytes, size_t length) {
    const char *written = (const char *)bytes;

    if (!is_plain(written, length, GetDatabaseEncoding())) {
        const char *converted = pg_any_to_server(written, (int)length, PG_UTF8);
        if (converted != written) return cstring_to_text(converted);
    }
    return cstring_to_text_with_len(written, (int)length);
}

/* A message, which is in UTF-8, as a text of the database. */
static text *text_of_message(const char *message) { return text_of((const uint8_t *)message, strlen(message)); }

text *message_text(const request *request, urlcheck_finding found) {
    char message[MESSAGE_ROOM];

    return text_of_message(url_message(request, found, message));
}

/* The number of the profile that has the name, or an error. */
static uint32_t profile_of(text *argument) {
    int number = profile_number(VARDATA_ANY(argument), VARSIZE_ANY_EXHDR(argument));

    if (number < 0)
        ereport(ERROR,
                (errcode(ERRCODE_INVALID_PARAMETER_VALUE),
                 errmsg("unrecognized profile: \"%s\"", text_to_cstring(argument)),
                 errhint("Valid profiles are " PROFILE_NAMES ".")));
    return (uint32_t)number;
}

/* The base, checked again unless the last call from the same place had it. */
static const urlcheck_base *kept_base(kept *kept, slice base, uint32_t profile, MemoryContext context) {
    bool is_kept = kept->text.bytes != NULL && kept->text.length == base.length && kept->base.profile == profile &&
                   memcmp(kept->text.bytes, base.bytes, base.length) == 0;

    if (!is_kept) {
        uint8_t *bytes = MemoryContextAlloc(context, base.length + 1);

        memcpy(bytes, base.bytes, base.length);
        if (kept->text.bytes != NULL) pfree((void *)kept->text.bytes);
        kept->text.bytes = bytes, kept->text.length = base.length;
        kept->base = urlcheck_prepare(bytes, base.length, profile);
    }
    return &kept->base;
}

bool read_request(FunctionCallInfo fcinfo, request *request, bool keeps) {
    FmgrInfo *place = fcinfo->flinfo;

    if (PG_ARGISNULL(0)) return false;
    memset(request, 0, sizeof *request);
    request->url = slice_of(PG_GETARG_TEXT_PP(0));
    if (PG_NARGS() > 2 && !PG_ARGISNULL(2)) request->profile = profile_of(PG_GETARG_TEXT_PP(2));
    if (PG_NARGS() <= 1 || PG_ARGISNULL(1)) return true;
    request->base = slice_of(PG_GETARG_TEXT_PP(1));
    request->prepared = &request->own;
    if (keeps)
        request->prepared = kept_base(kept_of(place), request->base, request->profile, place->fn_mcxt);
    else
        request->own = urlcheck_prepare(request->base.bytes, request->base.length, request->profile);
    return true;
}

TupleDesc row_type(FunctionCallInfo fcinfo) {
    kept *kept = kept_of(fcinfo->flinfo);

    if (kept->row == NULL) {
        MemoryContext before = MemoryContextSwitchTo(fcinfo->flinfo->fn_mcxt);
        TupleDesc row;

        if (get_call_result_type(fcinfo, NULL, &row) != TYPEFUNC_COMPOSITE)
            elog(ERROR, "return type must be a row type");
        kept->row = BlessTupleDesc(row);
        MemoryContextSwitchTo(before);
    }
    return kept->row;
}

/* Raises the error for a base that is refused, or isn't UTF-8. */
static void stop_for_base(const request *request, urlcheck_finding found) {
    char name[NAME_ROOM], message[MESSAGE_ROOM];
    int code = found.verdict == URLCHECK_BASE_REFUSED ? ERRCODE_INVALID_PARAMETER_VALUE
                                                      : ERRCODE_CHARACTER_NOT_IN_REPERTOIRE;
    text *said = text_of_message(base_message(request, found, message));

    ereport(ERROR, (errcode(code), errmsg("invalid base URL: %s", text_to_cstring(said)),
                    errdetail("Rule %s at place %d of the base.", rule_name(found.rule, name),
                              sql_place(found.place))));
}

void stop_unless_checked(const request *request, urlcheck_finding found) {
    switch (found.verdict) {
        case URLCHECK_VALID:
        case URLCHECK_REFUSED:
        case URLCHECK_NO_UTF8:
        case URLCHECK_MENDED: return;
        case URLCHECK_BASE_REFUSED:
        case URLCHECK_BASE_NO_UTF8: stop_for_base(request, found); break;
        case URLCHECK_MEMORY:
            ereport(ERROR, (errcode(ERRCODE_OUT_OF_MEMORY), errmsg("out of memory"),
                            errdetail("Failed while checking a URL of %zu bytes.", request->url.length)));
            break;
        default: elog(ERROR, "unexpected verdict of urlcheck: %u", found.verdict);
    }
}

urlcheck_answer checked(const request *request) {
    urlcheck_answer answer = check_request(request);

    stop_unless_checked(request, answer.found);
    return answer;
}
