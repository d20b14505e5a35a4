/* The rows that come in, and the values that go out. */
#include "rows.h"

DUCKDB_EXTENSION_EXTERN

/* A column that comes in. */
typedef struct column {
    duckdb_string_t *texts;
    uint64_t *present; /* null if none is missing */
} column;

/* A column of a chunk, by its number. */
static column column_of(duckdb_data_chunk chunk, idx_t number) {
    duckdb_vector vector = duckdb_data_chunk_get_vector(chunk, number);
    column column = {duckdb_vector_get_data(vector), duckdb_vector_get_validity(vector)};

    return column;
}

/* False if the text of the row is NULL, or the column isn't there. */
static bool read_text(const column *column, idx_t row, slice *text) {
    if (!column->texts || (column->present && !duckdb_validity_row_is_valid(column->present, row))) return false;
    text->bytes = (const uint8_t *)duckdb_string_t_data(&column->texts[row]);
    text->length = duckdb_string_t_length(column->texts[row]);
    return true;
}

/* Whether two texts have the same bytes. */
static bool is_same(slice one, slice other) {
    return one.length == other.length && memcmp(one.bytes, other.bytes, one.length) == 0;
}

/* Checks the base, unless the row before has the same base and profile. */
static void hold_base(request *request, slice base, uint32_t profile) {
    bool is_held = request->prepared && request->own.profile == profile && is_same(request->base, base);

    request->base = base;
    if (!is_held) request->own = urlcheck_prepare(base.bytes, base.length, profile);
    request->prepared = &request->own;
}

/* Reads a row: false if the url is NULL, or the profile isn't one, which `error` says. */
static bool read_row(const column columns[3], idx_t row, request *request, const char **error) {
    slice base, name;
    int number = URLCHECK_STANDARD;

    if (!read_text(&columns[0], row, &request->url)) return false;
    if (read_text(&columns[2], row, &name)) number = profile_number((const char *)name.bytes, name.length);
    if (number < 0) {
        *error = NO_PROFILE;
        return false;
    }
    request->profile = (uint32_t)number;
    if (read_text(&columns[1], row, &base))
        hold_base(request, base, request->profile);
    else
        request->base = (slice){NULL, 0}, request->prepared = NULL;
    return true;
}

bool stops_without_memory(duckdb_function_info call) {
    duckdb_scalar_function_set_error(call, "urlcheck: out of memory");
    return true;
}

bool stops(duckdb_function_info call, const request *request, urlcheck_finding found) {
    char said[ERROR_ROOM];

    switch (end_of(request, found, said)) {
        case ANSWERED: return false;
        case WITHOUT_MEMORY: return stops_without_memory(call);
        default: duckdb_scalar_function_set_error(call, said); return true;
    }
}

void put_null(cell out) {
    duckdb_vector_ensure_validity_writable(out.column);
    duckdb_validity_set_row_invalid(duckdb_vector_get_validity(out.column), out.row);
}

void put_bool(cell out, bool value) { ((bool *)duckdb_vector_get_data(out.column))[out.row] = value; }

void put_place(cell out, size_t place) {
    ((int64_t *)duckdb_vector_get_data(out.column))[out.row] = (int64_t)place + 1;
}

void put_text(cell out, const void *bytes, size_t length) {
    duckdb_vector_assign_string_element_len(out.column, out.row, bytes, length);
}

void put_words(cell out, const char *words) { put_text(out, words, strlen(words)); }

/* Writes what the function says of a row: false if the call has ended with an error. */
static bool put_answer(duckdb_function_info call, cell out, question question, const request *request) {
    switch (question) {
        case CHECK: return put_check(call, out, request);
        case FAULTS: return put_faults(call, out, request);
        case RESOLVE:
        case MEND: return put_written(call, out, question, request);
        case MEND_KIND:
        case MEND_OFFERED: return put_mended(call, out, question, request);
        default: return put_verdict(call, out, question, request);
    }
}

void answer_rows(duckdb_function_info call, duckdb_data_chunk chunk, duckdb_vector out) {
    question question = (enum question)(intptr_t)duckdb_scalar_function_get_extra_info(call);
    idx_t count = duckdb_data_chunk_get_column_count(chunk), rows = duckdb_data_chunk_get_size(chunk);
    column columns[3] = {{0}};
    request request = {0};
    const char *error = NULL;
    bool goes_on = true;

    for (idx_t number = 0; number < count && number < 3; number++) columns[number] = column_of(chunk, number);
    for (idx_t row = 0; row < rows && goes_on; row++) {
        cell answer = {out, row};
        if (read_row(columns, row, &request, &error))
            goes_on = put_answer(call, answer, question, &request);
        else if (error)
            goes_on = false, duckdb_scalar_function_set_error(call, error);
        else if (question == CHECK)
            put_no_check(answer);
        else
            put_null(answer);
    }
}
