/* Rows in DuckDB: what a call of (url [, base [, profile]]) asks in each, and what is written as its answer. */
#ifndef URLCHECK_ROWS_H
#define URLCHECK_ROWS_H

/* (by the stable C extension API, which later versions of DuckDB keep) */
#define DUCKDB_EXTENSION_API_VERSION_MAJOR 1
#define DUCKDB_EXTENSION_API_VERSION_MINOR 2
#define DUCKDB_EXTENSION_API_VERSION_PATCH 0
#define DUCKDB_EXTENSION_NAME urlcheck
#include "duckdb_extension.h"

#include "errors.h"

/* What a function says of a url: what is handed to each as its extra info. PARTS is the first part, and others follow. */
typedef enum question {
    IS_VALID, REQUIRE, RULE, PLACE, MESSAGE, CHECK, FAULTS, RESOLVE, MEND, MEND_KIND, MEND_OFFERED, PARTS
} question;

/* A row of a column. */
typedef struct cell {
    duckdb_vector column;
    idx_t row;
} cell;

/* Answers each row of a chunk of arguments. */
void answer_rows(duckdb_function_info call, duckdb_data_chunk chunk, duckdb_vector out);

/* Ends the call with an error if the text wasn't checked: true if it has ended. */
bool stops(duckdb_function_info call, const request *request, urlcheck_finding found);
bool stops_without_memory(duckdb_function_info call);

/* Writes a value of a row. */
void put_null(cell out);
void put_bool(cell out, bool value);
void put_place(cell out, size_t place);
void put_text(cell out, const void *bytes, size_t length);
void put_words(cell out, const char *words);

/* Writes the answer of a row: false if the call has ended with an error. */
bool put_verdict(duckdb_function_info call, cell out, question question, const request *request);
bool put_written(duckdb_function_info call, cell out, question question, const request *request);
bool put_mended(duckdb_function_info call, cell out, question question, const request *request);
bool put_check(duckdb_function_info call, cell out, const request *request);
bool put_faults(duckdb_function_info call, cell out, const request *request);

/* A row of url_check that is NULL. */
void put_no_check(cell out);

/* The types of url_check's answer and of url_faults', to be destroyed. */
duckdb_logical_type check_type(void);
duckdb_logical_type faults_type(void);

#endif
