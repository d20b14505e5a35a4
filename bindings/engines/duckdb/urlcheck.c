/* The extension for DuckDB: its functions, and where it is loaded. */
#include "rows.h"

DUCKDB_EXTENSION_EXTERN

/* Registers a function of one, two and three texts. The type of its answers is destroyed. */
static bool add(duckdb_connection connection, const char *name, int question, duckdb_logical_type gives) {
    duckdb_scalar_function_set set = duckdb_create_scalar_function_set(name);
    duckdb_logical_type text = duckdb_create_logical_type(DUCKDB_TYPE_VARCHAR);
    bool is_added;

    for (int count = 1; count <= 3; count++) {
        duckdb_scalar_function function = duckdb_create_scalar_function();
        duckdb_scalar_function_set_name(function, name);
        for (int at = 0; at < count; at++) duckdb_scalar_function_add_parameter(function, text);
        duckdb_scalar_function_set_return_type(function, gives);
        /* (a base that is NULL counts as none: the answer isn't NULL for it) */
        duckdb_scalar_function_set_special_handling(function);
        duckdb_scalar_function_set_extra_info(function, (void *)(intptr_t)question, NULL);
        duckdb_scalar_function_set_function(function, answer_rows);
        duckdb_add_scalar_function_to_set(set, function);
        duckdb_destroy_scalar_function(&function);
    }
    is_added = duckdb_register_scalar_function_set(connection, set) == DuckDBSuccess;
    duckdb_destroy_scalar_function_set(&set);
    duckdb_destroy_logical_type(&text);
    duckdb_destroy_logical_type(&gives);
    return is_added;
}

/* The version of the library, in each row of a call without arguments. */
static void answer_version(duckdb_function_info call, duckdb_data_chunk chunk, duckdb_vector out) {
    uint32_t number = urlcheck_version();
    idx_t rows = duckdb_data_chunk_get_size(chunk);
    char said[32];

    (void)call;
    snprintf(said, sizeof said, "%u.%u.%u", number / 10000, number / 100 % 100, number % 100);
    for (idx_t row = 0; row < rows; row++) put_words((cell){out, row}, said);
}

/* Registers urlcheck_version apart from the others, since it has no arguments and always gives the same. */
static bool add_version(duckdb_connection connection) {
    duckdb_scalar_function function = duckdb_create_scalar_function();
    duckdb_logical_type text = duckdb_create_logical_type(DUCKDB_TYPE_VARCHAR);
    bool is_added;

    duckdb_scalar_function_set_name(function, "urlcheck_version");
    duckdb_scalar_function_set_return_type(function, text);
    duckdb_scalar_function_set_function(function, answer_version);
    is_added = duckdb_register_scalar_function(connection, function) == DuckDBSuccess;
    duckdb_destroy_scalar_function(&function);
    duckdb_destroy_logical_type(&text);
    return is_added;
}

/* A function by its name, what it says of a url, and the type of that. */
typedef struct function {
    const char *name;
    int question;
    duckdb_type gives; /* of a type that isn't made of others */
} function;

static const function functions[] = {
    {"url_is_valid", IS_VALID, DUCKDB_TYPE_BOOLEAN},   {"url_require", REQUIRE, DUCKDB_TYPE_BOOLEAN},
    {"url_rule", RULE, DUCKDB_TYPE_VARCHAR},           {"url_place", PLACE, DUCKDB_TYPE_BIGINT},
    {"url_message", MESSAGE, DUCKDB_TYPE_VARCHAR},     {"url_scheme", PARTS, DUCKDB_TYPE_VARCHAR},
    {"url_host", PARTS + 1, DUCKDB_TYPE_VARCHAR},      {"url_port", PARTS + 2, DUCKDB_TYPE_VARCHAR},
    {"url_path", PARTS + 3, DUCKDB_TYPE_VARCHAR},      {"url_query", PARTS + 4, DUCKDB_TYPE_VARCHAR},
    {"url_fragment", PARTS + 5, DUCKDB_TYPE_VARCHAR},  {"url_resolve", RESOLVE, DUCKDB_TYPE_VARCHAR},
    {"url_mend", MEND, DUCKDB_TYPE_VARCHAR},           {"url_mend_kind", MEND_KIND, DUCKDB_TYPE_VARCHAR},
    {"url_mend_offered", MEND_OFFERED, DUCKDB_TYPE_BOOLEAN},
};

DUCKDB_EXTENSION_ENTRYPOINT(duckdb_connection connection, duckdb_extension_info info,
                            struct duckdb_extension_access *access) {
    bool is_added = add_version(connection) && add(connection, "url_check", CHECK, check_type()) &&
                    add(connection, "url_faults", FAULTS, faults_type());

    (void)info, (void)access;
    for (size_t at = 0; at < sizeof functions / sizeof *functions && is_added; at++) {
        const function *one = &functions[at];
        is_added = add(connection, one->name, one->question, duckdb_create_logical_type(one->gives));
    }
    return is_added;
}
