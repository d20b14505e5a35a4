/* What is said about a row by several values: the whole check as a STRUCT, and its faults as a list of them. */
#include <stdlib.h>

#include "rows.h"

DUCKDB_EXTENSION_EXTERN

/* The members of a check and of a fault. */
enum { VALID, FIRST_RULE, FIRST_PLACE, FIRST_MESSAGE, FIRST_PART, CHECK_MEMBERS = FIRST_PART + PART_COUNT };
enum { FAULT_RULE, FAULT_PLACE, FAULT_MESSAGE, FAULT_MEMBERS };

/* A STRUCT of these members: those that aren't texts are named by their places. */
static duckdb_logical_type struct_of(const char **names, int count, int truth, int place) {
    duckdb_logical_type members[CHECK_MEMBERS], made;

    for (int at = 0; at < count; at++)
        members[at] = duckdb_create_logical_type(at == truth   ? DUCKDB_TYPE_BOOLEAN
                                                 : at == place ? DUCKDB_TYPE_BIGINT
                                                               : DUCKDB_TYPE_VARCHAR);
    made = duckdb_create_struct_type(members, names, (idx_t)count);
    for (int at = 0; at < count; at++) duckdb_destroy_logical_type(&members[at]);
    return made;
}

duckdb_logical_type check_type(void) {
    const char *names[CHECK_MEMBERS] = {"valid", "rule", "place", "message",  "scheme",
                                        "host",  "port", "path",  "query", "fragment"};

    return struct_of(names, CHECK_MEMBERS, VALID, FIRST_PLACE);
}

duckdb_logical_type faults_type(void) {
    const char *names[FAULT_MEMBERS] = {"rule", "place", "message"};
    duckdb_logical_type fault = struct_of(names, FAULT_MEMBERS, -1, FAULT_PLACE), made = duckdb_create_list_type(fault);

    duckdb_destroy_logical_type(&fault);
    return made;
}

/* A member of a STRUCT in a row. */
static cell member(cell of, idx_t number) {
    cell found = {duckdb_struct_vector_get_child(of.column, number), of.row};

    return found;
}

void put_no_check(cell out) {
    put_null(out);
    /* (of a STRUCT that is NULL each member is) */
    for (int number = 0; number < CHECK_MEMBERS; number++) put_null(member(out, (idx_t)number));
}

bool put_check(duckdb_function_info call, cell out, const request *request) {
    urlcheck_answer answer = check_request(request);
    bool is_valid = answer.found.verdict == URLCHECK_VALID;
    char words[MESSAGE_ROOM];

    if (stops(call, request, answer.found)) return false;
    put_bool(member(out, VALID), is_valid);
    for (int number = FIRST_RULE; number < FIRST_PART && is_valid; number++) put_null(member(out, (idx_t)number));
    if (!is_valid) {
        put_words(member(out, FIRST_RULE), rule_name(answer.found.rule, words));
        put_place(member(out, FIRST_PLACE), answer.found.place);
        put_words(member(out, FIRST_MESSAGE), url_message(request, answer.found, words));
    }
    for (int number = 0; number < PART_COUNT; number++) {
        cell one = member(out, (idx_t)(FIRST_PART + number));
        urlcheck_span span = part_of(&answer.parts, number);
        if (span.present)
            put_text(one, request->url.bytes + span.start, span.length);
        else
            put_null(one);
    }
    return true;
}

/*
 * The faults of a url, to be freed, and how many there are; null if there is no memory for them. Few texts have more
 * than 16; for those that have, the library is called again.
 */
static urlcheck_fault *list_faults(const request *request, urlcheck_fault_count *answer) {
    size_t room = 16;
    urlcheck_fault *list = malloc(room * sizeof *list);

    if (list) *answer = list_request(request, list, room);
    if (list && answer->count > room) {
        room = answer->count;
        free(list);
        list = malloc(room * sizeof *list);
        if (list) *answer = list_request(request, list, room);
    }
    return list;
}

/* Makes room for the elements of one more row: false if there is no memory. */
static bool add_elements(cell out, idx_t count, idx_t *first) {
    duckdb_list_entry *entry = (duckdb_list_entry *)duckdb_vector_get_data(out.column) + out.row;

    *first = duckdb_list_vector_get_size(out.column);
    entry->offset = *first, entry->length = count;
    return duckdb_list_vector_reserve(out.column, *first + count) == DuckDBSuccess &&
           duckdb_list_vector_set_size(out.column, *first + count) == DuckDBSuccess;
}

bool put_faults(duckdb_function_info call, cell out, const request *request) {
    urlcheck_fault_count answer = {{URLCHECK_MEMORY, 0, 0, 0}, 0};
    urlcheck_fault *list = list_faults(request, &answer);
    bool is_done = list && !stops(call, request, answer.found);
    char words[MESSAGE_ROOM];
    cell element;

    if (!list) stops_without_memory(call);
    if (is_done && !add_elements(out, answer.count, &element.row)) is_done = !stops_without_memory(call);
    if (is_done) element.column = duckdb_list_vector_get_child(out.column);
    for (size_t at = 0; at < answer.count && is_done; at++, element.row++) {
        put_words(member(element, FAULT_RULE), rule_name(list[at].rule, words));
        put_place(member(element, FAULT_PLACE), list[at].place);
        put_words(member(element, FAULT_MESSAGE), fault_message(request, list[at], words));
    }
    free(list);
    return is_done;
}
