/*
 * The tables of (url [, base [, profile]]): url_check has a row with all that is said about a url, and url_faults one
 * for each of its faults. The arguments are hidden columns after the others.
 */
#include "arguments.h"

SQLITE_EXTENSION_INIT3

/* The columns of url_faults and of url_check, in the order of the statements below, and after them the hidden ones. */
enum { RULE, PLACE, MESSAGE, FAULT_COLUMNS };
enum { VALID, FIRST_RULE, FIRST_PLACE, FIRST_MESSAGE, PARTS, CHECK_COLUMNS = PARTS + PART_COUNT };
enum { URL, BASE, PROFILE, ARGUMENTS };

/* A table, which SQLite knows by its head. */
typedef struct table {
    sqlite3_vtab head;
    int columns; /* before the hidden ones */
} table;

/* A reading of a table by one statement. */
typedef struct cursor {
    sqlite3_vtab_cursor head;
    sqlite3_value *arguments[ARGUMENTS]; /* copies, null if not given */
    request request;                     /* whose bytes are in the copies */
    urlcheck_answer answer;              /* of url_check */
    urlcheck_fault *faults;              /* of url_faults */
    size_t rows;
    size_t at;
} cursor;

/* Makes a table with these columns, of which `count` come before the hidden ones. */
static int connect_to(sqlite3 *database, const char *columns, int count, sqlite3_vtab **out) {
    int code = sqlite3_declare_vtab(database, columns);
    table *made;

    if (code != SQLITE_OK) return code;
    made = sqlite3_malloc(sizeof *made);
    if (!made) return SQLITE_NOMEM;
    memset(made, 0, sizeof *made);
    made->columns = count;
    *out = &made->head;
    return sqlite3_vtab_config(database, SQLITE_VTAB_INNOCUOUS);
}

static int connect_check(sqlite3 *database, void *data, int count, const char *const *words, sqlite3_vtab **out,
                         char **message) {
    (void)data, (void)count, (void)words, (void)message;
    return connect_to(database,
                      "CREATE TABLE url_check(valid INTEGER, rule TEXT, place INTEGER, message TEXT, scheme TEXT, "
                      "host TEXT, port TEXT, path TEXT, query TEXT, fragment TEXT, url HIDDEN, base HIDDEN, "
                      "profile HIDDEN)",
                      CHECK_COLUMNS, out);
}

static int connect_faults(sqlite3 *database, void *data, int count, const char *const *words, sqlite3_vtab **out,
                          char **message) {
    (void)data, (void)count, (void)words, (void)message;
    return connect_to(database,
                      "CREATE TABLE url_faults(rule TEXT, place INTEGER, message TEXT, url HIDDEN, base HIDDEN, "
                      "profile HIDDEN)",
                      FAULT_COLUMNS, out);
}

static int disconnect(sqlite3_vtab *made) {
    sqlite3_free(made);
    return SQLITE_OK;
}

/* Ends a call with an error. SQLite takes the message over; without memory for one it is null. */
static int fail(sqlite3_vtab *made, char *message) {
    sqlite3_free(made->zErrMsg);
    made->zErrMsg = message;
    return message ? SQLITE_ERROR : SQLITE_NOMEM;
}

/* Which constraint gives each argument: false if one that is given can't be used in this plan. */
static int find_arguments(const sqlite3_index_info *info, int columns, int found[ARGUMENTS]) {
    for (int at = 0; at < info->nConstraint; at++) {
        int argument = info->aConstraint[at].iColumn - columns;
        if (argument < 0 || info->aConstraint[at].op != SQLITE_INDEX_CONSTRAINT_EQ) continue;
        if (!info->aConstraint[at].usable) return 0;
        found[argument] = at;
    }
    return 1;
}

/*
 * Plans a reading: the arguments become its values, and idxNum has a bit for each that is given. A plan in which a
 * given argument isn't usable is refused, so SQLite looks for another. A table has few rows, and so a low cost.
 */
static int best_index(sqlite3_vtab *made, sqlite3_index_info *info) {
    int found[ARGUMENTS] = {-1, -1, -1}, count = 0;

    if (!find_arguments(info, ((table *)made)->columns, found)) return SQLITE_CONSTRAINT;
    if (found[URL] < 0) return fail(made, sqlite3_mprintf("a url is wanted: (url [, base [, profile]])"));
    for (int argument = 0; argument < ARGUMENTS; argument++) {
        if (found[argument] < 0) continue;
        info->aConstraintUsage[found[argument]].argvIndex = ++count;
        info->aConstraintUsage[found[argument]].omit = 1;
        info->idxNum |= 1 << argument;
    }
    info->estimatedCost = 2;
    info->estimatedRows = 2;
    return SQLITE_OK;
}

static int open_cursor(sqlite3_vtab *made, sqlite3_vtab_cursor **out) {
    cursor *opened = sqlite3_malloc(sizeof *opened);

    (void)made;
    if (!opened) return SQLITE_NOMEM;
    memset(opened, 0, sizeof *opened);
    *out = &opened->head;
    return SQLITE_OK;
}

/* Gives back what the rows of a cursor hold. */
static void clear(cursor *held) {
    for (int argument = 0; argument < ARGUMENTS; argument++) {
        sqlite3_value_free(held->arguments[argument]);
        held->arguments[argument] = NULL;
    }
    sqlite3_free(held->faults);
    held->faults = NULL;
    held->rows = held->at = 0;
}

static int close_cursor(sqlite3_vtab_cursor *head) {
    clear((cursor *)head);
    sqlite3_free(head);
    return SQLITE_OK;
}

/* The rows of url_faults. Few texts have more than 16 faults; for those that have, the library is called again. */
static int list_faults(cursor *held, urlcheck_finding *found) {
    size_t room = 16;
    urlcheck_fault_count answer;

    for (;;) {
        sqlite3_free(held->faults);
        held->faults = sqlite3_malloc64(room * sizeof *held->faults);
        if (!held->faults) return SQLITE_NOMEM;
        answer = list_request(&held->request, held->faults, room);
        if (answer.count <= room) break;
        room = answer.count;
    }
    *found = answer.found;
    held->rows = answer.count;
    return SQLITE_OK;
}

/* Checks the url of a reading, which gives the rows of its table. */
static int find_rows(cursor *held) {
    sqlite3_vtab *made = held->head.pVtab;
    urlcheck_finding found;
    char *message = NULL;
    int code = SQLITE_OK;

    if (((table *)made)->columns == CHECK_COLUMNS) {
        held->answer = check_request(&held->request);
        held->rows = 1;
        found = held->answer.found;
    } else {
        code = list_faults(held, &found);
    }
    if (code != SQLITE_OK || is_checked(&held->request, found, &message, &code)) return code;
    held->rows = 0;
    return message ? fail(made, message) : SQLITE_NOMEM;
}

/* Begins a reading: `given` has the bits that best_index has set. Without a url, or for NULL, there are no rows. */
static int filter(sqlite3_vtab_cursor *head, int given, const char *text, int count, sqlite3_value **values) {
    cursor *held = (cursor *)head;
    int next = 0;

    (void)text, (void)count;
    clear(held);
    for (int argument = 0; argument < ARGUMENTS; argument++) {
        if (!(given >> argument & 1)) continue;
        held->arguments[argument] = sqlite3_value_dup(values[next++]);
        if (!held->arguments[argument]) return SQLITE_NOMEM;
    }
    switch (read_request(&held->request, held->arguments[URL], held->arguments[BASE], held->arguments[PROFILE], NULL)) {
        case READ_NULL: return SQLITE_OK;
        case READ_NO_MEMORY: return SQLITE_NOMEM;
        case READ_NO_PROFILE:
            return fail(head->pVtab, sqlite3_mprintf(NO_PROFILE));
        default: return find_rows(held);
    }
}

static int next(sqlite3_vtab_cursor *head) {
    ((cursor *)head)->at++;
    return SQLITE_OK;
}

static int is_at_end(sqlite3_vtab_cursor *head) { return ((cursor *)head)->at >= ((cursor *)head)->rows; }

/* A column of a fault. */
static void result_fault(sqlite3_context *call, const request *request, urlcheck_fault fault, int column) {
    char words[MESSAGE_ROOM];

    switch (column) {
        case RULE: sqlite3_result_text(call, rule_name(fault.rule, words), -1, SQLITE_TRANSIENT); break;
        case PLACE: sqlite3_result_int64(call, (sqlite3_int64)fault.place + 1); break;
        default: sqlite3_result_text(call, fault_message(request, fault, words), -1, SQLITE_TRANSIENT); break;
    }
}

/* A column of the first fault, whose message names the code point in texts of any length. */
static void result_first(sqlite3_context *call, const request *request, urlcheck_finding found, int column) {
    char words[MESSAGE_ROOM];
    urlcheck_fault fault = {found.rule, found.place, found.byte_place};

    if (column == MESSAGE)
        sqlite3_result_text(call, url_message(request, found, words), -1, SQLITE_TRANSIENT);
    else
        result_fault(call, request, fault, column);
}

/* A column of url_check: of a valid url its parts, of a refused one its first fault. */
static void result_answer(sqlite3_context *call, const cursor *held, int column) {
    urlcheck_finding found = held->answer.found;
    int is_valid = found.verdict == URLCHECK_VALID;
    urlcheck_span span;

    if (column == VALID) {
        sqlite3_result_int(call, is_valid);
    } else if (column < PARTS) {
        if (!is_valid) result_first(call, &held->request, found, column - FIRST_RULE);
    } else {
        span = part_of(&held->answer.parts, column - PARTS);
        if (span.present)
            sqlite3_result_text64(call, (const char *)held->request.url.bytes + span.start, span.length,
                                  SQLITE_TRANSIENT, SQLITE_UTF8);
    }
}

/* A column of the row; those after the table's own are the arguments again. */
static int result_column(sqlite3_vtab_cursor *head, sqlite3_context *call, int column) {
    const cursor *held = (const cursor *)head;
    int columns = ((const table *)head->pVtab)->columns;

    if (column >= columns) {
        if (held->arguments[column - columns]) sqlite3_result_value(call, held->arguments[column - columns]);
    } else if (columns == CHECK_COLUMNS) {
        result_answer(call, held, column);
    } else {
        result_fault(call, &held->request, held->faults[held->at], column);
    }
    return SQLITE_OK;
}

static int row_number(sqlite3_vtab_cursor *head, sqlite3_int64 *number) {
    *number = (sqlite3_int64)((cursor *)head)->at;
    return SQLITE_OK;
}

/* (without xCreate a table is there for each connection, by its name) */
#define TABLE(connect)                                                                                                 \
    {                                                                                                                  \
        .xConnect = connect, .xBestIndex = best_index, .xDisconnect = disconnect, .xOpen = open_cursor,                \
        .xClose = close_cursor, .xFilter = filter, .xNext = next, .xEof = is_at_end, .xColumn = result_column,         \
        .xRowid = row_number                                                                                           \
    }

static const sqlite3_module check_table = TABLE(connect_check);
static const sqlite3_module faults_table = TABLE(connect_faults);

int register_tables(sqlite3 *database) {
    int code = sqlite3_create_module(database, "url_check", &check_table, NULL);

    return code == SQLITE_OK ? sqlite3_create_module(database, "url_faults", &faults_table, NULL) : code;
}
