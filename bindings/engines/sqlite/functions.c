/* The loadable extension for SQLite: its functions of (url [, base [, profile]]), and where it is loaded. */
#include "arguments.h"

SQLITE_EXTENSION_INIT1

/* What a function says of a url: what is handed to each as its user data. */
typedef enum question { IS_VALID, REQUIRE, RULE, PLACE, MESSAGE, RESOLVE, MEND, MEND_KIND, MEND_OFFERED, PARTS } question;

/* The room that most texts fit in, so that one call writes them; a longer one is written by a second call. */
enum { MOST = 512 };

/* Which of the functions SQLite calls. */
static question question_of(sqlite3_context *call) { return (question)(intptr_t)sqlite3_user_data(call); }

/* Ends the call with an error where its text wasn't checked. */
static int stops(sqlite3_context *call, const request *request, urlcheck_finding found) {
    char *message = NULL;
    int code = SQLITE_OK;

    if (is_checked(request, found, &message, &code)) return 0;
    if (message) sqlite3_result_error(call, message, -1);
    if (!message) sqlite3_result_error_nomem(call);
    sqlite3_free(message);
    return 1;
}

/* Reads the arguments: false if the call has ended. A base that is constant is checked once. */
static int read_call(sqlite3_context *call, int count, sqlite3_value **values, request *request) {
    const urlcheck_base *held = count > 1 ? sqlite3_get_auxdata(call, 1) : NULL;
    reading read = read_request(request, values[0], count > 1 ? values[1] : NULL, count > 2 ? values[2] : NULL, held);
    urlcheck_base *kept;

    if (read == READ_NO_PROFILE) sqlite3_result_error(call, NO_PROFILE, -1);
    if (read == READ_NO_MEMORY) sqlite3_result_error_nomem(call);
    if (read != READ) return 0;
    if (request->prepared && !(held && held->profile == request->profile)) {
        kept = sqlite3_malloc(sizeof *kept);
        if (kept) {
            *kept = request->own;
            sqlite3_set_auxdata(call, 1, kept, sqlite3_free);
        }
    }
    return 1;
}

/* Answers a part; without one the answer stays NULL, which SQLite begins with. */
static void result_part(sqlite3_context *call, slice url, urlcheck_span span) {
    if (span.present)
        sqlite3_result_text64(call, (const char *)url.bytes + span.start, span.length, SQLITE_TRANSIENT, SQLITE_UTF8);
}

/* Answers what the function says of a refused url; a function of its parts says NULL. */
static void result_refusal(sqlite3_context *call, const request *request, urlcheck_finding found) {
    char words[MESSAGE_ROOM], said[ERROR_ROOM];

    switch (question_of(call)) {
        case IS_VALID: sqlite3_result_int(call, 0); break;
        case REQUIRE: sqlite3_result_error(call, refusal_error(request, found, said), -1); break;
        case RULE: sqlite3_result_text(call, rule_name(found.rule, words), -1, SQLITE_TRANSIENT); break;
        case PLACE: sqlite3_result_int64(call, (sqlite3_int64)found.place + 1); break;
        case MESSAGE: sqlite3_result_text(call, url_message(request, found, words), -1, SQLITE_TRANSIENT); break;
        default: break;
    }
}

/* What is said about a url's verdict, its first fault and its parts. */
static void say(sqlite3_context *call, int count, sqlite3_value **values) {
    question question = question_of(call);
    request request;
    urlcheck_answer answer;

    if (!read_call(call, count, values, &request)) return;
    answer = check_request(&request);
    if (stops(call, &request, answer.found)) return;
    if (answer.found.verdict != URLCHECK_VALID)
        result_refusal(call, &request, answer.found);
    else if (question >= PARTS)
        result_part(call, request.url, part_of(&answer.parts, (int)(question - PARTS)));
    else if (question == IS_VALID || question == REQUIRE)
        sqlite3_result_int(call, 1);
}

/* Text of the URL record, or the text to write in place of the url. */
static void make(sqlite3_context *call, int count, sqlite3_value **values) {
    int mends = question_of(call) == MEND;
    request request;
    uint8_t most[MOST], *out;
    urlcheck_mended made;

    if (!read_call(call, count, values, &request)) return;
    made = write_request(&request, mends, most, MOST);
    if (stops(call, &request, made.found)) return;
    if (mends && made.found.verdict == URLCHECK_VALID) {
        sqlite3_result_text64(call, (const char *)request.url.bytes, request.url.length, SQLITE_TRANSIENT, SQLITE_UTF8);
    } else if (made.found.verdict != (mends ? URLCHECK_MENDED : URLCHECK_VALID)) {
        return;
    } else if (made.length <= MOST) {
        sqlite3_result_text64(call, (const char *)most, made.length, SQLITE_TRANSIENT, SQLITE_UTF8);
    } else if ((out = sqlite3_malloc64(made.length)) == NULL) {
        sqlite3_result_error_nomem(call);
    } else if (stops(call, &request, write_request(&request, mends, out, made.length).found)) {
        sqlite3_free(out);
    } else {
        sqlite3_result_text64(call, (const char *)out, made.length, sqlite3_free, SQLITE_UTF8);
    }
}

/* How the mended text differs from the url, or whether it is offered. */
static void say_mended(sqlite3_context *call, int count, sqlite3_value **values) {
    request request;
    urlcheck_mended answer;

    if (!read_call(call, count, values, &request)) return;
    answer = mend_request(&request, NULL, 0);
    if (stops(call, &request, answer.found) || answer.found.verdict != URLCHECK_MENDED) return;
    if (question_of(call) == MEND_KIND)
        sqlite3_result_text(call, kind_name(answer.kind), -1, SQLITE_STATIC);
    else
        sqlite3_result_int(call, answer.offered != 0);
}

/* The version of the library, as text. */
static void say_version(sqlite3_context *call, int count, sqlite3_value **values) {
    uint32_t number = urlcheck_version();
    char *said = sqlite3_mprintf("%u.%u.%u", number / 10000, number / 100 % 100, number % 100);

    (void)count;
    (void)values;
    if (said) sqlite3_result_text(call, said, -1, sqlite3_free);
    if (!said) sqlite3_result_error_nomem(call);
}

/* A function by its name, what it says, and what answers. */
typedef struct function {
    const char *name;
    intptr_t question;
    void (*call)(sqlite3_context *, int, sqlite3_value **);
} function;

static const function functions[] = {
    {"url_is_valid", IS_VALID, say},  {"url_require", REQUIRE, say},
    {"url_rule", RULE, say},          {"url_place", PLACE, say},
    {"url_message", MESSAGE, say},    {"url_scheme", PARTS, say},
    {"url_host", PARTS + 1, say},     {"url_port", PARTS + 2, say},
    {"url_path", PARTS + 3, say},     {"url_query", PARTS + 4, say},
    {"url_fragment", PARTS + 5, say}, {"url_resolve", RESOLVE, make},
    {"url_mend", MEND, make},         {"url_mend_kind", MEND_KIND, say_mended},
    {"url_mend_offered", MEND_OFFERED, say_mended},
};

/* SQLite calls this when it loads the extension. Each function is registered for one, two and three arguments. */
__attribute__((visibility("default"))) int sqlite3_modurlcheck_init(sqlite3 *database, char **message,
                                                                     const sqlite3_api_routines *routines) {
    const int flags = SQLITE_UTF8 | SQLITE_DETERMINISTIC | SQLITE_INNOCUOUS;
    int code = SQLITE_OK;

    SQLITE_EXTENSION_INIT2(routines);
    (void)message;
    for (size_t at = 0; at < 3 * (sizeof functions / sizeof *functions) && code == SQLITE_OK; at++) {
        const function *one = &functions[at / 3];
        code = sqlite3_create_function_v2(database, one->name, (int)(at % 3) + 1, flags, (void *)one->question,
                                          one->call, NULL, NULL, NULL);
    }
    if (code == SQLITE_OK)
        code = sqlite3_create_function_v2(database, "urlcheck_version", 0, flags, NULL, say_version, NULL, NULL, NULL);
    return code == SQLITE_OK ? register_tables(database) : code;
}
