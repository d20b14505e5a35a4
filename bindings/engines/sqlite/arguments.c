/* The arguments of functions and tables, and answers that are errors. */
#include "arguments.h"

SQLITE_EXTENSION_INIT3

/* The bytes of a value that isn't NULL: false if there is no memory to read it as a text. */
static int read_text(slice *text, sqlite3_value *value) {
    /* (an empty BLOB has no bytes either, and the type is asked before the value is read as a text) */
    int is_blob = sqlite3_value_type(value) == SQLITE_BLOB;

    text->bytes = sqlite3_value_text(value);
    text->length = (size_t)sqlite3_value_bytes(value);
    if (text->bytes == NULL && is_blob && text->length == 0) text->bytes = (const uint8_t *)"";
    return text->bytes != NULL;
}

/* (an argument that isn't given counts as NULL) */
static int is_null(sqlite3_value *value) { return !value || sqlite3_value_type(value) == SQLITE_NULL; }

/* Reads the profile's name, or leaves the standard one, whose number is 0. */
static reading read_profile(request *request, sqlite3_value *profile) {
    slice name;
    int number;

    if (is_null(profile)) return READ;
    if (!read_text(&name, profile)) return READ_NO_MEMORY;
    number = profile_number((const char *)name.bytes, name.length);
    if (number < 0) return READ_NO_PROFILE;
    request->profile = (uint32_t)number;
    return READ;
}

reading read_request(request *request, sqlite3_value *url, sqlite3_value *base, sqlite3_value *profile,
                     const urlcheck_base *held) {
    reading read;

    memset(request, 0, sizeof *request);
    if (is_null(url)) return READ_NULL;
    read = read_profile(request, profile);
    if (read != READ) return read;
    if (!is_null(base)) {
        if (!read_text(&request->base, base)) return READ_NO_MEMORY;
        request->own = held && held->profile == request->profile
                           ? *held
                           : urlcheck_prepare(request->base.bytes, request->base.length, request->profile);
        request->prepared = &request->own;
    }
    return read_text(&request->url, url) ? READ : READ_NO_MEMORY;
}

int is_checked(const request *request, urlcheck_finding found, char **message, int *code) {
    char said[ERROR_ROOM];

    switch (end_of(request, found, said)) {
        case ANSWERED: return 1;
        case WITHOUT_MEMORY: *code = SQLITE_NOMEM; return 0;
        default:
            *code = SQLITE_ERROR;
            *message = sqlite3_mprintf("%s", said);
            return 0;
    }
}
