/* The arguments of a call in SQLite, of a scalar function or of a table: a text, a base or none, and a profile. */
#ifndef URLCHECK_ARGUMENTS_H
#define URLCHECK_ARGUMENTS_H

#include <sqlite3ext.h>

#include "errors.h"

/* How reading the arguments ended. */
typedef enum reading { READ, READ_NULL, READ_NO_PROFILE, READ_NO_MEMORY } reading;

/*
 * Reads the arguments, of which each may be null if it isn't given. A base that is NULL isn't one, and a profile that
 * is NULL is the standard one. The base is checked unless `held` is what it was checked to be before, under the same
 * profile.
 */
reading read_request(request *request, sqlite3_value *url, sqlite3_value *base, sqlite3_value *profile,
                     const urlcheck_base *held);

/* Whether the text was checked; otherwise how the call ends, with a message to free if it is an error of its own. */
int is_checked(const request *request, urlcheck_finding found, char **message, int *code);

/* Registers the tables url_check and url_faults. */
int register_tables(sqlite3 *database);

#endif
