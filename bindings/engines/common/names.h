/*
 * The names that each engine has, as texts that end with a NUL: of profiles, of rules, and of the kinds of mended texts.
 */
#ifndef URLCHECK_NAMES_H
#define URLCHECK_NAMES_H

#include <string.h>

#include "urlcheck.h"

/* Room for the longest name of a rule, with its NUL. */
enum { NAME_ROOM = 20 };

#define PROFILE_NAMES "\"standard\", \"wide\", and \"parser\""

/* The number of the profile that has the name, or -1. */
static inline int profile_number(const char *name, size_t length) {
    static const char *const names[] = {"standard", "wide", "parser"};
    for (int number = 0; number < 3; number++)
        if (length == strlen(names[number]) && memcmp(name, names[number], length) == 0) return number;
    return -1;
}

/* The name of the rule that a refused text violates. Bytes that aren't UTF-8 violate none, and have a name of their own. */
static inline const char *rule_name(uint32_t rule, char name[NAME_ROOM]) {
    size_t length;

    if (rule == 0) return "no-utf8";
    length = urlcheck_text(URLCHECK_RULE_NAME, rule, (uint8_t *)name, NAME_ROOM - 1);
    /* (a later library may have a longer name, of which nothing is written) */
    if (length >= NAME_ROOM) return "unknown";
    name[length] = 0;
    return name;
}

/* How a mended text differs from the refused one. */
static inline const char *kind_name(uint32_t kind) {
    static const char *const names[] = {"none", "same", "escaped", "changed"};
    return names[kind <= URLCHECK_CHANGED ? kind : 0];
}

/* The words before a mended text that isn't offered in place of a url. */
static inline const char *kind_phrase(uint32_t kind) {
    if (kind == URLCHECK_SAME) return "the same URL, written validly, is: ";
    if (kind == URLCHECK_ESCAPED) return "the same text, percent-encoded, is: ";
    return "a valid URL string that is near it is: ";
}

#endif
