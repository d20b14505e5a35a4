/* What Windows has in UTF-16, and the program in UTF-8: the words of a command line, names of files, what is typed. */
#ifndef URLCHECK_WINDOWS_WORDS_H
#define URLCHECK_WINDOWS_WORDS_H

#include <stddef.h>
#include <wchar.h>

/* Keeps the words of the command line for platform_arg: 1, or 0 if there is no memory for them. */
int keeps_words(void);

/*
 * Writes units of UTF-16 in the form of UTF-8, at most three bytes for each: how many bytes. Half a pair becomes bytes
 * that aren't UTF-8: the program refuses them, and would check another text if they were read as U+FFFD.
 */
size_t put_units(char *bytes, const wchar_t *units, size_t count);

/* A name as Windows has it, by malloc; or NULL if it isn't UTF-8, or there is no memory for it. */
wchar_t *windows_name(const char *name);

#endif
