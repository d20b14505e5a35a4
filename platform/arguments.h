/* The program's arguments where a C program's main is handed them, or something like it is. */
#ifndef URLCHECK_ARGUMENTS_H
#define URLCHECK_ARGUMENTS_H

#include <stdint.h>

/* Keeps the words for platform_arg, which arguments.c gives. They stay the caller's, and have to stay. */
void keep_arguments(int count, char **words);

/* Writes a word into the buffer: its length in bytes, -1 if there is none, or -2 where it has no room. */
int64_t copy_word(const char *word, uint8_t *buffer, uint64_t room);

#endif
