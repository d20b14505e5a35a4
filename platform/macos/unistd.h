/* What posix.c does with files on macOS. */
#ifndef URLCHECK_MACOS_UNISTD_H
#define URLCHECK_MACOS_UNISTD_H

#include <stddef.h>

typedef __INT64_TYPE__ off_t;
typedef long ssize_t;

enum { SEEK_SET = 0, SEEK_CUR = 1, SEEK_END = 2 };

int close(int file);
ssize_t read(int file, void *buffer, size_t room);
ssize_t write(int file, const void *bytes, size_t count);
off_t lseek(int file, off_t offset, int from);
int isatty(int file);

#endif
