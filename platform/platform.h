/*
 * What the proved program asks of a system for which the toolchain has no archives, and what is assumed of each. A shim
 * gives these functions: posix.c with heap.c, windows.c and windows_words.c with it, or wasi.c with wasi_heap.c, and with
 * each arguments.c. For Linux on ARM the toolchain compiles the program itself, and asks for the allocator, the
 * arguments and the environment.
 *
 * The proofs assume of them what the toolchain's contracts say of C's functions of these names on Linux. Flags and errors
 * have Linux's numbers. Each number is 64 bits wide, so that no calling convention has a word in how it is extended.
 */
#ifndef URLCHECK_PLATFORM_H
#define URLCHECK_PLATFORM_H

#include <stddef.h>
#include <stdint.h>

/* Whether there is a block, 1 or 0, and where it begins. If there is none, the address is not 0 and is never read. */
typedef struct {
    uint64_t is_given;
    uint64_t block;
} attempt;

/* A block of this many bytes at a multiple of `alignment`, which is at most 16. No byte of it is in another block. */
void platform_alloc(attempt *answer, uint64_t size, uint64_t alignment);

/* The block with its first `kept` bytes, and `size` bytes long; it may have moved. If there is none, it is as it was. */
void platform_realloc(attempt *answer, void *block, uint64_t kept, uint64_t size, uint64_t alignment);

/* Gives up a block. */
void platform_dealloc(void *block);

/*
 * Writes argument `number`, from 0 for the program's name, into the buffer: its length in bytes, -1 if there is none, or
 * -2 if it has no room. The bytes are those that the caller gave, even if they aren't UTF-8.
 */
int64_t platform_arg(uint64_t number, uint8_t *buffer, uint64_t room);

/* Writes the value of a variable of the environment, which has an ASCII name, into the buffer: as platform_arg does. */
int64_t platform_env(const char *name, uint8_t *buffer, uint64_t room);

/* The error of the last call that gave -1, and another in its place. */
int64_t platform_errno(void);
void platform_set_errno(int64_t error);

/* Makes a write to a pipe without a reader fail with ERROR_PIPE, and not end the program. 0, or -1 if it can't. */
int64_t platform_ignore_pipe(void);

/* The number of the opened file, or -1. The path is the caller's bytes up to a 0. */
int64_t platform_open(const char *path, int64_t flags, int64_t mode);

/* 0, or -1. */
int64_t platform_close(int64_t file);

/* How many bytes were read, 0 only at the end; or -1, and then none was. They are the file's own bytes, as they are. */
int64_t platform_read(int64_t file, uint8_t *buffer, uint64_t room);

/* How many bytes were written, which may be fewer than given; or -1, and then none was. */
int64_t platform_write(int64_t file, const uint8_t *bytes, uint64_t count);

/* The new place in the file, from its start (0), the place (1) or its end (2) on; or -1. */
int64_t platform_lseek(int64_t file, int64_t offset, int64_t from);

/* 1 if the file is a terminal that shows colours, otherwise 0. */
int64_t platform_is_terminal(int64_t file);

/* The program: its status. */
int32_t platform_main(void);

/* The flags of an opening that a shim knows; others have no part in it. */
enum { FLAG_WRONLY = 1, FLAG_RDWR = 2, FLAG_CREAT = 0100, FLAG_EXCL = 0200, FLAG_TRUNC = 01000, FLAG_APPEND = 02000 };

/* Errors. What else a system has is ERROR_IO. */
enum {
    ERROR_PERM = 1,
    ERROR_NOENT = 2,
    ERROR_INTR = 4,
    ERROR_IO = 5,
    ERROR_BADF = 9,
    ERROR_AGAIN = 11,
    ERROR_NOMEM = 12,
    ERROR_ACCES = 13,
    ERROR_BUSY = 16,
    ERROR_EXIST = 17,
    ERROR_NOTDIR = 20,
    ERROR_ISDIR = 21,
    ERROR_INVAL = 22,
    ERROR_NFILE = 23,
    ERROR_MFILE = 24,
    ERROR_FBIG = 27,
    ERROR_NOSPC = 28,
    ERROR_SPIPE = 29,
    ERROR_ROFS = 30,
    ERROR_PIPE = 32,
    ERROR_NAMETOOLONG = 36,
    ERROR_LOOP = 40,
    ERROR_TIMEDOUT = 110,
    ERROR_STALE = 116
};

#endif
