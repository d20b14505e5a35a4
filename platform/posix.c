/* The system of platform.h over the C library of a POSIX system, with 64-bit addresses and offsets. */
#define _POSIX_C_SOURCE 200809L
#include <errno.h>
#include <fcntl.h>
#include <signal.h>
#include <stdlib.h>
#include <unistd.h>

#include "arguments.h"
#include "platform.h"

_Static_assert(sizeof(off_t) == 8, "a file may be longer than 2 GB");
_Static_assert(SEEK_SET == 0 && SEEK_CUR == 1 && SEEK_END == 2, "platform.h has these numbers");

/* What platform_errno gives: an error by Linux's number, which may differ from this system's. */
static int64_t last_error;

int64_t platform_errno(void) { return last_error; }

void platform_set_errno(int64_t error) { last_error = error; }

/* Linux's numbers by this system's own, which may be others. */
static const struct {
    int own;
    int64_t number;
} errors[] = {
    {EPERM, ERROR_PERM},
    {ENOENT, ERROR_NOENT},
    {EINTR, ERROR_INTR},
    {EIO, ERROR_IO},
    {EBADF, ERROR_BADF},
    {EAGAIN, ERROR_AGAIN},
    {ENOMEM, ERROR_NOMEM},
    {EACCES, ERROR_ACCES},
    {EBUSY, ERROR_BUSY},
    {EEXIST, ERROR_EXIST},
    {ENOTDIR, ERROR_NOTDIR},
    {EISDIR, ERROR_ISDIR},
    {EINVAL, ERROR_INVAL},
    {ENFILE, ERROR_NFILE},
    {EMFILE, ERROR_MFILE},
    {EFBIG, ERROR_FBIG},
    {ENOSPC, ERROR_NOSPC},
    {ESPIPE, ERROR_SPIPE},
    {EROFS, ERROR_ROFS},
    {EPIPE, ERROR_PIPE},
    {ENAMETOOLONG, ERROR_NAMETOOLONG},
    {ELOOP, ERROR_LOOP},
    {ETIMEDOUT, ERROR_TIMEDOUT},
    {ESTALE, ERROR_STALE},
};

/* The answer of a call that has ended so: below 0 it has failed. */
static int64_t answered(int64_t ended) {
    if (ended >= 0) return ended;
    int own = errno;
    last_error = ERROR_IO;
    for (size_t at = 0; at < sizeof errors / sizeof errors[0]; at++) {
        if (errors[at].own == own) last_error = errors[at].number;
    }
    return -1;
}

int64_t platform_ignore_pipe(void) { return signal(SIGPIPE, SIG_IGN) == SIG_ERR ? -1 : 0; }

int64_t platform_open(const char *path, int64_t flags, int64_t mode) {
    int wanted = flags & FLAG_WRONLY ? O_WRONLY : flags & FLAG_RDWR ? O_RDWR : O_RDONLY;
    wanted |= O_CLOEXEC;
    wanted |= flags & FLAG_CREAT ? O_CREAT : 0;
    wanted |= flags & FLAG_EXCL ? O_EXCL : 0;
    wanted |= flags & FLAG_TRUNC ? O_TRUNC : 0;
    wanted |= flags & FLAG_APPEND ? O_APPEND : 0;
    return answered(open(path, wanted, (mode_t)mode));
}

int64_t platform_close(int64_t file) { return answered(close((int)file)); }

/* At most 1 GB is read or written at once: some systems refuse more than an int can count. */
static size_t part_of(uint64_t count) { return count < 0x40000000 ? (size_t)count : 0x40000000; }

int64_t platform_read(int64_t file, uint8_t *buffer, uint64_t room) {
    return answered(read((int)file, buffer, part_of(room)));
}

int64_t platform_write(int64_t file, const uint8_t *bytes, uint64_t count) {
    return answered(write((int)file, bytes, part_of(count)));
}

int64_t platform_lseek(int64_t file, int64_t offset, int64_t from) {
    return answered(lseek((int)file, offset, (int)from));
}

int64_t platform_env(const char *name, uint8_t *buffer, uint64_t room) { return copy_word(getenv(name), buffer, room); }

int64_t platform_is_terminal(int64_t file) { return isatty((int)file); }

int main(int count, char **words) {
    keep_arguments(count, words);
    return platform_main();
}
