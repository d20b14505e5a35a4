/* The numbers of macOS's errors, which posix.c takes: no headers of Apple's are needed to build. */
#ifndef URLCHECK_MACOS_ERRNO_H
#define URLCHECK_MACOS_ERRNO_H

int *__error(void);
#define errno (*__error())

enum {
    EPERM = 1,
    ENOENT = 2,
    EINTR = 4,
    EIO = 5,
    EBADF = 9,
    ENOMEM = 12,
    EACCES = 13,
    EBUSY = 16,
    EEXIST = 17,
    ENOTDIR = 20,
    EISDIR = 21,
    EINVAL = 22,
    ENFILE = 23,
    EMFILE = 24,
    EFBIG = 27,
    ENOSPC = 28,
    ESPIPE = 29,
    EROFS = 30,
    EPIPE = 32,
    EAGAIN = 35,
    ETIMEDOUT = 60,
    ELOOP = 62,
    ENAMETOOLONG = 63,
    ESTALE = 70
};

#endif
