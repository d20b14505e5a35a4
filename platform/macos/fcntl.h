/* How files are opened on macOS. */
#ifndef URLCHECK_MACOS_FCNTL_H
#define URLCHECK_MACOS_FCNTL_H

typedef __UINT16_TYPE__ mode_t;

enum {
    O_RDONLY = 0,
    O_WRONLY = 1,
    O_RDWR = 2,
    O_APPEND = 8,
    O_CREAT = 0x200,
    O_TRUNC = 0x400,
    O_EXCL = 0x800,
    O_CLOEXEC = 0x1000000
};

int open(const char *path, int flags, ...);

#endif
