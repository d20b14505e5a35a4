/*
 * loader PROGRAM WORD..: runs a program for macOS on ARM where Linux on ARM runs, in an emulator too. It is mapped
 * where it asks for, and what it takes of libSystem is a substitute over this C library, with macOS's flags and
 * numbers of errors. So its code and its shim are tried, and not what macOS does with it.
 */
#include <errno.h>
#include <fcntl.h>
#include <signal.h>
#include <stdint.h>
#include <stdio.h>
#include <stdlib.h>
#include <string.h>
#include <strings.h>
#include <sys/mman.h>
#include <sys/stat.h>
#include <unistd.h>

enum { LC_SYMTAB = 2, LC_DYSYMTAB = 11, LC_SEGMENT_64 = 25, POINTERS = 6, LAZY_POINTERS = 7 };
#define LC_MAIN 0x80000028u
#define NO_SYMBOL 0xc0000000u

typedef struct {
    uint32_t magic, cpu, subtype, kind, count, size, flags, reserved;
} header;

typedef struct {
    uint32_t command, size;
    char name[16];
    uint64_t address, room, offset, length;
    uint32_t most, access, count, flags;
} segment;

typedef struct {
    char name[16], segment[16];
    uint64_t address, size;
    uint32_t offset, alignment, relocations, relocation_count, flags, first, second, third;
} section;

typedef struct {
    uint32_t name;
    uint8_t kind, section;
    uint16_t description;
    uint64_t value;
} symbol;

/* ---- what the program takes of libSystem */

static int error;

static const struct {
    int own, number;
} errors[] = {
    {EPERM, 1},   {ENOENT, 2},   {EINTR, 4},     {EIO, 5},      {EBADF, 9},      {ENOMEM, 12},
    {EACCES, 13}, {EBUSY, 16},   {EEXIST, 17},   {ENOTDIR, 20}, {EISDIR, 21},    {EINVAL, 22},
    {ENFILE, 23}, {EMFILE, 24},  {EFBIG, 27},    {ENOSPC, 28},  {ESPIPE, 29},    {EROFS, 30},
    {EPIPE, 32},  {EAGAIN, 35},  {ETIMEDOUT, 60}, {ELOOP, 62},  {ENAMETOOLONG, 63}, {ESTALE, 70},
};

static int64_t answered(int64_t ended) {
    int own = errno;

    for (size_t at = 0; ended < 0 && at < sizeof errors / sizeof errors[0]; at++)
        if (errors[at].own == own) error = errors[at].number;
    return ended;
}

static int *mac_error(void) { return &error; }

/* (macOS hands further arguments on the stack, where a ninth one is) */
static int mac_open(const char *path, int flags, uint64_t third, uint64_t fourth, uint64_t fifth, uint64_t sixth,
                    uint64_t seventh, uint64_t eighth, uint64_t mode) {
    int wanted = flags & 3;

    (void)third, (void)fourth, (void)fifth, (void)sixth, (void)seventh, (void)eighth;
    wanted |= (flags & 8 ? O_APPEND : 0) | (flags & 0x200 ? O_CREAT : 0) | (flags & 0x400 ? O_TRUNC : 0);
    wanted |= (flags & 0x800 ? O_EXCL : 0) | (flags & 0x1000000 ? O_CLOEXEC : 0);
    return (int)answered(open(path, wanted, (mode_t)mode));
}

static int mac_close(int file) { return (int)answered(close(file)); }
static ssize_t mac_read(int file, void *buffer, size_t room) { return answered(read(file, buffer, room)); }
static ssize_t mac_write(int file, const void *bytes, size_t count) { return answered(write(file, bytes, count)); }
static int64_t mac_lseek(int file, int64_t offset, int from) { return answered(lseek(file, offset, from)); }

static const struct {
    const char *name;
    void *code;
} functions[] = {
    {"___error", (void *)mac_error}, {"_close", (void *)mac_close},   {"_free", (void *)free},
    {"_lseek", (void *)mac_lseek},   {"_malloc", (void *)malloc},     {"_memcpy", (void *)memcpy},
    {"_memmove", (void *)memmove},   {"_memset", (void *)memset},     {"_bzero", (void *)bzero},
    {"_open", (void *)mac_open},     {"_read", (void *)mac_read},     {"_realloc", (void *)realloc},
    {"_signal", (void *)signal},     {"_write", (void *)mac_write},   {"dyld_stub_binder", (void *)abort},
    {"_getenv", (void *)getenv},     {"_isatty", (void *)isatty},
    /* (only for the allocator with a budget) */
    {"_strtoull", (void *)strtoull},
};

/* ---- the program */

static void refuse(const char *why) {
    fprintf(stderr, "loader: %s\n", why);
    exit(70);
}

static void *function_of(const char *name) {
    for (size_t at = 0; at < sizeof functions / sizeof functions[0]; at++)
        if (strcmp(functions[at].name, name) == 0) return functions[at].code;
    refuse(name);
    return NULL;
}

/* The command of this kind from the number `from` on, or null. */
static const void *command_of(const header *program, uint32_t kind, uint32_t *from) {
    const uint8_t *at = (const uint8_t *)(program + 1);

    for (uint32_t number = 0; number < program->count; at += ((const uint32_t *)at)[1], number++)
        if (number >= *from && *(const uint32_t *)at == kind) return *from = number + 1, at;
    return NULL;
}

static void map(const header *program, const segment *it) {
    if (it->access == 0) return;
    uint8_t *room = mmap((void *)it->address, it->room, PROT_READ | PROT_WRITE,
                         MAP_PRIVATE | MAP_ANONYMOUS | MAP_FIXED_NOREPLACE, -1, 0);
    if (room != (void *)it->address) refuse("its place is taken");
    memcpy(room, (const uint8_t *)program + it->offset, it->length);
}

/* Puts what is taken of libSystem into the pointers of a segment. */
static void bind(const header *program, const segment *it) {
    uint32_t from = 0;
    const uint32_t *table = command_of(program, LC_SYMTAB, &from);
    const uint32_t *dynamic = command_of(program, LC_DYSYMTAB, (from = 0, &from));
    const uint8_t *file = (const uint8_t *)program;
    const section *sections = (const section *)(it + 1);

    for (uint32_t number = 0; number < it->count; number++) {
        const section *own = sections + number;
        const uint32_t *named = (const uint32_t *)(const void *)(file + dynamic[14]) + own->first;
        if ((own->flags & 0xff) != POINTERS && (own->flags & 0xff) != LAZY_POINTERS) continue;
        for (uint64_t at = 0; at < own->size / 8; at++) {
            if (named[at] & NO_SYMBOL) continue;
            const symbol *found = (const symbol *)(const void *)(file + table[2]) + named[at];
            ((void **)own->address)[at] = function_of((const char *)file + table[4] + found->name);
        }
    }
}

static const header *read_program(const char *name) {
    int file = open(name, O_RDONLY | O_CLOEXEC);
    struct stat seen;

    if (file < 0 || fstat(file, &seen) != 0) refuse("it can't be read");
    const header *program = mmap(NULL, (size_t)seen.st_size, PROT_READ, MAP_PRIVATE, file, 0);
    if (program == MAP_FAILED || program->magic != 0xfeedfacf) refuse("it is no program for macOS");
    close(file);
    return program;
}

int main(int count, char **words) {
    const header *program = count < 2 ? (refuse("which program"), NULL) : read_program(words[1]);
    uint64_t base = 0;
    uint32_t from = 0;
    const segment *it;

    while ((it = command_of(program, LC_SEGMENT_64, &from)) != NULL) {
        map(program, it);
        if (it->access != 0 && it->offset == 0 && base == 0) base = it->address;
    }
    for (from = 0; (it = command_of(program, LC_SEGMENT_64, &from)) != NULL;) bind(program, it);
    for (from = 0; (it = command_of(program, LC_SEGMENT_64, &from)) != NULL;)
        if (it->access != 0) mprotect((void *)it->address, it->room, (int)it->access);
    const uint64_t *entry = command_of(program, LC_MAIN, (from = 0, &from));
    if (entry == NULL) refuse("it begins nowhere");
    words[1] = words[0];
    exit(((int (*)(int, char **))(base + entry[1]))(count - 1, words + 1));
}
