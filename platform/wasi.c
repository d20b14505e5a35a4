/*
 * The system of platform.h over WASI preview 1. It is compiled for 64-bit addresses, which `wasm-opt` makes 32-bit ones:
 * what WASI's functions take of addresses and lengths has 32 bits.
 */
#include "arguments.h"
#include "platform.h"
#include "wasi_heap.h"

typedef uint32_t address;

#define IMPORT(name) __attribute__((import_module("wasi_snapshot_preview1"), import_name(name)))
IMPORT("args_sizes_get") uint32_t wasi_args_sizes_get(address count, address bytes);
IMPORT("args_get") uint32_t wasi_args_get(address words, address bytes);
IMPORT("fd_read") uint32_t wasi_fd_read(uint32_t file, address parts, uint32_t count, address read);
IMPORT("fd_write") uint32_t wasi_fd_write(uint32_t file, address parts, uint32_t count, address written);
IMPORT("fd_close") uint32_t wasi_fd_close(uint32_t file);
IMPORT("fd_seek") uint32_t wasi_fd_seek(uint32_t file, int64_t offset, uint32_t from, address place);
IMPORT("fd_prestat_get") uint32_t wasi_fd_prestat_get(uint32_t file, address given);
IMPORT("fd_prestat_dir_name") uint32_t wasi_fd_prestat_dir_name(uint32_t file, address name, uint32_t room);
IMPORT("path_open")
uint32_t wasi_path_open(uint32_t folder, uint32_t lookup, address path, uint32_t length, uint32_t how, uint64_t rights,
                        uint64_t inherited, uint32_t flags, address file);
IMPORT("proc_exit") _Noreturn void wasi_proc_exit(uint32_t status);

/* (the memory has at most 4 GB, so no address loses bits) */
static address address_of(const void *it) { return (address)(uintptr_t)it; }

/* What platform_errno gives: an error by Linux's number. */
static int64_t last_error;

int64_t platform_errno(void) { return last_error; }

void platform_set_errno(int64_t error) { last_error = error; }

/* WASI has no signals: a host gives the error of a pipe without a reader. */
int64_t platform_ignore_pipe(void) { return 0; }

/* Linux's numbers by WASI's, which count the errors of POSIX by their names. */
static const uint8_t errors[] = {
    [2] = ERROR_ACCES,  [6] = ERROR_AGAIN,   [8] = ERROR_BADF,   [20] = ERROR_EXIST, [22] = ERROR_FBIG,
    [27] = ERROR_INTR,  [28] = ERROR_INVAL,  [31] = ERROR_ISDIR, [32] = ERROR_LOOP,  [33] = ERROR_MFILE,
    [37] = ERROR_NAMETOOLONG, [41] = ERROR_NFILE, [44] = ERROR_NOENT, [48] = ERROR_NOMEM, [51] = ERROR_NOSPC,
    [54] = ERROR_NOTDIR, [63] = ERROR_PERM,  [64] = ERROR_PIPE,  [69] = ERROR_ROFS,  [70] = ERROR_SPIPE,
    [76] = ERROR_PERM};

/* Ends a call with this error. */
static int64_t refused(int64_t error) {
    last_error = error;
    return -1;
}

/* The answer of a call that has ended with this number of WASI, 0 where it went well. */
static int64_t answered(uint32_t ended, int64_t given) {
    if (ended == 0) return given;
    return refused(ended < sizeof errors && errors[ended] != 0 ? errors[ended] : ERROR_IO);
}

/* (there is no C library, and so no strlen) */
static uint64_t length_of(const char *text) {
    uint64_t length = 0;
    while (text[length] != 0) length++;
    return length;
}

/* Where a path begins below a folder of that name: after the name and its slashes; or 0 if it isn't there. */
static uint64_t start_below(const char *path, const char *folder, uint64_t length) {
    uint64_t same = 0;
    while (same < length && path[same] == folder[same]) same++;
    if (same < length || (folder[length - 1] != '/' && path[same] != '/' && path[same] != 0)) return 0;
    while (path[same] == '/') same++;
    return same;
}

/* A host gives its folders the numbers after the three streams. The last is a limit, so the search ends. */
enum { FIRST_FOLDER = 3, LAST_FOLDER = 63 };

/*
 * The folder from which a path is opened, of those that the host gives, and where the path begins there; or -1. It is
 * the one with the longest name that the path begins with. A relative path begins in the folder `.`.
 */
static int64_t folder_of(const char *path, uint64_t *start) {
    static char name[4096];
    int64_t found = -1;
    uint64_t longest = 0;
    for (uint32_t folder = FIRST_FOLDER; folder <= LAST_FOLDER; folder++) {
        uint32_t given[2]; /* what it is, and the length of its name */
        if (wasi_fd_prestat_get(folder, address_of(given)) != 0) break;
        uint64_t length = given[1];
        if (length > sizeof name || wasi_fd_prestat_dir_name(folder, address_of(name), given[1]) != 0) continue;
        if (path[0] != '/' && (length == 0 || (length == 1 && name[0] == '.'))) {
            *start = 0;
            return folder;
        }
        uint64_t below = length > longest ? start_below(path, name, length) : 0;
        if (below == 0) continue;
        found = folder;
        longest = length;
        *start = below;
    }
    return found;
}

/* The flags and rights of path_open, as WASI numbers them: of creation, of the file, and of the search for it. */
enum { CREAT = 1, EXCL = 4, TRUNC = 8, APPEND = 1, FOLLOWS = 1 };
enum { MAY_READ = 2, MAY_SEEK = 4, MAY_TELL = 32, MAY_WRITE = 64 };

int64_t platform_open(const char *path, int64_t flags, int64_t mode) {
    (void)mode;
    uint64_t start = 0;
    int64_t folder = path[0] != 0 ? folder_of(path, &start) : -1;
    if (folder < 0) return refused(ERROR_NOENT);
    const char *name = path[start] != 0 ? path + start : ".";
    uint32_t how = (flags & FLAG_CREAT ? CREAT : 0) | (flags & FLAG_EXCL ? EXCL : 0) | (flags & FLAG_TRUNC ? TRUNC : 0);
    uint64_t rights = MAY_SEEK | MAY_TELL;
    rights |= flags & (FLAG_WRONLY | FLAG_RDWR) ? MAY_WRITE : 0;
    rights |= flags & FLAG_WRONLY ? 0 : MAY_READ;
    uint32_t file = 0;
    uint32_t ended = wasi_path_open((uint32_t)folder, FOLLOWS, address_of(name), (uint32_t)length_of(name), how, rights,
                                    rights, flags & FLAG_APPEND ? APPEND : 0, address_of(&file));
    return answered(ended, file);
}

int64_t platform_close(int64_t file) { return answered(wasi_fd_close((uint32_t)file), 0); }

/* Bytes as WASI takes them. */
typedef struct {
    address bytes;
    uint32_t count;
} part;

/* At most 256 MB are read or written at once, since WASI counts in 32 bits. */
static part part_of(const uint8_t *bytes, uint64_t count) {
    return (part){address_of(bytes), count < 0x10000000 ? (uint32_t)count : 0x10000000};
}

int64_t platform_read(int64_t file, uint8_t *buffer, uint64_t room) {
    part whole = part_of(buffer, room);
    uint32_t count = 0;
    uint32_t ended = wasi_fd_read((uint32_t)file, address_of(&whole), 1, address_of(&count));
    return answered(ended, count);
}

int64_t platform_write(int64_t file, const uint8_t *bytes, uint64_t count) {
    part whole = part_of(bytes, count);
    uint32_t written = 0;
    uint32_t ended = wasi_fd_write((uint32_t)file, address_of(&whole), 1, address_of(&written));
    return answered(ended, written);
}

int64_t platform_lseek(int64_t file, int64_t offset, int64_t from) {
    uint64_t place = 0;
    uint32_t ended = wasi_fd_seek((uint32_t)file, offset, (uint32_t)from, address_of(&place));
    return answered(ended, (int64_t)place);
}

/* The program asks this only for colours, which it has on the host by --color always. */
int64_t platform_env(const char *name, uint8_t *buffer, uint64_t room) {
    (void)name, (void)buffer, (void)room;
    return -1;
}

int64_t platform_is_terminal(int64_t file) {
    (void)file;
    return 0;
}

/* Takes the arguments from the host: false if there is no memory for them, or it gives none. */
static _Bool takes_arguments(void) {
    uint32_t count = 0, bytes = 0;
    if (wasi_args_sizes_get(address_of(&count), address_of(&bytes)) != 0) return 0;
    uint32_t *addresses = block_take((uint64_t)count * sizeof *addresses);
    char **words = block_take((uint64_t)count * sizeof *words);
    char *room = block_take(bytes);
    if (addresses == NULL || words == NULL || room == NULL) return 0;
    if (wasi_args_get(address_of(addresses), address_of(room)) != 0) return 0;
    for (uint32_t at = 0; at < count; at++) words[at] = (char *)(uintptr_t)addresses[at];
    keep_arguments((int)count, words);
    return 1;
}

/* The status with which the program itself ends when it runs out of memory. */
enum { FAILED = 3 };

/* The start for a host, in place of main. */
void _start(void);

/* (without its arguments the program says what it says of an allocation that fails) */
void _start(void) {
    static const uint8_t said[] = "memory\n";
    if (takes_arguments()) wasi_proc_exit((uint32_t)platform_main());
    (void)platform_write(2, said, sizeof said - 1);
    wasi_proc_exit(FAILED);
}
