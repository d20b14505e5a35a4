/*
 * The system of platform.h on Windows, by its own functions, which read and write the bytes of a file as they are. A
 * file's number is its handle, which is a multiple of 4, so that it isn't one of the three streams.
 */
#define WIN32_LEAN_AND_MEAN
#include <stdlib.h>
#include <windows.h>

#undef ERROR_BUSY /* Windows has another number by this name */
#include "arguments.h"
#include "platform.h"
#include "windows_words.h"

/* What platform_errno gives: Windows's GetLastError has other numbers, and other calls change it. */
static int64_t last_error;

int64_t platform_errno(void) { return last_error; }

void platform_set_errno(int64_t error) { last_error = error; }

/* Windows has no signal for it: a write to a pipe without a reader fails. */
int64_t platform_ignore_pipe(void) { return 0; }

/* ---- errors */

/* Linux's numbers of Windows's errors. (A name that no file can have is one of a file that isn't there.) */
static const struct {
    DWORD error;
    int64_t number;
} errors[] = {
    {ERROR_FILE_NOT_FOUND, ERROR_NOENT},
    {ERROR_PATH_NOT_FOUND, ERROR_NOENT},
    {ERROR_INVALID_NAME, ERROR_NOENT},
    {ERROR_BAD_PATHNAME, ERROR_NOENT},
    {ERROR_INVALID_DRIVE, ERROR_NOENT},
    {ERROR_BAD_NETPATH, ERROR_NOENT},
    {ERROR_BAD_NET_NAME, ERROR_NOENT},
    {ERROR_TOO_MANY_OPEN_FILES, ERROR_MFILE},
    {ERROR_ACCESS_DENIED, ERROR_ACCES},
    {ERROR_SHARING_VIOLATION, ERROR_ACCES},
    {ERROR_LOCK_VIOLATION, ERROR_ACCES},
    {ERROR_INVALID_HANDLE, ERROR_BADF},
    {ERROR_NOT_ENOUGH_MEMORY, ERROR_NOMEM},
    {ERROR_OUTOFMEMORY, ERROR_NOMEM},
    {ERROR_WRITE_PROTECT, ERROR_ROFS},
    {ERROR_HANDLE_DISK_FULL, ERROR_NOSPC},
    {ERROR_DISK_FULL, ERROR_NOSPC},
    {ERROR_FILE_TOO_LARGE, ERROR_FBIG},
    {ERROR_FILE_EXISTS, ERROR_EXIST},
    {ERROR_ALREADY_EXISTS, ERROR_EXIST},
    {ERROR_BROKEN_PIPE, ERROR_PIPE},
    {ERROR_NO_DATA, ERROR_PIPE},
    {ERROR_PIPE_NOT_CONNECTED, ERROR_PIPE},
    {ERROR_FILENAME_EXCED_RANGE, ERROR_NAMETOOLONG},
    {ERROR_DIRECTORY, ERROR_NOTDIR},
    {ERROR_CANT_RESOLVE_FILENAME, ERROR_LOOP},
    {ERROR_NEGATIVE_SEEK, ERROR_INVAL},
    {ERROR_INVALID_PARAMETER, ERROR_INVAL},
};

/* Ends a call with this error. */
static int64_t refused(int64_t number) {
    last_error = number;
    return -1;
}

/* The answer of a call that has failed with this error of Windows. */
static int64_t failed(DWORD error) {
    for (size_t at = 0; at < sizeof errors / sizeof *errors; at++) {
        if (errors[at].error == error) return refused(errors[at].number);
    }
    return refused(ERROR_IO);
}

/* ---- files */

/* The handle of a file: the numbers 0 to 2 stand for the streams, any other is the handle itself. */
static HANDLE handle_of(int64_t file) {
    switch (file) {
        case 0: return GetStdHandle(STD_INPUT_HANDLE);
        case 1: return GetStdHandle(STD_OUTPUT_HANDLE);
        case 2: return GetStdHandle(STD_ERROR_HANDLE);
        default: return (HANDLE)(intptr_t)file;
    }
}

/* (with FILE_APPEND_DATA and no other right to write, Windows puts each write at the file's end, as O_APPEND does) */
static DWORD access_of(int64_t flags) {
    DWORD writing = flags & FLAG_APPEND ? FILE_APPEND_DATA : GENERIC_WRITE;
    if (flags & FLAG_RDWR) return GENERIC_READ | writing;
    return flags & FLAG_WRONLY ? writing : GENERIC_READ;
}

/* How Windows names what O_CREAT, O_EXCL and O_TRUNC mean together. */
static DWORD creation_of(int64_t flags) {
    if (!(flags & FLAG_CREAT)) return flags & FLAG_TRUNC ? TRUNCATE_EXISTING : OPEN_EXISTING;
    if (flags & FLAG_EXCL) return CREATE_NEW;
    return flags & FLAG_TRUNC ? CREATE_ALWAYS : OPEN_ALWAYS;
}

/* Whether a folder has the name. Windows refuses to open one as if it were forbidden, and Linux says that it is one. */
static int is_folder(const wchar_t *name) {
    DWORD attributes = GetFileAttributesW(name);
    return attributes != INVALID_FILE_ATTRIBUTES && (attributes & FILE_ATTRIBUTE_DIRECTORY);
}

int64_t platform_open(const char *path, int64_t flags, int64_t mode) {
    (void)mode;
    wchar_t *name = windows_name(path);
    if (name == NULL) return refused(ERROR_NOENT);
    DWORD shared = FILE_SHARE_READ | FILE_SHARE_WRITE | FILE_SHARE_DELETE;
    HANDLE file = CreateFileW(name, access_of(flags), shared, NULL, creation_of(flags), FILE_ATTRIBUTE_NORMAL, NULL);
    DWORD error = file == INVALID_HANDLE_VALUE ? GetLastError() : ERROR_SUCCESS;
    int is_refused_folder = error != ERROR_SUCCESS && is_folder(name);
    free(name);
    if (is_refused_folder) return refused(ERROR_ISDIR);
    return error == ERROR_SUCCESS ? (int64_t)(intptr_t)file : failed(error);
}

int64_t platform_close(int64_t file) { return CloseHandle(handle_of(file)) ? 0 : failed(GetLastError()); }

/* At most 1 MB is read or written at once: Windows counts in 32 bits, and some devices refuse more. */
static DWORD part_of(uint64_t count) { return count < 0x100000 ? (DWORD)count : 0x100000; }

/* How many units are read from a console at once; Ctrl-Z; and the first halves of pairs of UTF-16. */
enum { MOST_TYPED = 4096, END_TYPED = 26, LEAST_HALF = 0xd800, MOST_HALF = 0xdbff };

/*
 * Reads what is typed at a console: in UTF-16, since Windows makes other characters of those that its code page lacks. A
 * line that begins with Ctrl-Z is the end. Half a pair waits for its other half.
 */
static int64_t read_console(HANDLE console, uint8_t *buffer, uint64_t room) {
    static wchar_t half;
    wchar_t typed[MOST_TYPED];
    DWORD most = room < 3 * MOST_TYPED ? (DWORD)(room / 3) : MOST_TYPED, count = 0, kept = half != 0;
    if (most < 2) return refused(ERROR_INVAL);
    typed[0] = half;
    if (!ReadConsoleW(console, typed + kept, most - kept, &count, NULL)) return failed(GetLastError());
    if (count == 0 || typed[kept] == END_TYPED) return 0;
    wchar_t last = typed[kept + count - 1];
    half = last >= LEAST_HALF && last <= MOST_HALF ? last : 0;
    count += kept - (half != 0);
    return count != 0 ? (int64_t)put_units((char *)buffer, typed, count) : read_console(console, buffer, room);
}

/* (only a console has a mode) */
static int is_console(HANDLE handle) {
    DWORD mode = 0;
    return GetConsoleMode(handle, &mode);
}

/* Whether a read of no bytes isn't the end: of a pipe it is also a write of no bytes at the other end. */
static int goes_on(HANDLE handle) {
    return GetFileType(handle) == FILE_TYPE_PIPE && PeekNamedPipe(handle, NULL, 0, NULL, NULL, NULL);
}

int64_t platform_read(int64_t file, uint8_t *buffer, uint64_t room) {
    HANDLE handle = handle_of(file);
    if (is_console(handle)) return read_console(handle, buffer, room);
    DWORD count = 0;
    do {
        if (!ReadFile(handle, buffer, part_of(room), &count, NULL)) {
            DWORD error = GetLastError();
            return error == ERROR_BROKEN_PIPE || error == ERROR_HANDLE_EOF ? 0 : failed(error);
        }
    } while (count == 0 && room != 0 && goes_on(handle));
    return count;
}

int64_t platform_write(int64_t file, const uint8_t *bytes, uint64_t count) {
    DWORD written = 0;
    if (!WriteFile(handle_of(file), bytes, part_of(count), &written, NULL)) return failed(GetLastError());
    return written;
}

int64_t platform_lseek(int64_t file, int64_t offset, int64_t from) {
    HANDLE handle = handle_of(file);
    if (GetFileType(handle) != FILE_TYPE_DISK) return refused(ERROR_SPIPE);
    LARGE_INTEGER by, place;
    by.QuadPart = offset;
    return SetFilePointerEx(handle, by, &place, (DWORD)from) ? place.QuadPart : failed(GetLastError());
}

/* ---- the environment, and the terminal */

/* The longest value that is read, in UTF-16. The program asks for short ones only, such as TERM and NO_COLOR. */
enum { MOST_UNITS = 1024 };

int64_t platform_env(const char *name, uint8_t *buffer, uint64_t room) {
    static char value[3 * MOST_UNITS + 1];
    wchar_t units[MOST_UNITS];
    wchar_t *wide = windows_name(name);
    if (wide == NULL) return -1;
    SetLastError(0);
    DWORD count = GetEnvironmentVariableW(wide, units, MOST_UNITS);
    DWORD error = GetLastError();
    free(wide);
    if (count == 0 && error != 0) return -1;
    if (count >= MOST_UNITS) return -2;
    value[put_units(value, units, count)] = 0;
    return copy_word(value, buffer, room);
}

/* The console's mode before the program, and its handle while the program shows colours there. */
static DWORD console_mode;
static HANDLE coloured;

int64_t platform_is_terminal(int64_t file) {
    HANDLE handle = handle_of(file);
    if (!GetConsoleMode(handle, &console_mode)) return 0;
    if (!SetConsoleMode(handle, console_mode | ENABLE_VIRTUAL_TERMINAL_PROCESSING)) return 0;
    coloured = handle;
    return 1;
}

/* ---- the program */

/* The status with which the program itself ends when it runs out of memory. */
enum { FAILED = 3 };

/* The console's code page before the program, in which other programs write there; 0 without a console. */
static UINT code_page;

/* Leaves the console as it was: its code page and its mode outlive the program. */
static void give_back(void) {
    if (code_page != 0) SetConsoleOutputCP(code_page);
    if (coloured != NULL) SetConsoleMode(coloured, console_mode);
}

/* Called by Windows on Ctrl-C and when the console is closed, since main doesn't end then. */
static BOOL WINAPI gives_back_console(DWORD event) {
    (void)event;
    give_back();
    return FALSE; /* what comes of the event is as ever */
}

/* (without its arguments the program says what it says of an allocation that fails) */
int main(void) {
    static const uint8_t said[] = "memory\n";
    code_page = GetConsoleOutputCP();
    if (code_page != 0) {
        SetConsoleCtrlHandler(gives_back_console, TRUE);
        SetConsoleOutputCP(CP_UTF8);
    }
    int status = FAILED;
    if (keeps_words()) {
        status = platform_main();
    } else {
        (void)platform_write(2, said, sizeof said - 1);
    }
    give_back();
    return status;
}
