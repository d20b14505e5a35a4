/*
 * See windows_words.h. Windows hands a program one line in UTF-16, and no shell there expands patterns. So of the words
 * after `lint` and `vectors` those that are files' names are changed here, and no others:
 *
 *   - `\` becomes `/`. Windows takes both, a name can have neither, and reports name files with `/`, as SARIF asks for.
 *   - `*` and `?` after the last of them are read as by Windows's own programs, and stand for the names of files.
 *
 * A text that is checked is never among them: it is the word of `check` or `mend`, or the value of `--base`.
 */
#define WIN32_LEAN_AND_MEAN
#include "windows_words.h"

#include <stdlib.h>
#include <string.h>
#include <windows.h>
#include <shellapi.h>

#include "arguments.h"

/* ---- UTF-16 */

/* The code point that units begin with, of which there is one, and how many it takes. Half a pair is one for itself. */
static unsigned long point_at(const wchar_t *units, size_t count, size_t *taken) {
    unsigned long first = units[0];
    *taken = 1;
    if (first < 0xd800 || first > 0xdbff || count < 2 || units[1] < 0xdc00 || units[1] > 0xdfff) return first;
    *taken = 2;
    return 0x10000 + ((first - 0xd800) << 10) + (units[1] - 0xdc00UL);
}

/* Writes a code point in the form of UTF-8: how many bytes it takes. */
static size_t put_point(char *bytes, unsigned long point) {
    static const unsigned char marks[] = {0, 0, 0xc0, 0xe0, 0xf0};
    size_t count = point < 0x80 ? 1 : point < 0x800 ? 2 : point < 0x10000 ? 3 : 4;
    for (size_t at = count - 1; at > 0; at--) {
        bytes[at] = (char)(0x80 | (point & 0x3f));
        point >>= 6;
    }
    bytes[0] = (char)(marks[count] | point);
    return count;
}

size_t put_units(char *bytes, const wchar_t *units, size_t count) {
    size_t length = 0, taken = 0;
    for (size_t at = 0; at < count; at += taken) {
        length += put_point(bytes + length, point_at(units + at, count - at, &taken));
    }
    return length;
}

/* A text in UTF-8, by malloc; or NULL. */
static char *bytes_of(const wchar_t *text) {
    size_t units = wcslen(text);
    char *bytes = malloc(3 * units + 1);
    if (bytes != NULL) bytes[put_units(bytes, text, units)] = 0;
    return bytes;
}

wchar_t *windows_name(const char *name) {
    int units = MultiByteToWideChar(CP_UTF8, MB_ERR_INVALID_CHARS, name, -1, NULL, 0);
    if (units == 0) return NULL;
    wchar_t *wide = malloc((size_t)units * sizeof *wide);
    if (wide == NULL) return NULL;
    MultiByteToWideChar(CP_UTF8, MB_ERR_INVALID_CHARS, name, -1, wide, units);
    for (wchar_t *at = wide; *at != 0; at++) {
        if (*at == L'/') *at = L'\\';
    }
    return wide;
}

/* ---- the list of words that the program is handed */

typedef struct {
    char **words;
    size_t count, room;
} word_list;

/* Appends a word, which it takes over: 1, or 0 if there is none, or no memory. */
static int append(word_list *list, char *word) {
    if (word == NULL) return 0;
    if (list->count == list->room) {
        size_t room = 2 * list->room + 16;
        char **grown = realloc(list->words, room * sizeof *grown);
        if (grown == NULL) return 0;
        list->words = grown;
        list->room = room;
    }
    list->words[list->count++] = word;
    return 1;
}

/* Makes each `\` of a name, or of NULL, a `/`. */
static char *slashed(char *name) {
    for (char *at = name; at != NULL && *at != 0; at++) {
        if (*at == '\\') *at = '/';
    }
    return name;
}

/* ---- patterns */

/* Where the last part of a name begins. */
static size_t last_part(const wchar_t *name) {
    size_t start = 0;
    for (size_t at = 0; name[at] != 0; at++) {
        if (name[at] == L'\\' || name[at] == L'/' || name[at] == L':') start = at + 1;
    }
    return start;
}

/* How qsort compares two words. */
static int by_bytes(const void *one, const void *other) { return strcmp(*(char *const *)one, *(char *const *)other); }

/* The name of a file in the folder that the first `start` units of a pattern name, by malloc; or NULL. */
static wchar_t *within(const wchar_t *pattern, size_t start, const wchar_t *name) {
    wchar_t *whole = malloc((start + wcslen(name) + 1) * sizeof *whole);
    if (whole == NULL) return NULL;
    wmemcpy(whole, pattern, start);
    wcscpy(whole + start, name);
    return whole;
}

/* Appends the names of the files that a pattern stands for, in the order of their bytes; itself if there is none. */
static int append_files(word_list *list, const wchar_t *pattern) {
    size_t start = last_part(pattern), before = list->count;
    WIN32_FIND_DATAW found;
    HANDLE search = INVALID_HANDLE_VALUE;
    if (wcspbrk(pattern + start, L"*?") != NULL) search = FindFirstFileW(pattern, &found);
    int has_room = 1, is_left = search != INVALID_HANDLE_VALUE;
    for (; has_room && is_left; is_left = FindNextFileW(search, &found)) {
        if (found.dwFileAttributes & FILE_ATTRIBUTE_DIRECTORY) continue;
        wchar_t *name = within(pattern, start, found.cFileName);
        has_room = name != NULL && append(list, slashed(bytes_of(name)));
        free(name);
    }
    if (search != INVALID_HANDLE_VALUE) FindClose(search);
    if (!has_room) return 0;
    if (list->count == before) return append(list, slashed(bytes_of(pattern)));
    qsort(list->words + before, list->count - before, sizeof *list->words, by_bytes);
    return 1;
}

/* ---- which words are files' names */

/* What a word is: a text or an option, which stays as it is; a name; or the names of files. */
typedef enum { TEXT, NAME, FILES } word_kind;

/* How far the words of a command that takes files were read. */
typedef struct {
    word_kind value; /* of the next word, where it is the value of an option */
    int is_valued; /* whether it is */
    int is_after; /* whether it is after `--` */
} word_reading;

/* The options of `lint` and `vectors` that have a value. If one were missing, its value would be read as a name. */
static const wchar_t *const text_options[] = {L"--base", L"--profile", L"--format", L"--columns"};
static const wchar_t name_option[] = L"--stdin-name", name_given[] = L"--stdin-name=";

/* Whether the next word is the value of an option, and no name. */
static int is_text_option(const wchar_t *word) {
    for (size_t at = 0; at < sizeof text_options / sizeof *text_options; at++) {
        if (wcscmp(word, text_options[at]) == 0) return 1;
    }
    return 0;
}

/* What the next word is of a command that takes files. (`-` is the file that is standard input.) */
static word_kind next_kind(word_reading *reading, const wchar_t *word) {
    if (reading->is_valued) {
        reading->is_valued = 0;
        return reading->value;
    }
    if (reading->is_after || word[0] != L'-' || word[1] == 0) return FILES;
    int takes_name = wcscmp(word, name_option) == 0;
    reading->is_after = wcscmp(word, L"--") == 0;
    reading->is_valued = takes_name || is_text_option(word);
    reading->value = takes_name ? NAME : TEXT;
    return wcsncmp(word, name_given, sizeof name_given / sizeof *name_given - 1) == 0 ? NAME : TEXT;
}

/* Appends a word as what it is, or the names that it stands for: 1, or 0 if there is no memory. */
static int append_as(word_list *list, word_kind kind, const wchar_t *word) {
    if (kind == FILES) return append_files(list, word);
    char *bytes = bytes_of(word);
    return append(list, kind == NAME ? slashed(bytes) : bytes);
}

/* The commands whose words are names. Those of the others are texts, which stay as they are. */
static int takes_files(const wchar_t *command) {
    return wcscmp(command, L"lint") == 0 || wcscmp(command, L"vectors") == 0;
}

/* The words of a line. Help shows the first without its folder and its ending. */
static int append_all(word_list *list, wchar_t **words, int count) {
    static char name[] = "urlcheck";
    word_reading reading = {TEXT, 0, 0};
    int has_room = append(list, name);
    for (int at = 1; has_room && at < count; at++) {
        int is_file = at > 1 && takes_files(words[1]);
        has_room = append_as(list, is_file ? next_kind(&reading, words[at]) : TEXT, words[at]);
    }
    return has_room;
}

int keeps_words(void) {
    int count = 0;
    word_list list = {NULL, 0, 0};
    wchar_t **words = CommandLineToArgvW(GetCommandLineW(), &count);
    if (words == NULL || !append_all(&list, words, count)) return 0;
    keep_arguments((int)list.count, list.words);
    return 1;
}
