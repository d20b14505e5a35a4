/*
 * units PROGRAM WORD..: runs a program of Windows with these words, in each of which `~` and four hex digits are a unit
 * of UTF-16, also one that is half a pair, and ends as it does. No word may have a space, a quote, or a `\` at its end.
 */
#define WIN32_LEAN_AND_MEAN
#include <stdlib.h>
#include <wchar.h>
#include <windows.h>

enum { UNIT_DIGITS = 4 };

/* Writes a word with its units in place of their digits, and gives the place after it. */
static wchar_t *put_word(wchar_t *line, const wchar_t *word) {
    *line++ = L'"';
    for (; *word != 0; word++) {
        if (*word != L'~') {
            *line++ = *word;
            continue;
        }
        wchar_t digits[UNIT_DIGITS + 1] = {word[1], word[2], word[3], word[4], 0};
        *line++ = (wchar_t)wcstoul(digits, NULL, 16);
        word += UNIT_DIGITS;
    }
    *line++ = L'"';
    *line++ = L' ';
    return line;
}

int wmain(int count, wchar_t **words) {
    static wchar_t line[32768];
    wchar_t *end = line;
    for (int at = 1; at < count; at++) end = put_word(end, words[at]);
    *end = 0;
    STARTUPINFOW startup = {.cb = sizeof startup};
    PROCESS_INFORMATION process;
    if (count < 2 || !CreateProcessW(NULL, line, NULL, NULL, TRUE, 0, NULL, NULL, &startup, &process)) return 99;
    WaitForSingleObject(process.hProcess, INFINITE);
    DWORD status = 99;
    GetExitCodeProcess(process.hProcess, &status);
    return (int)status;
}
