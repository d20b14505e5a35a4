# Sourced by tests/runs/platforms.sh: Wine, which runs the program for Windows, and what is tried only of that program.
export WINEPREFIX=$room/wine WINEDEBUG=-all
trap 'wineserver -k || true; rm -rf "$room"' EXIT
wine wineboot --init >"$room/said" 2>&1 || { cat "$room/said"; echo "FAILED: $part: Wine doesn't start"; exit 1; }
x86_64-w64-mingw32-gcc -std=c11 -municode -O2 -Wall -Wextra -Wconversion -Wshadow -Werror "$here/windows/units.c" \
    -o "$room/units.exe"

# cases_on_windows FOLDER NAME : the cases of tests/runs/platforms/NAME over the program of a folder
cases_on_windows() {
    named_program "$1" "$room/on_windows"
    { echo '#!/bin/sh'; echo "exec wine '$room/units.exe' 'Z:$1/urlcheck.exe' \"\$@\""; } >"$room/on_windows/units"
    chmod 755 "$room/on_windows/units"
    LACKS=$lacks CASES=$2 timeout "$limit" bash "$top/tests/runs/all.sh" "$room/on_windows/urlcheck" "$here/$2" >"$room/said" 2>&1
}

# spoiled_on_windows WHAT NAME RUN FILE SED : with this edit of a file of the shim the program starts, and this run of the cases of
# that name fails
spoiled_on_windows() {
    rm -rf "$room/spoiled" "$room/shims"
    cp -r "$top/platform" "$room/shims"
    edited "$1" "$room/shims" "$4" "$5"
    SHIMS=$room/shims built_into "$room/spoiled"
    wine "$room/spoiled/urlcheck.exe" --version | tr -d '\r' | cmp - <("$program" --version)
    if cases_on_windows "$room/spoiled" "$2" || ! LC_ALL=C grep -aq "^FAILED: $3" "$room/said"; then
        cat "$room/said"
        echo "FAILED: $part: $1 isn't found"
        exit 1
    fi
    count=$((count + 1))
}

spoiled_windows() {
    spoiled_on_windows 'a read of a byte less' host 'lint ' windows.c 's/^    return count;$/    return count > 1 ? count - 1 : count;/'
    spoiled_on_windows 'a missing file that is another error' host 'lint missing: on standard error' windows.c \
        's/{ERROR_FILE_NOT_FOUND, ERROR_NOENT}/{ERROR_FILE_NOT_FOUND, ERROR_IO}/'
    spoiled_on_windows 'errors of Windows that stay as they are' host 'check to a full device' windows.c \
        's/return refused(errors\[at\]\.number);/return refused((int64_t)error);/'
    spoiled_on_windows 'a broken pipe that is an error of the device' host 'check to a closed pipe' windows.c \
        '/_PIPE}\|_DATA, \|_NOT_CONNECTED, /s/ERROR_PIPE}/ERROR_IO}/'
    spoiled_on_windows 'half a pair that is U+FFFD' windows 'units check http://h/' windows_words.c \
        's/ || units\[1\] > 0xdfff) return first;/&/; s/^    unsigned long first = .*/&\n    if (first >> 11 == 27 \&\& (first > 0xdbff || count < 2 || units[1] >> 10 != 55)) return *taken = 1, 0xfffd;/'
    spoiled_on_windows 'an end of a line that is written as CR LF' windows 'lint ' windows.c \
        's/^    if (!WriteFile/    if (count \&\& bytes[count - 1] == 10) WriteFile(handle_of(file), "\\r", 1, \&written, NULL);\n&/'
    spoiled_on_windows 'an input that U+001A ends' windows 'lint .* of ends of lines' windows.c \
        's/^    return count;$/    for (DWORD at = 0; at < count; at++) {\n        if (buffer[at] == 26) return at;\n    }\n&/'
    spoiled_on_windows 'a base in which \ becomes /' windows 'lint --base' windows_words.c 's/L"--base", //'
    spoiled_on_windows 'a name with \' windows 'lint -q folder' windows_words.c "s|if (\*at == '\\\\\\\\') \*at = '/';|;|"
    spoiled_on_windows 'files in another order' windows 'lint -q folder' windows_words.c \
        's/return strcmp(\(.*\), \(\*(char .*\));/return strcmp(\2, \1);/'
}
