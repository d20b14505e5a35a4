#!/usr/bin/env bash
# Runs the packages for C++, Rust, Go and Java over every file of vectors, in three profiles, and compares each answer
# with that from C and with what the vectors want; then their own tests, linters and pages, what a caller may hand in by
# mistake, and spoiled copies, which have to give other answers. The programs in Ruby, PHP, C#, Lua and Perl of the
# guide report the same texts as `urlcheck lint`. What isn't installed is left out, and a line says so. It needs no
# network.
# LIBRARY may name a folder that tools/build-library wrote.
. "$(dirname "$(realpath "$0")")/start.sh"
cd "$top/tests/runs/languages"
needs languages gcc python3 pkg-config
with_library
include=$library/include
rooms=$room
export PYTHONDONTWRITEBYTECODE=1 LC_ALL=C.UTF-8
export PKG_CONFIG_PATH=$library/lib/pkgconfig LD_LIBRARY_PATH=$library/lib

# has_version FILE WORDS : sees that a file of a package has these words, with the version of urlcheck.h in place of @
has_version() {
    local number
    number=$(sed -n 's/^#define URLCHECK_VERSION //p' "$include/urlcheck.h")
    number=$((number / 10000)).$((number / 100 % 100)).$((number % 100))
    grep -qF -- "${2/@/$number}" "$top/bindings/$1" || { echo "FAILED: bindings/$1 has no version $number"; exit 1; }
}

# The answers from C, which tests/runs/library.sh compares with the program's.
cases=$room/cases answers=$room/answers mended=$room/mended
python3 ../library/cases.py pack "$cases" "$top"/tests/vectors/*.json
gcc -std=c99 -O2 -I "$include" ../library/answers.c "$library/lib/liburlcheck.a" -o "$room/answers_c"
"$room/answers_c" "$cases" >"$answers"
"$room/answers_c" "$cases" mended >"$mended"
python3 vectors.py "$answers" "$top"/tests/vectors/*.json

# A library that answers what its texts say, for answers that no text has.
told=$room/told.so
gcc -std=c99 -Wall -Wextra -Werror -O2 -shared -fPIC -I "$include" told.c -o "$told"

# here WHAT TOOL : whether a tool is installed, otherwise says what is left out
here() {
    command -v "$2" >/dev/null || { left_out languages "$1" "$2 is not installed"; return 1; }
}

# with WHAT PART COMMAND.. : whether a part of a tool is installed, which the command sees, otherwise says what is left out
with() {
    "${@:3}" >/dev/null 2>&1 || { left_out languages "$1" "$2 is not installed"; return 1; }
}

# roomy WHAT GIGABYTES : waits until no other such part runs, and says whether so much memory is free, otherwise what is left
# out
roomy() {
    local free
    exec {heavy}>"$rooms/heavy"
    flock "$heavy"
    free=$(awk '/^MemAvailable:/ { print int($2 / 1048576) }' /proc/meminfo)
    [ "${free:-0}" -ge "$2" ] && return
    left_out languages "$1" "of $2 GB of memory ${free:-0} are free"
    exec {heavy}>&-
    return 1
}

# quiet WHAT COMMAND.. : runs a command whose output is shown where it fails
quiet() {
    local what=$1
    shift
    "$@" >"$room/said" 2>&1 || { cat "$room/said"; fail "$what"; }
}

# same COMMAND.. : whether a program that answers the cases gives the answers and the mended texts of C
same() {
    "$@" "$cases" 2>/dev/null | cmp -s - "$answers" && "$@" "$cases" mended 2>/dev/null | cmp -s - "$mended"
}

# answering LANGUAGE COMMAND.. : sees that a program does, and counts the answers
answering() {
    local language=$1 different
    shift
    if ! same "$@"; then
        different=$("$@" "$cases" | diff - "$answers" | grep -c '^<' || true)
        fail "$language: $different of $(grep -c '' "$answers") answers differ, or a mended text does"
    fi
    echo "languages: $language gives $(grep -c '' "$answers") answers and mended texts, 0 different"
}

# copied FOLDER : a copy of the package in that folder of bindings/, in $room/FOLDER
copied() {
    rm -rf "${room:?}/$1"
    cp -r "$top/bindings/$1" "$room/$1"
}

# spoiled LANGUAGE BUILD FOLDER FILE SED COMMAND.. : in a copy of the package where this edit changed something, and
# which BUILD still builds, the program gives other answers. The edit is taken back.
spoils=0
spoiled() {
    local language=$1 build=$2 file=$3/$4 edit=$5
    shift 5
    cp "$room/$file" "$room/kept"
    sed -i "$edit" "$room/$file"
    ! cmp -s "$room/$file" "$room/kept" || fail "$language: the edit $edit changes nothing in $file"
    quiet "$language: a copy with the edit $edit isn't built" "$build"
    ! same "$@" || fail "$language: a spoiled copy gives the same answers: $edit"
    cp "$room/kept" "$room/$file"
    spoils=$((spoils + 1))
}

# guide NAME LANGUAGE FOLDER FILE : makes a folder with the program of a guide as this file, and with what its lines
# name: the folder `library`, and this repository as `urlcheck`. FOLDER.wanted is what the program prints.
guide() {
    mkdir -p "$room/$3"
    ln -sfn "$library" "$room/$3/library"
    ln -sfn "$top" "$room/$3/urlcheck"
    python3 guide.py "$top/docs/guides/$1.md" "$2" "$room/$3/$4" "$room/$3.wanted"
}

# as_told NAME FOLDER : runs the lines for a shell of a guide in a folder, which have to print what its program prints
as_told() {
    python3 guide.py "$top/docs/guides/$1.md" sh "$room/$2.sh"
    (cd "$room/$2" && bash -e "$room/$2.sh" 2>"$room/said") | cmp - "$room/$2.wanted" ||
        { cat "$room/said"; fail "docs/guides/$1.md: its lines print something else"; }
}

# Side by side, each in a folder of its own. LANGUAGES may name fewer of them.
read -ra languages <<<"${LANGUAGES:-cpp rust go java others}"
for language in "${languages[@]}"; do
    mkdir "$room/$language"
    (
        room=$room/$language
        . "./$language.sh"
        [ $spoils = 0 ] || echo "languages: $spoils spoiled copies of $language were found"
        : >"$room/passed"
    ) >"$room/$language.said" 2>&1 &
done
wait
failed=0
for language in "${languages[@]}"; do
    cat "$room/$language.said"
    [ -e "$room/$language/passed" ] || failed=1
done
exit $failed
