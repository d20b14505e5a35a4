#!/usr/bin/env bash
# Runs the library for C of Windows under Wine, and compares with the program given as the first argument:
#
#     tests/runs/platforms/windows_library.sh PROGRAM
#
# The C programs of tests/runs/library are compiled for Windows: every file of vectors by urlcheck.dll and by the static library, the calls
# for many texts, reports, four threads, each allocation refused in turn, a million faults, and a text of 100 MB. A spoiled
# allocator has to fail. What isn't installed here is left out, with a line. BUILT, of the environment, is a folder that
# `platform/build-library windows` wrote, to be taken as it is.
. "$(dirname "$(dirname "$(realpath "$0")")")/start.sh"
part='platforms: the library for windows'
cross=x86_64-w64-mingw32-
needs "$part" wine wineserver "${cross}gcc" python3
cd "$top/tests/runs/library"
export PYTHONDONTWRITEBYTECODE=1 WINEPREFIX=$room/wine WINEDEBUG=-all
trap 'wineserver -k || true; rm -rf "$room"' EXIT
wine wineboot --init >"$room/said" 2>&1 || { cat "$room/said"; echo "FAILED: $part: Wine doesn't start"; exit 1; }

fail() {
    echo "FAILED: $part: $*"
    exit 1
}

# library_into FOLDER : the library of this system
library_into() {
    "$top/platform/build-library" windows "$1" >"$room/said" 2>&1 || { cat "$room/said"; fail "it isn't built"; }
}

built=${BUILT:-$room/built}
[ -n "${BUILT:-}" ] || library_into "$built"
built=$(realpath "$built")

# ---- its names, and what it asks of Windows

sed -n 's/^ *\(urlcheck_[a-z_0-9]*\);$/\1/p' "$top/bindings/c/library.map" | sort >"$room/wanted"
"${cross}objdump" -p "$built/bin/urlcheck.dll" | sed -n '/Ordinal\/Name Pointer/,$p' | grep -o 'urlcheck_[a-z_0-9]*$' | sort >"$room/found"
diff "$room/wanted" "$room/found" || fail 'urlcheck.dll exports other names than bindings/c/library.map'
"${cross}nm" -g --defined-only "$built/lib/liburlcheck.a" | awk '$2 == "T" { print $3 }' | sort | diff "$room/wanted" - ||
    fail 'liburlcheck.a has other names than bindings/c/library.map'
needed=$("${cross}objdump" -p "$built/bin/urlcheck.dll" | sed -n 's/.*DLL Name: //p' | sort | xargs)
[ "$needed" = 'KERNEL32.dll msvcrt.dll' ] || fail "urlcheck.dll needs $needed"

# ---- programs in C

cp "$built/bin/urlcheck.dll" "$room/"

# compiled NAME WORD.. : the program of that name, of the library that the words name
compiled() {
    "${cross}gcc" -std=c99 -D_XOPEN_SOURCE=600 -D__USE_MINGW_ANSI_STDIO=1 -Wall -Wextra -Werror -O2 -static \
        -I "$built/include" "$1.c" "$top/tests/runs/platforms/windows/bytes.c" "${@:2}" -lpthread -o "$room/$1.exe"
}

# run NAME WORD.. : it here
run() { wine "$room/$1.exe" "${@:2}"; }

. "$top/tests/runs/platforms/programs.sh"
prepared
for library in liburlcheck.a liburlcheck.dll.a; do
    compiled answers "$built/lib/$library"
    answers_by $library
done
places_and_mended_texts
for name in batches calls refusals lint; do compiled $name "$built/lib/liburlcheck.dll.a"; done
calls_and_reports

compiled threads "$built/lib/liburlcheck.dll.a"
run threads
compiled memory "$built/lib/liburlcheck.a" -Wl,--wrap=malloc,--wrap=realloc,--wrap=free
run memory
echo "$part: places, mended texts, calls for many texts, threads, and each allocation refused"

# ---- a spoiled library: an allocation that is never refused

rm -rf "$room/shims"
cp -r "$top/platform" "$room/shims"
sed -i 's/(attempt){block != NULL, /(attempt){1, /' "$room/shims/heap.c"
! cmp -s "$room/shims/heap.c" "$top/platform/heap.c" || fail 'the edit of the allocator changes nothing'
SHIMS=$room/shims library_into "$room/spoiled"
built=$room/spoiled compiled memory "$room/spoiled/lib/liburlcheck.a" -Wl,--wrap=malloc,--wrap=realloc,--wrap=free
if run memory >"$room/said" 2>&1; then fail "an allocation that is never refused isn't found"; fi
echo "$part: a spoiled allocator is found"
