#!/usr/bin/env bash
# Runs the library for C of another Linux, as tests/runs/library.sh runs the one for x86-64, and compares with the program given as the
# first argument:
#
#     tests/runs/platforms/library.sh PROGRAM TARGET
#
# TARGET is aarch64 or riscv64, under qemu. The C programs of tests/runs/library are compiled for it: every file of vectors by the
# static library and by the shared one, the calls for many texts, reports, four threads, each allocation refused in turn, a
# million faults, and a text of 100 MB. A spoiled copy of the shim has to fail. What isn't installed here is left out, with a
# line. BUILT, of the environment, is a folder that platform/build-library wrote, to be taken as it is.
. "$(dirname "$(dirname "$(realpath "$0")")")/start.sh"
target=${2:?which system}
part="platforms: the library for $target"
case $target in
    aarch64 | riscv64) cross=$target-linux-gnu- qemu=qemu-$target root=/usr/$target-linux-gnu ;;
    *) echo 'usage: tests/runs/platforms/library.sh PROGRAM TARGET' >&2; exit 2 ;;
esac
needs "$part" "$qemu" "${cross}gcc" python3
cd "$top/tests/runs/library"
export PYTHONDONTWRITEBYTECODE=1

fail() {
    echo "FAILED: $part: $*"
    exit 1
}

# library_into FOLDER : the library of this system
library_into() {
    "$top/platform/build-library" "$target" "$1" >"$room/said" 2>&1 || { cat "$room/said"; fail "it isn't built"; }
}

built=${BUILT:-$room/built}
[ -n "${BUILT:-}" ] || library_into "$built"
built=$(realpath "$built")
archive=$built/lib/liburlcheck.a shared=$built/lib/liburlcheck.so

# ---- its names

for seen in "$("${cross}nm" -g --defined-only "$archive")" "$("${cross}nm" -D --defined-only "$shared")"; do
    if grep -E ' [B-Z] ' <<<"$seen" | grep -qv ' urlcheck_'; then fail 'another name is visible'; fi
done
awk '/^URLCHECK_/ { node = $1 } /^ *urlcheck_[a-z_0-9]*;$/ { print substr($1, 1, length($1) - 1) "@@" node }' \
    "$top/bindings/c/library.map" | sort >"$room/wanted"
"${cross}nm" -D --defined-only --with-symbol-versions "$shared" | awk '$2 != "A" { print $3 }' | sort >"$room/found"
diff "$room/wanted" "$room/found" || fail 'it exports other names than bindings/c/library.map'
"${cross}objdump" -p "$shared" | grep -q 'SONAME *liburlcheck\.so\.0\.5$' || fail 'it has another SONAME'

# ---- programs in C

# compiled NAME WORD.. : the program of that name, of the archive, or of what the words say
compiled() {
    "${cross}gcc" -std=c99 -D_XOPEN_SOURCE=600 -Wall -Wextra -Werror -O2 -I "$built/include" "$1.c" "${@:2}" -o "$room/$1"
}

# run NAME WORD.. : it here; where it isn't static, over the shared library
run() { "$qemu" -L "$root" -E LD_LIBRARY_PATH="$built/lib:$root/lib" "$room/$1" "${@:2}"; }

. "$top/tests/runs/platforms/programs.sh"
prepared
compiled answers -static "$archive"
answers_by 'the static library'
compiled answers "$shared"
answers_by 'the shared library'
places_and_mended_texts
for name in batches calls refusals lint; do compiled $name -static "$archive"; done
calls_and_reports

compiled threads -static "$archive" -lpthread
run threads
compiled memory -static "$archive" -Wl,--wrap=malloc,--wrap=realloc,--wrap=free
run memory
echo "$part: places, mended texts, calls for many texts, threads, and each allocation refused"

# ---- a spoiled copy of the shim

cp -r "$top/platform" "$room/shims"
sed -i 's/(attempt){block != NULL,/(attempt){1,/' "$room/shims/heap.c"
! cmp -s "$room/shims/heap.c" "$top/platform/heap.c" || fail 'the edit changes nothing'
SHIMS=$room/shims library_into "$room/spoiled"
compiled memory -static "$room/spoiled/lib/liburlcheck.a" -Wl,--wrap=malloc,--wrap=realloc,--wrap=free
if run memory >"$room/said" 2>&1; then fail "a refusal that isn't told isn't found"; fi
echo "$part: a spoiled copy is found"
