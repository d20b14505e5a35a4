#!/usr/bin/env bash
# Runs the program of another system, and compares it with the program given as the first argument:
#
#     tests/runs/platforms.sh PROGRAM TARGET
#
# TARGET is aarch64 or riscv64, Linux on ARM or on RISC-V, under qemu; windows, under Wine; macos, whose program is
# read, and its code run under qemu with a substitute for libSystem; or node, the program for Node. What runs: the
# cases of tests/runs/ and of tests/runs/platforms/host, the checksums of all that commands say of 20,000 hostile
# texts and of the vectors, little memory, and spoiled copies of the shim or the host, which have to fail. For node it
# is also the types of its host, and for windows the cases of tests/runs/platforms/windows. What the system lacks is
# counted and named, and what isn't installed here is left out, with a line.
#
# Words of the environment: BUILT is a folder that platform/build wrote, to be taken as it is; CASES has the names of
# the files of cases that are run, otherwise all are; and QUICK leaves out little memory and the spoiled copies.
. "$(dirname "$(realpath "$0")")/start.sh"
target=${2:?which system}
here=$top/tests/runs/platforms
part="platforms: $target"
limit=1800 # seconds for a file of cases

# What runs a program of the target, and what it lacks that some runs need. Neither an emulator nor Node starts in so
# little memory, Node opens /dev/null in place of a closed stream, and gives the program no environment. Only Linux tells the
# program what a name is of.
case $target in
    aarch64)
        build=aarch64 runner='qemu-aarch64 -0 urlcheck' binary=urlcheck-static lacks=prlimit
        tools=(qemu-aarch64 aarch64-linux-gnu-gcc)
        ;;
    riscv64)
        build=riscv64 runner='qemu-riscv64 -0 urlcheck' binary=urlcheck-static lacks=prlimit
        tools=(qemu-riscv64 riscv64-linux-gnu-gcc)
        ;;
    windows)
        build=windows runner=wine binary=urlcheck.exe tools=(wine wineserver x86_64-w64-mingw32-gcc)
        lacks='prlimit byte_arguments posix_names posix_paths file_modes file_metadata folder_input long_command_lines terminals'
        ;;
    macos)
        build=macos runner="qemu-aarch64 -0 urlcheck $room/loader" binary=urlcheck lacks='prlimit file_metadata'
        tools=(qemu-aarch64 aarch64-linux-gnu-gcc python3)
        ;;
    node) build=wasi runner=node binary=program.mjs lacks='prlimit closed_streams file_metadata terminals environment' tools=(node wasm-opt) ;;
    *) echo 'usage: tests/runs/platforms.sh PROGRAM TARGET' >&2; exit 2 ;;
esac
needs "$part" "${tools[@]}"
chmod 755 "$room"
case $target in windows | macos) . "$here/$target.sh" ;; esac

# ---- what is built

# built_into FOLDER : the program of this system
built_into() {
    "$top/platform/build" "$build" "$1" >"$room/said" 2>&1 || { cat "$room/said"; echo "FAILED: $part isn't built"; exit 1; }
}

# named_program FOLDER TO : the program of a folder as a file TO/urlcheck, which runs here
named_program() {
    mkdir -p "$2"
    { echo '#!/bin/sh'; echo "exec $runner '$1/$binary' \"\$@\""; } >"$2/urlcheck"
    chmod 755 "$2/urlcheck"
}

built=${BUILT:-$room/built}
[ -n "${BUILT:-}" ] || built_into "$built"
built=$(realpath "$built")
named_program "$built" "$room/program"
other=$room/program/urlcheck

if [ "$target" = macos ]; then
    read_back "$built/urlcheck"
    echo "$part: the program is read back: what it asks for, what it takes, and its signature; spoiled copies are found"
fi
if [ "$target" = node ] && command -v tsc >/dev/null; then
    mkdir "$room/types"
    cp "$top/platform/program.mjs" "$here/node.d.ts" "$room/types/"
    tsc --strict --noEmit --target es2022 --module es2022 --moduleResolution node --lib es2022,dom --allowJs --checkJs \
        "$room/types/program.mjs" "$room/types/node.d.ts"
    echo "$part: the types of program.mjs"
fi

CASES=host bash "$top/tests/runs/all.sh" "$program" "$here/host" >"$room/said" || { cat "$room/said"; exit 1; }
CASES=host LACKS=$lacks bash "$top/tests/runs/all.sh" "$other" "$here/host" >"$room/said" ||
    { cat "$room/said"; exit 1; }
echo "$part: the cases of a host"

if [ "$target" = windows ]; then
    cases_on_windows "$built" windows || { cat "$room/said"; exit 1; }
    echo "$part: the cases of Windows"
fi

# ---- the cases, as many files side by side as there are processors

# cases_of FILE : the cases of one file
cases_of() {
    CASES=$1 LACKS=$lacks timeout $limit bash "$top/tests/runs/all.sh" "$other" >"$room/cases.$1" 2>&1
}

ran=0 failed=0 names=() left=()
for file in "$top"/tests/runs/*.cases.sh; do
    name=$(basename "$file" .cases.sh)
    case " ${CASES:-$name} " in *" $name "*) names+=("$name") ;; *) left+=("$name") ;; esac
done
for name in "${names[@]}"; do
    while [ "$(jobs -pr | wc -l)" -ge "$(nproc)" ]; do sleep 0.2; done
    (cases_of "$name" || echo "FAILED: the cases of $name on $target" >>"$room/cases.$name") &
done
wait
for name in "${names[@]}"; do
    if grep '^FAILED' "$room/cases.$name"; then failed=1; fi
    ran=$((ran + $(sed -n 's/^runs: \([0-9]*\) runs of .*/\1/p' "$room/cases.$name")))
done
lacking=$(cat "$room"/cases.* | sed -n 's/^runs: left out \([0-9]*\) that need \(.*\)/\2 \1/p' |
    awk '{ sum[$1] += $2 } END { for (it in sum) printf "; left out %d that need %s", sum[it], it }')
echo "$part: $ran runs of ${#names[@]} files of cases$lacking"
[ ${#left[@]} = 0 ] || echo "$part: the cases left out here: ${left[*]}"
[ $failed = 0 ] || exit 1

# ---- the same bytes as the program given

python3 "$here/texts.py" 20000 "$top"/tests/vectors/*.json >"$room/texts"

# sums PROGRAM : a line for each command: its words, its status, and the checksum of what it wrote
sums() {
    local words file status
    while read -r words; do
        status=0
        "$1" $words <"$room/texts" >"$room/out.$2" 2>"$room/err.$2" || status=$?
        echo "$words: status $status $(cat "$room/out.$2" "$room/err.$2" | sha256sum)"
    done <<'END_OF_WORDS'
lint --all --format json -
lint --wide --format caret -
lint --profile parser --format sarif -
links
mend
END_OF_WORDS
    for file in "$top"/tests/vectors/*.json; do
        status=0
        (cd "$top/tests/vectors" && "$1" vectors "$(basename "$file")") >"$room/out.$2" 2>&1 || status=$?
        echo "vectors $(basename "$file"): status $status $(sha256sum <"$room/out.$2")"
    done
}
sums "$program" native >"$room/wanted" &
sums "$other" other >"$room/found"
wait
diff "$room/wanted" "$room/found" || { echo "FAILED: $part writes other bytes"; exit 1; }
echo "$part: one checksum for each of $(wc -l <"$room/found") commands, over 20,000 texts and the vectors"

if [ -n "${QUICK:-}" ]; then
    echo "$part: no run in little memory, and no spoiled copy, by QUICK"
    exit 0
fi

# ---- spoiled copies of the shim, and of the host of node

count=0
# is_found WHAT RUN : this run of the cases of a host fails by the program of $room/spoiled, which still starts
is_found() {
    named_program "$room/spoiled" "$room/spoiled.program"
    "$room/spoiled.program/urlcheck" --version | cmp - <("$program" --version)
    if CASES=host timeout $limit bash "$top/tests/runs/all.sh" "$room/spoiled.program/urlcheck" "$here/host" >"$room/said" 2>&1 ||
        ! LC_ALL=C grep -aq "^FAILED: $2" "$room/said"; then
        cat "$room/said"
        echo "FAILED: $part: $1 isn't found"
        exit 1
    fi
    count=$((count + 1))
}

# edited WHAT FOLDER FILE SED : edits a file of a folder, which is one of platform/
edited() {
    sed -i "$4" "$2/$3"
    ! cmp -s "$2/$3" "$top/platform/$3" || { echo "FAILED: $part: $1: the edit changes nothing"; exit 1; }
}

# spoiled WHAT RUN SED : with this edit of program.mjs that run is found to fail
spoiled() {
    rm -rf "$room/spoiled"
    cp -r "$built" "$room/spoiled"
    edited "$1" "$room/spoiled" program.mjs "$3"
    is_found "$1" "$2"
}

# spoiled_shim WHAT RUN FILE SED : with this edit of a file of the shim that run is found to fail
spoiled_shim() {
    rm -rf "$room/spoiled" "$room/shims"
    cp -r "$top/platform" "$room/shims"
    edited "$1" "$room/shims" "$3" "$4"
    SHIMS=$room/shims built_into "$room/spoiled"
    is_found "$1" "$2"
}
case $target in
    node)
        spoiled 'bytes that are checked as U+FFFD' 'check http://h/.*: status 0, and not 2' \
            's/if (own !== null) return own/return texts.map(text => Buffer.from(text))/'
        spoiled 'a read of a byte less' 'lint ' 's/return \(readSync(.*)\)$/return Math.max(0, \1 - 1)/'
        spoiled 'a missing file that is another error' 'lint missing: on standard error' 's/ENOENT: 44/ENOENT: IO/'
        spoiled 'a broken pipe that is an error of the device' 'check to a closed pipe: ' 's/EPIPE: 64/EPIPE: IO/'
        ;;
    riscv64 | macos)
        spoiled_shim 'a read of a byte less' 'lint ' posix.c 's/return answered(\(read(.*)\));/int64_t count = answered(\1); return count - (count > 0);/'
        spoiled_shim 'a missing file that is another error' 'lint missing: on standard error' posix.c \
            's/{ENOENT, ERROR_NOENT}/{ENOENT, ERROR_IO}/'
        spoiled_shim 'a broken pipe that is an error of the device' 'check to a closed pipe: ' posix.c \
            's/{EPIPE, ERROR_PIPE}/{EPIPE, ERROR_IO}/'
        spoiled_shim 'a broken pipe that ends the program' 'check to a closed pipe: ' posix.c 's/return signal(.*;/return 0;/'
        ;;
    windows) spoiled_windows ;;
    aarch64)
        spoiled_shim 'a missing file that is another error' 'lint missing: on standard error' kit.c \
            's/return errno;/return errno == ENOENT ? EIO : errno;/'
        spoiled_shim 'bytes without their first bit' 'check http://h/' arguments.c 's/(uint8_t)word\[length\]/word[length] \& 0x7f/'
        ;;
esac
echo "$part: $count spoiled copies are found"

# ---- little memory: the allocator of the shim refuses, by a word of the environment, or the engine, by a limit in
# the module

if [ "$target" = node ]; then
    cp -r "$built" "$room/little"
else
    rm -rf "$room/shims"
    cp -r "$top/platform" "$room/shims"
    mv "$room/shims/heap.c" "$room/shims/heap_of_c.c"
    cp "$here/budget.c" "$room/shims/heap.c"
    [ "$target" != macos ] || asks_for_a_budget "$room/shims/macos"
    SHIMS=$room/shims built_into "$room/little"
fi
named_program "$room/little" "$room/little.program"

# in_memory STEP WORD.. : a run with so many steps of memory
in_memory() {
    if [ "$target" = node ]; then
        node "$top/tests/runs/browser/limited.mjs" "$built/program.wasm" "$1" "$room/little/program.wasm"
        "$room/little.program/urlcheck" "${@:2}"
    else
        BUDGET=$(($1 * 4096)) "$room/little.program/urlcheck" "${@:2}"
    fi
}

# walks WORD.. : a run on $room/list in more and more memory: each step is refused with the status 3, the word
# `memory`, and a part of the output that has whole lines, until one succeeds with all of it
walks() {
    local step status=3 refused=0
    "$program" "$@" <"$room/list" >"$room/whole" 2>"$room/wanted" || true
    for ((step = 0; step < 100000 && status == 3; step += step / 4 + 1)); do
        status=0
        in_memory $step "$@" <"$room/list" >"$room/out" 2>"$room/err" || status=$?
        [ $status = 3 ] || break
        refused=$((refused + 1))
        [ "$(tail -n 1 "$room/err")" = memory ] || { echo "FAILED: $part: $1 in little memory: $(cat "$room/err")"; exit 1; }
        [ ! -s "$room/out" ] || [ "$(tail -c 1 "$room/out" | wc -l)" = 1 ] || { echo "FAILED: $part: $1 wrote half a line"; exit 1; }
        cmp -s <(head -c "$(stat -c %s "$room/out")" "$room/whole") "$room/out" ||
            { echo "FAILED: $part: $1 wrote other bytes in little memory"; exit 1; }
    done
    cmp -s "$room/whole" "$room/out" && cmp -s "$room/wanted" "$room/err" ||
        { echo "FAILED: $part: $1 with enough memory: $(head -c 300 "$room/err")"; exit 1; }
    [ $refused -gt 1 ] || { echo "FAILED: $part: $1 was refused $refused times"; exit 1; }
}
awk 'BEGIN { for (n = 0; n < 60000; n++) printf "a"; printf "\n" }' >"$room/name"
{ printf 'http://h/ '; cat "$room/name"; } >"$room/list"
walks lint -
walks mend
walks links
# (a line of arguments has 32,767 units on Windows)
walks check "http://h/$(head -c 30000 "$room/name")"
echo "$part: four commands in little memory: refused, and whole"
