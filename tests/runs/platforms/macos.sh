# Sourced by tests/runs/platforms.sh: what runs the program for macOS, and what is read of it.
aarch64-linux-gnu-gcc -std=gnu11 -O2 -Wall -Wextra -Werror -static "$here/macos/loader.c" -o "$room/loader"
kit=$(dirname "$(rt doc)")

# of_macos WORD.. : what LLVM reads of a program for macOS
of_macos() { (exec -a llvm-objdump "$kit/toolchain/bin/clang" --macho "$@"); }

# is_read_back PROGRAM : whether it is one for macOS 11 and later on ARM that may be anywhere in memory, takes of
# libSystem what platform/macos names, and nothing of another library, and has a whole signature
is_read_back() {
    of_macos --private-headers "$1" >"$room/headers" 2>&1 || return 1
    grep -q 'ARM64 .* EXECUTE .* DYLDLINK TWOLEVEL PIE' "$room/headers" || return 1
    sed -n '/cmd LC_LOAD_DYLIB/,/name /s/.*name \(.*\) (.*/\1/p; /cmd LC_BUILD_VERSION/,/minos/p' "$room/headers" |
        awk '{ print $NF }' | xargs >"$room/asked"
    [ "$(cat "$room/asked")" = 'LC_BUILD_VERSION 32 macos 11.0 11.0 /usr/lib/libSystem.B.dylib' ] || return 1
    of_macos --bind --lazy-bind --weak-bind "$1" | awk '/ libSystem / { print $NF }' | sort -u >"$room/taken"
    tr -d ' ,[]' <<<"$(sed -n '/symbols:/,$p' "$top/platform/macos/libSystem.tbd" | sed 's/symbols://; s/[.,]/\n/g')" |
        grep . | sort >"$room/named"
    [ -s "$room/taken" ] && [ -z "$(comm -23 "$room/taken" "$room/named")" ] || return 1
    python3 "$here/macos/signature.py" "$1" || return 1
}

# read_back PROGRAM : whether it is so, and whether copies that are spoiled aren't
read_back() {
    local at
    is_read_back "$1" || { cat "$room/headers"; echo "FAILED: $part: the program is another one"; exit 1; }
    for at in 12 5000 $(($(stat -c %s "$1") - 100)); do
        cp "$1" "$room/spoiled.macho"
        printf '\377' | dd of="$room/spoiled.macho" bs=1 seek="$at" conv=notrunc 2>"$room/said"
        if is_read_back "$room/spoiled.macho" >"$room/said" 2>&1; then
            echo "FAILED: $part: another byte at $at isn't found"
            exit 1
        fi
    done
}

# asks_for_a_budget FOLDER : in its copies of the headers and of the names of libSystem is what the allocator with a
# budget takes
asks_for_a_budget() {
    local text='unsigned long long strtoull(const char *text, char **end, int base);'
    sed -i "s/^#endif/$text\n#define UINT64_MAX __UINT64_MAX__\n&/" "$1/stdlib.h"
    sed -i 's/_memset,/_strtoull, &/' "$1/libSystem.tbd"
}
