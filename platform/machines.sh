# Sourced at the top of the repository, after tools/builds.sh, by what builds for another machine. `here` is this folder,
# `shims` the one with the C, and of the target `target` is its name, `triple` LLVM's, and `cross` how the names of its
# compiler and binutils begin.

# kept_if_newer FILE SOURCE.. : whether the file is there, and no source is newer
kept_if_newer() {
    local source
    [ -e "$1" ] || return 1
    for source in "${@:2}"; do if [ "$source" -nt "$1" ]; then return 1; fi; done
}

# lowered KIT CRATE WORD.. : the object for the target of the crate's module, which takes long, and so is kept. The words are
# more of clang's. `made_for` is the processor that the toolchain makes the module for, without it plain x86-64.
lowered() {
    local module=crates/$2/out/${made_for:-x86-64}.bc kept=crates/$2/out/$target.o
    tools/build-module "$2" "$module" "${made_for:-x86-64}" || return
    kept_if_newer "$kept" "$module" "$here/lower" "$here/calls.ll" "$here/webassembly.ll" "$here/machines.sh" ||
        "$here/lower" "$1" "$module" "$triple" "$kept" "${@:3}" || return
    echo "$kept"
}

# The words of clang for RISC-V: what each such Linux has, as Debian's ports take it, with code that may be anywhere.
riscv64=(-march=rv64gc -mabi=lp64d -fPIC)

# The words of clang for WebAssembly: no instructions that copy many bytes, which older engines lack.
webassembly=(-mno-bulk-memory -mno-bulk-memory-opt)

# The words of clang for Windows: each processor for x86-64.
windows=(-march=x86-64)

# windows_object NAME FILE : the C of that name, as an object file for Windows
windows_object() {
    "${cross}gcc" -std=c11 -O2 -Wall -Wextra -Wconversion -Wshadow -Werror -ffunction-sections -I "$here" \
        -c "$shims/$1.c" -o "$2"
}

# How a program or a library for Windows is linked: its code may be anywhere, no data is run, and no date is in it.
windows_link=(-static -Wl,--gc-sections -Wl,--nxcompat -Wl,--dynamicbase -Wl,--high-entropy-va -Wl,--no-insert-timestamp -s)

# linux_object NAME FILE : the C of that name, as an object file for a Linux
linux_object() {
    "${cross}gcc" -std=c11 -O2 -Wall -Wextra -Wconversion -Werror -fPIC -ffunction-sections -I "$here" \
        -c "$shims/$1.c" -o "$2"
}
