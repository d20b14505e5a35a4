# Sourced at the top of the repository: the builds of the program and of the library for each processor, which the
# proofs of the crates below them come before. They are kept in the crates' folders out/, and made again where a source
# is newer.
shopt -s inherit_errexit

# The processors, plain x86-64 first.
processors=(x86-64 x86-64-v2)

# symbol_of PROCESSOR : how its name ends a symbol
symbol_of() {
    echo "${1//-/_}"
}

# kit : the toolchain's folder
kit() {
    command -v rt >/dev/null || { echo 'urlcheck: the toolchain command rt is needed to build it' >&2; return 70; }
    dirname "$(rt doc)"
}

# build_of CRATE PROCESSOR ENDING : what the crate is built into for the processor, an archive (a) or an object file (o)
build_of() {
    local kept=crates/$1/out/$2.$3
    tools/build-crate "$1" "$kept" --cpu="$2" || return 70
    echo "$kept"
}

# series : the series of the interface for C, by which the shared library and its package for Debian are named
series() {
    sed -n '/^URLCHECK_/ { s/^URLCHECK_\([0-9.]*\) {$/\1/p; q }' bindings/c/library.map
}

# glibc_of FILE.. : the oldest version of glibc that has all that the files ask for
glibc_of() {
    local symbols versions
    symbols=$(${OBJDUMP:-objdump} -T "$@") || return
    versions=$(sed -n 's/.*GLIBC_\([0-9.]*\).*/\1/p' <<<"$symbols" | sort -V)
    [ -n "$versions" ] || { echo "urlcheck: $* names no version of glibc" >&2; return 1; }
    tail -n 1 <<<"$versions"
}

# installed_size FOLDER : how many KiB Debian says that a package's tree takes: those that each file fills or begins, and one for all else,
# whatever the file system needs for them
installed_size() {
    find "$1" -mindepth 1 -path "$1/DEBIAN" -prune -o -printf '%y %s\n' |
        awk '{ sum += $1 == "f" ? int(($2 + 1023) / 1024) : 1 } END { print sum + 0 }'
}

# bare FILE : takes away what the compilers note of themselves
bare() {
    ${STRIP:-strip} --strip-unneeded --remove-section=.comment "$1"
}

# python_headers : the folder of Python.h, by the word of python3
python_headers() {
    local folder
    folder=$(${PYTHON:-python3} -c 'import sysconfig; print(sysconfig.get_paths()["include"])' 2>/dev/null) || return 1
    [ -f "$folder/Python.h" ] || return 1
    echo "$folder"
}

# build_native HEADERS SOURCES LIBRARY FILE : the extension module for Python, of the sources in a folder, over the library.
# CFLAGS has more words for the compiler. No path of this machine is in what is built.
build_native() {
    local library=$3 file=$4
    (cd "$2" && ${CC:-cc} -std=c11 -Wall -Wextra -Werror -O2 ${CFLAGS:-} -fPIC -fvisibility=hidden -ffunction-sections \
        -shared -I "$1" -I . *.c "$library" -Wl,--exclude-libs,ALL -Wl,--gc-sections -Wl,-z,relro -Wl,-z,now \
        -Wl,-z,noexecstack -o "$file")
}
