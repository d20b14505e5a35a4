# Sourced at the top of the repository, after tools/builds.sh, by what builds the library for C: what is the same for
# each machine. `work` is a folder for what is made on the way. CC, OBJCOPY, AR, STRIP and OBJDUMP are the tools of
# the machine.

# exports : the names that the library exports
exports() {
    sed -n 's/^ *\(urlcheck_[a-z_0-9]*\);$/\1/p' bindings/c/library.map
}

# proved_names ENDING FILE : the functions that the exports call, each with that ending after its name, as a list for objcopy
proved_names() {
    exports | sed -e 's/_to$//' -e "s/.*/& &_$1/" >"$2"
}

# named_build WHOLE.o ENDING OBJECT : a build of the proved code, of which only the functions are seen, by names with that ending
named_build() {
    proved_names "$2" "$work/names"
    ${OBJCOPY:-objcopy} --redefine-syms="$work/names" --wildcard --keep-global-symbol='urlcheck_*' "$1" "$3"
}

# cmake_files FOLDER VERSION : what find_package of CMake reads, which finds the library from its own folder
cmake_files() {
    mkdir -p "$1"
    cp bindings/c/urlcheck-config.cmake "$1/"
    sed "s|@VERSION@|$2|" bindings/c/urlcheck-config-version.cmake.in >"$1/urlcheck-config-version.cmake"
}

# whole_library FOLDER OBJECT.. : of one build, or of those for x86-64 between which the exports choose, the libraries
# in lib/, with what names them for pkg-config and CMake, and the headers. No path of this machine is in what is built.
whole_library() {
    local folder=$1 version soname words=(-O2 -fPIC -fvisibility=hidden -ffunction-sections)
    version=$(cat VERSION)
    soname=liburlcheck.so.$(series)
    shift
    [ $# -gt 1 ] || words+=(-DONE_BUILD)
    mkdir -p "$folder/lib/pkgconfig" "$folder/include"
    cp bindings/c/library.c bindings/c/processor.h bindings/c/include/urlcheck.h "$work/"
    (cd "$work" && ${CC:-cc} "${words[@]}" -c library.c -o library.o)
    ${CC:-cc} -r -nostdlib -o "$work/whole.o" "$work/library.o" "$@"
    exports >"$work/exports"
    ${OBJCOPY:-objcopy} --keep-global-symbols="$work/exports" "$work/whole.o" "$work/urlcheck.o"
    bare "$work/urlcheck.o"
    rm -f "$folder"/lib/liburlcheck.*
    ${AR:-ar} rcsD "$folder/lib/liburlcheck.a" "$work/urlcheck.o"

    ${CC:-cc} -shared -o "$folder/lib/liburlcheck.so.$version" "$work/urlcheck.o" \
        -Wl,--version-script=bindings/c/library.map -Wl,-soname,"$soname" -Wl,--gc-sections -Wl,-z,defs -Wl,-z,relro \
        -Wl,-z,now -Wl,-z,noexecstack
    bare "$folder/lib/liburlcheck.so.$version"
    ln -s "liburlcheck.so.$version" "$folder/lib/$soname"
    ln -s "$soname" "$folder/lib/liburlcheck.so"

    cp bindings/c/include/*.h "$folder/include/"
    [ ! -f bindings/cpp/urlcheck.hpp ] || cp bindings/cpp/urlcheck.hpp "$folder/include/"
    # (it tells folders from its own, so that this one may be moved)
    sed -e 's|@PREFIX@|${pcfiledir}/../..|' -e 's|@LIBDIR@|${prefix}/lib|' -e "s|@VERSION@|$version|" \
        bindings/c/urlcheck.pc.in >"$folder/lib/pkgconfig/urlcheck.pc"
    cmake_files "$folder/lib/cmake/urlcheck" "$version"
}

# python_files FOLDER : the Python package without its extension module, whose sources come into the folder $work/native
python_files() {
    local folder=$1 file
    rm -rf "$folder/python"
    mkdir -p "$folder/python" "$work/native"
    cp bindings/python/native/*.[ch] bindings/c/include/urlcheck.h "$work/native/"
    cp VERSION bindings/python/{pyproject.toml,wheel_backend.py,README.md} "$folder/python/"
    cp -R bindings/python/urlcheck "$folder/python/"
    find "$folder/python" -name __pycache__ -prune -exec rm -r {} +
    for file in LICENSE* NOTICE; do
        [ ! -f "$file" ] || cp "$file" "$folder/python/"
    done
}

# python_package FOLDER HEADERS MACHINE : the Python package over the library of the folder, as pip installs it. Its
# extension module has the library in it, and is one for all versions from 3.8 on.
python_package() {
    local folder=$1 headers=$2 needed glibc
    python_files "$folder"
    build_native "$headers" "$work/native" "$folder/lib/liburlcheck.a" "$folder/python/urlcheck/_native.abi3.so"
    bare "$folder/python/urlcheck/_native.abi3.so"
    # A system whose glibc is older than what the module asks for isn't told to take the wheel.
    needed=$(glibc_of "$folder/python/urlcheck/_native.abi3.so") || return
    glibc=$(printf '%s\n' 2.17 "$needed" | sort -V | tail -n 1)
    echo "manylinux_${glibc/./_}_$3" >"$folder/python/PLATFORM"
}
