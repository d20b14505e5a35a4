#!/usr/bin/env bash
# Installs the program given as the first argument, and the library, into a folder: what is installed there, that the
# programs of docs/guides build and run by it, that each file names the one version, what the shared library
# exports, that the header is taken by each standard of C and C++, that an old processor runs the library, and that
# nothing is left once it is removed. Then the package for JavaScript, as npm installs it: `npx urlcheck` is the program. What
# isn't installed on the machine is left out, and a line says so. LIBRARY and PAGE may name folders that tools/build-library and
# tools/build-page wrote.
. "$(dirname "$(realpath "$0")")/start.sh"
cd "$top"
needs packages cc gcc objcopy pkg-config python3

version=$(cat VERSION)
with_library
root=$room/root
prefix=/any/prefix
at=$root$prefix
export DESTDIR=$root PROGRAM=$program LIBRARY=$library
# (the extensions for databases are partly outside the prefix: they are installed for themselves below)
ENGINES='' quietly ./install $prefix

# ---- what is installed

python=$(cd "$at/lib" && ls -d python*/*-packages)
{
    sed -e "s|PYTHON|$python|" -e "s|VERSION|$version|" tests/runs/packages/files
    printf 'share/doc/urlcheck/%s\n' docs/*.md docs/guides/*.md docs/rules/*.md docs/schemas/*.json docs/*.svg docs/*.png
    (cd tests && printf 'share/doc/urlcheck/%s\n' vectors/*)
    (cd bindings/python && printf "lib/$python/%s\n" urlcheck/{*.py,*/*.py,*.pyi,py.typed,_native.abi3.so})
} | sort >"$room/wanted"
(cd "$at" && find . ! -type d -printf '%P\n' | sort) >"$room/found"
diff "$room/wanted" "$room/found" ||
    fail "other files are installed than those of tests/runs/packages/files, docs/, tests/vectors/ and bindings/python/"
python3 - "$at/share/doc/urlcheck" <<'PYTHON' || fail "a link of the documents that are installed leads nowhere"
import pathlib, re, sys
pages = list(pathlib.Path(sys.argv[1]).rglob("*.md"))
# (what is in a block of code isn't a link)
texts = [(page, re.sub(r"^```.*?^```$", "", page.read_text("utf-8"), flags=re.M | re.S)) for page in pages]
links = [(page, link) for page, text in texts for link in re.findall(r"\]\(([^)\s#]+)[^)\s]*\)", text)]
lost = [(page.name, link) for page, link in links if ":" not in link and not (page.parent / link).exists()]
print(*lost, sep="\n", end="\n" if lost else "")
sys.exit(bool(lost) or not links)
PYTHON
cmp "$program" "$at/bin/urlcheck"
for link in liburlcheck.so liburlcheck.so.0.5; do
    [ "$(realpath "$at/lib/$link")" = "$(realpath "$at/lib")/liburlcheck.so.$version" ] ||
        fail "$link names another file"
done
if grep -rlF "$room" "$at"; then fail "an installed file names the folder that it was built in"; fi

# ---- the version

"$at/bin/urlcheck" -V | cmp - <(echo "urlcheck $version") || fail "the program has another version than VERSION"
echo x >"$room/links"
"$at/bin/urlcheck" lint --quiet --format sarif "$room/links" >"$room/report" || [ $? = 1 ] || fail "lint --format sarif"
told=$(python3 -c 'import json, sys; print(json.load(sys.stdin)["runs"][0]["tool"]["driver"]["version"])' \
    <"$room/report")
[ "$told" = "$version" ] || fail "SARIF says that the version is $told"
for page in urlcheck.1 urlcheck-documents.1 urlcheck-language-server.1; do
    grep -qF "urlcheck $version" docs/share/man/$page || fail "docs/share/man/$page has another version than VERSION"
done
[ "$(grep -cF "rev: v$version " docs/guides/hook.md)" = 2 ] || fail "docs/guides/hook.md names another tag than VERSION"
grep -qF "urlcheck@v$version " docs/guides/github.md || fail "docs/guides/github.md names another tag than VERSION"
found=$(grep -oE '(/v|urlcheck-)[0-9]+[.][0-9]+[.][0-9]+' docs/guides/github.md | sort -u | xargs)
[ "$found" = "/v$version urlcheck-$version" ] || fail "docs/guides/github.md fetches another release than that of VERSION"
grep -qE "^## $version - [0-9]{4}-[0-9]{2}-[0-9]{2}$" CHANGELOG.md ||
    fail "CHANGELOG.md has no '## $version - ' with its day"

# ---- programs

export PKG_CONFIG_PATH=$at/lib/pkgconfig PKG_CONFIG_SYSROOT_DIR=$root PYTHONDONTWRITEBYTECODE=1
[ "$(pkg-config --modversion urlcheck)" = "$version" ] || fail "pkg-config has another version than VERSION"
grep -qx "prefix=$prefix" "$at/lib/pkgconfig/urlcheck.pc" || fail "the file for pkg-config has another prefix"
python3 tests/runs/library/programs.py "$top" "$room"
read -ra flags <<<"$(pkg-config --cflags --libs urlcheck)"
cc "$room/page.c" "${flags[@]}" -o "$room/page"
{ LD_LIBRARY_PATH=$at/lib "$room/page" || [ $? = 1 ]; } | cmp - "$room/page.c.out" || fail "the program in C"
PYTHONPATH=$at/lib/$python python3 "$room/page.py" | cmp - "$room/page.py.out" ||
    fail "the program in Python"
# The lines of the guide for CMake, by the shared library and by the archive; a version that isn't there is refused.
if command -v cmake >/dev/null; then
    mkdir "$room/cmake"
    cp "$room/page.c" "$room/cmake/program.c"
    {
        printf 'cmake_minimum_required(VERSION 3.22)\nproject(page C)\n'
        awk '/^```cmake$/ { inside = 1; next } /^```$/ { inside = 0 } inside' docs/guides/c.md
        printf 'add_executable(archived program.c)\ntarget_link_libraries(archived urlcheck::static)\n'
    } >"$room/cmake/CMakeLists.txt"
    quietly cmake -S "$room/cmake" -B "$room/cmake/built" -DCMAKE_PREFIX_PATH="$at"
    quietly cmake --build "$room/cmake/built"
    for built in program archived; do
        { "$room/cmake/built/$built" || [ $? = 1 ]; } | cmp - "$room/page.c.out" || fail "the program by CMake: $built"
    done
    for wanted in 99 0.99 0.3 1; do
        sed -i "s/find_package(urlcheck [0-9.]*/find_package(urlcheck $wanted/" "$room/cmake/CMakeLists.txt"
        ! cmake -S "$room/cmake" -B "$room/cmake/none" -DCMAKE_PREFIX_PATH="$at" >"$room/said" 2>&1 ||
            fail "CMake finds version $wanted of the library"
    done
else
    left_out packages CMake "it isn't installed"
fi
# (the package finds the library that was installed with it)
printf '<a href="http://x_y/">\n' >"$room/page.html"
{ (cd "$room" && PYTHONPATH=$at/lib/$python python3 "$at/bin/urlcheck-documents" page.html 2>"$room/said") ||
    [ $? = 1 ]; } | cmp - <(echo 'page.html:1:17: error: U+005F LOW LINE is not allowed in a domain; --profile wide allows it [host-domain]') ||
    { cat "$room/said"; fail "urlcheck-documents"; }
told=$(PYTHONPATH=$at/lib/$python python3 -c 'import urlcheck; print(urlcheck.version())')
[ "$told" = "$version" ] || fail "the library says that its version is $told"
told=$(PYTHONPATH=$at/lib/$python python3 -c 'from importlib.metadata import version; print(version("urlcheck"))')
[ "$told" = "$version" ] || fail "the Python package says that its version is $told"
for completions in urlcheck urlcheck-documents; do
    bash -n "$at/share/bash-completion/completions/$completions"
done
# The metadata of the wheel are such that the tool of registries takes it.
if command -v twine >/dev/null; then
    mkdir "$room/wheels"
    (cd "$library/python" && quietly python3 -B -c 'import sys, wheel_backend as it
it.build_wheel(sys.argv[1]); it.build_sdist(sys.argv[1])' "$room/wheels")
    quietly twine check --strict "$room"/wheels/*
else
    left_out packages "the wheel's metadata" "twine isn't installed"
fi
if command -v man >/dev/null; then
    man --warnings -E UTF-8 -l "$at/share/man/man1/urlcheck.1" >"$room/page.txt" 2>"$room/said"
    [ ! -s "$room/said" ] || { cat "$room/said"; fail "the manual page has warnings"; }
    grep -q '^NAME' "$room/page.txt" || fail "the manual page has no NAME"
else
    left_out packages 'the manual page' "man isn't installed"
fi

# ---- the shared library

awk '/^URLCHECK_/ { node = $1 } /^ *urlcheck_[a-z_0-9]*;$/ { print substr($1, 1, length($1) - 1) "@@" node }' \
    bindings/c/library.map | sort >"$room/wanted"
declared=$(grep -o '\burlcheck_[a-z_0-9]*(' bindings/c/include/urlcheck.ffi.h | tr -d '(' | sort)
[ "$declared" = "$(sed 's/@@.*//' "$room/wanted")" ] ||
    fail "bindings/c/library.map has other names than bindings/c/include/urlcheck.ffi.h"
nm -D --defined-only --with-symbol-versions "$at/lib/liburlcheck.so" | awk '$2 != "A" { print $3 }' | sort \
    >"$room/found"
diff "$room/wanted" "$room/found" || fail "the library exports other names than bindings/c/library.map"
objdump -p "$at/lib/liburlcheck.so" | grep -q 'SONAME *liburlcheck\.so\.0\.5$' || fail "the library has another SONAME"
# Only the name of this series stands in what is read or run, and a program that was linked with an earlier one isn't started:
# the loader names what it misses, even if somebody gives this library the earlier name.
if grep -rnE 'liburlcheck(\.so\.)?[0-9]' README.md docs bindings release | grep -vE 'liburlcheck(\.so\.)?0\.5([^0-9]|$)'; then
    fail "another series of the library is named"
fi
mkdir "$room/earlier"
printf 'unsigned urlcheck_version(void) { return 400; }\n' >"$room/earlier/library.c"
printf 'unsigned urlcheck_version(void);\nint main(void) { return urlcheck_version() != 400; }\n' >"$room/earlier/program.c"
printf 'URLCHECK_0.4 { global: urlcheck_version; local: *; };\n' >"$room/earlier/map"
gcc -shared -fPIC "$room/earlier/library.c" -Wl,--version-script="$room/earlier/map" -Wl,-soname,liburlcheck.so.0 \
    -o "$room/earlier/liburlcheck.so.0"
gcc "$room/earlier/program.c" "$room/earlier/liburlcheck.so.0" -o "$room/earlier/program"
LD_LIBRARY_PATH=$room/earlier "$room/earlier/program" || fail "a program that was linked with 0.4, next to 0.4"
# refused_by_loader FOLDER WORDS : the program isn't started over the libraries of the folder, and the loader says why
refused_by_loader() {
    local status=0
    LD_LIBRARY_PATH=$1 "$room/earlier/program" 2>"$room/said" || status=$?
    if [ $status = 0 ] || [ $status -ge 128 ] || ! grep -qF "$2" "$room/said"; then
        fail "a program that was linked with 0.4 ends with $status: $(cat "$room/said")"
    fi
}
refused_by_loader "$at/lib" 'liburlcheck.so.0: cannot open shared object file'
mkdir "$room/renamed"
ln -s "$at/lib/liburlcheck.so.0.5" "$room/renamed/liburlcheck.so.0"
refused_by_loader "$room/renamed" "version \`URLCHECK_0.4' not found"

if command -v qemu-x86_64 >/dev/null; then
    { LD_LIBRARY_PATH=$at/lib qemu-x86_64 -cpu qemu64 "$room/page" || [ $? = 1 ]; } | cmp - "$room/page.c.out" ||
        fail "the program in C on an old processor"
else
    left_out packages 'an old processor' "qemu-x86_64 isn't installed"
fi

# ---- the header

number=$((10#${version%%.*} * 10000 + 10#$(cut -d. -f2 <<<"$version") * 100 + 10#${version##*.}))
grep -qx "#define URLCHECK_VERSION $number" "$at/include/urlcheck.h" || fail "the header has another version than VERSION"
printf '#include "urlcheck.h"\nint main(void) { return urlcheck_version() == 0; }\n' >"$room/header.c"
cp "$room/header.c" "$room/header.cpp"
strict=(-Wall -Wextra -Wpedantic -Wundef -Wconversion -Wshadow -Werror -fsyntax-only -I "$at/include")
count=0
for compiler in gcc clang g++ clang++; do
    command -v $compiler >/dev/null || { left_out packages "the header by $compiler" "it isn't installed"; continue; }
    standards=(c89 c99 c11 c17 c2x) file=$room/header.c
    case $compiler in *++) standards=(c++98 c++11 c++14 c++17 c++20 c++2b) file=$room/header.cpp ;; esac
    for standard in "${standards[@]}"; do
        $compiler -std=$standard "${strict[@]}" "$file" || fail "the header by $compiler -std=$standard"
        count=$((count + 1))
    done
done

# ---- the wheel, which has the program as a release's has it

if python3 -m pip --version >/dev/null 2>&1; then
    cp -r "$library/python" "$room/wheel"
    install -D -m 755 "$program" "$room/wheel/bin/urlcheck"
    quietly python3 -m pip install --no-deps --no-index --target "$room/site" "$room/wheel"
    "$room/site/bin/urlcheck" -V | cmp - <(echo "urlcheck $version") || fail "the wheel's program"
    grep -qx 'urlcheck = urlcheck.mkdocs:Plugin' "$room"/site/*.dist-info/entry_points.txt ||
        fail "the wheel has no plugin for MkDocs"
    [ -x "$room/site/bin/urlcheck-language-server" ] || fail "the wheel has no urlcheck-language-server"
    # The archive that it is built from gives the same wheel, and is the same each time.
    for folder in "$room/wheel" "$room/again"; do
        mkdir "$folder.out"
        (cd "$folder" && quietly python3 -B -c 'import sys, wheel_backend as it
it.build_wheel(sys.argv[1]); it.build_sdist(sys.argv[1])' "$folder.out")
        [ -d "$room/again" ] || { mkdir "$room/again"; tar -C "$room/again" --strip-components 1 -xzf "$folder"/../wheel.out/*.tar.gz; }
    done
    diff -r "$room/wheel.out" "$room/again.out" || fail "the archive of the package gives another wheel"
    PYTHONPATH=$room/site "$room/site/bin/urlcheck-documents" --version >"$room/said" || fail "the wheel's urlcheck-documents"
    grep -qF "$version" "$room/said" || fail "the wheel's urlcheck-documents says: $(cat "$room/said")"
else
    left_out packages 'the wheel' "pip isn't installed"
fi

# ---- the extensions for databases, where their headers are

quietly ./install $prefix
found=()
if [ -f "$at/lib/mod_urlcheck.so" ]; then
    found+=(SQLite)
    [ "$(objdump -p "$at/lib/mod_urlcheck.so" | sed -n 's/^ *NEEDED *\(liburlcheck.*\)/\1/p')" = liburlcheck.so.0.5 ] ||
        fail "the extension for SQLite isn't linked with the shared library"
    if command -v sqlite3 >/dev/null; then
        LD_LIBRARY_PATH=$at/lib sqlite3 -init /dev/null -batch :memory: '.load mod_urlcheck' \
            "SELECT url_resolve('HTTP://H/a/../b')" | cmp - <(echo http://h/b) || fail 'the extension for SQLite'
    fi
fi
if [ -n "$(find "$root" -path '*/extension/urlcheck.control')" ]; then
    found+=(PostgreSQL)
    for file in "$(pg_config --pkglibdir)/urlcheck.so" "$(pg_config --sharedir)"/extension/urlcheck{.control,--"$version".sql}; do
        [ -f "$root$file" ] || fail "the extension for PostgreSQL lacks $file"
    done
fi
echo "packages: extensions for ${found[*]:-no database, since none of their headers are installed}"

# ---- removed again

quietly ./install $prefix
quietly ./install --uninstall $prefix
left=$(find "$root" -mindepth 1)
[ -z "$left" ] || fail "what is left once it is removed: $left"
if ./install --uninstall $prefix 2>"$room/said"; then fail "what isn't installed is removed"; fi
if ./install --other 2>"$room/said"; then fail "another option is taken"; fi

bash tests/runs/packages/install.sh "$program" "$library" || fail "tests/runs/packages/install.sh"

# ---- the size that Debian's package says, wherever its tree is

for folder in "$room" /dev/shm; do
    [ -w "$folder" ] || { echo "packages: no size of a package in $folder, which can't be written"; continue; }
    sized=$(mktemp -d -p "$folder")
    mkdir -p "$sized/DEBIAN" "$sized/usr/bin"
    head -c 9999 /dev/zero >"$sized/DEBIAN/control"
    : >"$sized/usr/empty"
    for size in 1 1024 1025; do head -c "$size" /dev/zero >"$sized/usr/bin/$size"; done
    ln -s 1 "$sized/usr/bin/link"
    told=$(. tools/builds.sh; installed_size "$sized")
    rm -r "$sized"
    # (1, 1 and 2 KiB for the files, and 1 for the link and for each of the folders usr and bin)
    [ "$told" = 7 ] || fail "a package in $folder has $told KiB, and not 7"
done

# ---- the package for JavaScript, whose program `npx` runs

# What a run over the folder of a user looks like: its status, and its words.
npx_runs='0 --version
0 check http://h/a?q
1 check http://x_y/
1 lint links.txt
2 lint --quiet --format sarif links.txt missing
1 lint --located --format caret located.txt
0 explain host-domain
2 check'

# is_program FOLDER : whether `npx urlcheck` there says what the program says, and ends as it does
is_program() {
    local status words ended wanted
    while read -r status words; do
        ended=0 wanted=0
        (cd "$1" && "$program" $words) >"$room/wanted" 2>"$room/wanted.err" || wanted=$?
        (cd "$1" && npx --offline --no -- urlcheck $words) >"$room/found" 2>"$room/found.err" || ended=$?
        [ "$wanted" = "$status" ] || fail "$words: status $wanted, and not $status"
        [ "$ended" = "$status" ] && cmp -s "$room/wanted" "$room/found" && cmp -s "$room/wanted.err" "$room/found.err" ||
            { echo "npx urlcheck $words: status $ended, and not $status"; return 1; }
    done <<<"$npx_runs"
}

# installed_by_npm FILE.tgz : a user's folder with the package of the file, without a registry
installed_by_npm() {
    rm -rf "$room/user"
    mkdir "$room/user"
    cp "$1" "$room/user/package.tgz"
    printf 'http://h/\n\nhttp://h/a b\n\303\251\n' >"$room/user/links.txt"
    printf 'a.html:3:9:http://x_y/\n' >"$room/user/located.txt"
    (cd "$room/user" && quietly npm install --offline --no-audit --no-fund ./package.tgz)
}

# spoiled_package WHAT SED FILE : a package whose FILE this edit has changed isn't the program
spoiled_package() {
    rm -rf "$room/package"
    tar -C "$room" -xzf "$package"
    LC_ALL=C sed -i "$2" "$room/package/$3"
    ! cmp -s "$room/package/$3" "$page/$3" || fail "the package: $1: the edit changes nothing"
    tar -C "$room" -czf "$room/spoiled.tgz" package
    installed_by_npm "$room/spoiled.tgz"
    if is_program "$room/user" >"$room/said"; then fail "the package: $1 isn't found"; fi
}

lacks=
for tool in node npm npx wasm-opt; do command -v "$tool" >/dev/null || lacks=$tool; done
[ -n "$lacks" ] || [ "$(node -p 'process.versions.node.split(".")[0] >= 18')" = true ] || lacks='node from version 18 on'
if [ -n "$lacks" ]; then
    left_out packages 'the package for JavaScript' "$lacks isn't installed"
else
    page=${PAGE:-$room/module}
    [ -n "${PAGE:-}" ] || quietly tools/build-page "$page"
    release/pack-page "$page" "$room/packed"
    cp -r "$page" "$room/later"
    release/pack-page "$room/later" "$room/packed.again"
    diff -r "$room/packed" "$room/packed.again" || fail "the package for JavaScript has other bytes the second time"
    package=$room/packed/urlcheck-$version.tgz
    installed_by_npm "$package"
    is_program "$room/user" || fail "the program of the package for JavaScript"
    spoiled_package 'another file in place of the program' 's/"program\.mjs" }/"urlcheck.js" }/' package.json
    spoiled_package 'a status that is lost' 's/exit(status)/exit(0)/' program.mjs
    spoiled_package 'another word in a sentence' 's/is not allowed in a URL/may now stand in a URL/' program.wasm
    echo "packages: npx urlcheck is the program, in $(wc -l <<<"$npx_runs") runs under $(node --version); 3 spoiled packages are found"
fi

# ---- the scripts: what they say of themselves, no other option, and paths of the folder that they are called in

for script in install tools/{build-{crate,library,module,page,program,site},make-{manual,rules}} \
    tools/{try-edits,write-attributes} release/{build-both,build-packages,pack-page} \
    platform/{build,build-library,lower}; do
    ./$script --help >"$room/help" || fail "$script --help"
    grep -q "^[./]*$script" "$room/help" || fail "$script --help says: $(cat "$room/help")"
    if ./$script --other >"$room/help" 2>"$room/said" || ! grep -q "^usage: [./]*$script" "$room/said"; then
        fail "$script takes another option: $(cat "$room/help" "$room/said")"
    fi
done
ln -s "$program" "$room/own"
(cd "$room" && DESTDIR=other PROGRAM=own quietly "$top/install" $prefix)
cmp "$program" "$room/other$prefix/bin/urlcheck" || fail "paths of another folder than that of the call"
echo "packages: installed, tried and removed; the header by $count compilers and standards; version $version"
