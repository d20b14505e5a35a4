#!/usr/bin/env bash
# What release/build-packages hands out: two builds in two folders give the same bytes, lintian says nothing of the
# packages, installed in a root of their own the program, the manual page and the programs of docs/guides work, also on
# an old processor, all vectors pass by the program and by the libraries, the extensions work in SQLite and in a server
# of PostgreSQL, and removed nothing is left. What is for Linux on ARM and on RISC-V works in an emulator. A release
# asks for it, and no gate: it needs root's rights, `rt`, `cc`, `dpkg`, `lintian`, `man`, `pip`, `pkg-config`,
# `python3`, `qemu-user`, `sqlite3`, PostgreSQL, and what `release/build-packages` needs.
set -euo pipefail
cd "$(dirname "$(realpath "$0")")/.."
for tool in cc cmp dpkg dpkg-deb lintian man objcopy pg_config pkg-config python3 qemu-{x86_64,aarch64,riscv64} rt sqlite3 wasm-opt; do
    command -v $tool >/dev/null || { echo "release: $tool is missing" >&2; exit 70; }
done
room=$(mktemp -d)
chmod 755 "$room" # (the server of PostgreSQL is started as another user)
trap 'rm -rf "$room"' EXIT
version=$(cat VERSION)

fail() {
    echo "FAILED: $*"
    exit 1
}

# ---- the same bytes from two folders, at two times

release/build-packages "$room/one"
git ls-files -z | xargs -0 cp --parents -t "$(mkdir -p "$room/other" && echo "$room/other")"
for crate in urlcheck urlcheck_c; do
    mkdir -p "$room/other/crates/$crate/out"
    # (the modules first: what is made of one is newer)
    cp crates/$crate/out/x86-64* "$room/other/crates/$crate/out/"
    for file in crates/$crate/out/{aarch64,riscv64,windows,wasi}.*; do
        [ ! -e "$file" ] || cp "$file" "$room/other/crates/$crate/out/"
    done
done
cp -r --parents crates/*/out/rlib "$room/other"
# (what is made on the way is on another file system, where there is one that is written here)
second=${TMPDIR:-/tmp}
[ ! -w /dev/shm ] || second=/dev/shm
TMPDIR=$second "$room/other/release/build-packages" "$room/two"
diff -r "$room/one" "$room/two" || fail "two builds differ"
(cd "$room/one" && sha256sum --quiet -c SHA256SUMS)
echo "release: the same bytes twice: $(cd "$room/one" && ls | tr '\n' ' ')"

# ---- the packages for Debian

# (what it takes for misspelt words are parts of numbers in machine code that happen to be letters)
lintian --allow-root --display-info --pedantic --suppress-tags spelling-error-in-binary "$room"/one/*.deb >"$room/said" 2>&1 || true
[ ! -s "$room/said" ] || { cat "$room/said"; fail "lintian isn't silent"; }
echo "release: lintian is silent"

root=$room/root
mkdir -p "$root"/var/lib/dpkg/{info,updates,triggers} "$root/var/log"
: >"$root/var/lib/dpkg/status"
dpkg --root="$root" --force-depends --force-script-chrootless -i "$room"/one/*_amd64.deb >"$room/said" 2>&1 ||
    { cat "$room/said"; fail "dpkg doesn't install the packages"; }
urlcheck=$root/usr/bin/urlcheck
libraries=$root/usr/lib/x86_64-linux-gnu
export LD_LIBRARY_PATH=$libraries PKG_CONFIG_SYSROOT_DIR=$root PKG_CONFIG_PATH=$libraries/pkgconfig
export PYTHONPATH=$root/usr/lib/python3/dist-packages PYTHONDONTWRITEBYTECODE=1
MANPATH=$root/usr/share/man man -E UTF-8 urlcheck | grep -q '^NAME' || fail "man shows no page"
python3 tests/runs/library/programs.py "$PWD" "$room"
read -ra flags <<<"$(pkg-config --cflags --libs urlcheck)"
cc "$room/page.c" "${flags[@]}" -o "$room/page"
{ "$room/page" || [ $? = 1 ]; } | cmp - "$room/page.c.out" || fail "the program in C"
python3 "$room/page.py" | cmp - "$room/page.py.out" || fail "the program in Python"

# on_each COMMAND.. : on this processor, and on one that has no instruction beyond plain x86-64
on_each() {
    "$@" >"$room/new" || [ $? = 1 ]
    qemu-x86_64 -cpu qemu64 "$@" >"$room/old" || [ $? = 1 ]
    cmp "$room/new" "$room/old" || fail "an old processor gives another answer: $*"
}
for program in "$urlcheck" "$room/one/urlcheck-$version-x86_64-linux"; do
    for vectors in tests/vectors/*.json; do
        on_each "$program" vectors $vectors
        grep -q ' fail 0$' "$room/new" || { cat "$room/new"; fail "$program vectors $vectors"; }
    done
    on_each "$program" check --all 'http://x_y/ ^'
done
on_each "$room/page"
echo "release: the programs pass all vectors, on this processor and on an old one"

# The cases of all vectors by the installed library, from C and from Python.
python3 tests/runs/library/cases.py pack "$room/cases" tests/vectors/*.json
cc -O2 tests/runs/library/answers.c "${flags[@]}" -o "$room/answers"
on_each "$room/answers" "$room/cases"
python3 tests/runs/library/cases.py compare "$urlcheck" "$room/new" tests/vectors/*.json
python3 tests/runs/library/answers.py "$room/cases" | cmp - "$room/new" || fail "Python gives other answers than C"

# The extensions as the packages have them: in SQLite's shell, and in a server of its own.
bash tests/runs/registers/packaged.sh "$root" "$version"

dpkg --root="$root" --force-depends --force-script-chrootless --purge urlcheck liburlcheck-dev python3-urlcheck \
    postgresql-15-urlcheck sqlite3-urlcheck liburlcheck0.5 >"$room/said" 2>&1 ||
    { cat "$room/said"; fail "dpkg doesn't remove the packages"; }
left=$(find "$root" -mindepth 1 -not -path "$root/var*")
[ -z "$left" ] || fail "what is left once the packages are removed: $left"
echo "release: installed by dpkg, tried and removed"

# ---- the archive and the wheel

unset LD_LIBRARY_PATH PKG_CONFIG_SYSROOT_DIR PYTHONPATH
mkdir "$room/anywhere"
tar -C "$room/anywhere" -xzf "$room/one/urlcheck-$version-x86_64-linux.tar.gz"
at=$room/anywhere/urlcheck-$version
"$at/bin/urlcheck" -V | cmp - <(echo "urlcheck $version") || fail "the archive's program"
printf '<a href="http://x_y/">\n' >"$room/page.html"
{ "$at/bin/urlcheck-documents" "$room/page.html" 2>"$room/said" || [ $? = 1 ]; } | grep -q 'host-domain]$' ||
    { cat "$room/said"; fail "the archive's urlcheck-documents"; }
export PKG_CONFIG_PATH=$at/lib/pkgconfig
read -ra flags <<<"$(pkg-config --cflags --libs urlcheck)"
cc "$room/page.c" "${flags[@]}" -Wl,-rpath,"$at/lib" -o "$room/page"
{ "$room/page" || [ $? = 1 ]; } | cmp - "$room/page.c.out" || fail "the program in C by the archive"
python3 -m pip install --quiet --no-deps --no-index --target "$room/site" "$room"/one/*_x86_64.whl 2>"$room/said" ||
    { cat "$room/said"; fail "pip doesn't install the wheel"; }
PYTHONPATH=$room/site python3 "$room/page.py" | cmp - "$room/page.py.out" || fail "the program in Python by the wheel"
"$room/site/bin/urlcheck" -V | cmp - <(echo "urlcheck $version") || fail "the wheel's program"
PYTHONPATH=$room/site "$room/site/bin/urlcheck-documents" --version | grep -qF "$version" || fail "the wheel's other program"
echo "release: the archive and the wheel work; version $version"

# ---- the other machines

unset PKG_CONFIG_PATH
for machine in aarch64 riscv64; do
    bash tests/runs/platforms/packaged.sh "$room/one" $machine "$at/bin/urlcheck"
done
for wheel in "$room"/one/*-win_amd64.whl; do
    [ ! -e "$wheel" ] || bash tests/runs/platforms/windows_python.sh "$at/bin/urlcheck" "$wheel"
done
