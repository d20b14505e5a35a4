#!/usr/bin/env bash
# ./install of a program and a library that are built: what is somebody else's stays, what fails leaves all as it was, what is killed is
# whole the next time, and paths with odd characters are taken or refused before anything is done.
# Words: PROGRAM LIBRARY
set -euo pipefail
cd "$(dirname "$(realpath "$0")")/../../.."
PROGRAM=$(realpath "$1") LIBRARY=$(realpath "$2")
export PROGRAM LIBRARY ENGINES=''
unset DESTDIR LIBDIR PYTHONDIR PKG_CONFIG_SYSROOT_DIR
room=$(mktemp -d)
trap 'umount "$room/full" 2>/dev/null || true; rm -rf "$room"' EXIT
chmod 755 "$room" # (some runs are of another user)
count=0

fail() {
    echo "FAILED: ./install: $*"
    cat "$room/said"
    exit 1
}

# ends STATUS WORDS COMMAND.. : the command ends so, and says these words
ends() {
    local ended=0
    "${@:3}" >"$room/said" 2>&1 </dev/null || ended=$?
    [ "$ended" = "$1" ] || fail "status $ended, and not $1: ${*:3}"
    [ -z "$2" ] || grep -qF -- "$2" "$room/said" || fail "it doesn't say '$2': ${*:3}"
    count=$((count + 1))
}

# sum FOLDER : all that is in a folder: kinds, modes, names, and what files say
sum() {
    (cd "$1" && { find . ! -type d -printf '%y %m %p %l\n'; find . -type d -printf '%y %m %p\n'; } | LC_ALL=C sort
        find . -type f -exec sha256sum {} + | LC_ALL=C sort -k 2)
}

# same WHAT FOLDER : a folder is as it was when `was` had its sum
same() { diff "$room/was" <(sum "$2") || fail "$1"; }

at=$room/at
ends 0 'installed below' ./install "$at"
sum "$at" >"$room/was"
files=$(grep -c '[^/]$' "$at/share/urlcheck/files")
[ "$files" = "$(find "$at" ! -type d | wc -l)" ] || fail 'the list names other files than those that are installed'
ends 0 'installed below' ./install "$at"
same 'another installation over the first one' "$at"

# ---- what fails leaves the version that is there

ends 1 'nothing is installed' env ENGINES=postgresql PG_CONFIG=/bin/false ./install "$at"
same 'an extension that is not built' "$at"
# (a program cp that fails at one file)
mkdir "$room/bin"
# shellcheck disable=SC2016 # (the script that is written has the variables)
printf '#!/bin/sh\n[ ! -e "$STOPS" ] || case $* in *"$(cat "$STOPS")"*) eval "$HOW" ;; esac\nexec /bin/cp "$@"\n' >"$room/bin/cp"
sed 's|/bin/cp|/bin/mv|' "$room/bin/cp" >"$room/bin/mv"
chmod +x "$room/bin/cp" "$room/bin/mv"
export STOPS=$room/stops HOW='exit 1'
echo lib/liburlcheck.a.urlcheck-new >"$STOPS"
ends 1 'nothing is installed' env PATH="$room/bin:$PATH" ./install "$at"
same 'a file that is not copied' "$at"
mkdir -p "$room/first/bin"
ends 1 'nothing is installed' env PATH="$room/bin:$PATH" ./install "$room/first"
[ "$(cd "$room/first" && find . -mindepth 1)" = ./bin ] || fail "a first installation that fails leaves $(find "$room/first")"
rm "$STOPS"

# ---- what only an older version had goes, and what was added stays

printf '%s\n' "$at/include/older/" "$at/include/older/urlcheck.h" | LC_ALL=C sort -u "$at/share/urlcheck/files" - >"$room/list"
mkdir "$at/include/older"
touch "$at/include/older/urlcheck.h"
cp "$room/list" "$at/share/urlcheck/files"
ends 0 'installed below' ./install "$at"
same 'what an older version alone had' "$at"

# ---- a file of somebody else

other=$room/other
mkdir -p "$other/bin" "$other/lib"
echo mine >"$other/bin/urlcheck"
ln -s nowhere "$other/lib/liburlcheck.so"
sum "$other" >"$room/was"
ends 1 "2 files are there that it didn't install" ./install "$other"
grep -qxF "$other/bin/urlcheck" "$room/said" || fail 'the file of somebody else is not named'
same 'a file of somebody else' "$other"
ends 1 "it isn't installed" ./install --uninstall "$other"
same 'a file of somebody else is removed' "$other"
ends 0 'installed below' ./install --force "$other"
cmp -s "$PROGRAM" "$other/bin/urlcheck" || fail '--force replaces no file'
mkdir -p "$room/folder/bin/urlcheck"
ends 1 'there is a folder at' ./install --force "$room/folder"
[ -z "$(find "$room/folder" -type f)" ] || fail 'a folder in the place of a file'

# ---- removing goes on after a file that stays, and can be done again

rm "$other/include/urlcheck.h"
mkdir "$other/include/urlcheck.h"
ends 1 '1 files are left' ./install --uninstall "$other"
[ "$(find "$other" ! -type d)" = "$other/share/urlcheck/files" ] || fail "what is left: $(find "$other" ! -type d)"
rmdir "$other/include/urlcheck.h"
ends 0 '' ./install --uninstall "$other"
[ "$(cd "$other" && find . -mindepth 1 | LC_ALL=C sort | xargs)" = './bin ./lib' ] || fail "what is left: $(find "$other")"

# ---- killed at any moment, and again

sum "$at" >"$room/was"
for wait in 0.05 0.2 0.4 0.6 0.8 1 1.2 1.4 1.7 2 3; do
    { timeout -s KILL "$wait" ./install "$at" || true; } >"$room/said" 2>&1
    [ "$("$at/bin/urlcheck" -V)" = "$("$PROGRAM" -V)" ] || fail "killed after $wait s, the older version doesn't run"
done
# shellcheck disable=SC2016
HOW='kill -9 "$PPID"; exit 1'
for file in bin/urlcheck.urlcheck-new lib/liburlcheck.a.urlcheck-new share/urlcheck/files share/zsh/site-functions/_urlcheck.urlcheck-new; do
    echo "$file" >"$STOPS"
    for below in "$at" "$room/killed"; do
        { status=0; PATH=$room/bin:$PATH ./install "$below" || status=$?; } >"$room/said" 2>&1
        [ "$status" = 137 ] || fail "it isn't killed at $file"
    done
    rm "$STOPS"
    "$at/bin/urlcheck" -V >"$room/said" || fail "killed at $file, no version is there"
    ends 0 'installed below' ./install "$at"
    same "killed at $file, and again" "$at"
    # (without a list there is one file at most, which it would have become)
    [ -e "$room/killed/share/urlcheck/files" ] || ends 0 'installed below' ./install "$room/killed"
    ends 0 '' ./install --uninstall "$room/killed"
    left=$(find "$room" -path "$room/killed/*" ! -type d)
    [ -z "$left" ] || fail "killed at $file, and removed: $left is left"
    rm -rf "$room/killed"
done

# ---- paths

for name in 'a space' 'an & and' 'a | bar' 'é ü' 'a,comma' 'a;semicolon *'; do
    prefix="$room/odd/$name"
    ends 0 'installed below' ./install "$prefix"
    flags=$(PKG_CONFIG_PATH=$prefix/lib/pkgconfig pkg-config --cflags --libs urlcheck)
    printf '#include <urlcheck.h>\nint main(void) { return URLCHECK_VERSION == 0; }\n' >"$room/x.c"
    eval "cc -fsyntax-only '$room/x.c' $flags" || fail "pkg-config in $name: $flags"
    if [ -e "$prefix/bin/urlcheck-documents" ]; then
        grep -qF "sys.path.append(\"$(cd "$prefix"/lib/python*/*-packages && pwd)\")" "$prefix/bin/urlcheck-documents" ||
            fail "urlcheck-documents in $name"
    fi
    ends 0 '' ./install --uninstall "$prefix"
    [ ! -e "$prefix" ] || fail "$name: $(find "$prefix") is left"
done
rm -rf "$room/odd"
for name in '"' "'" '\' '$x' '`x`' '#' ':' $'\n' $'\t'; do
    ends 1 "PREFIX has a character that such a path can't have" ./install "$room/odd/a${name}b"
done
ends 1 'PREFIX is empty' ./install ''
ends 1 'LIBDIR has to be an absolute path, and is usr/lib64' env DESTDIR="$room/odd" LIBDIR=usr/lib64 ./install /usr
ends 1 'PYTHONDIR has to be an absolute path, and is python' env PYTHONDIR=python ./install "$room/odd"
[ ! -e "$room/odd" ] || fail 'a path that is refused is made'
ends 0 "installed below $room/there" ./install "$room/missing/../there/."
[ ! -e "$room/missing" ] || fail 'a folder before .. is made'
ends 0 '' env DESTDIR="$room/staged" LIBDIR="/usr/lib64/" PYTHONDIR=/usr/lib/python3 ./install /usr
[ -f "$room/staged/usr/lib64/liburlcheck.a" ] && [ -f "$room/staged/usr/lib/python3/urlcheck/__init__.py" ] || fail 'LIBDIR and PYTHONDIR'
ends 0 '' env DESTDIR="$room/staged" LIBDIR=/usr/lib64 PYTHONDIR=/usr/lib/python3 ./install --uninstall /usr
[ -z "$(find "$room/staged" -mindepth 1)" ] || fail "what is left: $(find "$room/staged")"

# ---- a disk that is full

mkdir "$room/full"
if mount -t tmpfs -o size=100m tmpfs "$room/full" 2>/dev/null; then
    ends 0 'installed below' ./install "$room/full/at"
    sum "$room/full/at" >"$room/was"
    head -c 100M /dev/zero >"$room/full/file" 2>/dev/null || true
    # (once without room for the list, and once for a part of the files)
    for room_left in 0 200K; do
        truncate -s "-$room_left" "$room/full/file"
        ends 1 'nothing is installed' ./install "$room/full/at"
        same 'a full disk' "$room/full/at"
    done
    umount "$room/full"
else
    echo 'packages: no full disk, since no file system can be mounted here'
fi

# ---- without python3, and as another user

if [ -d "$LIBRARY/python" ]; then
    mkdir "$room/tools"
    find /usr/bin /bin/ -maxdepth 1 ! -type d ! -name 'python*' -exec ln -s -f -t "$room/tools" {} +
    ends 0 "left out, since python3 isn't installed" env PATH="$room/tools" ./install "$room/without"
    [ ! -e "$room/without/bin/urlcheck-documents" ] || fail 'urlcheck-documents without python3'
fi
if [ "$(id -u)" = 0 ]; then
    mkdir "$room/root-only"
    ends 1 "$room/root-only can't be written" setpriv --reuid 65534 --regid 65534 --clear-groups ./install "$room/root-only"
fi
echo "packages: $count installations and removals end as they have to"
