#!/usr/bin/env bash
# ./urlcheck and tools/build-program in a repository of four small crates, with a toolchain that proves nothing: what is built again and
# what isn't, the messages, and how a build ends that something disturbs. It needs no program.
set -euo pipefail
here=$(dirname "$(realpath "$0")")
top=$(realpath "$here/../../..")
room=$(mktemp -d)
trap 'rm -rf "$room"' EXIT
chmod 755 "$room" # (one run is of another user)
export STUB=$room/stub PATH=$here/kit/bin:$PATH
# (a folder above has the name of one that sources are in)
repository=$room/src/repository
mkdir -p "$STUB" "$repository/tools"
cp "$top/urlcheck" "$repository/"
cp "$top"/tools/{*.py,build-program,build-crate} "$repository/tools/"
cd "$repository"
printf 'low:\nmiddle: low\nurlcheck: middle\nother:\n' >crates.txt
for name in low middle urlcheck other; do
    mkdir -p "crates/$name"/{src,specs,proofs}
    echo "$name" >"crates/$name/src/lib.rt"
done
echo kit-1 >"$STUB/format"
count=0

fail() {
    echo "FAILED: the builds: $*"
    cat "$room/said" 2>/dev/null || true
    exit 1
}

# is STATUS ANSWER CRATES WORD.. : ./urlcheck with these words ends so, prints this, and has these crates built first
is() {
    local status=$1 answer=$2 crates=$3 ended=0
    shift 3
    : >"$STUB/calls"
    ./urlcheck "$@" >"$room/answer" 2>"$room/said" </dev/null || ended=$?
    [ "$ended" = "$status" ] || fail "status $ended, and not $status"
    [ "$(cat "$room/answer")" = "$answer" ] || fail "'$(cat "$room/answer")', and not '$answer'"
    [ "$(xargs <"$STUB/calls")" = "$crates" ] || fail "built '$(xargs <"$STUB/calls")', and not '$crates'"
    ! grep -q Traceback "$room/said" || fail 'a traceback'
    count=$((count + 1))
}

# says WORDS, and silent : what standard error said
says() { grep -qF -- "$1" "$room/said" || fail "it doesn't say: $1"; }
silent() { [ ! -s "$room/said" ] || fail 'it says something'; }

# waits COMMAND.. : waits until the command ends well
waits() {
    local tries=0
    until "$@"; do
        tries=$((tries + 1))
        [ $tries -lt 600 ] || fail "nothing comes: $*"
        sleep 0.05
    done
}

# held WORD.. : begins ./urlcheck, and comes back when its first crate is being built, which doesn't end before `let_go`
held() {
    touch "$STUB/hold"
    : >"$STUB/calls"
    ./urlcheck "$@" >"$room/answer" 2>"$room/said" </dev/null &
    build=$!
    waits test -s "$STUB/calls"
}
let_go() { rm "$STUB/hold"; }

# edited_meanwhile BEFORE DURING : a source is edited before a build, and again during it. The next call builds it again.
edited_meanwhile() {
    echo "$1" >crates/low/src/lib.rt
    held
    echo "$2" >crates/low/src/lib.rt
    let_go
    wait "$build" || fail "an edit to $2 during a build"
    is 0 "urlcheck middle $2: " "$all"
}

all='low middle urlcheck'
is 0 'urlcheck middle low: check a' "$all" check a
is 0 'urlcheck middle low: check a' '' check a
silent

# a source that is edited while its crate is built, one that is removed, and one that is older than what was there
edited_meanwhile low0 low1
echo more >crates/middle/src/more.rt
is 0 'urlcheck middle
more low1: ' 'middle urlcheck'
rm crates/middle/src/more.rt
is 0 'urlcheck middle low1: ' 'middle urlcheck'
mkdir crates/low/specs/Empty
is 0 'urlcheck middle low1: ' "$all"
ln -s nowhere crates/urlcheck/src/.#lib.rt
is 0 'urlcheck middle low1: ' urlcheck
rm crates/urlcheck/src/.#lib.rt
is 0 'urlcheck middle low1: ' urlcheck

# what the program doesn't rest on: nothing is built and nothing said, and the next call doesn't look again
echo other1 >crates/other/src/lib.rt
is 0 'urlcheck middle low1: ' ''
silent

# a crate that isn't proved: no old program runs, and what was proved below it stays
echo 'this is no Rattle' >crates/middle/src/lib.rt
is 70 '' middle check a
says 'error: middle is no Rattle'
says 'urlcheck: the crate middle wasn'"'"'t built'
echo middle >crates/middle/src/lib.rt
is 0 'urlcheck middle low1: ' 'middle urlcheck'
echo 'the disk is full' >crates/urlcheck/src/lib.rt
is 70 '' urlcheck
says 'No space left on device'
echo urlcheck >crates/urlcheck/src/lib.rt
is 0 'urlcheck middle low1: ' urlcheck

# a library that is damaged, and another toolchain
echo damaged >crates/low/out/rlib/low.rlib/format
touch crates/middle/src/lib.rt
is 0 'urlcheck middle low1: ' "middle $all"
says 'the library of low is damaged'
echo kit-2 >"$STUB/format"
touch crates/urlcheck/src/lib.rt
is 0 'urlcheck middle low1: ' "$all"
says 'what kit-1 built is built anew by kit-2'
is 0 'urlcheck middle low1: ' ''

# a build that is killed: what it started ends before the next one begins, and isn't taken
echo low2 >crates/low/src/lib.rt
held
pkill -KILL -P "$build" 2>/dev/null || fail 'no build to kill'
if wait "$build"; then fail 'a killed build is taken'; fi
: >"$STUB/calls"
./urlcheck >"$room/answer" 2>"$room/said" &
build=$!
waits grep -q 'waiting for what works in crates/' "$room/said"
[ ! -s "$STUB/calls" ] || fail 'a build begins beside what a killed one left'
let_go
wait "$build" || fail 'the build after a killed one'
[ "$(cat "$room/answer")" = 'urlcheck middle low2: ' ] || fail 'the answer after a killed build'
[ "$(xargs <"$STUB/calls")" = "$all" ] || fail "after a killed build '$(xargs <"$STUB/calls")' is built"

# a build that is asked to end: so does what it started
echo low3 >crates/low/src/lib.rt
held
pkill -TERM -P "$build"
status=0
wait "$build" || status=$?
[ "$status" = 70 ] || fail "status $status after TERM"
: >"$STUB/calls"
timeout 20 ./urlcheck >"$room/answer" 2>"$room/said" &
build=$!
waits test -s "$STUB/calls"
! grep -q waiting "$room/said" || fail 'what a build started goes on after TERM'
# two at once: the second waits, and builds nothing
./urlcheck second >"$room/second" 2>"$room/second.said" &
second=$!
waits grep -qs waiting "$room/second.said"
let_go
wait "$build" || fail 'the first of two builds'
wait "$second" || fail 'the second of two builds'
[ "$(xargs <"$STUB/calls")" = "$all" ] || fail "two builds at once build '$(xargs <"$STUB/calls")'"
[ "$(cat "$room/second")" = 'urlcheck middle low3: second' ] || fail 'the answer of the second of two builds'

# Ctrl-C ends all of it, and what was built stays
echo middle1 >crates/middle/src/lib.rt
touch "$STUB/hold"
: >"$STUB/calls"
python3 - 2>"$room/said" <<'END_OF_PYTHON' || fail 'Ctrl-C'
import os, signal, subprocess, sys, time
# (a shell starts what runs in its background with that signal ignored, and so would all that this starts)
signal.signal(signal.SIGINT, signal.SIG_DFL)
build = subprocess.Popen(["./urlcheck", "lint"], stdin=subprocess.DEVNULL, start_new_session=True)
while not os.stat(os.environ["STUB"] + "/calls").st_size:
    time.sleep(0.05)
os.killpg(build.pid, signal.SIGINT)
sys.exit(build.wait(60) != -signal.SIGINT)
END_OF_PYTHON
! grep -q Traceback "$room/said" || fail 'a traceback by Ctrl-C'
let_go
is 0 'urlcheck middle1 low3: ' 'middle urlcheck'
! grep -q waiting "$room/said" || fail 'what a build started goes on after Ctrl-C'
echo middle >crates/middle/src/lib.rt
is 0 'urlcheck middle low3: ' 'middle urlcheck'

# another user runs what is built, and builds nothing
if [ "$(id -u)" = 0 ]; then
    as_other() { setpriv --reuid 65534 --regid 65534 --clear-groups "$@"; }
    [ "$(as_other ./urlcheck x)" = 'urlcheck middle low3: x' ] || fail 'another user can'"'"'t run what is built'
    echo other2 >crates/other/src/lib.rt
    [ "$(as_other ./urlcheck x)" = 'urlcheck middle low3: x' ] || fail 'another user, and a source of another crate'
    echo low4 >crates/low/src/lib.rt
    status=0
    as_other ./urlcheck x >"$room/answer" 2>"$room/said" || status=$?
    [ "$status" = 70 ] && [ ! -s "$room/answer" ] || fail "another user, and a newer source: status $status"
    says "crates/low/out can't be written"
    is 0 'urlcheck middle low4: ' "$all"
else
    echo 'scripts: no run of another user, which root alone can start'
fi

# the first answer comes on standard error, only from words, and if the build is long
mkdir -p crates/low/out
long() {
    echo 1000 >crates/low/out/seconds
    echo low4 >crates/low/src/lib.rt
}
long
held check 'a b'
waits grep -q 'not proved yet: status 1' "$room/said"
let_go
wait "$build" || fail 'a build with a first answer'
[ "$(cat "$room/answer")" = 'urlcheck middle low4: check a b' ] || fail 'standard output with a first answer'
says 'urlcheck: not proved yet: tried: check a b'
for words in 'lint -' links 'mend a'; do
    long
    read -ra words <<<"$words"
    is 0 "urlcheck middle low4: ${words[*]}" "$all" "${words[@]}"
    ! grep -q 'without proofs\|not proved' "$room/said" || fail "a first answer to ${words[*]}"
    says 'crates to prove and build: 3, '
done
echo low5 >crates/low/src/lib.rt
is 0 'urlcheck middle low5: check a' "$all" check a
! grep -q 'without proofs' "$room/said" || fail 'a first answer to a build of some seconds'

# a build that keeps what a check takes, and each build after it
echo low6 >crates/low/src/lib.rt
: >"$STUB/calls"
tools/build-program --keep 2>"$room/said" || fail 'tools/build-program --keep'
[ "$(xargs <"$STUB/calls")" = "$all" ] && [ -e crates/middle/out/incremental/kept ] || fail 'what tools/build-program --keep builds'
is 0 'urlcheck middle low6: ' ''
edited_meanwhile low7 low8
is 0 'urlcheck middle low8: ' ''
rm -r crates/*/out/incremental
echo low5 >crates/low/src/lib.rt
is 0 'urlcheck middle low5: ' "$all"

# the page: what isn't proved gives none of what was built before
mkdir -p bindings/web/{module,page} platform crates/urlcheck_c/{src,specs,proofs} "$room/commands"
cp "$top"/tools/{build-page,build-module,builds.sh,usage.sh} tools/
cp "$top/platform/machines.sh" platform/
for file in {calls,webassembly}.ll; do : >"platform/$file"; done
for file in VERSION LICENSE-MIT NOTICE bindings/web/{urlcheck.js,urlcheck.d.ts,index.html,README.md,package.json}; do : >"$file"; done
printf '#!/bin/sh\n' | tee "$room/commands/wasm-opt" >platform/build
# shellcheck disable=SC2016 # (the scripts that are written have the variables)
{
    printf '#!/bin/sh\ncp "$2" "$4"\n' >platform/lower
    printf '#!/bin/sh\ncp "$2" "$3"\n' >bindings/web/module/compile
}
chmod +x "$room/commands/wasm-opt" platform/{build,lower} bindings/web/module/compile
echo 'urlcheck_c staticlib: middle' >>crates.txt
echo c0 >crates/urlcheck_c/src/lib.rt

# page STATUS MODULE : tools/build-page ends so, and its module is this
page() {
    local ended=0
    PATH=$room/commands:$PATH tools/build-page "$room/page" >"$room/said" 2>&1 || ended=$?
    [ "$ended" = "$1" ] || fail "tools/build-page ends with $ended, and not $1"
    [ "$(cat "$room/page/urlcheck.wasm" 2>&1)" = "$2" ] || fail "the page has the module $(cat "$room/page/urlcheck.wasm")"
}
page 0 'c0 middle low5'
echo 'c1 is no Rattle' >crates/urlcheck_c/src/lib.rt
page 70 'c0 middle low5'
echo c2 >crates/urlcheck_c/src/lib.rt
page 0 'c2 middle low5'
echo 'middle is no Rattle' >crates/middle/src/lib.rt
page 70 'c2 middle low5'
echo middle >crates/middle/src/lib.rt
page 0 'c2 middle low5'
is 0 'urlcheck middle low5: ' urlcheck

# without the toolchain what is built runs, and nothing is built
PATH=/usr/bin:/bin
if command -v rt >/dev/null; then
    echo 'scripts: no build without the toolchain, which is among the commands of the system'
else
    is 0 'urlcheck middle low5: ' ''
    echo low6 >crates/low/src/lib.rt
    is 70 '' ''
    says 'urlcheck: the toolchain command rt is needed to build it'
fi
echo "builds: $count calls as they have to be, and builds that are killed, ended and two at once"
