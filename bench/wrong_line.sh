#!/usr/bin/env bash
# `urlcheck lint --all` on one line of 65,536 bytes of which each code point is wrong, in each format: what is written
# has at most 105 MB, and the peak of resident memory is below 10 MB. It fails when a bound is broken, a status isn't
# right for a refused line, a diagnostic is missing or no figure was taken. The gate runs it (tests/runs/costs.sh).
# Usage: bench/wrong_line.sh [--program FILE]
set -euo pipefail
top=$(dirname "$(dirname "$(realpath "$0")")")
program=$top/crates/urlcheck/out/urlcheck
. "$top/bench/words.sh"
words program -- "$@"
[ -x "$program" ] || { echo "$program isn't a program: build its crate first (rt run)"; exit 2; }
for tool in grep head mkfifo sed tr wc; do
    command -v $tool >/dev/null || { echo "bench/wrong_line.sh needs $tool"; exit 2; }
done
room=$(mktemp -d)
trap 'rm -rf "$room"' EXIT

# wrong PREFIX BYTE : a line of 65,536 bytes, of the prefix and the byte again and again
wrong() { { printf '%s' "$1"; head -c $((65536 - ${#1})) /dev/zero | tr '\0' "$2"; echo; } >"$room/line"; }

# rests PID : waits until a process has waited for input three times in turn, as it does once the line is reported
rests() {
    local turns=0
    while ((turns < 3)); do
        sleep 0.1
        [ -e "/proc/$1/status" ] || return 0
        if grep -q '^State:[^a-zA-Z]*S' "/proc/$1/status"; then turns=$((turns + 1)); else turns=0; fi
    done
}

failed=0 figures=0
# linted NAME RULE FORMAT : a lint of the line in a format; the peak is read before the end of the input is seen
linted() {
    local pid status=0 bytes found peak
    rm -f "$room/pipe"
    mkfifo "$room/pipe"
    "$program" lint --all --format "$3" - <"$room/pipe" >"$room/out" 2>"$room/said" &
    pid=$!
    exec 7>"$room/pipe"
    cat "$room/line" >&7
    rests $pid
    peak=$(sed -n 's/^VmHWM:[^0-9]*\([0-9]*\) kB$/\1/p' "/proc/$pid/status")
    exec 7>&-
    wait $pid || status=$?
    bytes=$(wc -c <"$room/out")
    found=$(grep -c "$2" "$room/out") || found=0
    printf '%s, %s: %d bytes, a peak of %s KiB\n' "$1" "$3" "$bytes" "$peak"
    figures=$((figures + 1))
    [ $status = 1 ] || { echo "FAILED: status $status: $(cat "$room/said")"; failed=1; }
    ((bytes > 65536 && bytes <= 105000000)) || { echo 'FAILED: too much is written, or too little'; failed=1; }
    ((found >= 65000)) || { echo "FAILED: $found diagnostics"; failed=1; }
    [ -n "$peak" ] && ((peak > 0 && peak < 10000)) || { echo "FAILED: the memory isn't below 10 MB"; failed=1; }
}

for format in gnu caret json github sarif checkstyle junit gitlab rdjson; do
    wrong urn: '^'
    linted 'code points' code-point $format
    wrong foo:// '^'
    linted 'host code points' host-code-point $format
    wrong http://h/ '%'
    linted 'percent signs' percent $format
    wrong urn: '\001'
    linted 'controls' code-point $format
done
[ $figures = 36 ] || { echo "FAILED: $figures figures"; exit 1; }
exit $failed
