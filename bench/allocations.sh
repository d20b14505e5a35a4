#!/usr/bin/env bash
# Counts the blocks of memory that a check takes, by valgrind: none for links with a plain name, in plain links and in
# others, and some for a name of which a form is made, so that the count is seen to count. The reading of the same lines
# is taken off. It fails when a count is missing or an answer isn't the wanted one. It needs valgrind.
# Usage: bench/allocations.sh [DRIVER [COUNT]]
set -euo pipefail
top=$(dirname "$(dirname "$(realpath "$0")")")
driver=${1:-$top/crates/bench_check/out/bench_check}
count=${2:-1000}
command -v valgrind >/dev/null || { echo 'bench/allocations.sh needs valgrind'; exit 2; }
[ -x "$driver" ] || { echo "$driver is no program: build the crate bench_check first (rt run)"; exit 2; }
room=$(mktemp -d)
trap 'rm -rf "$room"' EXIT
failed=0
fail() {
    echo "FAILED: $*"
    failed=1
}

# blocks MODE FILE : how many blocks a run takes; what it says is left in said
blocks() {
    valgrind --tool=memcheck --undef-value-errors=no "$driver" "$1" 1 <"$2" 2>"$room/err" >"$room/said" || true
    sed -n 's/.*total heap usage: \([0-9,]*\) allocs.*/\1/p' "$room/err" | tr -d ,
}

# counted NAME FILE WANTED : the blocks that the checks of the file take, none or some
counted() {
    local name=$1 whole reading
    whole=$(blocks check "$2")
    [ "$(cat "$room/said")" = "$count lines, $count valid" ] || fail "$name: it said: $(cat "$room/said")"
    reading=$(blocks read "$2")
    if [ -z "$whole" ] || [ -z "$reading" ]; then
        fail "$name: no count"
        return
    fi
    echo "$name: $((whole - reading)) blocks for $count links"
    case $3 in
        none) [ "$whole" -eq "$reading" ] || fail "$name: memory was taken" ;;
        some) [ $((whole - reading)) -ge "$count" ] || fail "$name: the count doesn't count" ;;
    esac
}

for kind in plain port root_dot ipv4; do
    python3 "$top/bench/links.py" "$count" 1 $kind >"$room/$kind" 2>/dev/null
    counted $kind "$room/$kind" none
done
sed 's/^http/HTTP/; s/$/?\xc3\xa9/' "$room/plain" >"$room/parts"
counted 'plain names in other links' "$room/parts" none
sed 's/^http:\/\//http:\/\/X/; s/^https:\/\//https:\/\/X/' "$room/plain" >"$room/upper"
counted 'names of which a form is made' "$room/upper" some
exit $failed
