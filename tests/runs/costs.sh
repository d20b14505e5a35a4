#!/usr/bin/env bash
# Counts what the program given as the first argument takes, as the pages name it: instructions by callgrind. Lines of each kind in
# `costs.txt` next to this file cost at most what is written there, with 5 % of slack, and what `lint --all` and `check --all` take of
# one line grows no faster than the line. A report on the worst line is no longer than it may be. All needs `valgrind`.
. "$(dirname "$(realpath "$0")")/start.sh"
needs costs valgrind python3
here=$top/tests/runs
failed=0

# wrong WORD.. : says what is wrong, and goes on with the next figure
wrong() {
    echo "FAILED: costs: $*"
    failed=1
}

# From some length on the C library copies and fills bytes by one instruction that callgrind counts once a byte. So that
# every length is counted alike, it is told to do it by vectors.
export GLIBC_TUNABLES=glibc.cpu.x86_rep_movsb_threshold=1000000000:glibc.cpu.x86_rep_stosb_threshold=1000000000

# counted FILE WORD.. : how many instructions a run of the program with these words takes, on the file as standard input
counted() {
    valgrind --tool=callgrind --callgrind-out-file=/dev/null "$program" "${@:2}" <"$1" 2>&1 >"$1.out" |
        sed -n 's/.*Collected : //p'
}

# ---- lines of lists

# a_line KIND WORD.. : what a line of this kind costs, of 2,000 and not of 1,000, so that what a run takes without a line is left out
a_line() {
    local kind=$1 short long
    shift
    python3 "$top/bench/links.py" 2000 1 "$kind" >"$room/$kind.long" 2>/dev/null
    head -n 1000 "$room/$kind.long" >"$room/$kind.short"
    short=$(counted "$room/$kind.short" "$@")
    long=$(counted "$room/$kind.long" "$@")
    [ -n "$short" ] && [ -n "$long" ] && echo $(((long - short) / 1000))
}

# of_text TEXT WORD.. : what the program takes with the words and this text. Copies on the stack cost some hundred instructions more
# or less by where it begins, which is below the words and the environment. So both together have one length with each text.
of_text() {
    : >"$room/none"
    FILL=$(printf '%*s' $((64 - ${#1})) '') counted "$room/none" "${@:2}" "$1"
}

# bound KIND MOST WORD.. : a line of this kind costs at most so much, or a text, if the words are for `check`
bound() {
    local kind=$1 most=$2 cost
    shift 2
    if [ "$kind" = text ]; then
        cost=$(($(of_text 'https://example.com/a/b?x=1' "$@") - $(of_text a: "$@")))
    else
        cost=$(a_line "$kind" "$@")
    fi
    [ -n "$cost" ] || { wrong "no figure of $kind by $*"; return; }
    echo "costs: $* on $kind: $cost instructions, at most $most"
    ((cost * 20 <= most * 21)) || wrong "$* on $kind takes $cost instructions, and at most $most are named"
    ((cost >= 100)) || wrong "$* on $kind: $cost is too small to be a figure"
}
while read -r kind most words; do
    read -ra words <<<"$words"
    bound "$kind" "$most" "${words[@]}"
done < <(sed 's/#.*//; /^ *$/d' "$here/costs.txt")

# ---- what is written of the worst line, and in how much memory

bash "$top/bench/wrong_line.sh" --program "$program" >"$room/worst" || wrong "$(grep -B1 FAILED "$room/worst")"
echo "costs: $(grep -c ' bytes, a peak of ' "$room/worst") reports on a line of 65,536 wrong bytes"

# ---- one line, of each shape in which each code point, or many, are refused

# shellcheck disable=SC1003 # (the backslash is of the shape)
shapes=(
    'http://h/|^' 'http://h/| ' $'http://h/|\t' 'http://h/|\' $'http://h/|\x01' 'http://h/|é^' 'http://h/|😀^' $'http://h/|\uFFFE'
    'a:|^' 'http://h/?|^' 'file:///C|/|^' 'https:/|\..' 'http://h/|%' 'foo://|é^' '|^'
)

# grown SHAPE COMMAND : what the command takes of a line of this shape of about 300, 3,000 and 30,000 bytes
grown() {
    local prefix=${1%|*} unit=${1##*|} count cost before=0 words=() said="costs: $2 on «$1»:"
    [ -n "$prefix" ] || words=(--base http://h/)
    for count in 300 3000 30000; do
        cost=$(python3 - "$prefix" "$unit" "$count" >"$3" <<'PYTHON' && of_line "$2" "$3" "${words[@]}"
import sys
prefix, unit, count = sys.argv[1], sys.argv[2], int(sys.argv[3])
sys.stdout.buffer.write((prefix + unit * (count // len(unit.encode())) + "\n").encode())
PYTHON
        )
        said+=" ${cost:-none}"
        if [ -z "$cost" ] || { [ "$before" != 0 ] && ((cost > 11 * before)); }; then said="FAILED: $said"; fi
        before=${cost:-0}
    done
    echo "$said"
}

# of_line COMMAND FILE WORD.. : what the command takes of the line in the file, and of none
of_line() {
    local none=$2.none
    printf 'a:\n' >"$none"
    case $1 in
        lint) echo $(($(counted "$2" lint --all "${@:3}" -) - $(counted "$none" lint --all "${@:3}" -))) ;;
        check) echo $(($(counted "$none" check --all "${@:3}" "$(cat "$2")") - $(counted "$none" check --all "${@:3}" a:))) ;;
    esac
}
at=0
for shape in "${shapes[@]}"; do
    for command in lint check; do
        while [ "$(jobs -pr | wc -l)" -ge "$(nproc)" ]; do wait -n || true; done
        at=$((at + 1))
        grown "$shape" $command "$room/line.$at" >"$room/grown.$at" 2>&1 &
    done
done
wait
for ((it = 1; it <= at; it++)); do
    cat "$room/grown.$it"
    ! grep -q '^FAILED' "$room/grown.$it" || failed=1
done
echo "costs: $(grep -vcE '^ *(#|$)' "$here/costs.txt") bounds, and growth of $at runs over three lengths"
exit $failed
