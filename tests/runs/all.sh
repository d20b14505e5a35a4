#!/usr/bin/env bash
# Runs the program given as the first argument on the cases of this folder: its status, output and standard error. Words of
# the environment, for the program on another system (tests/runs/platforms.sh): CASES has the names of the files of cases that are
# run, otherwise all are, and LACKS what the system lacks that some runs need (`has`, below).
set -uo pipefail
for tool in awk cmp mkfifo prlimit python3 script setpriv; do
    command -v "$tool" >/dev/null || { echo "runs: $tool is missing; CONTRIBUTING.md says what the gate needs"; exit 70; }
done
unset NO_COLOR FORCE_COLOR
program=$(realpath "$1")
here=${2:-$(dirname "$(realpath "$0")")}
room=$(mktemp -d)
finished=no
trap 'rm -rf "$room"; [ $finished = yes ] || { echo "FAILED: ${cases:-runs} ended all runs"; exit 1; }' EXIT
failed=0
count=0

fail() {
    echo "FAILED: $*"
    failed=1
}

# as_nobody COMMAND.. : runs a command as a user who may not read every file, as root may
as_nobody() {
    local other=()
    if [ "$(id -u)" = 0 ]; then other=(setpriv --reuid=65534 --regid=65534 --clear-groups); fi
    "${other[@]}" "$@"
}

# to_nobody COMMAND.. : runs a command whose output is a pipe that nobody reads any more. Its status is left in $room/status, and what it
# says in $room/err.
to_nobody() {
    rm -f "$room/unread"
    mkfifo "$room/unread"
    # (one end is opened with the other, which then stays by itself)
    exec 7<>"$room/unread" 8>"$room/unread" 7<&-
    "$@" >&8 2>"$room/err" 8>&-
    echo $? >"$room/status"
    exec 8>&-
}

# answers_at_once WHAT LINE ANSWER LAST WORD.. : through pipes that live, each of three lines is answered before the next
# one is written, and LAST is said once the input ends. `N` in LINE and ANSWER is the line's number.
answers_at_once() {
    local what=$1 line=$2 answer=$3 last=$4 number said asked
    shift 4
    mkfifo "$room/ask" "$room/answer"
    "$program" "$@" <"$room/ask" >"$room/answer" 2>"$room/err" &
    asked=$!
    exec 8>"$room/ask" 9<"$room/answer"
    for number in 1 2 3; do
        echo "${line//N/$number}" >&8
        said=
        read -r -t 120 said <&9
        count=$((count + 1))
        if [ "$said" != "${answer//N/$number}" ]; then fail "$what: it answered $said"; fi
    done
    exec 8>&-
    said=
    read -r -t 120 said <&9
    exec 9<&-
    wait $asked
    ends_with 0 $? '' "$what"
    if [ "$said" != "$last" ]; then fail "$what: it ended with $said"; fi
    rm -f "$room/ask" "$room/answer"
}

# at_terminal INPUT WORD.. : a run with these words on the bytes of the file INPUT, whose standard error is a terminal. It goes
# to $room/err, without the CR that a terminal writes before each LF.
at_terminal() {
    local input=$1 words
    shift
    printf -v words '%q ' "$program" "$@"
    (cd "$room" && SHELL=$BASH script -qec "$words <$input >$room/out" /dev/null) </dev/null | tr -d '\r' >"$room/err"
    return "${PIPESTATUS[0]}"
}

# wrote TEXT FILE : whether a file has this text, read with escapes. A line of TEXT with `error: [RULE]` stands for each that says
# something before the rule: sentences.cases.sh has the sentences.
wrote() {
    local any='NR == FNR { if (/: error: \[/) any[FNR]; next } FNR in any { sub(/: error: .+ \[/, ": error: [") } { print }'
    printf '%b' "$1" >"$room/text"
    cmp -s "$room/text" "$2" ||
        { [ -z "$(tail -c 1 "$2")" ] && LC_ALL=C awk "$any" "$room/text" "$2" | cmp -s "$room/text" -; }
}

# expect STATUS STDOUT STDERR WORD.. : a run with these words ends so. STDOUT and STDERR are read with escapes.
expect() {
    local status=$1 stdout=$2 stderr=$3 ended
    shift 3
    (cd "$room" && "$program" "$@") >"$room/out" 2>"$room/err" </dev/null
    ended=$?
    count=$((count + 1))
    if [ "$ended" != "$status" ]; then fail "$*: status $ended, and not $status"; fi
    if ! wrote "$stdout" "$room/out"; then fail "$*: it wrote: $(cat "$room/out")"; fi
    if ! printf '%b' "$stderr" | cmp -s - "$room/err"; then fail "$*: on standard error: $(cat "$room/err")"; fi
}

# ends_with STATUS STDERR : the last command, whose status is given second, ended so
ends_with() {
    local status=$1 ended=$2 stderr=$3 what=$4
    count=$((count + 1))
    if [ "$ended" != "$status" ]; then fail "$what: status $ended, and not $status"; fi
    if ! printf '%b' "$stderr" | cmp -s - "$room/err"; then fail "$what: on standard error: $(cat "$room/err")"; fi
}

# on_list COMMAND STATUS STDOUT STDERR WORD.. : a run of the command with these words on the bytes of $room/list ends so
on_list() {
    local command=$1 status=$2 stdout=$3 stderr=$4 ended
    shift 4
    "$program" "$command" "$@" <"$room/list" >"$room/out" 2>"$room/err"
    ended=$?
    ends_with "$status" $ended "$stderr" "$command $*"
    if ! wrote "$stdout" "$room/out"; then fail "$command $*: it wrote: $(cat "$room/out")"; fi
}

# lacks WHAT : whether the system lacks it
lacks() {
    case " ${LACKS:-} " in *" $1 "*) ;; *) return 1 ;; esac
}

# has WHAT RUNS : whether the system has what the next RUNS runs need. Else they are left out, and counted by what they need.
declare -A left_out=()
has() {
    lacks "$1" || return 0
    count=$((count + $2))
    left_out[$1]=$((${left_out[$1]:-0} + $2))
    return 1
}

# is_posix NAME : whether only POSIX has files of this name. Windows has none with these code points, or a space at the end.
is_posix() {
    case $1 in *' ' | *[:*?\\\<\>\"]* | *[[:cntrl:]]*) ;; *) return 1 ;; esac
}

# has_file NAME : whether the system has files of this name. Else a run is left out.
has_file() { ! is_posix "$1" || has posix_names 1; }

# no_base PLACE RULE SENTENCE : the line on standard error about a base that this rule refuses
no_base() { printf '%s' "urlcheck: the base is refused at place $1: $3\\nbase refused $1 $2\\n"; }

# What is said of an output on which no space is left, of one that is closed, of an input that is a folder, and of one
# that is closed.
no_space="urlcheck: standard output: can't be written: no space is left\\n"
no_output="urlcheck: standard output: can't be written\\n"
from_folder="urlcheck: standard input: can't be read: it is a folder\\n"
no_input="urlcheck: standard input: can't be read\\n"

# all_cases NUMBER : the last line of a file of cases, with the number of its runs
all_cases() {
    complete=yes
    [ "$1" = "$count" ] || fail "$(basename "$cases"): $count runs, and not the $1 of its last line"
}

files=0
total=0
for cases in "$here"/*.cases.sh; do
    [ -e "$cases" ] || continue
    name=$(basename "$cases" .cases.sh)
    case " ${CASES:-$name} " in *" $name "*) ;; *) continue ;; esac
    files=$((files + 1))
    count=0
    complete=no
    . "$cases"
    [ $complete = yes ] || fail "$(basename "$cases"): it wasn't read to its end"
    total=$((total + count))
done
[ $files != 0 ] || fail "$here: no file of cases"
for what in "${!left_out[@]}"; do
    total=$((total - left_out[$what]))
    echo "runs: left out ${left_out[$what]} that need $what"
done
echo "runs: $total runs of $(basename "$program")"
finished=yes
exit $failed
