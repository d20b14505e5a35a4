#!/usr/bin/env bash
# `urlcheck lint` on a list of a million mixed links, the whole process, compared with a C++ program that reads lines and calls
# Ada's can_parse: processor time, the least of so many rounds with a run of each in turn, or instructions by callgrind;
# and the peak of resident memory of `urlcheck lint` on 10,000 lines and on all. It wants at most 0.5 times the cost of
# the other, and memory that is the same on both lists, within 256 KiB, and below 10 MB. It fails when a program is
# missing, a figure is empty, the counts aren't those that the list was made with, or a bound is broken. Last comes
# bench/wrong_line.sh, what `lint --all` writes and takes of the worst line.
# Usage: bench/lint.sh --ada FOLDER [--seed SEED] [--count COUNT] [--rounds ROUNDS] [--by time|instructions]
#        [--program FILE]
set -euo pipefail
top=$(dirname "$(dirname "$(realpath "$0")")")
ada='' seed=1 count=1000000 short=10000 rounds=25 by='time' program=$top/crates/urlcheck/out/urlcheck
. "$top/bench/words.sh"
words ada seed count rounds by program -- "$@"
((count >= 10 * short && rounds > 0)) || { echo "at least $((10 * short)) lines and one round"; exit 2; }
[ -n "$ada" ] || { echo 'give the folder of a release of Ada by --ada'; exit 2; }
[ -x "$program" ] || { echo "$program is no program: build its crate first (rt run)"; exit 2; }
case $by in
    time) ;;
    instructions) rounds=1; command -v valgrind >/dev/null || { echo 'instructions are counted by valgrind'; exit 2; } ;;
    *) echo "no such figure: $by"; exit 2 ;;
esac
room=$(mktemp -d)
trap 'rm -rf "$room"' EXIT
g++ -std=c++20 -O2 -I"$ada/include" -I"$ada/src" -o "$room/ada" "$top/bench/peers/ada_lines.cpp" "$ada/src/ada.cpp"
python3 "$top/bench/links.py" "$count" "$seed" >"$room/long" 2>"$room/valid"
head -n $short "$room/long" >"$room/short"
refused=$((count - $(cat "$room/valid")))

# once NAME : one run over the long list; what it says on standard error is left in said
once() {
    case $1 in
        lint) "${runner[@]}" "$program" lint - ;;
        ada) "${runner[@]}" "$room/ada" ;;
    esac <"$room/long" >/dev/null 2>"$room/said" || true
}

# spent NAME : what one run costs, in microseconds or instructions
spent() {
    local TIMEFORMAT=%U+%S
    if [ "$by" = time ]; then
        runner=()
        { time once "$1"; } 2>&1 | awk -F+ 'NF == 2 { printf "%.0f\n", ($1 + $2) * 1e6 }'
    else
        runner=(valgrind --tool=callgrind --callgrind-out-file=/dev/null)
        once "$1"
        sed -n 's/.*Collected : //p' "$room/said"
    fi
}

declare -A least
for ((round = 0; round < rounds; round++)); do
    for name in lint ada; do
        figure=$(spent $name)
        [ -n "$figure" ] || { echo "FAILED: $name gave no figure"; exit 1; }
        if [ $name = lint ] && ! grep -q "^urlcheck: $count lines, $refused refused\$" "$room/said"; then
            echo "FAILED: lint said: $(grep refused "$room/said")"
            exit 1
        fi
        if [ -z "${least[$name]:-}" ] || ((figure < least[$name])); then least[$name]=$figure; fi
    done
done

# peak LIST : the peak of resident memory in KiB, asked when the list has gone through the pipe and its end isn't yet seen
peak() {
    local pid
    rm -f "$room/pipe"
    mkfifo "$room/pipe"
    "$program" lint - <"$room/pipe" >/dev/null 2>&1 &
    pid=$!
    exec 7>"$room/pipe"
    cat "$room/$1" >&7
    sleep 0.5
    sed -n 's/^VmHWM:[^0-9]*\([0-9]*\) kB$/\1/p' "/proc/$pid/status"
    exec 7>&-
    wait $pid || true
}
peak_long=$(peak long)
peak_short=$(peak short)
[ -n "$peak_short" ] && [ -n "$peak_long" ] || { echo "FAILED: no figure of memory"; exit 1; }
echo "$count links of seed $seed, $refused of them refused, least of $rounds rounds by $by"
for name in lint ada; do
    awk -v f="${least[$name]}" -v n="$count" -v name=$name -v by="$by" \
        'BEGIN { printf by == "time" ? "%s: %.1f ns a line\n" : "%s: %.1f instructions a line\n", name, (by == "time" ? 1000 : 1) * f / n }'
done
ratio=$(awk -v a="${least[lint]}" -v b="${least[ada]}" 'BEGIN { printf "%.2f", a / b }')
echo "urlcheck lint to lines read and parsed by Ada: $ratio"
echo "peak of resident memory: $peak_short KiB on $short lines, $peak_long KiB on $count"
failed=0
# holds CONDITION WORDS.. : a bound that the figures keep
holds() { awk "BEGIN { exit !($1) }" || { echo "FAILED: ${*:2}"; failed=1; }; }
holds "${least[lint]} >= $count / 100 && ${least[ada]} >= $count / 100" 'a figure is too small to be one'
holds "$ratio <= 0.5 * 1.05" 'more than 0.5 times the other'
holds "$peak_long <= $peak_short + 256 && $peak_short <= $peak_long + 256" 'the memory changes with the length'
holds "$peak_short > 0 && $peak_long < 10000 && $peak_short < 10000" "the memory isn't below 10 MB"
bash "$top/bench/wrong_line.sh" --program "$program" || failed=1
exit $failed
