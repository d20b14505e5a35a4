#!/usr/bin/env bash
# Lists of mixed links: the processor time a line of `urlcheck links`, of only the second parser (the crate
# bench_second) and of `wc -l`, least of so many rounds with a run of each in turn, the start of each program taken off;
# and the peak of resident memory of `urlcheck links` on 30,000 lines and on all. It wants that `urlcheck links` costs
# at most 0.8 times what the second parser does by itself, that a line of the long list costs what one of the short list costs within
# 10 %, and that its memory is the same on both, within 256 KiB, and below 10 MB. With --registry FOLDER also the time of
# Rust's crate `url` with its validation errors counted, which reports on each line alike: `urlcheck links` is to cost at
# most 0.75 of that. FOLDER has the sources of 2.5 or newer, as Debian's librust-url-dev has them. Against a base, on as
# many references, `urlcheck links` is to cost at most 2.5 times what the second parser does by itself. It fails when a program is
# missing, a figure is empty, an answer isn't the wanted one, or a bound is broken.
# Usage: bench/links.sh [--seed SEED] [--count COUNT] [--rounds ROUNDS] [--program FILE] [--second FILE]
#        [--registry FOLDER]
set -euo pipefail
top=$(dirname "$(dirname "$(realpath "$0")")")
seed=1 count=1000000 short=30000 rounds=5
program=$top/crates/urlcheck/out/urlcheck second=$top/crates/bench_second/out/bench_second
registry=
. "$top/bench/words.sh"
words seed count rounds program second registry -- "$@"
asked=$registry
. "$top/bench/peers/build.sh"
registry=$asked
((count >= 10 * short && rounds > 0)) || { echo "at least $((10 * short)) lines and one round"; exit 2; }
for file in "$program" "$second"; do
    [ -x "$file" ] || { echo "$file is no program: build its crate first (rt run)"; exit 2; }
done
room=$(mktemp -d)
trap 'rm -rf "$room"' EXIT
failed=0
fail() {
    echo "FAILED: $*"
    failed=1
}

names=(links second wc links_based second_based)
base=https://example.org/a/b.html
if [ -n "$registry" ]; then
    [[ $(cd "$registry" && printf '%s\n' url-*) =~ url-(2\.([5-9]|[1-9][0-9])|[3-9])\. ]] ||
        { echo "$registry has no sources of the crate url 2.5 or newer"; exit 2; }
    build_url "$room/url" url_lines.rs || exit 1
    names+=(url)
fi

python3 "$top/bench/links.py" "$count" "$seed" >"$room/long"
head -n $short "$room/long" >"$room/short"
: >"$room/empty"
python3 "$top/bench/links.py" "$count" "$seed" reference >"$room/references" 2>/dev/null

# Links that bench/links.py makes are refused if they end in one of four texts, or if their path begins
# with an empty segment; every other one is ok.
refused='/(a b|a\|b|%zz|\[x\])$|^[A-Za-z]+://[^/]*//'

# answers LIST : `urlcheck links` and the second parser say of a list what is known of it
answers() {
    local lines bad
    lines=$(grep -c '' "$room/$1")
    bad=$(grep -cE "$refused" "$room/$1")
    "$program" links <"$room/$1" >"$room/report" || [ $? = 1 ] || fail "$1: a status that isn't that of a report"
    [ "$(tail -n 1 "$room/report")" = "links $lines ok $((lines - bad)) bad $bad differs 0" ] \
        || fail "$1: the counts are: $(tail -n 1 "$room/report")"
    grep -nE "$refused" "$room/$1" | cut -d: -f1 >"$room/wanted"
    awk '$2 == "bad" { print $1 }' "$room/report" | cmp -s - "$room/wanted" || fail "$1: other lines are bad"
    [ "$(grep -c '' "$room/report")" = $((lines + 1)) ] || fail "$1: the report has another number of lines"
    [ "$("$second" <"$room/$1")" = "$lines lines, $lines parsed" ] || fail "$1: the second parser: $("$second" <"$room/$1")"
    [ -z "$registry" ] || url_answers "$1" "$lines"
}

# url_answers LIST LINES : the crate `url` writes of each line that both accept what `urlcheck links` does, and of one in
# twenty at most something else
url_answers() {
    "$room/url/target/release/peer" <"$room/$1" >"$room/of_url"
    [ "$(grep -c '' "$room/of_url")" = $(($2 + 1)) ] || fail "$1: the crate url reports another number of lines"
    same=$(comm -12 <(grep ' ok ' "$room/report" | sort) <(grep ' ok ' "$room/of_url" | sort) | grep -c '')
    ((same * 20 >= $2 * 19)) || fail "$1: the crate url accepts $same of $2 lines with the same text"
}
answers short
answers long

# Each reference is valid, and the second parser reads it as the same URL.
counts=$("$program" links --base "$base" <"$room/references" | tail -n 1) || true
[ "$counts" = "links $count ok $count bad 0 differs 0" ] || fail "references: the counts are: $counts"
parsed=$("$second" "$base" <"$room/references")
[ "$parsed" = "$count lines, $count parsed" ] || fail "references: the second parser: $parsed"

# once NAME LIST : one run
once() {
    case $1 in
        links) "$program" links ;;
        second) "$second" ;;
        links_based) "$program" links --base "$base" ;;
        second_based) "$second" "$base" ;;
        wc) wc -l ;;
        url) "$room/url/target/release/peer" ;;
    esac <"$room/$2" >/dev/null || true
}

# spent NAME LIST TIMES : the processor time of so many runs, in microseconds
spent() {
    local TIMEFORMAT=%U+%S k
    { time for ((k = 0; k < $3; k++)); do once "$1" "$2"; done; } 2>&1 | awk -F+ 'NF == 2 { print int(($1 + $2) * 1000000) }'
}

# The lists on which a program is measured: `long` and `references` by one run, `short` and `empty` by as many runs as give as
# many lines.
lists_of() {
    case $1 in
        *_based) echo references empty ;;
        *) echo long short empty ;;
    esac
}

# The least of all rounds.
declare -A least
runs=$((count / short))
for ((round = 0; round < rounds; round++)); do
    for name in "${names[@]}"; do
        for list in $(lists_of $name); do
            times=$runs
            case $list in long | references) times=1 ;; esac
            figure=$(spent $name $list $times)
            [ -n "$figure" ] || { echo "no figure of $name on the $list list"; exit 1; }
            key=$name.$list
            if [ -z "${least[$key]:-}" ] || ((figure < least[$key])); then least[$key]=$figure; fi
        done
    done
done

# cost NAME LIST : the time a line, in nanoseconds
cost() {
    local starts=$((least[$1.empty] / runs))
    if [ "$2" = short ]; then starts=${least[$1.empty]}; fi
    awk -v t="${least[$1.$2]}" -v s="$starts" -v n="$count" 'BEGIN { printf "%.1f", (t - s) * 1000 / n }'
}

# peak LIST : the peak of resident memory in KiB, asked when the whole list is reported on and its end isn't yet seen
peak() {
    local lines pid tick
    lines=$(grep -c '' "$room/$1")
    rm -f "$room/pipe"
    mkfifo "$room/pipe"
    "$program" links <"$room/pipe" >"$room/report" &
    pid=$!
    exec 7>"$room/pipe"
    cat "$room/$1" >&7
    for ((tick = 0; tick < 300; tick++)); do
        if [ "$(tail -n 1 "$room/report" | cut -d' ' -f1)" = "$lines" ]; then break; fi
        sleep 0.1
    done
    sed -n 's/^VmHWM:[^0-9]*\([0-9]*\) kB$/\1/p' "/proc/$pid/status"
    exec 7>&-
    wait $pid || true
}

links=$(cost links long)
links_short=$(cost links short)
alone=$(cost second long)
lines=$(cost wc long)
based=$(cost links_based references)
based_alone=$(cost second_based references)
peak_long=$(peak long)
peak_short=$(peak short)
for figure in "$links" "$links_short" "$alone" "$lines" "$based" "$based_alone" "$peak_long" "$peak_short"; do
    awk -v f="$figure" 'BEGIN { exit !(f > 0) }' || { echo "a figure is empty or zero: '$figure'"; exit 1; }
done
ratio() { awk -v a="$1" -v b="$2" 'BEGIN { printf "%.2f", a / b }'; }
echo "$count links of seed $seed, least of $rounds rounds"
echo "urlcheck links: $links ns a line; on $short lines $links_short ns, ratio $(ratio "$links" "$links_short")"
echo "the second parser alone: $alone ns a line"
echo "wc -l: $lines ns a line"
echo "urlcheck links to the second parser alone: $(ratio "$links" "$alone")"
echo "urlcheck links to wc -l: $(ratio "$links" "$lines")"
echo "against a base: urlcheck links $based ns a reference, the second parser alone $based_alone, $(ratio "$based" "$based_alone")"
if [ -n "$registry" ]; then
    of_url=$(cost url long)
    awk -v f="$of_url" 'BEGIN { exit !(f > 0) }' || { echo "a figure is empty or zero: '$of_url'"; exit 1; }
    echo "the crate url with its validation errors: $of_url ns a line"
    echo "urlcheck links to that: $(ratio "$links" "$of_url")"
fi
echo "peak of resident memory: $peak_short KiB on $short lines, $peak_long KiB on $count"

# holds CONDITION WORDS.. : a bound that the figures keep
holds() {
    awk "BEGIN { exit !($1) }" || fail "${*:2}"
}
holds "$links <= 0.8 * $alone" "more than 0.8 times the second parser alone"
holds "$based <= 2.5 * $based_alone" "against a base more than 2.5 times the second parser alone"
[ -z "$registry" ] || holds "$links <= 0.75 * $of_url" "more than 0.75 of the crate url with its validation errors"
holds "$links <= 1.1 * $links_short && $links_short <= 1.1 * $links" "the cost a line changes with the length by more than 10 %"
holds "$peak_long <= $peak_short + 256 && $peak_short <= $peak_long + 256" "the memory changes with the length"
holds "$peak_long < 10000 && $peak_short < 10000" "the memory isn't below 10 MB"
exit $failed
