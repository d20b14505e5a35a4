#!/usr/bin/env bash
# What this checker takes for texts of a kind, compared with Ada and, if it is at hand, Rust's crate `url`. bench/kinds has
# the kinds: what is made, the call, the profile, the base and the bound, of which bench/bounds has the figure. `check`,
# `check_alone` (alone), `is_valid` and a call from C (from_c) are compared with Ada's can_parse, `resolve_serialized` (resolve)
# and `resolve` with its record's text (record) with Ada's parse with its href. Both sides keep the base, or read each
# text's own. It prints the instructions a text by callgrind, or the least processor time of so many rounds with a run of
# each in turn, reading taken off, and the ratios to Ada.
# It fails when a figure is missing or below the floor, and where an answer isn't the wanted one: so many texts are
# valid, Ada parses each, and writes each URL as this checker does. By instructions it also fails when a call passes
# the kind's bound by more than the slack, and where plain links cost more under the parser's profile than by the standard
# one.
# Usage: bench/verdicts.sh [--ada FOLDER] [--kind KIND|all] [--by instructions|time] [--rounds ROUNDS] [--count COUNT]
#        [--seed SEED] [--links FILE] [--store FOLDER] [--jobs JOBS]
# A folder of Ada's sources is built; a program that was built from one is taken as it is. Without Ada, texts of seed 1
# are compared with what it took for them when it was measured, which bench/verdicts/ada.stored has. LIBRARY may name a
# folder that tools/build-library wrote, for the calls from C. With `all` the output of each kind is stored in the
# folder of --store too, and, where Ada was measured, its figures; so many kinds are measured side by side.
set -euo pipefail
top=$(dirname "$(dirname "$(realpath "$0")")")
# What a call may cost beyond its bound: another compiler or the next change of the sources moves a figure a little.
slack=1.05
ada='' links='' seed=1 count='' kind=mixed rounds=5 by=instructions store='' jobs=1 cache=''
. "$top/bench/words.sh"
. "$top/bench/peers/build.sh"
words ada links seed count kind rounds by store jobs cache -- "$@"
room=$(mktemp -d)
trap 'rm -rf "$room"' EXIT
driver=$top/crates/bench_check/out/bench_check
[ -x "$driver" ] || (cd "$top/crates/bench_check" && rt run -- check 1 <stdin >&2)
failed=0
fail() {
    echo "FAILED: $*"
    failed=1
}

# By time a figure is in nanoseconds, of five passes; instructions are the same in each run, so one pass does.
case $by in
    time) unit=ns passes=5 floor=1 ;;
    instructions) unit=instructions passes=1 floor=50 rounds=1 ;;
    *) echo "no such figure: $by"; exit 2 ;;
esac
[ $by = time ] || command -v valgrind >/dev/null || { echo 'instructions are counted by valgrind'; exit 2; }
if [ -d "$ada" ]; then
    build_ada "$ada" "$room/ada" || exit 2
    ada=$room/ada
fi
[ -z "$ada" ] || [ -x "$ada" ] || { echo "no folder of Ada: $ada"; exit 2; }

# library : the folder of the library for C, which is built where none is given
library() {
    if [ -z "${LIBRARY:-}" ]; then
        "$top/tools/build-library" "$room/library" >&2 || return
        LIBRARY=$room/library
    fi
    echo "$LIBRARY"
}

# Every kind, by a run of this script for each.
if [ "$kind" = all ]; then
    store=${store:-$room}
    LIBRARY=$(library)
    export LIBRARY
    cache=$room/counted
    mkdir "$cache"
    mapfile -t kinds < <(awk '!/^#/ { print $1 }' "$top/bench/kinds")
    # shellcheck disable=SC2016 # (the shell that is started has the variables)
    printf '%s\n' "${kinds[@]}" | xargs -P "$jobs" -I KIND bash -c \
        'out=$1/KIND.txt; shift; bash "$0" "$@" --kind KIND </dev/null >"$out"' \
        "$0" "$store" "$@" ${ada:+--ada "$ada"} --cache "$cache" || failed=1
    for each in "${kinds[@]}"; do cat "$store/$each.txt"; done
    if [ -n "$ada" ] && [ "$by $seed $count" = 'instructions 1 ' ]; then
        {
            echo "# Instructions a text, Ada $("$ada" version) by g++ $(g++ -dumpversion) -O3 -march=x86-64-v2:" \
                'the texts of bench/kinds, seed 1'
            (cd "$store" && awk '$1 == "kind:" { kind = $2 } $1 == "ada:" { print kind, $2 }' ./*.txt)
        } >"$room/ada.stored"
        cp "$room/ada.stored" "$store/ada.stored"
    fi
    exit $failed
fi

# The texts, and what is asked of them.
call=check profile=standard base=- known='' wanted='' bound='' name='the lines of a file'
if [ -n "$links" ]; then
    kind=list
else
    row=$(awk -v kind="$kind" '$1 == kind' "$top/bench/kinds")
    [ -n "$row" ] || { echo "no such kind: $kind"; exit 2; }
    read -r _ made call profile base known bound name <<<"$row"
    # (a bound that is missed stands as a number in its row)
    [[ $bound == [0-9]* ]] || bound=$(awk -v name="$bound" '$1 == name { print $2 }' "$top/bench/bounds")
    [ -n "$bound" ] || { echo "bench/bounds has no bound of $kind"; exit 2; }
    # Time wants more texts than instructions do.
    if [ $by = time ]; then : "${count:=$((10 * known))}"; else : "${count:=$known}"; fi
    links=$room/links
    python3 "$top/bench/links.py" "$count" "$seed" "$made" >"$links" 2>"$room/valid"
    wanted=$(cat "$room/valid")
fi
lines=$(grep -c . "$links" || true)
# (a base that is a text's own is in the line before it)
[ "$base" != own ] || lines=$((lines / 2))
[ "$lines" -gt 0 ] || { echo 'no texts'; exit 2; }
against=("$profile")
[ "$base" = - ] || against+=("$base")

# What is measured: a program and a mode each.
declare -A program mode
names=("$call")
program[$call]=$driver mode[$call]=$call
case $call in
    is_valid) mode[$call]=valid ;;
    from_c)
        build_c "$(library)" "$room/c" || exit 2
        program[$call]=$room/c mode[$call]=check
        ;;
esac
if [ "$call" = check ]; then
    names+=(is_valid)
    program[is_valid]=$driver mode[is_valid]=valid
fi
if [ "$kind" = plain_parser ]; then
    names+=(standard)
    program[standard]=$driver mode[standard]=check
fi
adas=''
if [ -n "$ada" ]; then
    names+=(ada)
    case $call in
        resolve | record) mode[ada]=resolve ;;
        *) mode[ada]=check ;;
    esac
    program[ada]=$ada
elif [ "$by $seed $links $count" = "instructions 1 $room/links $known" ]; then
    adas=$(awk -v kind="$kind" '$1 == kind { print $2 }' "$top/bench/verdicts/ada.stored")
    [ -n "$adas" ] || fail "bench/verdicts/ada.stored has no figure of $kind"
else
    echo 'without Ada: give the folder of a release by --ada'
fi

if [ "$call $base" = 'check -' ] && has_url && build_url "$room/url" url.rs; then
    names+=(url)
    program[url]=$room/url/target/release/peer mode[url]=check
fi

# words_of NAME : the profile and the base after a mode
words_of() {
    if [ "$1" = standard ]; then echo standard; else printf '%s\n' "${against[@]}"; fi
}

# counted PROGRAM WORD.. : the instructions of a run over the texts; what it says is left in said. With `all` a run that was
# counted for another kind isn't repeated.
counted() {
    local run
    run=$cache/$(printf '%s\n' "$@" | cat - "$links" | sha256sum | cut -d' ' -f1)
    if [ -n "$cache" ] && [ -s "$run.cost" ]; then
        cp "$run.said" "$room/said"
        cat "$run.cost"
        return
    fi
    valgrind --tool=callgrind --callgrind-out-file=/dev/null "$@" <"$links" 2>&1 >"$room/said" |
        sed -n 's/.*Collected : //p' | tee "$room/cost"
    [ -z "$cache" ] || { cp "$room/said" "$run.said" && cp "$room/cost" "$room/new.cost" && mv "$room/new.cost" "$run.cost"; }
}

# spent NAME MODE : what one run costs
spent() {
    local TIMEFORMAT=%U+%S words
    mapfile -t words < <(words_of "$1")
    if [ $by = time ]; then
        { time "${program[$1]}" "$2" $passes "${words[@]}" <"$links" >"$room/said"; } 2>&1 |
            awk -F+ '{ printf "%.0f\n", ($1 + $2) * 1e9 }'
    else
        counted "${program[$1]}" "$2" $passes "${words[@]}"
    fi
}

# lesser FIGURE FIGURE : the lesser of two, of which the second may be empty
lesser() { if [ -z "$2" ] || (($1 < $2)); then echo "$1"; else echo "$2"; fi; }

# What two calls of a program read alike is read once a round.
declare -A whole reading reader said cost
for ((round = 0; round < rounds; round++)); do
    declare -A read=()
    for each in "${names[@]}"; do
        key="${program[$each]} $(words_of "$each")"
        reader[$each]=$key
        [ -n "${read[$key]:-}" ] || read[$key]=$(spent "$each" read)
        spent=$(spent "$each" "${mode[$each]}")
        said[$each]=$(sed 's/.*, \(.*\) valid/\1/' "$room/said")
        if [ -z "$spent" ] || [ -z "${read[$key]}" ]; then
            echo "FAILED: $each gave no figure"
            exit 1
        fi
        whole[$each]=$(lesser "$spent" "${whole[$each]:-}")
        reading[$key]=$(lesser "${read[$key]}" "${reading[$key]:-}")
    done
done

# answers NAME MODE : what a program answers on each text
answers() {
    "${program[$1]}" "$2" 1 "${against[@]}" <"$links" >"$room/$1.$2"
    if [ "$2" = verdicts ]; then
        tr -d '\n' <"$room/$1.$2" | fold -w 1 >"$room/split"
        mv "$room/split" "$room/$1.$2"
        echo >>"$room/$1.$2"
    fi
    [ "$(grep -c '' "$room/$1.$2")" = "$lines" ] || { echo "FAILED: $1 gave no answer on some texts"; exit 1; }
}

# differing A B : how many texts have this verdict by this checker and that by the peer
differing() {
    paste -d '\0' "$room/$call.verdicts" "$room/$each.verdicts" | grep -c "^$1$2\$" || true
}

echo "kind: $kind ($name), $lines texts, $by"
answers "$call" verdicts
valid=$(grep -c 1 "$room/$call.verdicts" || true)
[ -z "$wanted" ] || [ "$valid" = "$wanted" ] || fail "$valid texts are valid, and not $wanted"
for each in "${names[@]}"; do
    cost[$each]=$(awk -v w="${whole[$each]}" -v r="${reading[${reader[$each]}]}" -v n=$((lines * passes)) \
        'BEGIN { printf "%.1f", (w - r) / n }')
    awk -v c="${cost[$each]}" -v f=$floor 'BEGIN { exit c < f }' ||
        fail "$each: ${cost[$each]} $unit a text are too few"
    line="$each: ${cost[$each]} $unit a text, ${said[$each]} of $lines"
    case $each in
        ada | url)
            answers "$each" verdicts
            silent=$(differing 0 1) loud=$(differing 1 0)
            line+=" parse, of which $silent aren't valid; $loud are valid that don't parse"
            [ "$each" = url ] || [ "$loud" = 0 ] || fail "$loud texts are valid that don't parse by Ada"
            [ "$each" = url ] || [ -z "$wanted" ] || [ "${said[ada]}" = "$lines" ] || fail "some texts don't parse by Ada"
            ;;
        *)
            [ "${said[$each]}" = "$valid" ] || fail "$each: ${said[$each]} texts are valid, and not $valid"
            line+=' are valid'
            ;;
    esac
    echo "$line"
done
if [ -n "$ada" ] && [ "${mode[ada]}" = resolve ]; then
    if [ "$call" = record ]; then written=records; else written=texts; fi
    answers "$call" $written
    answers ada texts
    unlike=$(paste "$room/$call.$written" "$room/ada.texts" |
        awk -F '\t' '$1 != "" && $1 != $2 { n++ } END { print n + 0 }')
    [ "$unlike" = 0 ] || fail "the URLs of $unlike texts are written otherwise by Ada"
fi

# ratio A B [DIGITS] : of two figures
ratio() { awk -v a="$1" -v b="$2" -v d="${3:-2}" 'BEGIN { printf "%.*f", d, a / b }'; }

# holds NAME A B MOST : the ratio of two figures, as it is and not as it is rounded, may not pass this by instructions
holds() {
    [ $by = time ] || awk -v a="$2" -v b="$3" -v m="$4" 'BEGIN { exit a > m * b }' ||
        fail "$1: $(ratio "$2" "$3" 4), and at most $4 is wanted"
}

if [ -n "$adas" ]; then
    echo "ada: $adas instructions a text, stored: they were measured once"
else
    adas=${cost[ada]:-}
fi
if [ -n "$bound" ]; then
    bound=$(awk -v b="$bound" -v s=$slack 'BEGIN { printf "%.4f", b * s }')
    echo "at most $bound is held"
fi
for each in "${names[@]}"; do
    if [ -z "$adas" ] || [ "$each" = ada ] || [ "$each" = standard ]; then continue; fi
    echo "$each to Ada: $(ratio "${cost[$each]}" "$adas")"
    if [ -n "$bound" ] && [ "$each" != url ]; then holds "$each to Ada" "${cost[$each]}" "$adas" "$bound"; fi
done
if [ "$call" = check ]; then echo "is_valid to check: $(ratio "${cost[is_valid]}" "${cost[check]}")"; fi
if [ "$kind" = plain_parser ]; then
    echo "by the parser's profile to the standard one: $(ratio "${cost[check]}" "${cost[standard]}")"
    # (the words after the mode are read too, which is a part of an instruction for each text)
    holds "by the parser's profile to the standard one" "${cost[check]}" "${cost[standard]}" 1.002
fi
exit $failed
