#!/usr/bin/env bash
# Shows that the cost of a check, of all faults (`check --all`), of a mended text (`mend`) and of a line of a list
# (`links`) grows with the text and no faster: instructions by callgrind for each shape, the reading of the same text
# taken off. Ten times the length costs at most eleven times: a line at a hundredth, a tenth and the whole of the length
# that it may have, all else at 10 thousand, 100 thousand and a million code points. Eleven is also the bound of the
# bytes that `lint --all` writes of a line in which each code point is wrong, in each format, and of what it takes of a
# line in which every second one is wrong and the others are beyond ASCII, in each format and each unit of columns. It
# fails when a figure is missing or below one instruction for 32 bytes, and where an answer isn't the wanted one. It
# needs valgrind.
# Usage: bench/growth.sh [--only check|faults|mend|links|lint|written] [COUNT..]
set -euo pipefail
export LC_ALL=C.UTF-8
top=$(dirname "$(dirname "$(realpath "$0")")")
check=${CHECK_DRIVER:-$top/crates/bench_check/out/bench_check}
output=${OUTPUT_DRIVER:-$top/crates/bench_output/out/bench_output}
urlcheck=${URLCHECK:-$top/crates/urlcheck/out/urlcheck}
only=''
if [ "${1:-}" = --only ]; then
    only=$2
    shift 2
fi
counts=(10000 100000 1000000)
if (($# > 0)); then counts=("$@"); fi
command -v valgrind >/dev/null || { echo 'bench/growth.sh needs valgrind'; exit 2; }
for driver in "$check" "$output" "$urlcheck"; do
    [ -x "$driver" ] || { echo "$driver is no program: build its crate first (rt run)"; exit 2; }
done
room=$(mktemp -d)
trap 'rm -rf "$room"' EXIT

failed=0
fail() {
    printf '\nFAILED: %s\n' "$*"
    failed=1
}

# repeated COUNT TEXT : the text so many times
repeated() { head -c "$1" /dev/zero | sed "s|\x00|$2|g"; }

# length TEXT : how many code points it has
length() { printf '%s' "$1" | wc -m; }

# ---- shapes of one kind of part

# shaped SHAPE COUNT : a text of about so many code points
shaped() {
    case $1 in
        path) printf 'http://h/'; repeated "$2" a ;;
        segments) printf 'http://h/'; repeated $(($2 / 2)) a/ ;;
        double_dots) printf 'http://h/'; repeated $(($2 / 3)) ../ ;;
        escapes) printf 'http://h/'; repeated $(($2 / 3)) %41 ;;
        beyond_ascii) printf 'http://h/'; repeated "$2" é ;;
        escapes_apart) printf 'http://h/'; repeated $(($2 / 4)) a%41 ;;
        query) printf 'http://h/?'; repeated "$2" a ;;
        fragment) printf 'http://h/#'; repeated "$2" a ;;
        opaque_path) printf 'urn:'; repeated "$2" a ;;
        opaque_host) printf 'foo://'; repeated "$2" a ;;
        opaque_host_escapes) printf 'foo://'; repeated $(($2 / 3)) %41 ;;
        port) printf 'http://h:'; repeated "$2" 0; printf '80' ;;
        host) printf 'http://'; repeated "$2" a ;;
        labels) printf 'http://'; repeated $(($2 / 2)) a. ;;
        bad_end) printf 'http://h/'; repeated "$2" a; printf ' ' ;;
        bad_end_beyond_ascii) printf 'http://h/'; repeated "$2" é; printf ' ' ;;
        bad_query_end) printf 'http://h/?'; repeated "$2" a; printf '%%4' ;;
        bad_host_end) printf 'foo://'; repeated "$2" a; printf '^' ;;
        bad_host) printf 'foo://'; repeated "$2" @ ;;
        wrong_path) printf 'http://h/'; repeated $(($2 / 2)) é^ ;;
        wrong_host) printf 'foo://'; repeated $(($2 / 2)) é^ ;;
        *) filled "$1" "$2" ;;
    esac
}

# ---- shapes of a unit repeated in a part, as path%41

units=('/' 'a/' '%41' '%' 'é' '[' '@' '.' 'xn--' '-')

# filled PART+UNIT COUNT : a text of about so many code points, of the unit repeated in the part
filled() {
    local unit=${1#*+} times
    times=$(($2 / $(length "$unit")))
    case $1 in
        path+*) printf 'http://h/'; repeated $times "$unit" ;;
        host+*) printf 'http://'; repeated $times "$unit"; printf / ;;
        port+*) printf 'http://h:'; repeated $times "$unit"; printf / ;;
        query+*) printf 'http://h/?'; repeated $times "$unit" ;;
        reference+*) repeated $times "$unit" ;;
    esac
}

# base_of SHAPE : the base that a shape is checked against, if any
base_of() { case $1 in reference+*) echo 'http://h/a/b?q' ;; esac; }

# each PLACE RULE TIMES : that many faults, the first there and each a code point after the one before
each() { echo "$3 faults, refused $1 $2, refused $(($1 + $3 - 1)) $2"; }

# one PLACE RULE : one fault
one() { each "$1" "$2" 1; }

# wanted SHAPE COUNT : the report on a text of that shape: how many faults it has, the first of them and the last
wanted() {
    local count=$2 times
    times=$((count / $(length "${1#*+}")))
    case $1 in
        host | labels) one 7 host-domain ;;
        bad_end | bad_end_beyond_ascii) one $((9 + count)) code-point ;;
        bad_query_end) one $((10 + count)) percent ;;
        bad_host_end) one $((6 + count)) host-code-point ;;
        bad_host) each 6 host-code-point "$count" ;;
        wrong_path) echo "$((count / 2)) faults, each second one code-point" ;;
        wrong_host) echo "$((count / 2)) faults, each second one host-code-point" ;;
        path+/) one 9 first-segment-empty ;;
        path+%) each 9 percent $times ;;
        'path+[') each 9 code-point $times ;;
        host+/) echo '2 faults, refused 7 host-missing, refused 8 first-segment-empty' ;;
        host+a/) echo valid ;;
        'host+[') one 7 host-ipv6 ;;
        host+*) one 7 host-domain ;;
        port+/) one 10 first-segment-empty ;;
        port+a/) one 9 port-digit ;;
        port+%41) echo "$times faults, refused 9 port-digit, refused $((9 + 3 * (times - 1))) port-digit" ;;
        port+xn--) each 9 port-digit $((4 * times)) ;;
        port+*) each 9 port-digit $times ;;
        query+%) each 10 percent $times ;;
        'query+[') each 10 code-point $times ;;
        reference+/) echo '2 faults, refused 2 host-missing, refused 3 first-segment-empty' ;;
        reference+%) each 0 percent $times ;;
        'reference+[') each 0 code-point $times ;;
        *) echo valid ;;
    esac
}

# mended SHAPE COUNT : the line that `mend` writes first of a text of that shape, and the mended text where there is one
mended() {
    local count=$2 times
    times=$((count / $(length "${1#*+}")))
    case $1 in
        bad_end) echo 'mended same'; shaped path "$count" ;;
        bad_end_beyond_ascii) echo 'mended same'; shaped beyond_ascii "$count" ;;
        bad_query_end) echo 'mended escaped'; shaped query "$count"; printf '%%254' ;;
        path+/) echo 'mended same'; printf 'http://h/.'; repeated $((times + 1)) / ;;
        port+/) echo 'mended same'; printf 'http://h:/.'; repeated $((times + 1)) / ;;
        path+% | query+% | reference+%) echo 'mended escaped'; filled "${1%\%}%25" $((times * 3)) ;;
        'path+[' | 'query+[' | 'reference+[') echo 'mended escaped'; filled "${1%[}%5B" $((times * 3)) ;;
        *) if [ "$(wanted "$1" "$count")" = valid ]; then echo valid; else echo none; fi ;;
    esac
}

# ---- runs

# From some length on the C library copies and fills bytes by one instruction that callgrind counts once a byte. So that
# every length is counted alike, it is told to do it by vectors.
export GLIBC_TUNABLES=glibc.cpu.x86_rep_movsb_threshold=1000000000:glibc.cpu.x86_rep_stosb_threshold=1000000000

# instructions FILE PROGRAM WORD.. : how many a run over the file executes; what it says is left in said
instructions() {
    valgrind --tool=callgrind --callgrind-out-file="$room/out" "${@:2}" <"$1" 2>"$room/err" >"$room/said" || true
    sed -n 's/.*Collected : //p' "$room/err"
}

# the text that is measured, and what only reading it costs, are left in text, whole and reading

# of_check SHAPE COUNT : the cost of `check` on the text, which says whether it is valid
of_check() {
    local valid=0
    if [ "$(wanted "$1" "$2")" = valid ]; then valid=1; fi
    reading=$(instructions "$room/text" "$check" read 1)
    whole=$(instructions "$room/text" "$check" check 1)
    said=$(cat "$room/said")
    right="1 lines, $valid valid"
}

# of_faults SHAPE COUNT : the cost of all faults, and how many there are, the first and the last
of_faults() {
    local base
    base=$(base_of "$1")
    reading=$(instructions "$room/text" "$output" read ${base:+"$base"})
    whole=$(instructions "$room/text" "$output" faults ${base:+"$base"})
    said=$(head -n 1 "$room/said")
    if [ "$said" != valid ]; then said="$(wc -l <"$room/said") faults, $said, $(tail -n 1 "$room/said")"; fi
    right=$(wanted "$1" "$2")
}

# of_mend SHAPE COUNT : the cost of mending the text, and whether what is written is the mended text
of_mend() {
    local base
    base=$(base_of "$1")
    reading=$(instructions "$room/text" "$output" read ${base:+"$base"})
    whole=$(instructions "$room/text" "$output" mend ${base:+"$base"})
    mended "$1" "$2" >"$room/mended"
    right=$(head -n 1 "$room/mended")
    said=$(head -n 1 "$room/said")
    case $said in
        mended*) diff -q <(cat "$room/mended"; echo) "$room/said" >/dev/null || said+=', but another text' ;;
    esac
}

# of_links SHAPE COUNT : the cost of the text as a line of a list, the run over an empty list taken off
of_links() {
    local base bad=0
    base=$(base_of "$1")
    if [ "$(wanted "$1" "$2")" != valid ]; then bad=1; fi
    : >"$room/none"
    reading=$(instructions "$room/none" "$urlcheck" links ${base:+--base "$base"})
    whole=$(instructions "$room/text" "$urlcheck" links ${base:+--base "$base"})
    said=$(tail -n 1 "$room/said" | sed 's/ok [01] bad \([01]\) differs [01]/bad \1/')
    right="links 1 bad $bad"
}

# of_lint SHAPE COUNT : the cost of a report on all faults of the text as a line, the run over an empty list taken off
of_lint() {
    : >"$room/none"
    reading=$(instructions "$room/none" "$urlcheck" lint --quiet --all --format "$format" --columns "$unit" -)
    whole=$(instructions "$room/text" "$urlcheck" lint --quiet --all --format "$format" --columns "$unit" -)
    reported "$1" "$2"
}

# reported SHAPE COUNT : how many faults the report tells, and how many there are
reported() {
    local wanted rule
    wanted=$(wanted "$1" "$2")
    rule=${wanted##* }
    local names="\"(rule|ruleId|check_name|value)\":\"$rule\"|type=\"$rule\""
    said="$(grep -cE "\\[$rule\\]\$|$names|title=$rule::|\"urlcheck\.$rule\"" "$room/said") faults"
    right="${wanted%% *} faults"
}

# of_written SHAPE COUNT : how many bytes `lint --all` writes of the text as a line in the format, each fault once
of_written() {
    reading=0
    "$urlcheck" lint --quiet --all --format "$format" - <"$room/text" >"$room/said" || true
    whole=$(wc -c <"$room/said")
    reported "$1" "$2"
}

# grows WHAT SHAPE COUNT.. : the figures of a shape at each length, which grow no faster than the text
grows() {
    local what=$1 shape=$2 count before=0 cost whole reading said right
    printf '%-6s %-20s' "$what${format:+ $format}${unit:+ $unit}" "$shape"
    for count in "${@:3}"; do
        shaped "$shape" "$count" >"$room/text"
        "of_$what" "$shape" "$count"
        if [ -z "$whole" ] || [ -z "$reading" ]; then
            fail "$what of $shape, $count: no figure"
            before=0
            continue
        fi
        cost=$((whole - reading))
        printf ' %8d: %-11d' "$count" $cost
        [ "$said" = "$right" ] || fail "$what of $shape, $count: it said: $said, and not: $right"
        ((cost >= count / 32)) || fail "$what of $shape, $count: $cost instructions are too few"
        ((before == 0 || cost <= 11 * before)) ||
            fail "$what of $shape, $count: it grows faster than the text"
        before=$cost
    done
    printf '\n'
}

shapes=(path segments double_dots escapes escapes_apart beyond_ascii query fragment opaque_path opaque_host
    opaque_host_escapes port host labels bad_end bad_end_beyond_ascii bad_query_end bad_host_end bad_host)
for part in path host port query reference; do
    for unit in "${units[@]}"; do shapes+=("$part+$unit"); done
done

# line_counts SHAPE : the lengths of a line of that shape, up to 65,536 bytes
line_counts() {
    case $1 in
        *é | *beyond_ascii) echo 327 3270 32700 ;;
        wrong_*) echo 436 4360 43600 ;;
        *) echo 655 6550 65500 ;;
    esac
}

format='' unit=''
for what in check faults mend links; do
    if [ -n "$only" ] && [ "$only" != "$what" ]; then continue; fi
    for shape in "${shapes[@]}"; do
        case $what in
            # a reference is checked with its base, which the driver of checks doesn't take
            check) [ -n "$(base_of "$shape")" ] || grows check "$shape" "${counts[@]}" ;;
            faults | mend) grows "$what" "$shape" "${counts[@]}" ;;
            links)
                read -ra lengths <<<"$(line_counts "$shape")"
                grows links "$shape" "${lengths[@]}"
                ;;
        esac
    done
done
# each format by its own unit, and one by the others
if [ -z "$only" ] || [ "$only" = lint ]; then
    for format in gnu caret json github sarif checkstyle junit gitlab rdjson; do
        unit=code-points
        if [ $format = rdjson ]; then unit=bytes; fi
        for shape in wrong_path wrong_host; do
            read -ra lengths <<<"$(line_counts "$shape")"
            # (these carry the whole of the shortest line, and of the longer ones a window that is longer than that)
            case $format in json | sarif) lengths=("${lengths[@]:1}") ;; esac
            grows lint "$shape" "${lengths[@]}"
        done
    done
    format=gnu
    read -ra lengths <<<"$(line_counts wrong_path)"
    for unit in bytes utf16 screen; do grows lint wrong_path "${lengths[@]}"; done
    unit=''
fi
if [ -z "$only" ] || [ "$only" = written ]; then
    for format in gnu caret json github sarif checkstyle junit gitlab rdjson; do
        for shape in bad_host path+% 'path+[' 'query+['; do
            read -ra lengths <<<"$(line_counts "$shape")"
            grows written "$shape" "${lengths[@]}"
        done
    done
fi
exit $failed
