#!/usr/bin/env bash
# Draws a bar plot of what bench/verdicts.sh gave by instructions: a bar for this checker and one for Ada for each kind of
# bench/kinds. Ada's bars have one length, and the figures are instructions per text. The outputs are stored in
# bench/verdicts/KIND.txt, as the script printed them.
#   bench/plot.sh                     draws docs/speed.svg from the stored outputs, on standard output
#   bench/plot.sh --measure [FOLDER]  makes the outputs again first, with Ada in FOLDER, otherwise compared with what Ada took when it
#                                     was measured (bench/verdicts/ada.stored); it takes some minutes
# It fails when an output is missing, lacks a figure, or says that something failed.
set -euo pipefail
top=$(dirname "$(dirname "$(realpath "$0")")")
stored=$top/bench/verdicts

if [ "${1:-}" = --measure ]; then
    [ $# = 1 ] || [ -e "$2" ] || { echo 'usage: bench/plot.sh --measure [FOLDER]' >&2; exit 2; }
    words=(--by instructions --kind all --store "$stored")
    [ $# = 1 ] || words+=(--ada "$2")
    bash "$top/bench/verdicts.sh" "${words[@]}" >&2
    shift $#
fi
[ $# = 0 ] || { echo 'usage: bench/plot.sh [--measure [FOLDER]]' >&2; exit 2; }

grep -v '^#' "$top/bench/kinds" | while read -r kind _ call _ _ _ _ name; do
    [ -s "$stored/$kind.txt" ] || { echo "bench/plot.sh: bench/verdicts/$kind.txt is missing" >&2; exit 1; }
    ! grep '^FAILED' "$stored/$kind.txt" >&2 || { echo "bench/plot.sh: bench/verdicts/$kind.txt failed" >&2; exit 1; }
    awk -v name="$name" -v call="$call:" '
        $1 == call || $1 == "ada:" { cost[$1] = $2 }
        END {
            if (!(cost[call] > 0 && cost["ada:"] > 0)) {
                print "bench/plot.sh: no figures of: " name >"/dev/stderr"
                exit 1
            }
            printf "%s\t%s\t%s\n", name, cost[call], cost["ada:"]
        }' "$stored/$kind.txt"
done | awk -F '\t' '
    # bar(Y, LENGTH, COST, CLASS) : a bar of this length, with the cost after it
    function bar(y, length_, cost, class) {
        printf "  <rect x=\"%d\" y=\"%d\" width=\"%.1f\" height=\"11\" class=\"%s\"/>\n", left, y, length_, class
        printf "  <text x=\"%.1f\" y=\"%d\" font-size=\"11\">%.0f</text>\n", left + length_ + 6, y + 10, cost
    }
    # key(Y, CLASS, NAME) : what a colour stands for
    function key(y, class, name) {
        printf "  <rect x=\"%d\" y=\"%d\" width=\"13\" height=\"13\" class=\"%s\"/>\n", left, y, class
        printf "  <text x=\"%d\" y=\"%d\" font-size=\"13\">%s</text>\n", left + 19, y + 11, name
    }
    # colours(INK, GROUND, EDGE, OURS, OTHER) : the rules of a style for these colours
    function colours(ink, ground, edge, ours, other) {
        return sprintf("text { fill: %s } .ground { fill: %s; stroke: %s } .ours { fill: %s } .other { fill: %s }", \
            ink, ground, edge, ours, other)
    }
    BEGIN { most = 1 }
    { name[NR] = $1; ours[NR] = $2; ada[NR] = $3; if ($2 / $3 > most) most = $2 / $3 }
    END {
        left = 14; width = 440; top = 66; row = 46; scale = (width - left - 60) / most; height = top + row * NR
        printf "<svg xmlns=\"http://www.w3.org/2000/svg\" viewBox=\"0 0 %d %d\"", width, height
        printf " width=\"%d\" height=\"%d\" role=\"img\"", width, height
        print " font-family=\"DejaVu Sans, Verdana, sans-serif\">"
        print "  <title>Instructions for one text: this checker, and the parser Ada</title>"
        print "  <style>" colours("#111827", "#ffffff", "#d1d5db", "#2f855a", "#9ca3af")
        print "    @media (prefers-color-scheme: dark) { " \
            colours("#e5e7eb", "#1f2430", "#4b5563", "#48bb78", "#6b7280") " }</style>"
        printf "  <rect x=\"1\" y=\"1\" width=\"%d\" height=\"%d\" rx=\"10\" class=\"ground\"/>\n", width - 2, height - 2
        key(12, "ours", "urlcheck: is it valid? (instructions a text)")
        key(32, "other", "Ada, can_parse: does it parse?")
        for (n = 1; n <= NR; n++) {
            y = top + row * (n - 1)
            printf "  <text x=\"%d\" y=\"%d\" font-size=\"13\">%s</text>\n", left, y + 8, name[n]
            bar(y + 13, scale * ours[n] / ada[n], ours[n], "ours")
            bar(y + 25, scale, ada[n], "other")
        }
        print "</svg>"
    }'
