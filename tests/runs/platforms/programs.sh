# Sourced in the folder of tests/runs/library by what runs the library for C of another system, after tests/runs/start.sh. `part` is how
# its lines begin, `program` what it is compared with, `compiled NAME WORD..` compiles the C of that name, of the library that
# the words name, and `run NAME WORD..` runs it there.

# prepared : the cases, and the lines, that the programs are given
prepared() {
    python3 cases.py pack "$room/cases" "$top"/tests/vectors/*.json
    python3 ../lengths.py vectors "$room/lengths.json"
    python3 cases.py pack "$room/lengths" "$room/lengths.json"
    python3 lines.py "$top"/tests/vectors/*.json >"$room/lines"
}

# answers_by LIBRARY : each answer of `answers`, as it was compiled last, is the program's
answers_by() {
    run answers "$room/cases" >"$room/said"
    python3 cases.py compare "$program" "$room/said" "$top"/tests/vectors/*.json
    echo "$part: the answers by $1 on $(wc -l <"$room/said") cases"
}

# places_and_mended_texts : those that `answers` says
places_and_mended_texts() {
    run answers "$room/cases" places >"$room/said"
    python3 cases.py places "$room/said" "$top"/tests/vectors/*.json
    run answers "$room/lengths" places >"$room/said"
    python3 cases.py places "$room/said" "$room/lengths.json"
    run answers "$room/cases" mended >"$room/said"
    python3 cases.py mended "$program" "$room/said" "$top"/tests/vectors/*.json
}

# calls_and_reports : the calls for many texts and of reports, and each format, without colours and with the unit that it takes
# first
calls_and_reports() {
    local format unit name reports=0
    run batches "$room/lines"
    run calls
    run refusals
    for format in 0-gnu 1-caret 2-json 3-github 4-sarif 5-checkstyle 6-junit 7-gitlab 8-rdjson; do
        unit=0 name=code-points
        [ $format != 8-rdjson ] || unit=1 name=bytes
        "$program" lint --quiet --format "${format#*-}" --columns $name "$room/lines" >"$room/wanted" || [ $? = 1 ]
        run lint "$room/lines" "$room/lines" "${format%-*}" $unit 0 | cmp - "$room/wanted"
        reports=$((reports + 1))
    done
    echo "$part: $reports reports as \`lint\` writes them"
}
