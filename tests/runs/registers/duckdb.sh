# Sourced by tests/runs/registers.sh: the extension for DuckDB, from its shell. NEWER may name a folder in which Debian's
# packages duckdb and libduckdb-dev are laid out, with all that they need, for a Debian that has none of its own.
# shellcheck shell=bash disable=SC2154 # (the file that reads it sets its variables)

# in_duckdb EXTENSION : what DuckDB's shell answers to the statements on standard input, with the extension loaded
in_duckdb() {
    { echo "LOAD '$1';"; cat; } | duckdb -unsigned -batch :memory:
}

# in_its_shell EXTENSION : the answers in DuckDB's shell are those that are wanted, and so are the errors, each in its order
in_its_shell() {
    local tests=$top/bindings/engines/duckdb/test
    in_duckdb "$1" <"$tests/shell.sql" >"$room/found" 2>"$room/errors" || true
    diff "$tests/shell.out" "$room/found" || return 1
    sed -n 's/^\(Invalid Input\|Constraint\) Error: *//p' "$room/errors" | diff "$tests/errors.out" -
}

# on_cases EXTENSION CASES WANTED : the answers on the cases are those that are wanted
on_cases() {
    python3 "$top/tests/runs/registers/vectors.py" duckdb "$2" "$room/cases.csv" | in_duckdb "$1" >"$room/found" &&
        python3 "$top/tests/runs/registers/vectors.py" compare duckdb "$room/found" "$3" "$3_mended" "$2"
}

# of_newer TREE : DuckDB's shell and headers are in a folder, whose programs its own loader starts
of_newer() {
    mkdir "$room/headers" "$room/programs"
    cp "$1"/usr/include/duckdb*.h "$room/headers/"
    printf '#!/bin/sh\nexec "%s" --library-path "%s" "%s" "$@"\n' "$1/usr/lib64/ld-linux-x86-64.so.2" \
        "$1/usr/lib/x86_64-linux-gnu" "$1/usr/bin/duckdb" >"$room/programs/duckdb"
    chmod +x "$room/programs/duckdb"
    export CFLAGS="-O2 -g -I$room/headers" PATH=$room/programs:$PATH
}
if [ ! -f /usr/include/duckdb_extension.h ] && [ -n "${NEWER:-}" ]; then of_newer "$NEWER"; fi

if ! command -v duckdb >/dev/null; then
    left_out registers DuckDB 'duckdb and libduckdb-dev are not installed (Debian 12 has no such packages)'
else
    mkdir -p "$room/duckdb"
    quietly make -B -f "$top/bindings/engines/duckdb/Makefile" OUT="$room/duckdb" LIBRARY="$library" \
        RPATH="$library/lib" "$room/duckdb/urlcheck.duckdb_extension"
    extension=$room/duckdb/urlcheck.duckdb_extension
    in_its_shell "$extension" || fail 'duckdb: the answers in its shell'
    on_cases "$extension" "$cases" "$answers/wanted"
    # (of answers that no text has, by the library of told.c)
    printf '%s\n' "SELECT url_is_valid('77');" "SELECT url_is_valid('5');" "SELECT url_message('1 15');" |
        LD_PRELOAD=$told in_duckdb "$extension" >"$room/found" 2>&1 || true
    for said in 'the library for urlcheck answers 77' 'urlcheck: out of memory' 'it is not a valid URL string'; do
        grep -qF "$said" "$room/found" || fail "duckdb: what is said of odd answers: $(cat "$room/found")"
    done
    # (a base that is constant is checked once for a chunk of 2048 rows)
    { echo 'SET threads = 1;' && echo "SELECT count(url_resolve('a' || range, 'http://h/')) FROM range(10240);"; } |
        LD_PRELOAD="$counter $library/lib/liburlcheck.so" in_duckdb "$extension" >"$room/found" 2>&1
    grep -qx 'bases checked: 5' "$room/found" || fail "duckdb: a base is checked anew: $(cat "$room/found")"
    mkdir "$room/duckdb/links"
    duckdb -c "COPY (SELECT * FROM (VALUES ('http://h/'), ('http://h/ b')) v(url)) TO '$room/duckdb/links/1.parquet'" >"$room/said"
    python3 "$top/tests/runs/registers/page.py" bash database DuckDB >"$room/page"
    (cd "$room/duckdb" && bash -e "$room/page") >"$room/said" 2>&1 || fail "duckdb: the commands of the page: $(cat "$room/said")"
    grep -q 'U+0020 SPACE is not allowed in a URL' "$room/said" || fail "duckdb: the commands of the page: $(cat "$room/said")"
    while IFS='|' read -r file edit; do
        spoiled "$room/spoiled" "bindings/engines/$file" "$edit"
        spoiled_extension=$room/spoiled/bindings/engines/duckdb/urlcheck.duckdb_extension
        quietly make -C "$room/spoiled/bindings/engines/duckdb" LIBRARY="$library" RPATH="$library/lib" STRICT=
        if on_cases "$spoiled_extension" "$few" "$answers/few_wanted" >/dev/null 2>&1 &&
            in_its_shell "$spoiled_extension" >/dev/null; then fail "duckdb: a spoiled copy passes: $file: $edit"; fi
    done <<'EDITS'
common/names.h|s/{"standard", "wide", "parser"}/{"standard", "parser", "wide"}/
common/request.h|s/profile, base.bytes, base.length, out/profile, url.bytes, url.length, out/
duckdb/rows.c|s/(int64_t)place + 1/(int64_t)place/
duckdb/rows.c|s/request->base = (slice){NULL, 0}/request->base.bytes = NULL/
duckdb/rows.c|s/request->own.profile == profile \&\& //
duckdb/rows.c|s/is_same(request->base, base);/true;/
duckdb/texts.c|s/part_of(&answer.parts, (int)(question - PARTS))/part_of(\&answer.parts, 0)/
duckdb/nested.c|s/element.row++/element.row += 0/
duckdb/nested.c|s/entry->offset = \*first/entry->offset = 0/
duckdb/nested.c|s/duckdb_list_vector_set_size(out.column, \*first + count)/DuckDBSuccess/
EDITS
    echo "registers: DuckDB $(duckdb --version | cut -d ' ' -f 1): from its shell, spoiled copies fail"
fi
