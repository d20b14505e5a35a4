# Sourced by tests/runs/registers.sh: the extension for PostgreSQL, in a private server.
# shellcheck shell=bash disable=SC2154 # (the file that reads it sets its variables)

. "$top/tests/runs/registers/server.sh"

# says STATEMENT ANSWER [DATABASE] : the answer to a statement, errors too
says() {
    local found
    found=$("$tree$bin/psql" -X -q -A -t -v VERBOSITY=verbose -d "${3:-postgres}" -c "$1" 2>&1) || true
    grep -qF -- "$2" <<<"$found" || fail "postgresql: $1: $found"
}

regress() {
    local tests=$room/extension/bindings/engines/postgresql names
    read -ra names <<<"$(sed -n 's/^REGRESS = //p' "$tests/Makefile")"
    mkdir "$home/out"
    [ "$(id -u)" != 0 ] || chown nobody "$home/out"
    as_user "$($pg_config --pgxs | sed 's|/makefiles/.*||')/test/regress/pg_regress" --inputdir="$tests" --outputdir="$home/out" \
        --bindir="$tree$bin" --host="$data" --user=owner --dbname=regress --encoding=UTF8 --no-locale \
        "${names[@]}" >"$room/said" 2>&1 ||
        { cat "$room/said" "$home/out/regression.diffs"; fail 'postgresql: pg_regress'; }
    # (as servers before 16 and later ones say it)
    ran=$(grep -cE '^(test .* ok |ok [0-9]+ +- )' "$room/said" || true)
    [ "$ran" = ${#names[@]} ] || fail "postgresql: $ran tests by pg_regress"
}

# Every vector in three profiles, by one query over a table of the cases.
vectors() {
    python3 "$top/tests/runs/registers/vectors.py" statements "$1" >"$room/cases.sql"
    sql -d regress -f "$room/cases.sql" >"$room/found" 2>"$room/said" || { tail -5 "$room/said"; return 1; }
    python3 "$top/tests/runs/registers/vectors.py" compare postgresql "$room/found" "$2" "$2_mended" "$1"
}

# Copies of the extension that are spoiled: each says something else of a few cases.
spoils() {
    local edit file
    while IFS='|' read -r file edit; do
        spoiled "$room/spoiled" "bindings/engines/$file" "$edit"
        make_extension "$room/spoiled" STRICT=
        cp --remove-destination "$room/spoiled/bindings/engines/postgresql/urlcheck.so" "$tree$lib/"
        if vectors "$few" "$answers/few_wanted" >/dev/null; then fail "postgresql: a spoiled copy passes: $file: $edit"; fi
    done <<'EDITS'
common/names.h|s/{"standard", "wide", "parser"}/{"standard", "parser", "wide"}/
common/request.h|s/profile, base.bytes, base.length, out/profile, url.bytes, url.length, out/
common/request.h|s/request->prepared, out/NULL, out/
postgresql/arguments.h|s/(int32)place + 1/(int32)place/
postgresql/arguments.c|s/kept->base.profile == profile/true/
postgresql/verdicts.c|s/part(fcinfo, 4)/part(fcinfo, 5)/
postgresql/verdicts.c|s/sql_place(found.place)));/sql_place(found.byte_place)));/
postgresql/texts.c|s/calls->max_calls) SRF/calls->max_calls - 1) SRF/
EDITS
}

# A dump of tables with constraints, domains and columns that are made is restored, with nothing else.
dumped() {
    "$tree$bin/pg_dump" regress >"$room/dump"
    sql -c 'CREATE DATABASE restored TEMPLATE template0'
    # (the extension is at the version that the test took it to, which is named nowhere in a dump)
    sql -d restored -f "$room/dump" >/dev/null 2>"$room/said" || { cat "$room/said"; fail 'postgresql: a dump is restored'; }
    [ "$(sql -d regress -c 'SELECT * FROM register ORDER BY url; SELECT count(*) FROM many')" = \
        "$(sql -d restored -c 'SELECT * FROM register ORDER BY url; SELECT count(*) FROM many')" ] ||
        fail 'postgresql: a restored table'
    says "INSERT INTO register (written) VALUES ('http://h:80/./b')" 'duplicate key' restored
    says "INSERT INTO link (url) VALUES ('x')" 'invalid URL' restored
}

# The statements of the page, in their order: the errors are those that its comments tell.
page() {
    sql -c 'CREATE DATABASE page'
    local guide=$top/tests/runs/registers/page.py
    python3 "$guide" sql database PostgreSQL | "$tree$bin/psql" -X -q -d page >"$room/page" 2>&1 || true
    grep -E '^(ERROR|DETAIL|HINT): ' "$room/page" | diff <(python3 "$guide" errors database PostgreSQL) - ||
        fail 'postgresql: the statements of docs/guides/database.md'
    says 'SELECT url, made_by = urlcheck_version() FROM register' 'http://h/b|t' page
}

# made_in DATABASE : what the extension has in a database
made_in() {
    sql -d "$1" -c "SELECT coalesce(pg_get_functiondef(p.oid), pg_describe_object(classid, objid, 0)) FROM pg_depend d
        JOIN pg_extension e ON d.refobjid = e.oid AND deptype = 'e' AND extname = 'urlcheck'
        LEFT JOIN pg_proc p ON p.oid = objid AND classid = 'pg_proc'::regclass ORDER BY 1"
}

# Each version that had the extension is taken to this one, where it then has the same, and this one to the next as a
# server finds it: by a new default.
updated() {
    local version released
    version=$(cat "$top/VERSION")
    while IFS= read -r released; do
        # (0.3.0 is the first one)
        if [ "$released" = "$version" ] || ! printf '%s\n' 0.3.0 "$released" | sort -CV; then continue; fi
        says "SELECT 'taken' FROM pg_extension_update_paths('urlcheck')
            WHERE source = '$released' AND target = '$version' AND path IS NOT NULL" taken
        sql -c 'CREATE DATABASE released'
        sql -d released -c "CREATE EXTENSION urlcheck VERSION '$released'" -c 'ALTER EXTENSION urlcheck UPDATE'
        diff <(made_in page) <(made_in released) || fail "postgresql: an update from $released gives something else"
        sql -c 'DROP DATABASE released'
    done < <(sed -n 's/^## \([0-9.]*\) - .*/\1/p' "$top/CHANGELOG.md")
    sql -c 'CREATE DATABASE older'
    sql -d older -c 'CREATE EXTENSION urlcheck' \
        -c 'CREATE TABLE link (url valid_url, made text GENERATED ALWAYS AS (url_resolve(url)) STORED)' \
        -c "INSERT INTO link VALUES ('HTTP://h')"
    says "SELECT extversion FROM pg_extension WHERE extname = 'urlcheck'" "$version" older
    sed -i "s/^default_version = .*/default_version = 'next'/" "$tree$share/extension/urlcheck.control"
    sql -d older -c 'ALTER EXTENSION urlcheck UPDATE'
    sed -i "s/^default_version = .*/default_version = '$version'/" "$tree$share/extension/urlcheck.control"
    says "SELECT extversion, url_is_next(), made FROM pg_extension, link WHERE extname = 'urlcheck'" 'next|t|http://h/' older
    says "INSERT INTO link VALUES ('a')" 'invalid URL' older
}

encodings() {
    sql -c "CREATE DATABASE latin1 ENCODING LATIN1 LOCALE 'C' TEMPLATE template0" \
        -c "CREATE DATABASE win1252 ENCODING WIN1252 LOCALE 'C' TEMPLATE template0" \
        -c "CREATE DATABASE bytes ENCODING SQL_ASCII LOCALE 'C' TEMPLATE template0"
    local name
    for name in latin1 win1252 bytes; do sql -d $name -c 'CREATE EXTENSION urlcheck'; done
    # (of this one no server knows UTF-8)
    sql -c "CREATE DATABASE mule ENCODING MULE_INTERNAL LOCALE 'C' TEMPLATE template0"
    PGCLIENTENCODING=MULE_INTERNAL sql -d mule -c 'CREATE EXTENSION urlcheck'
    PGCLIENTENCODING=MULE_INTERNAL says "SELECT url_is_valid('http://h/' || convert_from('\x81e9', 'MULE_INTERNAL'))" \
        'ERROR:  42883: no default conversion to UTF8 exists for the encoding "MULE_INTERNAL"' mule
    says "SELECT url_is_valid('http://münchen.de/ü'), url_resolve('http://münchen.de/ü')" \
        't|http://xn--mnchen-3ya.de/%C3%BC' latin1
    says "SELECT url_host('http://münchen.de/ü'), url_place('http://münchen.de/ü b')" 'münchen.de|20' latin1
    says "SELECT encode(convert_to(url_path('http://h/ü'), 'LATIN1'), 'hex'), encode(url_mend('http://h/ü b')::bytea, 'hex')" \
        '2ffc|687474703a2f2f682ffc25323062' latin1
    # what has no form in UTF-8 ends the text that is checked
    says "SELECT url_rule(convert_from('\x687474703a2f2f682f61'::bytea || '\x81'::bytea, 'SQL_ASCII'))" '' win1252
    if [ "$(sql -c 'SHOW server_version_num')" -ge 140000 ]; then
        says "SELECT url_rule('http://h/ü' || chr(129)), url_place('http://h/ü' || chr(129))" 'no-utf8|11' win1252
    else
        # (a server before 14 converts a whole text or none)
        says "SELECT url_rule('http://h/ü' || chr(129))" 'has no equivalent in encoding "UTF8"' win1252
    fi
    says "SELECT url_is_valid('http://h/' || chr(255)), url_rule('http://h/ü' || chr(255)), url_place('http://h/ü' || chr(255))" \
        'f|no-utf8|11' bytes
    says "SELECT rule, place FROM url_faults('http://h/' || chr(255))" 'no-utf8|10' bytes
    says "SELECT url_require('http://h/' || chr(255))" 'Rule no-utf8 at place 10' bytes
    says "SELECT url_is_valid('http://münchen.de/')" t bytes
    says "SELECT url_is_valid('x', 'http://h/' || chr(255))" 'invalid base URL: the bytes from here on are not UTF-8' bytes
}

# A limit of time ends scans and long lists, and the server answers after it.
interrupted() {
    says "SET statement_timeout = 300; SELECT count(*) FROM generate_series(1, 1000000000) n WHERE url_is_valid('http://h/' || n)" \
        'canceling statement due to statement timeout' regress
    says "SET statement_timeout = 300; SELECT count(*) FROM (SELECT url_faults('http://h/' || repeat(' ', 20000000))) x" \
        'canceling statement due to statement timeout' regress
    says "SELECT url_is_valid('http://h/')" t regress
}

# The memory of a backend before and after 5 million calls of each kind, in kB.
flat() {
    local found counts before
    found=$(sql -d regress <<'SQL'
SET max_parallel_workers_per_gather = 0;
CREATE TEMP VIEW taken AS SELECT (regexp_match(pg_read_file('/proc/self/status'), 'RssAnon:\s+(\d+)'))[1]::integer AS kb;
CREATE TEMP VIEW calls AS SELECT count(url_is_valid(url)) AS a, count(url_is_valid('/' || id, url)) AS b,
    count(url_resolve(url)) AS c, count((url_check(url)).host) AS d, count(url_mend(url || ' ')) AS e,
    sum((SELECT count(*) FROM url_faults(url || ' '))) AS f, count(url_message(url || ' ')) AS g FROM many WHERE id > 0;
SELECT * FROM calls;
SELECT kb FROM taken;
SELECT * FROM calls \g /dev/null
SELECT * FROM calls \g /dev/null
SELECT * FROM calls \g /dev/null
SELECT * FROM calls \g /dev/null
SELECT * FROM calls \g /dev/null
SELECT kb FROM taken;
SQL
    )
    # (a plan that leaves out what isn't asked for would make no call)
    read -r counts before after <<<"$(xargs <<<"$found")"
    [ "$counts" = '200000|200000|200000|200000|200000|200000|200000' ] || fail "postgresql: other calls were made: $counts"
    [ "$after" -lt $((before + 1024)) ] || fail "postgresql: a backend grew from $before to $after kB"
}

# prepares QUERY COUNT : how often a query of one session has a base checked
prepares() {
    local before found
    before=$(grep -c 'bases checked' "$data/log" || true)
    sql -d regress -c 'SET max_parallel_workers_per_gather = 0' -c "$1" >/dev/null
    # (a session writes into the log as it ends, which a busy machine may put off)
    for _ in {1..600}; do
        found=$({ grep 'bases checked' "$data/log" || true; } | tail -n +$((before + 1)))
        [ -z "$found" ] || break
        sleep 0.1
    done
    [ "$found" = "bases checked: $2" ] || fail "postgresql: a base is checked anew: $1: $found"
}

# A base that stays is checked once for all rows, and one that changes for each.
bases() {
    prepares "SELECT count(url_is_valid(url, 'http://h/')) FROM many" 1
    prepares "SELECT count(url_resolve('a', url)) FROM many WHERE id BETWEEN 1 AND 200" 200
}

# What is said of answers that no text has: the server begins again, with the library of told.c before its own.
odd_answers() {
    cp "$told" "$room/told.so"
    LD_PRELOAD=$room/told.so quietly as_user "$tree$bin/pg_ctl" -D "$data/base" -l "$data/log" -w -t 60 restart
    says "SELECT url_is_valid('77')" 'ERROR:  XX000: unexpected verdict of urlcheck: 77' regress
    says "SELECT url_is_valid('5')" 'ERROR:  53200: out of memory' regress
    says "SELECT url_is_valid('5 0 ')" 'DETAIL:  Failed while checking a URL of 4 bytes.' regress
    says "SELECT url_message('1 15')" 'it is not a valid URL string' regress
    LD_PRELOAD=$preloaded quietly as_user "$tree$bin/pg_ctl" -D "$data/base" -l "$data/log" -w -t 60 restart
}

if ! has_server; then
    left_out registers PostgreSQL 'postgresql and postgresql-server-dev-all are not installed'
else
    postgres_tree
    cp "$counter" "$room/prepares.so"
    preloaded="$room/prepares.so $room/server/liburlcheck.so.0.5"
    start_server
    regress
    vectors "$cases" "$answers/wanted" || fail 'postgresql: vectors'
    dumped
    page
    updated
    encodings
    interrupted
    flat
    bases
    odd_answers
    spoils
    echo "registers: $($pg_config --version): $ran tests by pg_regress, a dump, an update, 3 encodings, limits, 7 million calls in $after kB, spoiled copies fail"
    as_user "$tree$bin/pg_ctl" -D "$data/base" -m immediate -w stop >/dev/null
    unset PGHOST PGUSER PGDATABASE
fi
