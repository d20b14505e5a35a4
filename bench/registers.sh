#!/usr/bin/env bash
# What the checker costs inside PostgreSQL, SQLite, DuckDB and Python, compared with no check and with the pattern that people write,
# in processor time over the same made links, each the least of three rounds. What isn't installed is left out, with a line. It fails when a COPY with a check costs more above
# none than a fifth of what the pattern costs, or a call from Python takes longer than is wanted of it.
# Usage: bench/registers.sh [COUNT [SEED]]. LIBRARY may name a folder that tools/build-library wrote.
set -euo pipefail
top=$(dirname "$(dirname "$(realpath "$0")")")
count=${1:-1000000} seed=${2:-1}
whole=$(mktemp -d)
room=$whole/room
mkdir "$room"
trap 'rm -rf "$whole"' EXIT
library=${LIBRARY:-$room/library}
[ -n "${LIBRARY:-}" ] || "$top/tools/build-library" "$library" >&2
export PYTHONPATH=$library/python PYTHONDONTWRITEBYTECODE=1
failed=0
pattern='^https?://[^\s/$.?#].[^\s]*$'

fail() {
    echo "FAILED: $*"
    exit 1
}

quietly() {
    "$@" >"$room/said" 2>&1 || { cat "$room/said"; fail "$*"; }
}

. "$top/tests/runs/registers/server.sh"
python3 "$top/bench/links.py" "$count" "$seed" >"$room/links"

# copied TABLE : the seconds of processor time that a COPY of the valid links takes
copied() {
    "$tree$bin/psql" -X -q -d bench -c "TRUNCATE $1" -c 'SET client_min_messages = log' -c 'SET log_statement_stats = on' \
        -c "COPY $1 (url) FROM '$data/valid.copy'" 2>&1 | awk '/ s user, / { print $2; exit }'
}

# least TABLE : the least of three
least() {
    for _ in 1 2 3; do copied "$1"; done | sort -n | head -n 1
}

if has_server; then
    postgres_tree
    start_server
    sql -c 'CREATE DATABASE bench'
    # (links that each of the checks takes)
    python3 - "$room/links" "$pattern" >"$data/valid.copy" <<'PYTHON'
import re, sys
import urlcheck
pattern = re.compile(sys.argv[2])
lines = [line.rstrip("\n") for line in open(sys.argv[1], encoding="utf-8", newline="\n")]
for line, valid in zip(lines, urlcheck.is_valid_many(lines)):
    if valid and pattern.match(line):
        sys.stdout.buffer.write(line.replace("\\", "\\\\").encode() + b"\n")
PYTHON
    chmod a+r "$data/valid.copy"
    sql -d bench <<SQL
CREATE EXTENSION urlcheck;
CREATE UNLOGGED TABLE no_check (url text);
CREATE UNLOGGED TABLE valid (url text CHECK (url_is_valid(url)));
CREATE UNLOGGED TABLE required (url text CHECK (url_require(url)));
CREATE UNLOGGED TABLE domained (url valid_url);
CREATE UNLOGGED TABLE matched (url text CHECK (url ~ '$pattern'));
CREATE UNLOGGED TABLE resolved (url text CHECK (url_is_valid(url)), made text GENERATED ALWAYS AS (url_resolve(url)) STORED);
SQL
    rows=$(wc -l <"$data/valid.copy")
    none=$(least no_check)
    matched=$(least matched)
    echo "PostgreSQL: COPY of $rows links, seconds above no check ($none s)"
    for table in valid required domained matched resolved; do
        took=$matched
        [ $table = matched ] || took=$(least $table)
        awk -v name=$table -v none="$none" -v took="$took" -v matched="$matched" 'BEGIN {
            share = (took - none) / (matched - none)
            printf "  %-10s %6.3f s, %5.3f of the pattern%s\n", name, took - none, share, ""
            exit (name == "valid" || name == "required") && share > 0.2 * 1.05 }' || failed=1
    done
    as_user "$tree$bin/pg_ctl" -D "$data/base" -m immediate -w stop >/dev/null
    trap 'rm -rf "$whole"' EXIT
else
    echo 'PostgreSQL is not installed'
fi

# scanned EXPRESSION : the seconds of processor time that DuckDB takes to count it over the links, on one thread: the least of three
scanned() {
    local query="SELECT count($1) FROM link;"
    printf '%s\n' "LOAD '$room/urlcheck.duckdb_extension';" 'SET threads = 1;' \
        "CREATE TABLE link AS SELECT url FROM read_csv('$room/links', header = false, sep = '\x1f', quote = '', columns = {'url': 'TEXT'});" \
        '.timer on' "$query" "$query" "$query" |
        duckdb -unsigned -batch :memory: | sed -n 's/.* user \([0-9.]*\) sys \([0-9.]*\).*/\1 \2/p' |
        awk '{ print $1 + $2 }' | sort -n | head -n 1
}

if command -v duckdb >/dev/null && [ -f /usr/include/duckdb_extension.h ]; then
    quietly make -B -f "$top/bindings/engines/duckdb/Makefile" OUT="$room" LIBRARY="$library" RPATH="$library/lib" "$room/urlcheck.duckdb_extension"
    echo "DuckDB: scans of $count links in memory, on one thread"
    for expression in 'length(url)' 'url_is_valid(url)' "url_is_valid(url, 'http://h/')" 'url_host(url)' 'url_resolve(url)' \
        "CASE WHEN regexp_matches(url, '$pattern') THEN 1 END"; do
        awk -v name="$expression" -v took="$(scanned "$expression")" -v count="$count" \
            'BEGIN { printf "  %-60s %7.3f us a link\n", name, took / count * 1e6 }'
    done
else
    echo 'DuckDB is not installed'
fi
for python in python3 /usr/bin/python3; do
    "$python" -c 'import numpy, pandas' 2>/dev/null && break
done
quietly make -B -f "$top/bindings/engines/sqlite/Makefile" OUT="$room" LIBRARY="$library" RPATH="$library/lib" "$room/mod_urlcheck.so"
"$python" "$top/bench/registers.py" "$room/links" "$room/mod_urlcheck" "$pattern" || failed=1
exit $failed
