#!/usr/bin/env bash
# packaged.sh ROOT VERSION : the extensions that packages have put below ROOT work, and are of that version: in SQLite's shell,
# and in a server of PostgreSQL that is started here, where a table is made, dumped and restored. LD_LIBRARY_PATH names the
# folder of the shared library.
set -euo pipefail
root=$(realpath "$1") version=$2
top=$(realpath "$(dirname "$0")/../../..")
whole=$(mktemp -d)
room=$whole/room
mkdir "$room"
trap 'rm -rf "$whole"' EXIT

fail() {
    echo "FAILED: packaged: $*"
    exit 1
}

quietly() {
    "$@" >"$room/said" 2>&1 || { cat "$room/said"; fail "$*"; }
}

module=$(find "$root" -name mod_urlcheck.so)
found=$(sqlite3 -init /dev/null -batch :memory: ".load ${module%.so}" \
    "SELECT url_resolve('HTTP://H/a/../b'), url_rule('http://h/a b'), urlcheck_version()")
[ "$found" = "http://h/b|code-point|$version" ] || fail "SQLite says: $found"

. "$top/tests/runs/registers/server.sh"
has_server || fail 'PostgreSQL is not installed'

# add_extension : the files of the package, in the server's copy
add_extension() {
    cp "$root$lib/urlcheck.so" "$tree$lib/"
    cp "$root$share"/extension/urlcheck* "$tree$share/extension/"
}

postgres_tree
start_server
sql -c 'CREATE DATABASE made'
sql -d made <<'SQL'
CREATE EXTENSION urlcheck;
CREATE TABLE register (
    written text CHECK (url_require(written)), url text GENERATED ALWAYS AS (url_resolve(written)) STORED UNIQUE);
INSERT INTO register (written) VALUES ('HTTP://H/a/../b');
SQL
"$tree$bin/pg_dump" made >"$room/dump"
sql -c 'CREATE DATABASE restored TEMPLATE template0'
quietly sql -d restored -f "$room/dump"
found=$(sql -d restored -c "SELECT url, urlcheck_version(), extversion FROM register, pg_extension WHERE extname = 'urlcheck'")
[ "$found" = "http://h/b|$version|$version" ] || fail "PostgreSQL says: $found"
found=$(sql -d restored -c "INSERT INTO register (written) VALUES ('http://h/a b')" 2>&1) && fail 'a wrong url is stored'
grep -q 'invalid URL: U+0020 SPACE is not allowed in a URL' <<<"$found" || fail "PostgreSQL says: $found"
as_user "$tree$bin/pg_ctl" -D "$data/base" -m immediate -w stop >/dev/null
trap 'rm -rf "$whole"' EXIT
echo "packaged: the extensions in SQLite $(sqlite3 --version | cut -d ' ' -f 1) and $($pg_config --version)"
