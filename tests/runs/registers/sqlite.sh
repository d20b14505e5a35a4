# Sourced by tests/runs/registers.sh: the loadable extension for SQLite, from its shell, from Python, and under
# valgrind.
# shellcheck shell=bash disable=SC2154 # (the file that reads it sets its variables)

# sqlite_python : a Python whose sqlite3 loads extensions
sqlite_python() {
    local python
    for python in python3 /usr/bin/python3; do
        if "$python" -c 'import sqlite3; sqlite3.connect(":memory:").enable_load_extension(True)' 2>/dev/null; then
            echo "$python"
            return
        fi
    done
}

# build_sqlite FOLDER WORD.. : builds the extension of a folder of sources, with more words for make
build_sqlite() {
    mkdir -p "$1"
    quietly make -B -f "$top/bindings/engines/sqlite/Makefile" OUT="$1" LIBRARY="$library" RPATH="$library/lib" "${@:2}" "$1/mod_urlcheck.so"
}

# in_shell MODULE [WORD..] : the answers in SQLite's shell, which the words start, are those that are wanted
in_shell() {
    "${@:2}" sqlite3 -init /dev/null -batch :memory: ".load $1" ".read $top/bindings/engines/sqlite/test/shell.sql" \
        >"$room/found" 2>&1 || true
    diff "$top/bindings/engines/sqlite/test/shell.out" "$room/found"
}

# from_python MODULE CASES WANTED : the answers on the cases, from Python, are those that are wanted
from_python() {
    "$python" "$top/tests/runs/registers/sqlite.py" answers "$1" "$2" >"$room/found" &&
        python3 "$top/tests/runs/registers/vectors.py" compare sqlite "$room/found" "$3" "$3_mended" "$2"
}

if [ ! -f /usr/include/sqlite3ext.h ] || ! command -v sqlite3 >/dev/null; then
    left_out registers SQLite 'sqlite3 and libsqlite3-dev are not installed'
else
    build_sqlite "$room/sqlite"
    module=$room/sqlite/mod_urlcheck
    in_shell "$module" || fail 'sqlite: the answers in its shell'
    if command -v valgrind >/dev/null; then
        in_shell "$module" valgrind -q --leak-check=full --show-leak-kinds=definite --log-file="$room/valgrind" ||
            fail 'sqlite: the answers under valgrind'
        [ ! -s "$room/valgrind" ] || fail "sqlite: valgrind: $(head -30 "$room/valgrind")"
        valgrind=', valgrind silent'
    else
        valgrind=
        left_out registers 'SQLite under valgrind' "valgrind isn't installed"
    fi
    # (a base that is constant, and one of each row)
    for base in "'http://h/':1" "'http://h' || n || '/':100"; do
        found=$(LD_PRELOAD="$counter $library/lib/liburlcheck.so" sqlite3 -init /dev/null -batch :memory: ".load $module" \
            "WITH RECURSIVE s(n) AS (SELECT 1 UNION ALL SELECT n + 1 FROM s WHERE n < 100)
            SELECT count(url_resolve('a' || n, ${base%:*})) FROM s" 2>&1 | LC_ALL=C sort)
        [ "$found" = $'100\nbases checked: '"${base##*:}" ] || fail "sqlite: a base is checked anew: $base: $found"
    done
    # (of answers that no text has, by the library of told.c)
    LD_PRELOAD=$told sqlite3 -init /dev/null -batch :memory: ".load $module" ".read $top/bindings/engines/sqlite/test/told.sql" \
        >"$room/found" 2>&1 || true
    diff "$top/bindings/engines/sqlite/test/told.out" "$room/found" || fail 'sqlite: what is said of odd answers'
    python3 "$top/tests/runs/registers/page.py" sql database SQLite >"$room/page"
    LD_LIBRARY_PATH=$room/sqlite quietly sqlite3 -init /dev/null -batch -bail :memory: ".read $room/page"
    python=$(sqlite_python)
    if [ -n "$python" ]; then
        quietly "$python" "$top/tests/runs/registers/sqlite.py" tests "$module"
        from_python "$module" "$cases" "$answers/wanted"
        while IFS='|' read -r file edit; do
            spoiled "$room/spoiled" "bindings/engines/$file" "$edit"
            quietly make -C "$room/spoiled/bindings/engines/sqlite" LIBRARY="$library" RPATH="$library/lib" STRICT=
            spoiled_module=$room/spoiled/bindings/engines/sqlite/mod_urlcheck
            if from_python "$spoiled_module" "$few" "$answers/few_wanted" >/dev/null 2>&1 && in_shell "$spoiled_module" >/dev/null &&
                "$python" "$top/tests/runs/registers/sqlite.py" tests "$spoiled_module" >/dev/null 2>&1; then
                fail "sqlite: a spoiled copy passes: $file: $edit"
            fi
        done <<'EDITS'
common/names.h|s/{"standard", "wide", "parser"}/{"standard", "parser", "wide"}/
common/request.h|s/profile, base.bytes, base.length, out/profile, url.bytes, url.length, out/
common/request.h|s/message_on(request->url, request->profile/message_on(request->url, URLCHECK_WIDE/
common/request.h|s/URLCHECK_WORDING_SQL/URLCHECK_WORDING_OPTIONS/
common/errors.h|s/answer.kind == URLCHECK_CHANGED/answer.kind != URLCHECK_CHANGED/
common/errors.h|s/!answer.offered/answer.offered/
sqlite/functions.c|s/found.place + 1); break/found.place); break/
sqlite/arguments.c|s/request->prepared = &request->own;/request->prepared = NULL;/
sqlite/arguments.c|s/held \&\& held->profile == request->profile/held/
sqlite/tables.c|s/held->rows = answer.count;/held->rows = answer.count \/ 2;/
sqlite/tables.c|s/if (answer.count <= room) break;/if (answer.count <= room + 1) break;/
sqlite/functions.c|s/(made.length <= MOST)/(made.length <= MOST + 1)/
sqlite/functions.c|s/"url_port", PARTS + 2/"url_port", PARTS + 1/
EDITS
        from='from its shell and from Python, spoiled copies fail'
    else
        from="from its shell; Python's sqlite3 loads no extensions here"
    fi
    echo "registers: SQLite $(sqlite3 --version | cut -d ' ' -f 1): $from$valgrind"
fi
