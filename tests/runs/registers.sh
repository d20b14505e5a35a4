#!/usr/bin/env bash
# Runs the checker inside PostgreSQL, SQLite, DuckDB, Python's columns and a cluster, and compares each with the program
# given as the first argument. What isn't installed is left out, and a line says so. LIBRARY may name a folder that
# tools/build-library wrote, and NEWER one with a newer Debian's DuckDB. A word after the program names the only part to run.
. "$(dirname "$(realpath "$0")")/start.sh"
needs registers cc gcc make objcopy python3
with_library
export PYTHONDONTWRITEBYTECODE=1 PYTHONPATH=$library/python
parts=(postgresql sqlite duckdb columns cluster)
[ $# = 1 ] || parts=("${@:2}")

# The cases of all vectors, each with what the library says of it in three profiles.
cases=$room/cases
python3 "$top/tests/runs/library/cases.py" pack "$cases" "$top"/tests/vectors/*.json
gcc -std=c99 -O2 -I "$library/include" "$top/tests/runs/library/answers.c" "$library/lib/liburlcheck.a" \
    -o "$room/answers"
"$room/answers" "$cases" >"$room/wanted"
"$room/answers" "$cases" mended >"$room/wanted_mended"

# What is preloaded, before the library, to count how often a base is checked.
counter=$room/prepares.so
gcc -std=gnu99 -Wall -Wextra -Werror -O2 -shared -fPIC -I "$library/include" "$top/tests/runs/registers/prepares.c" -o "$counter"

# What is preloaded for answers that no text has: its calls answer what their text says.
told=$room/told.so
gcc -std=c99 -Wall -Wextra -Werror -O2 -shared -fPIC -I "$library/include" "$top/tests/runs/languages/told.c" -o "$told"

# A few of the cases, for copies that are spoiled.
few=$room/few
python3 "$top/tests/runs/library/cases.py" pack "$few" "$top/tests/vectors/urls.json"
"$room/answers" "$few" >"$room/few_wanted"
"$room/answers" "$few" mended >"$room/few_wanted_mended"
answers=$room

# spoiled FOLDER FILE EDIT : a copy of the extensions for databases and for Python in the folder, with an edit by sed in
# a file of it
spoiled() {
    rm -rf "$1"
    mkdir -p "$1"
    (cd "$top" && cp -r --parents bindings/engines bindings/python/native VERSION "$1/")
    sed -i "$3" "$1/$2"
    ! cmp -s "$1/$2" "$top/$2" || fail "the edit $3 changes nothing in $2"
}

# The parts run side by side, each in a folder of its own, and are shown in their order.
running=()
for part in "${parts[@]}"; do
    mkdir "$room/$part"
    chmod 711 "$room"
    (
        room=$room/$part
        . "$top/tests/runs/registers/$part.sh"
    ) >"$room/$part.out" 2>&1 &
    running+=($!)
done
failed=0
for at in "${!parts[@]}"; do
    wait "${running[at]}" || { failed=1; echo "FAILED: registers: ${parts[at]}"; }
    cat "$room/${parts[at]}.out"
done
exit $failed
