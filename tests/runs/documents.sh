#!/usr/bin/env bash
# What urlcheck-documents finds and writes, held against parsers of others, over pages and templates of Debian's packages, and
# commands as people give them, each with its right end. What isn't installed is left out, and a line says so. LIBRARY may name a
# folder that tools/build-library wrote. The first argument is the program, and further ones choose among the parts.
. "$(dirname "$(realpath "$0")")/start.sh"
cd "$top/tests/runs/documents"
needs documents python3 bash
parts=" ${*:2} "
chmod 755 "$room" # (some runs are of another user, who reads here)
with_library
export PYTHONPATH=$library/python PYTHONDONTWRITEBYTECODE=1 PROGRAM=$program TMPDIR=$room
failed=0
python=python3
for it in python3 /usr/bin/python3; do
    if "$it" -c 'import markdown_it, docutils, tinycss2, lxml' 2>/dev/null; then python=$it && break; fi
done
# (without the package each run would fail only for that)
quietly "$python" -m urlcheck.documents --version
for module in markdown_it docutils tinycss2 lxml html5lib yaml; do
    "$python" -c "import $module" 2>/dev/null || left_out documents "what needs $module" "it isn't installed"
done

# is_asked_for FILE : whether a part is tried
is_asked_for() {
    [[ $parts =~ ^\ *$ || $parts == *" ${1%.py} "* ]]
}

# tried FILE WORD.. : runs a file in Python
tried() {
    is_asked_for "$1" || return 0
    "$python" "$@" || failed=1
}

# tested FILE : the tests of a file, whose count is said
tested() {
    is_asked_for "$1" || return 0
    (unittests "$python" "$1") || { failed=1; return; }
    echo "documents: $1: $(sed -n 's/^Ran \([0-9]* tests\) .*/\1/p' "$room/said")$(sed -n 's/^OK \((skipped=.*)\)$/ \1/p' "$room/said")"
}

tried cases.py
tried planted.py 900
tried pages.py 500
tried engines.py 400
tried growth.py
tested guards.py
tested hurt.py
if "$python" -c 'import pylsp_jsonrpc' 2>/dev/null; then
    tested editors.py
else
    left_out documents 'the server for editors' "python-lsp-jsonrpc isn't installed"
fi
tried spoils.py
exit $failed
