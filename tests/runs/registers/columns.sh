# Sourced by tests/runs/registers.sh: Python's extension module over lists and columns, by each Python that is here, and
# under sanitizers.
# shellcheck shell=bash disable=SC2154 # (the file that reads it sets its variables)

# described PYTHON : its version and which of numpy, pandas and pyarrow it has; nothing of one before 3.8
described() {
    "$1" - 2>/dev/null <<'PYTHON'
import importlib.util, sys
words = [name for name in ("numpy", "pandas", "pyarrow") if importlib.util.find_spec(name)]
if sys.version_info >= (3, 8):
    print("{}.{} ({})".format(*sys.version_info[:2], ", ".join(words) or "lists and Arrow alone"))
PYTHON
}

# column_pythons : the Pythons that are here, of those that are alike the first
column_pythons() {
    local python is
    declare -A seen=()
    for python in python3 /usr/bin/python3 python3.{8..14} "${PYENV_ROOT:-${HOME:-}/.pyenv}"/versions/*/bin/python3; do
        is=$(described "$python" || true)
        if [ -n "$is" ] && [ -z "${seen[$is]:-}" ]; then
            seen[$is]=$python
            echo "$python"
        fi
    done
}

if [ ! -d "$library/python" ]; then
    left_out registers 'the columns of Python' "Python.h isn't installed"
else
    ran=()
    while IFS= read -r python; do
        quietly "$python" "$top/tests/runs/registers/columns.py" "$cases"
        quietly "$python" "$top/tests/runs/registers/page.py" python python
        ran+=("$(described "$python")")
    done < <(column_pythons)
    [ ${#ran[@]} -gt 0 ] || fail 'columns: no Python was found'
    sanitizer=$(gcc -print-file-name=libasan.so)
    if [ -f "$sanitizer" ] && headers=$(. "$top/tools/builds.sh" && python_headers); then
        mkdir -p "$room/sanitized" "$room/native"
        cp -R "$library/python/urlcheck" "$room/sanitized/"
        cp "$top"/bindings/python/native/*.[ch] "$library/include/urlcheck.h" "$room/native/"
        (. "$top/tools/builds.sh" && CC=gcc CFLAGS='-g -fsanitize=address,undefined -fno-sanitize-recover=all' \
            build_native "$headers" "$room/native" "$library/lib/liburlcheck.a" "$room/sanitized/urlcheck/_native.abi3.so")
        sanitized=(env PYTHONPATH="$room/sanitized" PYTHONMALLOC=malloc LD_PRELOAD="$sanitizer" ASAN_OPTIONS=detect_leaks=0)
        quietly "${sanitized[@]}" python3 "$top/tests/runs/registers/columns.py" "$cases"
        (cd "$top/tests/runs/library" && "${sanitized[@]}" python3 answers.py "$cases") | cmp - "$answers/wanted" ||
            fail 'columns: the answers under sanitizers'
        (cd "$top/tests/runs/library" && "${sanitized[@]}" python3 answers.py "$cases" mended) | cmp - "$answers/wanted_mended" ||
            fail 'columns: the mended texts under sanitizers'
        quietly "${sanitized[@]}" python3 "$top/tests/runs/library/errors.py"
        ran+=('sanitizers')
        while IFS='|' read -r file edit; do
            spoiled "$room/spoiled" "bindings/python/native/$file" "$edit"
            cp "$library/include/urlcheck.h" "$room/spoiled/bindings/python/native/"
            (. "$top/tools/builds.sh" && build_native "$headers" "$room/spoiled/bindings/python/native" "$library/lib/liburlcheck.a" \
                "$room/sanitized/urlcheck/_native.abi3.so")
            if PYTHONPATH=$room/sanitized python3 "$top/tests/runs/registers/columns.py" "$few" >/dev/null 2>&1; then
                fail "columns: a spoiled copy passes: $file: $edit"
            fi
        done <<'EDITS'
single.c|s/state->no_arguments, NULL) : NULL/state->no_arguments, NULL) : NULL; Py_XINCREF(fields)/
many.c|s/return texts->present \&\& !(.*);/(void)bit; return 0;/
many.c|s/memset(piece->present, 0, sizeof piece->present);//
many.c|s/if (from < 0 || to < from .*/(void)no_offsets;/
many.c|s/request->base, out.verdicts/NULL, out.verdicts/
arrow.c|s/texts.first = (size_t)array->offset;/texts.first = 0;/
arrow.c|s/wide\[at\] = offsets\[at\]/wide[at] = (int16_t)offsets[at]/
arrow.c|s/\&\& !texts->data//
arrow.c|s/array->null_count == 0/array->null_count <= 0/
many.c|s/return batch.row;/return 0;/
EDITS
        ran+=('spoiled copies fail')
    else
        left_out registers 'sanitizers' "gcc's aren't installed"
    fi
    echo "registers: columns by Python $(printf '%s; ' "${ran[@]}" | sed 's/; $//')"
fi
