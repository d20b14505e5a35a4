#!/usr/bin/env bash
# Runs the library for C over every file of vectors, from C, C++ and Python, and compares with the program given as the
# first argument; then four threads, each allocation refused in turn, a million faults, and a text of 100 MB. What isn't
# installed is left out, and a line says so. LIBRARY may name a folder that tools/build-library wrote.
. "$(dirname "$(realpath "$0")")/start.sh"
cd "$top/tests/runs/library"
needs library gcc objcopy python3
with_library
include=$library/include
archive=$library/lib/liburlcheck.a
shared=$library/lib/liburlcheck.so
export PYTHONPATH=$library/python PYTHONDONTWRITEBYTECODE=1
strict=(-Wall -Wextra -Werror -O2 -g)
sanitized=(-fsanitize=address,undefined -fno-sanitize-recover=all)

# Only names of this library are visible, in the archive and in the shared object (where A is a symbol version).
for seen in "$(nm -g --defined-only "$archive")" "$(nm -D --defined-only "$shared")"; do
    if grep -E ' [B-Z] ' <<<"$seen" | grep -qv ' urlcheck_'; then echo "FAILED: another name is visible"; exit 1; fi
done

# The declarations are the header's.
"$top/tools/make-ffi-header" | cmp - "$top/bindings/c/include/urlcheck.ffi.h" ||
    { echo 'FAILED: urlcheck.ffi.h is old; tools/make-ffi-header >bindings/c/include/urlcheck.ffi.h makes it anew'; exit 1; }
cmp "$top/bindings/c/include/urlcheck.ffi.h" "$include/urlcheck.ffi.h"
sed 's/size_t place;/uint32_t place;/' "$include/urlcheck.h" >"$room/spoiled.h"
! "$top/tools/make-ffi-header" "$room/spoiled.h" | cmp -s - "$include/urlcheck.ffi.h" ||
    { echo 'FAILED: a spoiled header gives the same declarations'; exit 1; }

python3 cases.py pack "$room/cases" "$top"/tests/vectors/*.json
gcc -std=c99 "${strict[@]}" "${sanitized[@]}" -I "$include" answers.c "$archive" -o "$room/answers_c"
"$room/answers_c" "$room/cases" >"$room/c"
python3 cases.py compare "$program" "$room/c" "$top"/tests/vectors/*.json
"$room/answers_c" "$room/cases" places >"$room/places"
python3 cases.py places "$room/places" "$top"/tests/vectors/*.json
python3 ../lengths.py vectors "$room/lengths.json"
python3 cases.py pack "$room/lengths" "$room/lengths.json"
"$room/answers_c" "$room/lengths" places >"$room/places"
python3 cases.py places "$room/places" "$room/lengths.json"
"$room/answers_c" "$room/cases" mended >"$room/mended"
python3 cases.py mended "$program" "$room/mended" "$top"/tests/vectors/*.json
if python3 -m pip --version >/dev/null 2>&1; then
    quietly python3 -m pip install --no-deps --no-index --target "$room/site" "$library/python"
    PYTHONPATH=$room/site
else
    left_out library 'an installed package' "pip isn't installed"
fi
python3 answers.py "$room/cases" >"$room/python"
cmp "$room/c" "$room/python"
python3 answers.py "$room/cases" mended | cmp "$room/mended"
if command -v g++ >/dev/null; then
    g++ -std=c++11 "${strict[@]}" "${sanitized[@]}" -I "$include" answers.cpp "$archive" -o "$room/answers_cpp"
    "$room/answers_cpp" "$room/cases" >"$room/cpp"
    cmp "$room/c" "$room/cpp"
    echo 'library: C, C++ and Python give the same answers'
else
    left_out library C++ "g++ isn't installed"
fi

# The calls for many texts, and reports by the calls of the library, byte for byte as `lint` writes them.
python3 lines.py "$top"/tests/vectors/*.json >"$room/lines"
gcc -std=c99 -D_XOPEN_SOURCE=600 "${strict[@]}" "${sanitized[@]}" -I "$include" batches.c "$archive" -o "$room/batches"
"$room/batches" "$room/lines"
gcc -std=c99 "${strict[@]}" "${sanitized[@]}" -I "$include" lint.c "$archive" -o "$room/lint"
gcc -std=c99 "${strict[@]}" "${sanitized[@]}" -I "$include" calls.c "$archive" -o "$room/calls"
"$room/calls"
gcc -std=c99 "${strict[@]}" "${sanitized[@]}" -I "$include" refusals.c "$archive" -o "$room/refusals"
"$room/refusals"
formats=(gnu caret json github sarif checkstyle junit gitlab rdjson) units=(code-points bytes utf16 screen) reports=0
whens=(never always)
for format in "${!formats[@]}"; do
    for unit in "${!units[@]}"; do
        case ${formats[format]}-${units[unit]} in sarif-bytes | sarif-screen | rdjson-[!b]*) continue ;; esac
        for when in "${!whens[@]}"; do
            "$program" lint --quiet --format "${formats[format]}" --columns "${units[unit]}" --color "${whens[when]}" \
                "$room/lines" >"$room/wanted" || [ $? = 1 ]
            "$room/lint" "$room/lines" "$room/lines" "$format" "$unit" "$when" | cmp - "$room/wanted"
            reports=$((reports + 1))
        done
    done
done
echo "library: $reports reports as \`lint\` writes them, by the calls of the library"

# Reports on a document have colours where \`lint\` has them, also if its name looks like a part of a report.
name='a: error: b.html'
printf '<a href="%s">\n' 'http://h/a b' http://0x7f.1/ 'x:1:1: error: y [z]' https://https//h/ >"$room/$name"
for format in gnu caret; do
    (cd "$room" && python3 -m urlcheck.documents --quiet --list "$name" |
        "$program" lint --quiet --located --color always --format $format - >wanted) || [ $? = 1 ]
    (cd "$room" && python3 -m urlcheck.documents --quiet --color always --format $format "$name" || [ $? = 1 ]) |
        cmp - "$room/wanted"
done

# answering WANTED EXPORTS [COMMAND..] : of the two builds that one answers by these exports, where the command runs them
answering() {
    gcc -std=gnu11 "${strict[@]}" -I "$include" -I "$top/bindings/c" builds.c "$2" -no-pie \
        -Wl,--unresolved-symbols=ignore-all -o "$room/builds" || { echo "FAILED: $2 isn't compiled"; exit 1; }
    "${@:3}" "$room/builds" | cmp -s - <(echo "$1 $1 $1 $1")
}
# (what x86-64-v2 needs, as the kernel names it)
wanted=2
for flag in cx16 lahf_lm pni popcnt sse4_1 sse4_2 ssse3; do grep -qw "$flag" /proc/cpuinfo || wanted=1; done
exports=$top/bindings/c/library.c
answering $wanted "$exports" || { echo "FAILED: the build with the number $wanted doesn't answer"; exit 1; }
if command -v qemu-x86_64 >/dev/null; then
    answering 1 "$exports" qemu-x86_64 -cpu qemu64 || { echo 'FAILED: the plain build does not answer on an old processor'; exit 1; }
fi
for edit in 's/if (!is_x86_64_v2()) return;/if (is_x86_64_v2()) return;/' 's/(&is_newer, 1, /(\&is_newer, 0, /' \
    's/(&check_here, urlcheck_check_x86_64_v2,/(\&check_here, urlcheck_check_x86_64,/' 's/held_in(base), base != 0/held_in(base), 1/'; do
    sed "$edit" "$exports" >"$room/exports.c"
    ! cmp -s "$exports" "$room/exports.c" || { echo "FAILED: the edit $edit changes nothing"; exit 1; }
    ! answering $wanted "$room/exports.c" || [ $wanted = 1 ] || { echo "FAILED: a spoiled choice passes: $edit"; exit 1; }
done
echo "library: the build with the number $wanted answers here, and spoiled choices are found"

gcc -std=c99 -D_XOPEN_SOURCE=600 "${strict[@]}" -I "$include" threads.c "$archive" -lpthread -o "$room/threads"
"$room/threads"
gcc -std=c99 "${strict[@]}" -I "$include" memory.c "$archive" \
    -Wl,--wrap=malloc,--wrap=realloc,--wrap=free -o "$room/memory"
"$room/memory"

# The programs of docs/guides and of the README, as a reader copies them. The one in C ends with 1, since it refuses.
python3 programs.py "$top" "$room"
gcc -std=c99 "${strict[@]}" -I "$include" "$room/page.c" "$archive" -o "$room/page_c"
{ "$room/page_c" || [ $? = 1 ]; } | cmp - "$room/page.c.out"
python3 "$room/page.py" | cmp - "$room/page.py.out"
python3 "$room/report.py" | cmp - "$room/report.py.out"
for name in start wheel; do python3 "$room/$name.py" | cmp - <(sed -n 's/^print.*# //p' "$room/$name.py"); done

# The lines by which the guide on C builds a program, in a folder that has the program and the library.
mkdir "$room/build"
cp "$room/page.c" "$room/build/program.c"
ln -s "$library" "$room/build/library"
awk '/^```sh$/ { inside = 1; next } /^```$/ { inside = 0 } inside' "$top/docs/guides/c.md" \
    >"$room/build/lines"
[ "$(grep -c '^cc ' "$room/build/lines")" = 2 ] || { echo 'FAILED: docs/guides/c.md has no two lines with cc'; exit 1; }
if command -v pkg-config >/dev/null && command -v cc >/dev/null; then
    while IFS= read -r line; do
        cd "$room/build"
        rm -f program
        eval "$line"
        [[ $line != cc* ]] || { ./program || [ $? = 1 ]; } | cmp - "$room/page.c.out"
    done <"$room/build/lines"
    cd "$top/tests/runs/library"
else
    left_out library 'the lines that build a program' "pkg-config or cc isn't installed"
fi
for tests in documents sources comments projects standards words sentences choices fixing losses limits errors; do
    unittests python3 $tests.py
done
for python in python3 /usr/bin/python3; do
    [ -z "$(command -v "$python")" ] || "$python" forms.py || exit 1
done
python3 front.py 300 1 || exit 1
python3 schemas.py "$program" || exit 1
# If the system copies no process, as on Windows, documents are read by a Python that begins again.
WITHOUT_FORK=1 unittests python3 documents.py Documents.test_{html,xml,bases,messages}
# The attributes of made-up documents of HTML, as another reader of it has them.
if echo '#include <gumbo.h>' | gcc -E - >/dev/null 2>&1; then
    gcc -std=c99 "${strict[@]}" tokens.c -lgumbo -o "$room/tokens"
    python3 tokens.py "$room/tokens" 20000 1
else
    left_out library 'the tokens of HTML' "gumbo (libgumbo-dev) isn't installed"
fi
# What is said of a link in each format is what `lint` says of it where it is.
unittests python3 formats.py "$program"
python3 reports.py "$program" "$room/lines" standard parser
echo 'library: links in documents in each format, errors of the package'
PACKAGE=$library/python bash "$top/tests/runs/uses.sh" "$program" documents

# The links of this repository's own pages, by a Python that has the reader of Markdown. A spoiled page is found.
with_markdown=
for python in python3 /usr/bin/python3; do
    [ -n "$with_markdown" ] || ! "$python" -c 'import markdown_it' 2>/dev/null || with_markdown=$python
done
if [ -n "$with_markdown" ]; then
    pages=("$top"/*.md "$top"/{bindings,bindings/engines,tests}/*/README.md "$top/docs")
    "$with_markdown" -m urlcheck.documents "${pages[@]}" >"$room/own" 2>&1 ||
        { echo "FAILED: the links of the pages: $(cat "$room/own")"; exit 1; }
    sed 's/(docs\/COMMANDS.md)/(docs\/COM^MANDS.md)/' "$top/README.md" >"$room/spoiled.md"
    if "$with_markdown" -m urlcheck.documents "$room/spoiled.md" >"$room/own" 2>&1; then
        echo 'FAILED: a page with a wrong link passes'
        exit 1
    fi
    echo 'library: the links of the pages'
else
    left_out library 'the links of the pages' "markdown-it-py isn't installed"
fi
types=
for checker in 'python3 -m mypy' mypy; do
    [ -n "$types" ] || ! $checker --version >/dev/null 2>&1 || types=$checker
done
if [ -n "$types" ]; then
    # (markdown-it-py may be missing there)
    for system in linux win32; do
        $types --strict --ignore-missing-imports --platform $system --cache-dir "$room/mypy" -p urlcheck \
            >"$room/types" 2>&1 || { cat "$room/types"; exit 1; }
    done
else
    left_out library "the package's types" "mypy isn't installed"
fi
python3 -c 'import doctest, sys, urlcheck; sys.exit(doctest.testmod(urlcheck).failed)'
python3 - "$top/docs/rules/README.md" <<'END'
import sys, urlcheck
table = open(sys.argv[1], encoding="utf-8").read().replace("`", "")
missing = [rule for rule in urlcheck.RULES if "[{0}]({0}.md) | {1} |".format(rule, urlcheck.sentence(rule)) not in table]
sys.exit("FAILED: other sentences in docs/rules/README.md of {}".format(missing) if missing else 0)
END
echo 'library: the programs of the pages'
