#!/usr/bin/env bash
# Sees that each script of this repository can be read: shell by bash and shellcheck, Python by its parser, JavaScript by node; and
# that each file which begins with `#!` may be executed. Then runs those that build, with a toolchain that proves nothing. It needs
# no program. What isn't installed is left out, with a line.
set -euo pipefail
cd "$(dirname "$(realpath "$0")")/../.."
failed=0
room=$(mktemp -d)
trap 'rm -rf "$room"' EXIT

fail() {
    echo "FAILED: $*"
    failed=1
}

shells=() pythons=() javascripts=()
while IFS= read -r file; do
    first=$(head -n 1 "$file" | tr -d '\0')
    case $file in
        *.sh) shells+=("$file") ;;
        *.py) pythons+=("$file") ;;
        *.js | *.mjs) javascripts+=("$file") ;;
        *)
            case $first in
                '#!'*bash | '#!/bin/sh') shells+=("$file") ;;
                '#!'*python3) pythons+=("$file") ;;
            esac
            ;;
    esac
    # (the programs in bindings/python/commands are installed with another line in them, and can't be run there)
    case $first:$file in
        *:bindings/python/commands/*) ;;
        '#!'*) [ -x "$file" ] || fail "$file begins with #!, and may not be executed" ;;
    esac
done < <(find . \( -name out -o -name .git -o -path ./crates \) -prune -o -type f -printf '%P\n' | LC_ALL=C sort)
[ ${#shells[@]} -gt 50 ] && [ ${#pythons[@]} -gt 50 ] && [ ${#javascripts[@]} -gt 20 ] ||
    fail "there are ${#shells[@]} scripts for a shell, ${#pythons[@]} in Python and ${#javascripts[@]} in JavaScript alone"

for file in "${shells[@]}"; do bash -n "$file" || fail "bash can't read $file"; done
if command -v shellcheck >/dev/null; then
    shellcheck --severity=warning "${shells[@]}" || fail 'shellcheck finds what is above'
else
    echo "scripts: what shellcheck finds is left out, since it isn't installed"
fi
python3 - "${pythons[@]}" <<'END_OF_PYTHON' || fail "Python can't read what is above"
import ast, sys
for name in sys.argv[1:]:
    with open(name, encoding="utf-8") as file:
        ast.parse(file.read(), name)
END_OF_PYTHON
if command -v node >/dev/null; then
    for file in "${javascripts[@]}"; do node --check "$file" || fail "node can't read $file"; done
else
    echo "scripts: JavaScript is left out, since node isn't installed"
fi
python3 tests/runs/scripts/schedule.py >"$room/said" 2>&1 || { cat "$room/said"; fail 'what builds expect of a machine and of crates'; }
bash tests/runs/scripts/builds.sh || fail 'the builds'
python3 tests/runs/scripts/edits.py >"$room/said" 2>&1 || { cat "$room/said"; fail 'what wrong edits are and what is told of them'; }
echo "scripts: ${#shells[@]} for a shell, ${#pythons[@]} in Python and ${#javascripts[@]} in JavaScript"
exit $failed
