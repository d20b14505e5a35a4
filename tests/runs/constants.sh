#!/usr/bin/env bash
# constants.sh [DIR]: fails when a definition is the code's own number or set, in the repository at DIR (else in this one).
#
# What a contract says of a number or a set is worth nothing where the definition takes both from the code: a wrong
# constant is then its own definition. So of the modules `TheConstants` of the repository's own crates a file under
# crates/NAME/specs may use only texts, whose words the runs of tests/runs/ compare. Proofs may use each constant: there it
# is shown to be what the definition says. It ends with 0 where no file uses another one, with 1 where one does, and with 2
# where it can't look.
set -u
root=${1:-$(cd "$(dirname "${BASH_SOURCE[0]}")/../.." && pwd)}

lacks() {
    echo "constants: $1" >&2
    exit 2
}

[ -r "$root/crates.txt" ] || lacks "no crates.txt in $root"
names=$(sed -n 's/^\([a-z][a-z0-9_]*\)\( staticlib\)\{0,1\}:.*/\1/p' "$root/crates.txt")
[ -n "$names" ] || lacks "$root/crates.txt names no crate"
files=()
while IFS= read -r -d '' file; do
    files+=("$file")
done < <(find "$root"/crates/*/specs -name '*.antt' -type f -print0 2>/dev/null | LC_ALL=C sort -z)
[ ${#files[@]} -gt 0 ] || lacks "no definitions in $root/crates/*/specs"

texts=$(grep -rhoE --include='*.rt' "const [A-Z0-9_]+: &('static )?str\b" "$root"/crates/*/src | sed 's/^const //; s/:.*//' | LC_ALL=C sort -u)
pattern="Rattle\.($(echo "$names" | paste -sd '|'))\.specs\.declared\.([A-Za-z0-9_]+\.)*TheConstants"
used=$(grep -nE "$pattern" "${files[@]}" /dev/null)
[ $? -le 1 ] || lacks "grep failed"
# (what is used otherwise than by names in braces isn't a text)
found=$(printf '%s\n' "$used" | awk -v texts="$texts" '
    BEGIN { count = split(texts, list, "\n"); for (at = 1; at <= count; at++) is_text[list[at]] = 1 }
    !/TheConstants/ { next }
    !/TheConstants\.\{[A-Z0-9_, ]*\}$/ { print; next }
    {
        used = $0
        sub(/.*TheConstants\.\{/, "", used)
        sub(/\}$/, "", used)
        count = split(used, list, ", *")
        for (at = 1; at <= count; at++) if (!(list[at] in is_text)) { print; next }
    }')
if [ -n "$found" ]; then
    echo "constants: a definition is the code's own number or set:" >&2
    printf '%s\n' "$found" | sed "s|^$root/||" >&2
    exit 1
fi
echo "constants: ${#files[@]} files of definitions use no number or set of the code"
