# What the program for Windows does with names, patterns, units of UTF-16 and ends of lines. `units` next to the program hands
# it any units (see units.c).

wrong='1:1: error: there is no scheme and no base [no-scheme]\n'
mkdir "$room/folder" "$room/folder/b.links"
for name in c a ab; do printf 'x\n' >"$room/folder/$name.links"; done
at_root=Z:${room//\//\\}

# A name may have `\`, and reports have `/`; so does SARIF, where `\` would be a code point of the name.
for name in 'folder\a.links' 'folder/a.links' '.\folder\.\a.links' "$at_root\\folder\\a.links" "\\\\?\\$at_root\\folder\\a.links"; do
    expect 1 "${name//\\//}:$wrong" '' lint -q "$name"
done
(cd "$room" && "$program" lint -q --format sarif 'folder\a.links') >"$room/out" 2>"$room/err"
ends_with 1 $? '' 'a name in SARIF'
grep -qF '"uri":"folder/a.links"' "$room/out" || fail "a name in SARIF: $(grep -o '"uri":"[^"]*"' "$room/out" | head -n 1)"
for words in '--stdin-name folder\n' '--stdin-name=folder\n'; do
    printf 'x\n' | "$program" lint -q $words - >"$room/out" 2>"$room/err"
    ends_with 1 $? '' "lint $words"
    printf '%b' "folder/n:$wrong" | cmp -s - "$room/out" || fail "lint $words: it wrote $(cat "$room/out")"
done
printf '[]' >"$room/folder/cases.json"
expect 0 'vectors 0 pass 0 fail 0\n' '' vectors 'folder\cases.json'
expect 3 '' "urlcheck: folder/none.json: can't be read: there is no such file\nread\n" vectors 'folder\none.json'
expect 2 '' "urlcheck: other/a.links: can't be read: there is no such file\n" lint -q 'other\a.links'

# A pattern stands for the files of its folder, in the order of their bytes, and for no folder. One for which there is no file
# stands for itself, as one before the last `\` does.
expect 1 "folder/a.links:${wrong}folder/ab.links:${wrong}folder/c.links:$wrong" '' lint -q 'folder\*.links'
expect 1 "folder/a.links:${wrong}folder/c.links:$wrong" '' lint -q -- 'folder\?.links'
expect 1 "folder/A.links:${wrong}folder/c.links:$wrong" '' lint -q -- 'folder\A.links' 'folder/C.*'
for name in 'folder\x*' '*.none' 'f*\a.links' '?:\a.links'; do
    expect 2 '' "urlcheck: ${name//\\//}: can't be read: there is no such file\n" lint -q "$name"
done
expect 0 'vectors 0 pass 0 fail 0\n' '' vectors 'folder\cases.*'
mkdir "$room/many"
for number in {100..199}; do printf 'x\n' >"$room/many/$number.txt"; done
expect 1 "$(printf "many/%d.txt:$wrong\\\\n" {100..199} | tr -d '\n')" 'urlcheck: 100 lines, 100 refused\n' lint 'many\*'

# A text stays as it is, for `check` and `mend` and as a base; also one that looks like a name, or a pattern.
expect 1 'refused 10 code-point\n' '' check 'http://h/?\'
expect 0 'mended escaped\nhttp://h/?%5C*\n' '' mend 'http://h/?\*'
expect 0 'valid\nscheme http\nhost domain h\nsegment folder\nsegment *.links\n' '' check --base http://h/ 'folder/*.links'
expect 1 'refused 6 code-point\n' '' check --base http://h/ 'folder\*.links'
refused="$(no_base 10 code-point 'U+005C REVERSE SOLIDUS is not allowed in a URL')"
expect 2 '' "$refused" lint --base 'http://h/?\' 'folder\a.links'
expect 2 '' "$refused" lint '--base=http://h/?\' 'folder\a.links'
expect 2 '' "$refused" lint 'folder\a.links' --quiet --base 'http://h/?\'
expect 2 '' "$refused" mend --base 'http://h/?\' x

# Units of UTF-16: a pair is one code point. Half a pair isn't a text, and U+FFFD, which may be in a URL, is another one.
# of_units STATUS STDOUT STDERR WORD.. : a run with words of these units
of_units() {
    local status=$1 stdout=$2 stderr=$3
    shift 3
    (cd "$room" && "$(dirname "$program")/units" "$@") >"$room/out" 2>"$room/err" </dev/null
    ends_with "$status" $? "$stderr" "units $*"
    printf '%b' "$stdout" | cmp -s - "$room/out" || fail "units $*: it wrote $(cat "$room/out")"
}
of_units 0 'valid\nscheme http\nhost domain h\nsegment %F0%9F%98%80\n' '' check http://h/~d83d~de00
of_units 0 'valid\nscheme http\nhost domain h\nsegment %EF%BF%BD\n' '' check http://h/~fffd
of_units 0 'valid\nscheme http\nhost domain h\nsegment %C3%A9%E4%B8%AD\n' '' check http://h/~00e9~4e2d
for units in ~d83d ~de00 ~de00~d83d ~d83d~d83d ~d83da; do
    of_units 2 '' "urlcheck: argument 2 isn't UTF-8\nwords\n" check "http://h/$units"
done
of_units 2 '' "urlcheck: argument 3 isn't UTF-8\nurlcheck: 0 lines, 0 refused, 1 file not read\n" lint -- "folder/~d83d"
printf 'x\n' >"$room/folder/"$'\u00e9\U1f600'
of_units 1 "folder/\0303\0251\0360\0237\0230\0200:$wrong" '' lint -q 'folder\~00e9~d83d~de00'

# Bytes are read and written as they are: there is no text mode, in which CR LF is LF and U+001A ends a file.
printf 'urn:a\r\nurn:b\032\nx\r\r\nurn:a\nurn:\032\nx' >"$room/list"
for file in list -; do
    (cd "$room" && "$program" lint $file) <"$room/list" >"$room/out" 2>"$room/err"
    ends_with 1 $? 'urlcheck: 6 lines, 4 refused\n' "lint $file of ends of lines"
    cmp -s "$room/out" - <<END || fail "lint $file of ends of lines: it wrote $(cat "$room/out")"
$file:2:6: error: U+001A SUBSTITUTE is not allowed in a URL [code-point]
$file:3:1: error: there is no scheme and no base [no-scheme]
$file:5:5: error: U+001A SUBSTITUTE is not allowed in a URL [code-point]
$file:6:1: error: there is no scheme and no base [no-scheme]
END
done
printf 'http://h/a b\r\nurn:a\n\r\n' | "$program" mend -q >"$room/out" 2>"$room/err"
ends_with 0 $? '' 'mend of ends of lines'
printf 'http://h/a%%20b\r\nurn:a\n\r\n' | cmp -s - "$room/out" || fail "mend of ends of lines: it wrote $(od -c "$room/out")"

all_cases 41
