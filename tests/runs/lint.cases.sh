# Diagnostics of files: what is written, what is reported on standard error, and the statuses; each format read by a reader
# that isn't ours.

printf 'http://h/a b\n\nhttp://ok/\r\nhttp://x_y/\n\xff\nnope' >"$room/links.txt"
printf 'https:///a\n' >"$room/other.txt"
printf 'http://h/\n\n\r\nurn:a\n' >"$room/right.txt"
first='links.txt:1:11: error: [code-point]\n'
underscore='links.txt:4:8: error: [host-domain]\n'
bytes='links.txt:5:1: error: [not-utf8]\n'
last='links.txt:6:1: error: [no-scheme]\n'
other='other.txt:1:9: error: [host-missing]\n'

# Statuses, counts, files in their order, each read again; without a FILE there is nothing to do.
expect 0 '' 'urlcheck: 2 lines, 0 refused\n' lint right.txt
expect 1 "$other" 'urlcheck: 1 line, 1 refused\n' lint other.txt
expect 1 "$first$underscore$bytes$last" 'urlcheck: 5 lines, 4 refused\n' lint links.txt
expect 1 "$first$underscore$bytes$last$other" 'urlcheck: 8 lines, 5 refused\n' lint links.txt right.txt other.txt
expect 1 "$other$other" '' lint other.txt --quiet other.txt
expect 0 '' '' lint --quiet right.txt
expect 0 '' '' lint -q right.txt
expect 1 "$other" '' lint other.txt -q
expect 1 "$other" 'urlcheck: 1 line, 1 refused\n' lint -- other.txt
"$program" lint >"$room/out" 2>"$room/err"
ended=$?
count=$((count + 1))
if [ $ended != 2 ] || [ -s "$room/out" ] || [ "$(tail -n 1 "$room/err")" != words ]; then
    fail "lint: status $ended, on standard error: $(cat "$room/err")"
fi

# The base, the profile, all faults, and the format by its name.
expect 1 "$first$underscore$bytes" 'urlcheck: 5 lines, 3 refused\n' lint --base http://b/ links.txt
expect 1 "$first$bytes" 'urlcheck: 5 lines, 2 refused\n' lint --base=http://b/ --wide links.txt
expect 1 "$first$bytes" 'urlcheck: 5 lines, 2 refused\n' lint --base=http://b/ --profile wide links.txt
expect 1 "$first$underscore$bytes" 'urlcheck: 5 lines, 3 refused\n' lint --profile=standard --base http://b/ links.txt
expect 1 "$first$bytes" 'urlcheck: 5 lines, 2 refused\n' lint --base=http://b/ --profile parser links.txt
printf 'http://a%%2Db/\nhttp://1.2.3/\nurn:a b\nfile://\nhttp://0x1/\n' >"$room/parser.txt"
number='parser.txt:5:8: error: [host-number]\n'
expect 1 "$number" 'urlcheck: 5 lines, 1 refused\n' lint --profile parser parser.txt
expect 1 "parser.txt:1:8: error: [host-domain]\nparser.txt:2:8: error: [host-number]
parser.txt:3:6: error: [code-point]\nparser.txt:4:8: error: [host-missing]\n$number" \
    'urlcheck: 5 lines, 5 refused\n' lint --wide parser.txt
printf 'http://a b:x/ %%\n' >"$room/faults.txt"
expect 1 'faults.txt:1:8: error: [host-domain]\n' 'urlcheck: 1 line, 1 refused\n' lint faults.txt
"$program" lint --all "$room/faults.txt" >"$room/out" 2>"$room/err"
ends_with 1 $? 'urlcheck: 1 line, 1 refused\n' 'lint --all'
places=$("$program" check --all 'http://a b:x/ %' | awk '{ print "1:" $2 + 1 " [" $3 "]" }')
[ "$(sed 's/.*txt:\([0-9]*:[0-9]*\): .* \(\[[a-z-]*\]\)$/\1 \2/' "$room/out")" = "$places" ] ||
    fail "lint --all: it wrote $(cat "$room/out")"
[ "$(wc -l <"$room/out")" -gt 2 ] || fail "lint --all: it wrote $(cat "$room/out")"
expect 2 '' "$(no_base 7 host-domain 'U+0020 SPACE is not allowed in a domain')" lint --base 'http://h a/' links.txt
expect 2 '' "$(no_base 0 no-scheme 'it has no scheme')" lint --base '' missing.txt
formats='urlcheck: the formats: gnu caret json github sarif checkstyle junit gitlab rdjson\nwords\n'
for name in GNU 'gnu,' gn jsan checkstle sarfi githab; do
    near=gnu
    case $name in j*) near=json ;; c*) near=checkstyle ;; s*) near=sarif ;; gith*) near=github ;; esac
    expect 2 '' "urlcheck: no format is named '$name'; the nearest is $near\\n$formats" \
        lint --base 'a b' --format "$name" links.txt
done
for name in '' xyz gnujson; do
    expect 2 '' "urlcheck: no format is named '$name'\\n$formats" lint --base 'a b' --format="$name" links.txt
done
expect 2 '' "urlcheck: no format is named 'a\\0357\\0277\\0275[2J'\\n$formats" lint --format $'a\e[2J' links.txt

# What columns count, by its name. Before the first space are nine ASCII code points, `e` with U+0301 (a combining mark,
# of no column), U+65E5 and U+672C (wide, of three bytes) and U+1F600 (wide, of four bytes and two UTF-16 code units);
# then come a tab, which goes on to the column 25, `b` and another space.
columns_of() { printf "$1:%s: error: [code-point]\\n" "$2" "$3" "$4"; }
printf 'http://h/e\314\201\346\227\245\346\234\254\360\237\230\200 \tb ' >"$room/columns.txt"
expect 1 "$(columns_of columns.txt:1 15 16 18)\\n" '' lint -q --all columns.txt
expect 1 "$(columns_of columns.txt:1 15 16 18)\\n" '' lint -q --all --columns code-points columns.txt
expect 1 "$(columns_of columns.txt:1 23 24 26)\\n" '' lint -q --all --columns bytes columns.txt
expect 1 "$(columns_of columns.txt:1 16 17 19)\\n" '' lint -q --all --columns=utf16 columns.txt
expect 1 "$(columns_of columns.txt:1 17 18 26)\\n" '' lint -q --all --columns screen columns.txt
# Each format has them, the caret is where it did, and SARIF says what they count, if it has a word for it.
for shown in 'caret columns.txt:1:23:' 'json "column":23,' 'github ,col=23,' 'checkstyle column="23"' \
    'junit name="1:23 code-point"' 'rdjson "start":{"column":23,"line":1}'; do
    "$program" lint -q --columns bytes --format "${shown%% *}" "$room/columns.txt" >"$room/out" 2>"$room/err"
    ends_with 1 $? '' "lint --columns bytes as ${shown%% *}"
    grep -qF "${shown#* }" "$room/out" || fail "lint --columns bytes: $(cat "$room/out")"
done
link='http://h/e\0314\0201\0346\0227\0245\0346\0234\0254\0360\0237\0230\0200'
shown="$link \\tb \\n                ^\\nhelp: write $link%20b\\n"
expect 1 "$(columns_of columns.txt:1 17 18 26 | head -n 1)\\n$shown" '' lint -q --format caret --columns screen columns.txt
for kind in 'unicodeCodePoints 15' 'utf16CodeUnits 16 utf16' 'unicodeCodePoints 15 code-points'; do
    read -r named column unit <<<"$kind"
    "$program" lint -q --format sarif ${unit:+--columns $unit} "$room/columns.txt" >"$room/out" 2>"$room/err"
    ends_with 1 $? '' "lint --columns $unit as sarif"
    grep -qF "\"columnKind\":\"$named\"" "$room/out" && grep -qF "\"startColumn\":$column," "$room/out" ||
        fail "lint --columns $unit as sarif: $(cut -c 1-200 "$room/out")"
done
for unit in bytes screen; do
    expect 2 '' "urlcheck: sarif doesn't support the column unit $unit
urlcheck: the column units of sarif: code-points utf16\nwords\n" lint --base 'a b' --format sarif --columns $unit columns.txt
done
for unit in code-points utf16 screen; do
    expect 2 '' "urlcheck: rdjson doesn't support the column unit $unit
urlcheck: the column units of rdjson: bytes\nwords\n" lint --base 'a b' --format rdjson --columns $unit columns.txt
done
# Without a unit columns count what they do in the format.
"$program" lint -q --format rdjson "$room/columns.txt" >"$room/out" 2>"$room/err"
ends_with 1 $? '' 'lint as rdjson'
grep -qF '"range":{"end":{"column":24,"line":1},"start":{"column":23,"line":1}}' "$room/out" || fail "lint as rdjson: $(cat "$room/out")"
units='urlcheck: the column units: code-points bytes utf16 screen\nwords\n'
for name in byte,bytes utf-16,utf16 Screen,screen codepoints,code-points; do
    expect 2 '' "urlcheck: no column unit is named '${name%,*}'; the nearest is ${name#*,}\n$units" \
        lint --base 'a b' --columns "${name%,*}" --format sarif columns.txt
done
for name in '' points; do
    expect 2 '' "urlcheck: no column unit is named '$name'\n$units" lint --columns="$name" columns.txt
done

# A line of at most 200 code points is shown whole, of a longer one a window round the place; JSON carries a link of at
# most 2,000 code points whole.
python3 - "$room" <<'PYTHON'
import sys
cases = [("foo:" + "é" * 195 + "^", 200), ("foo:" + "é" * 196 + "^", 201), ("foo:^" + "é" * 196, 5),
    ("foo:" + "é" * 300 + "^" + "é" * 98, 305), ("foo:" + "é" * 300 + "^" + "é" * 99, 305),
    ("foo:" + "é" * 1995 + "^", 2000), ("foo:" + "é" * 1996 + "^", 2001)]
shown = [(cases[0][0], 199), ("…" + "é" * 99 + "^", 100), (cases[2][0][:198] + "…", 4),
    ("…" + "é" * 99 + "^" + "é" * 98, 100), ("…" + "é" * 99 + "^" + "é" * 98 + "…", 100),
    ("…" + "é" * 99 + "^", 100), ("…" + "é" * 99 + "^", 100)]
help = ["…" + "é" * 99 + "%5E", "…" + "é" * 99 + "%5E", "foo:%5E" + "é" * 191 + "…",
    "…" + "é" * 99 + "%5E" + "é" * 96 + "…", "…" + "é" * 99 + "%5E" + "é" * 96 + "…",
    "…" + "é" * 99 + "%5E", "…" + "é" * 99 + "%5E"]
written = lambda name: open(f"{sys.argv[1]}/long.{name}", "w", encoding="utf-8")
with written("txt") as text, written("caret") as caret, written("json") as json:
    for number, ((line, column), (part, place)) in enumerate(zip(cases, shown), 1):
        text.write(line + "\n")
        caret.write(f"long.txt:{number}:{column}: error: [code-point]\n{part}\n{' ' * place}^\n"
            f"help: write {help[number - 1]}\n")
        cut, link = ("true", part) if number == 7 else ("false", line)
        mended = line.replace("^", "%5E")
        json.write(f'{{"column":{column},"cut":{cut},"file":"long.txt","kind":"escaped","line":{number},"mended":"{mended}",'
            f'"message":"U+005E CIRCUMFLEX ACCENT is not allowed in a URL","offered":true,"rule":"code-point","text":"{link}"}}\n')
PYTHON
for format in caret json; do
    (cd "$room" && "$program" lint --format $format long.txt) >"$room/out" 2>"$room/err"
    ends_with 1 $? 'urlcheck: 7 lines, 7 refused\n' "long lines as $format"
    wrote "$(<"$room/long.$format")\n" "$room/out" || fail "long lines as $format: it wrote $(cat "$room/out")"
done

# What to write in place of a refused link: `caret`, `json` and `sarif` say it, at the first diagnostic of its line.
printf 'http://h/a b %%\nhttp://x_y/\nhttp://h/100%%\n\xff\nhttp:/a\n' >"$room/mended.txt"
expect 1 "mended.txt:1:11: error: [code-point]
http://h/a b %
          ^
help: write http://h/a%20b%20%25
mended.txt:1:13: error: [code-point]
http://h/a b %
            ^
mended.txt:1:14: error: [percent]
http://h/a b %
             ^
mended.txt:2:8: error: [host-domain]
http://x_y/
        ^
mended.txt:3:13: error: [percent]
http://h/100%
            ^
help: write http://h/100%25
mended.txt:4:1: error: [not-utf8]
\xef\xbf\xbd
^
mended.txt:5:7: error: [two-slashes]
http:/a
      ^
help: write http://a
" 'urlcheck: 5 lines, 5 refused\n' lint --all --format caret mended.txt
# mends_to WORDS LINE.. : a lint with these words of the list lines.txt says in JSON of each line its place, kind and text
mends_to() {
    local words=$1 want
    want=$(printf '%s\n' "${@:2}")
    (cd "$room" && "$program" lint --quiet --format json $words lines.txt) >"$room/out" 2>"$room/err"
    ends_with 1 $? '' "mended by $words"
    [ "$(python3 -c 'import json, sys
for one in map(json.loads, sys.stdin):
    print(one["line"], one["column"], one.get("kind"), one.get("mended"))' <"$room/out")" = "$want" ] ||
        fail "mended by $words: $(cat "$room/out")"
}
printf 'http://h/a b %%\nhttp://x_y/ c\na b\nhttp:a\n' >"$room/lines.txt"
mends_to '' '1 11 escaped http://h/a%20b%20%25' '2 8 None None' '3 1 None None' '4 6 same http://a'
mends_to '--wide' '1 11 escaped http://h/a%20b%20%25' '2 12 same http://x_y/%20c' '3 1 None None' '4 6 same http://a'
mends_to '--profile parser' '1 11 escaped http://h/a%20b%20%25' '2 12 same http://x_y/%20c' '3 1 None None' \
    '4 6 same http://a'
mends_to '--base http://h/' '1 11 escaped http://h/a%20b%20%25' '2 8 None None' '3 2 same a%20b' '4 6 changed http://a'
mends_to '--all' '1 11 escaped http://h/a%20b%20%25' '1 13 None None' '1 14 None None' '2 8 None None' '2 12 None None' \
    '3 1 None None' '3 2 None None' '4 6 same http://a'
for format in gnu github checkstyle gitlab; do
    (cd "$room" && "$program" lint --quiet --format $format mended.txt) >"$room/out" 2>"$room/err"
    ends_with 1 $? '' "mended texts as $format"
    ! grep -q 'http://h/' "$room/out" || fail "mended texts as $format: it wrote $(cat "$room/out")"
done

# Texts whose authors likely meant something else than what they are mended to: that is named and not offered, and the
# sentence says what was likely meant.
printf '%s\n' https://wixtoolset.org//documentation/ http://http://x 'C:\Users\x' 'https://example.com/{{ id }}' \
    'tel:+1 2 ' >"$room/meant.txt"
expect 1 "meant.txt:1:24: error: [first-segment-empty]
https://wixtoolset.org//documentation/
                       ^
note: the same URL, written validly, is https://wixtoolset.org/.//documentation/
meant.txt:2:14: error: [first-segment-empty]
http://http://x
             ^
meant.txt:3:3: error: [code-point]
C:\\\\Users\\\\x
  ^
note: the same text, percent-encoded, is C:%5CUsers%5Cx
meant.txt:4:21: error: [code-point]
https://example.com/{{ id }}
                    ^
note: the same URL, written validly, is https://example.com/%7B%7B%20id%20%7D%7D
meant.txt:5:7: error: [code-point]
tel:+1 2\x20
      ^
note: a valid URL string that is near it is tel:+1%202
" 'urlcheck: 5 lines, 5 refused\n' lint --format caret meant.txt
printf 'http://h/a b\n' >>"$room/meant.txt"
# offers FORMAT READER ANSWER : of the six texts, this program reads these of the report in this format
offers() {
    (cd "$room" && "$program" lint --quiet --format "$1" meant.txt) >"$room/out" 2>"$room/err"
    ends_with 1 $? '' "offered texts as $1"
    [ "$(python3 -c "$2" <"$room/out")" = "$3" ] || fail "offered texts as $1: $(cat "$room/out")"
}
offers json 'import json, sys
print(*(json.loads(line)["offered"] for line in sys.stdin))' 'False False False False False True'
offers sarif 'import json, sys
print(*("fixes" in result for result in json.load(sys.stdin)["runs"][0]["results"]))' 'False False False False False True'
rm -f "$room/meant.txt"

# The fixes of SARIF, made by a program that isn't ours, give lines that are valid, in a list and where a link is.
cat >"$room/fixed.py" <<'PYTHON'
import json, sys
report, folder = sys.argv[1:]
lines = {}
for result in json.load(open(report, encoding="utf-8"))["runs"][0]["results"]:
    for fix in result.get("fixes", []):
        for change in fix["artifactChanges"]:
            name = change["artifactLocation"]["uri"]
            lines.setdefault(name, open(f"{folder}/{name}", encoding="utf-8", newline="\n").read().split("\n"))
            for replacement in change["replacements"]:
                region = replacement["deletedRegion"]
                line = lines[name][region["startLine"] - 1]
                line = line[:region["startColumn"] - 1] + replacement["insertedContent"]["text"] + line[region["endColumn"] - 1:]
                lines[name][region["startLine"] - 1] = line
for name in lines:
    open(f"{folder}/{name}", "w", encoding="utf-8", newline="\n").write("\n".join(lines[name]))
PYTHON
printf 'http://\xe4\xb8\xad/\xe4\xb8\xad\xf0\x9f\x98\x80 b\r\nurn:a\nhttp:\\\\h\\a' >"$room/fixed.txt"
(cd "$room" && "$program" lint --quiet --all --format sarif fixed.txt) >"$room/out" 2>"$room/err"
ends_with 1 $? '' 'fixes of SARIF'
python3 "$room/fixed.py" "$room/out" "$room"
printf 'http://\xe4\xb8\xad/\xe4\xb8\xad\xf0\x9f\x98\x80%%20b\r\nurn:a\nhttp://h/a' | cmp -s - "$room/fixed.txt" ||
    fail "fixes of SARIF: $(cat "$room/fixed.txt")"
expect 0 '' 'urlcheck: 3 lines, 0 refused\n' lint fixed.txt
printf '<a href="http://h/a b">\xf0\x9f\x98\x80 <a href="http:/c"></a>\n' >"$room/fixed.html"
printf 'fixed.html:1:10:http://h/a b\n' >"$room/links-in-it"
(cd "$room" && "$program" lint --quiet --located --format sarif links-in-it) >"$room/out" 2>"$room/err"
ends_with 1 $? '' 'fixes of located links'
python3 "$room/fixed.py" "$room/out" "$room"
printf '<a href="http://h/a%%20b">\xf0\x9f\x98\x80 <a href="http:/c"></a>\n' | cmp -s - "$room/fixed.html" ||
    fail "fixes of located links: $(cat "$room/fixed.html")"
rm -f "$room"/fixed.* "$room/mended.txt" "$room/lines.txt" "$room/links-in-it"

# SARIF: a name is a path, whatever is in it: no scheme, no host, no query, no fragment and no escape.
if has posix_names 1; then
    printf 'x\n' | tee "$room/a:b.txt" "$room/a#b" "$room/a?b" "$room/a%41" "$room/ab" >"$room/https:"
    names=(a:b.txt 'a#b' 'a?b' a%41 https: "/$room/ab" "$room/ab" ./ab "//$room/ab")
    (cd "$room" && "$program" lint --format sarif "${names[@]}") >"$room/out" 2>"$room/err"
    ends_with 1 $? 'urlcheck: 9 lines, 9 refused\n' 'names as paths'
    uris=$(python3 -c 'import json, sys
for result in json.load(sys.stdin)["runs"][0]["results"]:
    print(result["locations"][0]["physicalLocation"]["artifactLocation"]["uri"])' <"$room/out")
    [ "$uris" = "a%3Ab.txt
a%23b
a%3Fb
a%2541
https%3A
/%2F${room#/}/ab
$room/ab
./ab
/%2F$room/ab" ] || fail "names as paths: $uris"
fi
rm -f "$room/long".* "$room/a:b.txt" "$room/a#b" "$room/a?b" "$room/a%41" "$room/https:" "$room/ab"

# SARIF says whether every file was read to its end, and if not, that standard error has the name.
printf 'x\n' >"$room/one.txt"
(cd "$room" && "$program" lint --quiet --format sarif missing one.txt) >"$room/out" 2>"$room/err"
ends_with 2 $? "urlcheck: missing: can't be read: there is no such file\n" 'SARIF of a file that is missing'
invocations=$(python3 -c 'import json, sys
(run,) = json.load(sys.stdin)["runs"]
(invocation,) = run["invocations"]
(notification,) = invocation["toolExecutionNotifications"]
print(len(run["results"]), invocation["executionSuccessful"], notification["level"], notification["message"]["text"])
' <"$room/out")
[ "$invocations" = "1 False error a file can't be read, which standard error names" ] ||
    fail "SARIF of a file that is missing: $invocations"

# Standard input is the file named `-`, alone and among others; at its end there is no more of it.
# of_input STATUS STDOUT STDERR TEXT WORD.. : a lint with these words, of a standard input with this text, ends so
of_input() {
    local status=$1 stdout=$2 stderr=$3 text=$4
    shift 4
    printf '%b' "$text" | (cd "$room" && "$program" lint "$@") >"$room/out" 2>"$room/err"
    ends_with "$status" $? "$stderr" "lint $*"
    wrote "$stdout" "$room/out" || fail "lint $*: it wrote $(cat "$room/out")"
}
of_input 1 '-:2:1: error: [no-scheme]\n' 'urlcheck: 2 lines, 1 refused\n' 'urn:a\nx' -
of_input 1 "$other"'-:1:1: error: [no-scheme]\n' 'urlcheck: 4 lines, 2 refused\n' 'x\n' \
    other.txt - right.txt -
of_input 0 '' 'urlcheck: 0 lines, 0 refused\n' '' -
of_input 0 '' 'urlcheck: 0 lines, 0 refused\n' '\n\r\n\n' -

# A byte order mark at a file's start isn't a part of its first line; on another line it is.
of_input 1 '-:1:10: error: [code-point]\n' 'urlcheck: 2 lines, 1 refused\n' \
    '\xef\xbb\xbfhttp://h/ \nurn:a\n' -
of_input 0 '' 'urlcheck: 0 lines, 0 refused\n' '\xef\xbb\xbf\n' -
of_input 1 '-:2:1: error: [no-scheme]\n' 'urlcheck: 2 lines, 1 refused\n' \
    'urn:a\n\xef\xbb\xbfurn:a\n' -
if has closed_streams 1; then
    "$program" lint - <&- >"$room/out" 2>"$room/err"
    ends_with 2 $? "${no_input}urlcheck: 0 lines, 0 refused, 1 file not read\\n" 'lint of a standard input that is closed'
fi
if has folder_input 2; then
    "$program" lint - <"$room" >"$room/out" 2>"$room/err"
    ends_with 2 $? "${from_folder}urlcheck: 0 lines, 0 refused, 1 file not read\\n" 'lint of a standard input that is a folder'
    (cd "$room" && "$program" lint --quiet - other.txt - missing <"$room") >"$room/out" 2>"$room/err"
    ends_with 2 $? "urlcheck: missing: can't be read: there is no such file\\n$from_folder" 'lint of a folder among files'
    wrote "$other" "$room/out" || fail "lint of a folder among files: it wrote $(cat "$room/out")"
fi

# Files that can't be opened or read are reported by their names, and the others go on: one that isn't there, a folder, a
# path through a file, one whose first read fails, and one that may not be read.
expect 2 "$other" "urlcheck: missing: can't be read: there is no such file\\nurlcheck: 1 line, 1 refused, 1 file not read\\n" \
    lint missing other.txt
of_folders='urlcheck: lint reads files, not folders; urlcheck-documents FOLDER checks the documents in it\n'
expect 2 "$other" "urlcheck: .: can't be read: it is a folder\\n${of_folders}urlcheck: '': can't be read: there is no such file\\n\
urlcheck: 1 line, 1 refused, 2 files not read\\n" lint . '' other.txt
if has posix_paths 2; then
    expect 2 "$other" "urlcheck: other.txt/x: can't be read: a part of its path is no folder\\nurlcheck: 1 line, 1 refused, 1 file not read\\n" \
        lint other.txt other.txt/x
    ln -s circle "$room/circle"
    expect 2 '' "urlcheck: circle: can't be read: its symbolic links lead in a circle\\n" lint --quiet circle right.txt
    rm "$room/circle"
fi
# The reasons of docs/ERRORS.md are the program's, also those that no file here brings about.
count=$((count + 1))
python3 - "$program" "$here/../../docs/ERRORS.md" >"$room/wrong" <<'PYTHON' || fail "reasons of docs/ERRORS.md: $(cat "$room/wrong")"
import re, sys
code = open(sys.argv[1], "rb").read()
table = open(sys.argv[2], encoding="utf-8").read().split("## Reasons\n")[1].split("\n## ")[0]
reasons = re.findall("`(: [^`]+)`", table)
missing = [it for it in reasons if it.encode() not in code]
print(len(reasons), *missing, sep="\n")
# (what runs a program for another machine has no words of it)
sys.exit(code.startswith(b"\x7fELF") and (bool(missing) or len(reasons) < 15))
PYTHON
if has proc 1; then
    expect 2 '' "urlcheck: /proc/self/mem: can't be read\\nurlcheck: 2 lines, 0 refused, 1 file not read\\n" lint /proc/self/mem right.txt
fi
expect 2 '' "urlcheck: missing: can't be read: there is no such file\\n" lint --quiet missing right.txt
expect 2 '' "urlcheck: a\\0357\\0277\\0275[2J\\0357\\0277\\0275b: can't be read: there is no such file\\n\
urlcheck: 0 lines, 0 refused, 1 file not read\\n" lint $'a\e[2J\nb'
printf '\xff\n' >"$room/other.html"
cp "$room/right.txt" "$room/right.html"
if has file_modes 1; then
    chmod 755 "$room"
    cp "$program" "$room/program"
    chmod 000 "$room/links.txt"
    (cd "$room" && as_nobody ./program lint links.txt other.txt) >"$room/out" 2>"$room/err"
    ends_with 2 $? "urlcheck: links.txt: can't be read: permission denied\\nurlcheck: 1 line, 1 refused, 1 file not read\\n" \
        'lint of a file that may not be read'
    wrote "$other" "$room/out" || fail "lint of a file that isn't permitted: it wrote $(cat "$room/out")"
    chmod 644 "$room/links.txt"
fi

# Standard input under another name: in each format, each time that it is read, next to other files, and not if it isn't.
no_scheme='1:1: error: [no-scheme]\n'
of_input 1 "a b.txt:$no_scheme" '' 'x\n' -q --stdin-name 'a b.txt' -
of_input 1 "${other}n:$no_scheme" 'urlcheck: 2 lines, 2 refused\n' 'x\n' other.txt --stdin-name=n -- -
of_input 1 "n\0357\0277\0275:$no_scheme" '' 'x\n' -q --stdin-name $'n\e' - -
of_input 1 "-:$no_scheme" '' 'x\n' -q --stdin-name=- -
of_input 0 '' 'urlcheck: 3 lines, 0 refused\n' 'urn:a\n' --stdin-name missing - right.txt
of_input 1 "::error file=n%0A,line=1,col=1,title=no-scheme::there is no scheme and no base\n" '' 'x\n' -q --format github \
    --stdin-name $'n\n' -
of_input 1 "p.md:7:8: error: [no-scheme]\nn:2:1: error: this line isn't FILE:LINE:COLUMN:LINK, since \
LINE is missing [not-located]\n" '' 'p.md:7:8:x\nx\n' -q --located --stdin-name n -
if has folder_input 1; then
    "$program" lint --stdin-name n - <"$room" >"$room/out" 2>"$room/err"
    ends_with 2 $? "${from_folder}urlcheck: 0 lines, 0 refused, 1 file not read\\n" 'lint of a standard input that is a folder, under a name'
fi
unnamed='urlcheck: --stdin-name is the name of standard input: one of the FILEs has to be -\nwords\n'
expect 2 '' "$unnamed" lint --stdin-name n other.txt
expect 2 '' "$unnamed" lint --stdin-name=- ./- --format none --base 'a b'
empty='urlcheck: --stdin-name is the name of standard input, and may not be empty\nwords\n'
expect 2 '' "$empty" lint --stdin-name= -
expect 2 '' "$empty" lint -q --stdin-name '' --format none other.txt
expect 2 '' "urlcheck: no profile is named 'n'\\nurlcheck: the profiles: standard wide parser\\nwords\\n" \
    lint --stdin-name n --profile n other.txt

# A hint where a line is refused of a file with the name of a document, and counts are wanted.
of_documents='urlcheck: lint reads one link a line; urlcheck-documents FILE checks the links of a document\n'
html='; this looks like HTML: check the links in it'
for end in html htm xhtml xht xml rss atom rdf svg md markdown MD; do
    printf '<a href="b">\n' >"$room/page.$end"
    expect 1 "page.$end:1:1: error: there is no scheme and no base$html [no-scheme]\n" \
        "${of_documents}urlcheck: 1 line, 1 refused\n" lint page.$end
    expect 1 "page.$end:1:1: error: there is no scheme and no base$html [no-scheme]\n" '' lint --quiet page.$end
done
expect 2 "$other${bytes//links.txt:5/other.html:1}" "urlcheck: missing.md: can't be read: there is no such file\\n\
${of_documents}urlcheck: 4 lines, 2 refused, 1 file not read\\n" lint other.txt missing.md right.txt other.html
expect 0 '' 'urlcheck: 2 lines, 0 refused\n' lint right.html
expect 1 "$other" 'urlcheck: 3 lines, 1 refused\n' lint right.html other.txt
expect 1 "${bytes//links.txt:5/other.html:1}$other" "${of_documents}urlcheck: 4 lines, 2 refused\n" \
    lint other.html other.txt right.html
expect 2 '' "urlcheck: missing.html: can't be read: there is no such file\\nurlcheck: 0 lines, 0 refused, 1 file not read\\n" lint missing.html
"$program" lint "$room/other.html" >/dev/full 2>"$room/err"
ended=$?
count=$((count + 1))
if [ $ended != 3 ] || [ "$(tail -n 1 "$room/err")" != write ] || grep -q urlcheck-documents "$room/err"; then
    fail "lint of a document to a full device: status $ended, on standard error: $(cat "$room/err")"
fi

# Each file is opened by the very name that was given: with spaces, a `%`, a `:`, a `#`, `..`, of 255 bytes, beyond
# ASCII, through a folder, and by a path of 4,004 bytes; next to each is a file whose name is nearly the same.
name_255=$(printf 'n%.0s' {1..255})
mkdir "$room/folder"
names=('two  words ' 'a%20b' '%' 'a:b' 'a#b' ' ' ' leads' '~' '$HOME' 'a\b' "$name_255" $'\u00e9\u4e2d' \
    'folder/../dots' './here' 'folder//twice' "$(printf './%.0s' {1..2000})long" '*')
for name in "${names[@]}"; do
    has_file "$name" || continue
    printf 'x\n' >"$room/$name"
    shown=${name//\\/\\\\}
    expect 1 "$shown:1:1: error: [no-scheme]\\n" '' lint -q -- "$name"
done
for name in 'two words ' 'two  words' 'a b' 'a%2520b' "${name_255%n}" $'e\u0301\u4e2d'; do
    has_file "$name" || continue
    expect 2 '' "urlcheck: $name: can't be read: there is no such file\\n" lint -q -- "$name"
done
if has posix_names 2; then
    for name in 'dots ' Here; do
        expect 2 '' "urlcheck: $name: can't be read: there is no such file\\n" lint -q -- "$name"
    done
fi
if has posix_paths 1; then
    expect 2 '' "urlcheck: right.txt/: can't be read: a part of its path is no folder\\n" lint -q right.txt/
fi
expect 2 '' "urlcheck: folder/: can't be read: it is a folder\\n$of_folders" lint -q folder/
if has posix_paths 1; then
    expect 2 '' "urlcheck: ${name_255}n: can't be read: its name is too long\\n" lint -q "${name_255}n"
fi
for name in "${names[@]}"; do rm -f -- "$room/$name"; done
printf 'x\n' >"$room/"$'ends\n'
if has_file $'ends\n'; then
    expect 1 'ends\0357\0277\0275:1:1: error: [no-scheme]\n' '' lint -q $'ends\n'
fi
# The system follows `..`: from a folder that isn't there it leads nowhere, and from a link to where that leads.
mkdir "$room/folder/below"
ln -s folder/below "$room/link"
printf 'x\n' >"$room/beside"
printf 'urn:a\n' >"$room/folder/beside"
if has posix_paths 2; then
    expect 2 '' "urlcheck: missing/../right.txt: can't be read: there is no such file\n" lint -q missing/../right.txt
    expect 0 '' '' lint -q link/../beside
fi
rm -rf "$room/folder" "$room/link" "$room/beside" "$room/"$'ends\n'

# If there is no file of a name that looks like a link, a hint says what checks texts.
of_links='urlcheck: lint reads files; check TEXT checks one text, and lint - the lines of standard input\n'
expect 2 '' "urlcheck: http://h/: can't be read: there is no such file\\n$of_links" lint -q http://h/
expect 2 '' "urlcheck: foo://: can't be read: there is no such file\\n${of_links}urlcheck: 0 lines, 0 refused, 1 file not read\\n" lint -- foo://
for name in a:/b a:b //h/a; do
    expect 2 '' "urlcheck: $name: can't be read: there is no such file\\n" lint -q "$name"
done

# A name that isn't UTF-8 is reported by its number, and the other files are checked.
printf 'x\n' >"$room/"$'\xff'
if has byte_arguments 4; then
    expect 2 "$other" "urlcheck: argument 4 isn't UTF-8\\nurlcheck: 1 line, 1 refused, 1 file not read\\n" lint --all other.txt $'\xff'
    expect 2 '' "urlcheck: argument 2 isn't UTF-8\\nwords\\n" lint --base=$'\xff' $'\xff'
    expect 2 '' "urlcheck: argument 3 isn't UTF-8\\nwords\\n" lint --base $'\xff' other.txt
    expect 2 "$other" "urlcheck: argument 3 isn't UTF-8\\nurlcheck: 1 line, 1 refused, 1 file not read\\n" lint -- $'-\xff' other.txt
fi
rm -f -- "$room/"$'\xff'

# 5,000 files are a run, and each of them is checked.
mkdir "$room/many"
for number in {1..5000}; do echo "http://h/ $number" >"$room/many/$number.txt"; done
if has long_command_lines 1; then
    (cd "$room/many" && "$program" lint *.txt) >"$room/out" 2>"$room/err"
    ends_with 1 $? 'urlcheck: 5000 lines, 5000 refused\n' 'lint of 5,000 files'
    [ "$(cut -d: -f1 "$room/out" | sort -u | wc -l)" = 5000 ] || fail "lint of 5,000 files: $(wc -l <"$room/out") diagnostics"
fi
rm -rf "$room/many"

# A pipe that is closed after one line: no message, and the status of a write.
awk 'BEGIN { for (n = 1; n <= 100000; n++) print n }' >"$room/long"
(cd "$room" && "$program" lint long 2>"$room/err"; echo $? >"$room/status") | head -n 1 >"$room/out"
ends_with 3 "$(cat "$room/status")" '' 'lint to a pipe closed after one line'
wrote 'long:1:1: error: [no-scheme]\n' "$room/out" ||
    fail "a pipe closed after one line: it wrote $(cat "$room/out")"
rm -f "$room/long"

# An output that takes nothing stops the lint: no further file is opened. So it is in each format, even if nothing is
# found, and only a document would be written.
for format in gnu caret json github sarif checkstyle junit gitlab rdjson; do
    (cd "$room" && "$program" lint --quiet --format $format links.txt missing) >/dev/full 2>"$room/err"
    ends_with 3 $? "${no_space}write\\n" "lint --format $format to a full device"
done
for format in sarif checkstyle junit gitlab rdjson; do
    (cd "$room" && "$program" lint --format $format right.txt) >/dev/full 2>"$room/err"
    ended=$?
    count=$((count + 1))
    [ $ended = 3 ] || fail "lint --format $format to a full device: status $ended"
    [ "$(tail -n 1 "$room/err")" = write ] || fail "lint --format $format to a full device: $(cat "$room/err")"
done

# Each format, of hostile lines in files with hostile names: escapes of terminals, what ends a text in XML, workflow
# commands, quotes, a CR within a line, a turn of direction, wide and combining characters, and 65,536 code points.
# Readers that aren't ours find the same in each.
python3 - "$room" <<'PYTHON'
import sys
wide = "http://h/\u4e2d\u6587e\u0301\uff21 \U0001f600"
lines = ["\x1b[2J\x1b[31mhttp://h/", "http://h/]]>", "::error file=a,line=1::x", 'http://h/"><b>&amp;\'',
    "http://h/a\rb c", "http://h/\u202eabc", wide + "<", "http://h/100%", "%0A%25",
    "\t\t\thttp://h/", "x" * 65536, "", "foo:\x00\x7f\x85", "http://h/\u20ac\ufffe", "http://h:65536/", "javascript:alert(1)<"]
text = "\n".join(lines).encode() + b"\nhttp://h/\xff\xfe\n" + b"y" * 65537 + b"\n"
for name in ("plain", "a,b:c%d.txt", "<&\"'>.txt", "\x1b[2J\u202e.txt", "two words", "b\u00fccher"):
    open(sys.argv[1] + "/" + name, "wb").write(text)
PYTHON
hostile=()
for name in plain 'a,b:c%d.txt' "<&\"'>.txt" $'\e[2J\u202e.txt' 'two words' $'b\u00fccher'; do
    if ! is_posix "$name" || ! lacks posix_names; then hostile+=("$name"); fi
done
for format in gnu caret json github sarif checkstyle junit gitlab rdjson; do
    (cd "$room" && "$program" lint --all --format $format "${hostile[@]}") >"$room/hostile.$format" 2>"$room/err"
    ended=$?
    count=$((count + 1))
    [ $ended = 1 ] || fail "hostile lines as $format: status $ended"
    (cd "$room" && "$program" lint --quiet --format $format right.txt) >"$room/none.$format" 2>"$room/err"
    ends_with 0 $? '' "right lines as $format"
done
count=$((count + 1))
readers=(python3 "$here/lint_readers.py" "$room" "${hostile[@]}")
"${readers[@]}" >"$room/out" 2>&1 || fail "readers of diagnostics: $(cat "$room/out")"

# sees_spoiled WHAT FILES READERS EDIT.. : with each edit of the report FILES.FORMAT the readers, an array of that name,
# say that this format is wrong. An edit is the format and what sed makes of the report.
sees_spoiled() {
    local what=$1 files=$2 spoiled format
    local -n reading=$3
    shift 3
    for spoiled in "$@"; do
        format=${spoiled%% *}
        mv "$room/$files.$format" "$room/whole"
        LC_ALL=C sed "${spoiled#* }" "$room/whole" >"$room/$files.$format"
        count=$((count + 1))
        if "${reading[@]}" >"$room/out" 2>&1 || ! grep -q "^$format: " "$room/out"; then
            fail "readers of $what: spoiled $format: $(cat "$room/out")"
        fi
        mv "$room/whole" "$room/$files.$format"
    done
}
sees_spoiled diagnostics hostile readers 'gnu s/:1: error/:2: error/' 'caret s/^ \( *\)^$/\1^/' \
    'json s/"column":1,/"column":2,/' 'github s/col=1,/col=2,/' 'sarif s/"startColumn":1,/"startColumn":2,/' \
    'sarif s/"endColumn":2,/"endColumn":3,/' 'sarif s/urlcheckText\/v1":"./&0/' 'checkstyle s/column="1"/column="2"/' \
    'junit s/name="1:1 /name="1:2 /' 'junit s/<failure type="code-point"/<failure type="percent"/' \
    'gitlab s/"begin":1}/"begin":2}/' 'gitlab s/"fingerprint":"../&0/' 'rdjson s/"start":{"column":1,/"start":{"column":2,/' \
    'rdjson s/"text":"foo:/"text":"fop:/'

# Lines that say where their links are: FILE is all before the first run of two numbers, which are from 1 to 2^32 - 1; an
# empty link is checked, an empty line isn't. What isn't of the form is reported by the list's own name and line.
scheme='error: [no-scheme]'
form_of() { echo "error: this line isn't FILE:LINE:COLUMN:LINK, since $1 [not-located]"; }
no_column=$(form_of 'COLUMN is missing') line_range=$(form_of "LINE isn't from 1 to 4294967295")
column_range=$(form_of "COLUMN isn't from 1 to 4294967295")
of_input 1 "page.html:12:44: error: [code-point]\n" 'urlcheck: 2 lines, 1 refused\n' \
    'page.html:12:34:http://h/a b\n\npage.html:13:1:urn:a\n' --located -
of_input 1 "a:b.html:3:4: $scheme\na:1:2: $scheme\na:7:8: $scheme\n" 'urlcheck: 4 lines, 3 refused\n' \
    'C:\\x.html:3:4:http://h/\na:b.html:3:4:x\na:1:2:3:4:x\na:007:08:x\n' --located -
of_input 1 "a:1:2: $scheme\n-:2:1: $no_column\n-:3:1: $column_range\n-:4:1: $line_range\n-:5:1: $column_range
-:6:1: $(form_of 'FILE is empty')\n" \
    'urlcheck: 6 lines, 6 refused\n' 'a:1:2:\na:1:http://h/\na:1:0:x\na:0:1:x\na:1:4294967296:x\n:1:2:x\n' --located -
of_input 1 "a:4294967295:4294967295: $scheme\n-:2:1: $line_range\n" 'urlcheck: 2 lines, 2 refused\n' \
    'a:4294967295:4294967295:x\na:4294967296:1:x\n' --located -
of_input 0 '' 'urlcheck: 2 lines, 0 refused\n' '\xef\xbb\xbfa:1:2:\na:1:2:x\n' --located --base http://h/ -
of_input 1 "-:1:1: $scheme\n" 'urlcheck: 1 line, 1 refused\n' '1:2:3:4:x' -
# LINE is the first number that is between two colons, or between one and the end: a port before a path isn't one.
of_input 1 "-:1:1: $(form_of 'LINE is missing')\n-:2:1: $no_column\n-:3:1: $no_column\n-:4:1: $(form_of 'LINK is missing')\n" \
    'urlcheck: 4 lines, 4 refused\n' 'http://h:80/\na:1\na:1:b:2:3\na:1:2\n' --located -
printf 'a:1:2:b\n' >"$room/located"
expect 1 "a:1:2: $scheme\nother.txt:1:1: $(form_of 'LINE is missing')\n" 'urlcheck: 2 lines, 2 refused\n' lint --located located other.txt
"$program" lint --located </dev/null >"$room/out" 2>"$room/err"
ended=$?
count=$((count + 1))
[ $ended = 2 ] || fail "lint --located without a file: status $ended"

# Before a link that says where it is the columns that the line gives are of the same unit; a tab goes on to a stop of
# the file's line, here the column 57.
for unit in code-points,50,51 bytes,53,54 utf16,51,52 screen,51,57; do
    IFS=, read -r name tab space <<<"$unit"
    of_input 1 "a.md:3:$tab: error: [code-point]
a.md:3:$space: error: [code-point]\n" 'urlcheck: 1 line, 1 refused\n' \
        'a.md:3:40:http://h/\xf0\x9f\x98\x80\t ' --all --located --columns "$name" -
done

# Hostile names and links with their places, in each format, and read by readers that aren't ours.
python3 "$here/located_readers.py" "$room" make
for format in json caret; do
    (cd "$room" && "$program" lint --all --quiet --format $format alone.txt) >"$room/alone.$format" 2>"$room/err"
    ends_with 1 $? '' "links alone as $format"
done
for format in gnu caret json github sarif checkstyle junit gitlab rdjson; do
    (cd "$room" && "$program" lint --all --quiet --located --format $format located.txt) >"$room/located.$format" 2>"$room/err"
    ends_with 1 $? '' "located links as $format"
done
count=$((count + 1))
located_readers=(python3 "$here/located_readers.py" "$room" read)
"${located_readers[@]}" >"$room/out" 2>&1 || fail "readers of located links: $(cat "$room/out")"
sees_spoiled 'located links' located located_readers 'gnu s/:12:34: error/:12:35: error/' 'caret s/^ \( *\)^$/\1^/' \
    'json s/"column":34,/"column":35,/' 'github s/col=34,/col=35,/' 'sarif s/"startColumn":34,/"startColumn":35,/' \
    'checkstyle s/column="34"/column="35"/' 'junit s/name="12:34 /name="12:35 /' 'gitlab s/"begin":12}/"begin":13}/' \
    'rdjson s/"line":12}/"line":13}/g'
rm -f "$room"/located* "$room"/alone.*

# Memory is flat: a million lines, of which each hundredth is wrong, in an address space of 10 MB.
awk 'BEGIN { for (n = 1; n <= 1000000; n++) print (n % 100 ? "https://example.com/" n "/a?b" : "http://h/a b") }' \
    >"$room/million"
if has prlimit 1; then
    prlimit --as=10000000 "$program" lint "$room/million" >"$room/out" 2>"$room/err"
    ends_with 1 $? 'urlcheck: 1000000 lines, 10000 refused\n' 'lint of a million lines'
    [ "$(wc -l <"$room/out")" = 10000 ] || fail "lint of a million lines: $(wc -l <"$room/out") diagnostics"
    [[ $(tail -n 1 "$room/out") = "$room/million:1000000:11: error: "*' [code-point]' ]] ||
        fail "lint of a million lines: it ends with $(tail -n 1 "$room/out")"
fi
rm -f "$room/million" "$room"/hostile.* "$room"/none.*
all_cases 265
