# Runs over files of vectors. The four files of the repository pass.
vectors=$(dirname "$here")/vectors
expect 0 'vectors 109 pass 109 fail 0\n' '' vectors "$vectors/standard.json"
expect 0 'vectors 221 pass 221 fail 0\n' '' vectors "$vectors/parser.json"
expect 0 'vectors 597 pass 597 fail 0\n' '' vectors "$vectors/urls.json"
expect 0 'vectors 3781 pass 3781 fail 0\n' '' vectors "$vectors/uts46.json"

# The cases under the standard profile whose domain ends with a dot, and isn't a reason to refuse them, are those that root_dot.tsv names.
python3 - "$vectors" >"$room/out" <<'END'
import json, os, re, sys
print("file\tcase")
for name in ("standard.json", "urls.json", "uts46.json"):
    with open(os.path.join(sys.argv[1], name), encoding="utf-8") as file:
        for number, case in enumerate(json.load(file), start=1):
            host = re.match("(?:(?:https?|wss?|ftp|file):)?//([^/?#:]*)", case.get("text", case["input"]))
            is_of_host = case.get("rule") in ("host-domain", "host-number")
            if host and host[1].endswith(".") and "profile" not in case and not is_of_host:
                print(name, number, sep="\t")
END
count=$((count + 1))
cmp -s "$room/out" "$vectors/root_dot.tsv" || fail 'root_dot.tsv: other cases have a dot at the end of their domain'

# vector_file TEXT : a file in the room that has this text, read with escapes
vector_file() { printf '%b' "$1" >"$room/vectors.json"; }

# no_case NUMBER REASON : the line on standard error about a value that isn't a case
no_case() { printf '%s' "urlcheck: vector $1: $2\\nvector $1 malformed\\n"; }
either='it has to have either "text" or both "place" and "rule"'
object='it has to be an object with "input" and "text", or "input", "place" and "rule"'
digits='"place" has to be a number in digits alone, below 2^64'

# The cases that fail are named, and a case that is malformed keeps all others from being checked.
vector_file '[{"input":"urn:a","text":"urn:a"},{"input":"x","place":0,"rule":"no-scheme"},{"input":"http://h:65536/","text":"http://h/"}]'
expect 1 'fail 3\nvectors 3 pass 2 fail 1\n' '' vectors vectors.json
vector_file '[]'
expect 0 'vectors 0 pass 0 fail 0\n' '' vectors vectors.json
vector_file '[{"input":"urn:a","text":"x"},{"input":"x","place":-1,"rule":"no-scheme"},{"input":"x"}]'
expect 2 '' "$(no_case 2 "$digits")" vectors vectors.json

vector_file '[{"input":"urn:a","text":"urn:a"},{"input":"x","place":0,"rule":"no-scheme"},
{"input":"http://x_y/","text":"http://x_y/"},{"input":"#f","base":"http://x_y/","profile":"wide","text":"http://x_y/#f"}]'
expect 1 'fail 3\nvectors 4 pass 3 fail 1\n' '' vectors vectors.json

# The profile that a case names checks it, and a name that no profile has makes the case malformed.
vector_file '[{"input":"http://x_y/","profile":"wide","text":"http://x_y/"},{"input":"http://x_y/","place":7,"rule":"host-domain"}]'
expect 0 'vectors 2 pass 2 fail 0\n' '' vectors vectors.json
vector_file '[{"input":"http://1.2/","profile":"parser","text":"http://1.0.0.2/"},{"input":"http://1.2/","profile":"wide","text":"http://1.0.0.2/"},{"input":"#f","base":"urn:a b","profile":"parser","text":"urn:a b#f"},{"input":"#f","base":"urn:a b","text":"urn:a b#f"}]'
expect 1 'fail 2\nfail 4\nvectors 4 pass 2 fail 2\n' '' vectors vectors.json
vector_file '[{"input":"urn:a","profile":"Wide","text":"urn:a"}]'
expect 2 '' "$(no_case 1 '"profile" has to be "standard", "wide" or "parser"')" vectors vectors.json

# Cases that fail: against a base that is refused, where `null` isn't one; with another text, a refusal for a text, another
# place, another rule; and at a place beyond all texts.
vector_file '[{"input":"#t","base":"urn:a","text":"urn:a#t"},{"input":"urn:a","base":"x","text":"urn:a"},
{"input":"urn:a","base":null,"text":"urn:a"}]'
expect 1 'fail 2\nvectors 3 pass 2 fail 1\n' '' vectors vectors.json
vector_file '[{"input":"urn:a","text":"urn:A"},{"input":"urn:a","place":0,"rule":"no-scheme"},
{"input":"x","place":1,"rule":"no-scheme"},{"input":"x","place":0,"rule":"percent"},
{"input":"x","base":"http://","place":0,"rule":"no-scheme"}]'
expect 1 'fail 1\nfail 2\nfail 3\nfail 4\nfail 5\nvectors 5 pass 0 fail 5\n' '' vectors vectors.json
vector_file '[{"input":"x","place":18446744073709551615,"rule":"no-scheme"}]'
expect 1 'fail 1\nvectors 1 pass 0 fail 1\n' '' vectors vectors.json

# The standard profile checks where a case names none, and otherwise the named one, the base too.
vector_file '[{"input":"http://x_y/","place":7,"rule":"host-domain"},{"input":"#f","base":"http://x_y/","text":"http://x_y/#f"}]'
expect 1 'fail 2\nvectors 2 pass 1 fail 1\n' '' vectors vectors.json
vector_file '[{"input":"http://x_y/","profile":"wide","text":"http://x_y/"},
{"input":"#f","base":"http://x_y/","profile":"wide","text":"http://x_y/#f"},
{"input":"http://x_y/","profile":"standard","place":7,"rule":"host-domain"},
{"input":"#f","base":"http://x_y/","profile":"standard","text":"http://x_y/#f"},
{"input":"http://x_y/","profile":"wide","place":7,"rule":"host-domain"},
{"input":"http://1.2/","profile":"parser","text":"http://1.0.0.2/"},
{"input":"http://1.2/","profile":"wide","place":7,"rule":"host-number"},
{"input":"#f","base":"urn:a b","profile":"parser","text":"urn:a b#f"},
{"input":"#f","base":"urn:a b","profile":"wide","text":"urn:a b#f"}]'
expect 1 'fail 4\nfail 5\nfail 9\nvectors 9 pass 6 fail 3\n' '' vectors vectors.json

# A key that is given more than once has its last value.
vector_file '[{"input":"x","input":"urn:a","text":1,"text":"urn:a"}]'
expect 0 'vectors 1 pass 1 fail 0\n' '' vectors vectors.json

# malformed NUMBER REASON FILE.. : the value with this number is the first of each of these files that isn't a case
malformed() {
    local number=$1 reason=$2 text
    shift 2
    for text in "$@"; do
        vector_file "$text"
        expect 2 '' "$(no_case "$number" "$reason")" vectors vectors.json
    done
}
malformed 1 "$object" '[1]' '[[]]'
malformed 2 "$object" '[{"input":"urn:a","text":"x"},1,{}]'
malformed 1 "$either" '[{"input":"a"}]'
malformed 2 "$digits" '[{"input":"urn:a","text":"urn:a"},{"input":"x","place":-1,"rule":"no-scheme"}]'
malformed 2 "$either" '[{"input":"urn:a","text":"x"},{"input":"x"},{"input":"y"}]'

# What a case may not be: with other keys, values of another kind, a place that isn't only digits, or the name of no
# rule or profile.
malformed 1 '"rule" has to be the name of a rule' '[{"input":"x","place":0,"rule":"none"}]' \
    '[{"input":"x","place":0,"rule":1}]' \
    '[{"input":"x","place":0,"rule":"No-Scheme"}]'
malformed 1 "$either" '[{"input":"x","text":"x","place":0,"rule":"no-scheme"}]' \
    '[{"input":"x","text":"x","rule":"no-scheme"}]' \
    '[{"input":"x","place":0}]' \
    '[{"input":"x","rule":"no-scheme"}]'
malformed 1 '"input" has to be a string' '[{"text":"x"}]' '[{"input":1,"text":"x"}]'
malformed 1 '"text" has to be a string' '[{"input":"x","text":null}]' '[{"input":"x","text":"urn:a","text":1}]'
malformed 1 '"base" has to be a string or null' '[{"input":"x","text":"x","base":1}]'
malformed 1 '"profile" has to be "standard", "wide" or "parser"' '[{"input":"x","text":"x","profile":"Wide"}]' \
    '[{"input":"x","text":"x","profile":"silent"}]' \
    '[{"input":"x","text":"x","profile":null}]'
no_key='is no key of a case, which may have "input", "base", "profile", "text", "place" and "rule" alone'
malformed 1 "\"comment\" $no_key" '[{"input":"x","text":"x","comment":"x"}]' '[{"comment":null}]' '[{"comment":1,"text":1}]'
malformed 1 "$digits" '[{"input":"x","place":"0","rule":"no-scheme"}]' \
    '[{"input":"x","place":-0,"rule":"no-scheme"}]' \
    '[{"input":"x","place":0.0,"rule":"no-scheme"}]' \
    '[{"input":"x","place":1e0,"rule":"no-scheme"}]' \
    '[{"input":"x","place":18446744073709551616,"rule":"no-scheme"}]'

# A key that no case has: the first in the order of bytes, however it is spelt, one with a control, and one of 81 bytes,
# of which 77 are shown. It is named before all else that is wrong with its value.
malformed 3 "\"bass\" $no_key" '[{"input":"urn:a","text":"urn:a"},{"input":"x","place":0,"rule":"no-scheme"},{"input":"x","zoo":1,"bass":null,"text":"x"}]'
malformed 1 "\"Input\" $no_key" '[{"Input":"x","text":"x"}]'
malformed 1 "\"\" $no_key" '[{"input":"x","text":"x","":0}]'
malformed 1 "\"a\\0357\\0277\\0275[2J\" $no_key" '[{"a\\u001b[2J":0}]'
malformed 1 "\"$(printf 'k%.0s' {1..80})\" $no_key" "[{\"$(printf 'k%.0s' {1..80})\":0}]"
malformed 1 "\"$(printf 'k%.0s' {1..77})...\" $no_key" "[{\"$(printf 'k%.0s' {1..81})\":0}]"

# not_json LINE COLUMN WHY FILE.. : each of these files isn't JSON, for this reason and at this place
not_json() {
    local place="line $1, column $2: $3" text
    shift 3
    for text in "$@"; do
        vector_file "$text"
        expect 2 '' "urlcheck: vectors.json: $place\\nvectors not json\\n" vectors vectors.json
    done
}

# A text that is cut: the place is after its last code point.
cut='the file ends before its JSON does'
not_json 1 1 "$cut" ''
not_json 1 2 "$cut" '['
not_json 2 1 "$cut" '\n' '[1,\n'
not_json 1 34 "$cut" '[{"input":"urn:a","text":"urn:a"}'
not_json 1 6 "$cut" '["abc' '{"a":' '["\xc3\xa9bc'

# What can't be read: a comma or a value too many, a value or a colon too few, no name of JSON's, a number that begins with
# 0, a byte order mark, a lone surrogate and a line feed in a string, and text after the value. Columns are code points.
unreadable="this can't be read as JSON"
not_json 1 4 "$unreadable" '[1,]' '[] []' '[1 2]' '[1]]'
not_json 1 3 "$unreadable" '[][]'
not_json 1 2 "$unreadable" '[01]' '["\\ud800"]' '["a\nb"]' '[nul]' '{a:1}' '[.5]'
not_json 1 1 "$unreadable" '\xef\xbb\xbf[]' 'x'
not_json 2 21 "$unreadable" '[\n  {"input": "urn:a" "text": "urn:a"}\n]\n'
not_json 3 9 "$unreadable" '[\n{"input":"x",\n "text" "urn:a"}]'
not_json 1 16 "$unreadable" '[{"input":"\xc3\xa9\xe6\x97\xa5",}]' '[{"input":"x"} {"input":"y"}]'
not_json 2 25 "$unreadable" '[\n{"input": "a\xc3\xa9", "text": x}\n]'
not_json 3 2 "$unreadable" '[]\n\n x'

# What isn't UTF-8 is named before all else, a number beyond floats by what is after it, and of arrays that are too deep the
# limit.
not_json 1 3 "this isn't UTF-8" '["\xff"]' '["\xff' '[[\xff[x'
not_json 2 2 "this isn't UTF-8" '[\xc3\xa9\n"\xc3"]'
not_json 1 7 "$unreadable" '[1e999]'
head -c 1000000 /dev/zero | tr '\0' '[' >"$room/vectors.json"
too_deep='urlcheck: vectors.json: at most 127 arrays and objects may be within one another\nvectors not json\n'
expect 2 '' "$too_deep" vectors vectors.json
# nested COUNT INNER : a file with so many arrays and objects within one another, and this text in the innermost array
nested() {
    { printf '[{"":%.0s' $(seq $(($1 / 2))); printf '[%.0s' $(seq $(($1 % 2))); printf '%s' "$2"; } >"$room/vectors.json"
}
nested 127 '"\"[[[["x'
expect 2 '' "urlcheck: vectors.json: line 1, column $(wc -c <"$room/vectors.json"): $unreadable\\nvectors not json\\n" vectors vectors.json
nested 129 ''
expect 2 '' "$too_deep" vectors vectors.json

# The name of the file is shown as a terminal may have it.
printf '[' >"$room/$(printf 'a\033b')"
if has_file $'a\eb'; then
    expect 2 '' "urlcheck: a\\0357\\0277\\0275b: line 1, column 2: $cut\\nvectors not json\\n" vectors "$(printf 'a\033b')"
fi
rm -f "$room/$(printf 'a\033b')"

# JSON texts that aren't array.
for text in '{"input":"urn:a","text":"urn:a"}' '{}' null '"[]"'; do
    vector_file "$text"
    expect 2 '' 'urlcheck: vectors.json: it has to be an array of cases\nvectors not an array\n' vectors vectors.json
done

# A file of the most bytes is read; one of a byte more, and one of 17 MB, are too large, whatever they hold.
too_large='urlcheck: vectors.json: it may have at most 16777216 bytes\nvectors too large\n'
{ printf '[]'; head -c 16777214 /dev/zero | tr '\0' ' '; } >"$room/vectors.json"
expect 0 'vectors 0 pass 0 fail 0\n' '' vectors vectors.json
printf ' ' >>"$room/vectors.json"
expect 2 '' "$too_large" vectors vectors.json
head -c 17000000 /dev/zero >"$room/vectors.json"
expect 2 '' "$too_large" vectors vectors.json

# A hundred thousand cases, of which each thousandth fails.
{
    printf '['
    seq 1 100000 | awk '{ printf "%s{\"input\":\"http://h/%d\",\"text\":\"http://h/%s\"}", (NR > 1 ? "," : ""), $1, ($1 % 1000 ? $1 : "x") }'
    printf ']'
} >"$room/vectors.json"
expect 1 "$(seq 1000 1000 100000 | sed 's/^/fail /; s/$/\\n/' | tr -d '\n')vectors 100000 pass 99900 fail 100\\n" '' vectors vectors.json

# A file that isn't there, a folder, a path through a file, and a file whose first read fails: memory at address 0.
expect 3 '' "urlcheck: missing.json: can't be read: there is no such file\\nread\\n" vectors missing.json
expect 3 '' "urlcheck: .: can't be read: it is a folder\\nread\\n" vectors .
expect 3 '' "urlcheck: '': can't be read: there is no such file\\nread\\n" vectors ''
if has posix_paths 1; then
    expect 3 '' "urlcheck: vectors.json/x: can't be read: a part of its path is no folder\\nread\\n" \
        vectors vectors.json/x
fi
if has proc 1; then expect 3 '' "urlcheck: /proc/self/mem: can't be read\\nread\\n" vectors /proc/self/mem; fi

# The file is opened by the very name that was given, and the system follows `..`.
for name in 'two  words ' ' leads' 'a%20b' 'a:b' 'a#b' 'a\b' Upper "$(printf 'n%.0s' {1..255})" $'\u00e9\u4e2d' $'ends\n' \
    "$(printf './%.0s' {1..2000})long"; do
    has_file "$name" || continue
    printf '[]' >"$room/$name"
    expect 0 'vectors 0 pass 0 fail 0\n' '' vectors -- "$name"
    rm -f -- "$room/$name"
done
if has posix_paths 2; then
    expect 3 '' "urlcheck: vectors.json/: can't be read: a part of its path is no folder\\nread\\n" vectors vectors.json/
    expect 3 '' "urlcheck: missing/../vectors.json: can't be read: there is no such file\\nread\\n" \
        vectors missing/../vectors.json
fi

# A file that may not be read. Root may read every file, so root runs the program as nobody.
if has file_modes 1; then
    chmod 755 "$room"
    cp "$program" "$room/program"
    chmod 000 "$room/vectors.json"
    (cd "$room" && as_nobody ./program vectors vectors.json) >"$room/out" 2>"$room/err"
    ends_with 3 $? "urlcheck: vectors.json: can't be read: permission denied\\nread\\n" 'vectors, of a file that may not be read'
    rm -f "$room/vectors.json"
fi

# The output can't be written.
vector_file '[]'
(cd "$room" && "$program" vectors vectors.json) >/dev/full 2>"$room/err"
ends_with 3 $? "${no_space}write\\n" 'vectors, into a full device'

all_cases 117
