# The explanations of the rules: they and docs/rules say the same, and each example is refused and mended as its
# explanation says.

top=$(dirname "$(dirname "$here")")
"$program" explain >"$room/explained" 2>"$room/err"
ends_with 0 $? '' 'explain'

# mended_text BASE.. -- TEXT : the text that mend writes in place of another one, or nothing
mended_text() { "$program" mend "$@" 2>/dev/null | awk 'NR == 1 { is = $1 == "mended" } NR == 2 && is'; }

# accepted_under BASE.. -- TEXT : the first of the wider profiles that accepts a text, or nothing
accepted_under() {
    local profile
    for profile in wide parser; do
        if "$program" check --profile $profile "$@" >"$room/out" 2>&1; then echo $profile && return; fi
    done
}

# What each rule requires, and its example: RULE|REQUIRES|BASE|TEXT|PLACE|MEANT, from sections 3.4, 3.5 and 4.3 of the URL
# Standard. A row gets what mend writes, if that isn't the text that is meant, and the profile that accepts the text.
while IFS='|' read -r name asks base text place meant; do
    against=()
    [ -z "$base" ] || against=(--base "$base")
    expect 1 "refused $place $name\\n" '' check "${against[@]}" -- "$text"
    "$program" check "${against[@]}" -- "$meant" >"$room/out" 2>"$room/err"
    ends_with 0 $? '' "the meant example of $name"
    mended=$(mended_text "${against[@]}" -- "$text")
    [ "$mended" != "$meant" ] || mended=
    echo "$name|$asks|$base|$text|$place|$meant|$mended|$(accepted_under "${against[@]}" -- "$text")" >>"$room/rows"
done <<'ROWS'
no-scheme|A text that is read without a base begins with a scheme and a colon.||example.com/a|0|https://example.com/a
opaque-base|Against a base whose path is opaque, a text without a scheme is # and a fragment, and nothing else.|urn:isbn:0451450523|x|0|#x
two-slashes|The schemes ftp, http, https, ws, wss and file are followed by a colon and //.||http:/example.com/|6|http://example.com/
host-missing|After //, ftp, http, https, ws and wss have a host, file a host or a path, and a port follows a host.||https:///example.com/a|8|https://example.com/a
host-domain|A domain consists of letters, digits and inner hyphens, in labels of 1 to 63 that ToASCII of UTS 46 accepts.||http://a..b/|7|http://a.b/
host-number|A host that ends in a number is an IPv4 address: four decimal numbers up to 255 without leading zeros.||http://256.0.0.1/|7|http://255.0.0.1/
host-ipv6|A host in brackets is an IPv6 address: eight pieces of 1 to 4 hex digits, where :: stands for zeros.||http://[::1/|7|http://[::1]/
host-code-point|Under a scheme that isn't special a host has URL units, but no forbidden host code points.||foo://u@h/|7|foo://u%40h/
port-digit|A port consists of ASCII digits, and a URL string has no user name or password before its host.||http://h:8a/|10|http://h:80/
port-range|A port is at most 65535.||http://h:65536/|9|http://h:65535/
first-segment-empty|After an authority, a path whose first segment is empty has no other one: it doesn't begin with //.||https://example.com//a|20|https://example.com/a
drive-after-host|After the host of a file URL, the path doesn't begin with /, a drive letter and /.||file://h/C:/x|8|file:///C:/x
code-point|A path, query and fragment have URL code points and percent-escapes; all else is percent-encoded.||http://h/a b|10|http://h/a%20b
percent|A % is followed by two hex digits. To stand for itself, it is written %25.||http://h/100%|12|http://h/100%25
ROWS
names=$(cut -d '|' -f 1 "$room/rows")
count=$((count + 2))
[ "$(cut -d '|' -f 7 "$room/rows" | grep -c .)" = 2 ] || fail "explain: mend writes another text for $(cut -d '|' -f 1,7 "$room/rows")"
[ "$(cut -d '|' -f 8 "$room/rows" | grep -c .)" = 3 ] || fail "explain: a profile accepts $(cut -d '|' -f 1,8 "$room/rows")"

# What each is called, what is wrong and what it asks, of a line that isn't checked too, and its address, as SARIF tells.
echo a >"$room/any.txt"
"$program" lint --format sarif "$room/any.txt" >"$room/report" 2>/dev/null
long='A line has at most 65536 bytes. A longer link may be valid: check and the libraries have no such limit.'
located="A located line is FILE:LINE:COLUMN:LINK. FILE isn't empty; LINE and COLUMN are from 1 to 4294967295."
cat >"$room/lines" <<END
not-utf8|this line isn't UTF-8|A line is a text in UTF-8.
line-too-long|this line has more than 65536 bytes|$long
not-located|this line isn't FILE:LINE:COLUMN:LINK|$located
END

# wanted TABLE : the explanations of all rules, with their sentences and sections from this table
wanted() {
    python3 - "$room" "$top" "$1" <<'END'
import json, re, sys, textwrap

def read(*names):
    with open("/".join(names), encoding="utf-8") as file:
        return file.read()

def filled(text):
    return textwrap.fill(text, 80, break_long_words=False, break_on_hyphens=False)

room, top, table = sys.argv[1:]
cells = [re.split(r" *\| *", line.replace("`", "")) for line in read(table).splitlines()]
listed = [(re.sub(r"^\[(.*)\].*", r"\1", row[2]), row[3], row[4]) for row in cells if len(row) == 6 and row[1].isdigit()]
rules = json.loads(read(room, "report"))["runs"][0]["tool"]["driver"]["rules"]
address = {rule["id"]: rule.get("helpUri") for rule in rules}
rows = [line.split("|") for line in read(room, "rows").splitlines()]
told = [tuple(line.split("|")) for line in read(room, "lines").splitlines()]
texts = []
for (called, sentence, section), (name, asks, base, text, place, meant, mended, profile) in zip(listed, rows):
    page = " ".join(read(top, "docs/rules/{}.md".format(name)).split("\n\n")[1].split("\n"))
    assert page.startswith(asks + " "), page
    parts = ["{}: {}".format(called, sentence), filled(asks), filled(page[len(asks) + 1 :])]
    parts += ["Wrong, at place {}:".format(place), "    " + text, "Write instead:", "    " + meant]
    parts += ["The base of both: " + base] * bool(base)
    parts += ["The same URL, written validly: " + mended] * bool(mended)
    parts += ["Accepted under --profile " + profile] * bool(profile)
    texts.append("\n\n".join([*parts, "URL Standard, {}\n{}\n".format(section, address[name])]))
    told.append((called, sentence, asks))
print("\n\n".join(texts), end="")
found = [(it["id"], it["shortDescription"]["text"], it["help"]["text"], it["fullDescription"]["text"]) for it in rules]
assert found == [(*it, it[2]) for it in told], found
assert len(listed) == len(rows)
END
}
listed=$top/docs/rules/README.md
wanted "$listed" >"$room/wanted"
ends_with 0 $? '' 'the tables of rules'
cmp -s "$room/explained" "$room/wanted" || fail "explain: $(diff "$room/wanted" "$room/explained")"

# A table that says something else is found: another section, another sentence, a row less, two rows in another order.
differs() {
    count=$((count + 1))
    if cmp -s "$listed" "$2"; then fail "$1: the table stayed as it was"; fi
    ! wanted "$2" 2>/dev/null | cmp -s - "$room/explained" || fail "explain and a table with $1 are the same"
}
sed 's/4\.3, URL units/4.3, URL code points/' "$listed" >"$room/table"
differs 'another section' "$room/table"
sed 's/two hex digits have to/two digits have to/' "$listed" >"$room/table"
differs 'another sentence' "$room/table"
sed '/^| 14 |/d' "$listed" >"$room/table"
differs 'a row less' "$room/table"
awk -F '[|]' -v OFS='|' '$2 == " 13 " { row = $0; next } $2 == " 14 " { $2 = " 13 "; print; $0 = row; $2 = " 14 " } { print }' \
    "$listed" >"$room/table"
differs 'two rows in another order' "$room/table"

# A rule is explained by its name, and without one each is, in the order of the table, and two empty lines are between two.
expect 0 'opaque-base: there is no scheme, the base has an opaque path, and the text isn'\''t # and a fragment

Against a base whose path is opaque, a text without a scheme is # and a
fragment, and nothing else.

A base such as `mailto:` or `data:` has no path that a relative link could start
from.

Wrong, at place 0:

    x

Write instead:

    #x

The base of both: urn:isbn:0451450523

URL Standard, 4.3 and 4.4, no scheme state
https://url.spec.whatwg.org/#no-scheme-state\n' '' explain opaque-base
for name in $names; do
    [ $name = no-scheme ] || printf '\n\n'
    "$program" explain $name
done >"$room/each" 2>"$room/err"
ends_with 0 $? '' 'explain of each name'
cmp -s "$room/explained" "$room/each" || fail 'explain: each rule is explained otherwise than by its name'

# What may be wrong with a line besides the rules; and words that name nothing.
expect 0 "not-utf8: this line isn't UTF-8\n\nA line is a text in UTF-8.\n" '' explain not-utf8
expect 0 "line-too-long: this line has more than 65536 bytes\n
$(fold -s -w 80 <<<"$long" | sed 's/ $//')\n" '' explain line-too-long
expect 0 "not-located: this line isn't FILE:LINE:COLUMN:LINK\n
$(fold -s -w 80 <<<"$located" | sed 's/ $//')\n" '' explain not-located
rules="urlcheck: the rules: ${names//$'\n'/ } not-utf8 line-too-long not-located empty no-link"
for pair in 'PERCNT percent' 'percent_ percent' 'host-mising host-missing' 'codepoint code-point' 'not-utf-8 not-utf8' \
    'not-locatd not-located' 'emty empty' 'nolink no-link'; do
    word=${pair% *}
    expect 2 '' "urlcheck: no rule is named '${word/_/ }'; the nearest is ${pair#* }\\n$rules\\nwords\\n" explain "${word/_/ }"
done
expect 2 '' "urlcheck: no rule is named 'no-scheme\\0357\\0277\\0275'; the nearest is no-scheme\\n$rules\\nwords\\n" explain $'no-scheme\n'
for word in '' nothing os xhost 0 15 011 +1 1.0; do
    expect 2 '' "urlcheck: no rule is named '$word'\\n$rules\\nwords\\n" explain "$word"
done
# If no name is near, the names that begin so.
for pair in 'host host-missing host-domain host-number host-ipv6 host-code-point' 'NOT- not-utf8 not-located' 'p port-digit port-range percent'; do
    word=${pair%% *}
    expect 2 '' "urlcheck: no rule is named '$word'\\nurlcheck: the rules that begin so: ${pair#* }\\n$rules\\nwords\\n" explain "$word"
done

# A name in any case, and a rule's number, explain what the name does.
number=0
for name in $names; do
    number=$((number + 1))
    for word in $number ${name^^} ${name^}; do
        expect 0 "$("$program" explain $name | sed 's/\\/\\\\/g')\n" '' explain $word
    done
done
expect 0 "not-utf8: this line isn't UTF-8\n\nA line is a text in UTF-8.\n" '' explain Not-UTF8
# The rules of documents, as the Python package has their words.
for name in empty no-link; do
    sentence=$(python3 - "$top" $name <<'END'
import ast, sys, textwrap
tree = ast.parse(open(sys.argv[1] + "/bindings/python/urlcheck/_reports/rules.py", encoding="utf-8").read())
name = sys.argv[2].upper().replace("-", "_")
calls = [it for it in ast.walk(tree) if isinstance(it, ast.Call) and it.args and getattr(it.args[0], "id", "") == name]
sentence, asks = (it.value for it in calls[0].args[1:3])
print("{}\n\n{}".format(sentence, textwrap.fill(asks, 80, break_on_hyphens=False)))
END
)
    expect 0 "$name: $sentence\n" '' explain $name
    expect 0 '' '' explain --url $name
done

# Several names: one explanation after the other with two empty lines between, in the order of the names, also twice; and
# nothing where one of them isn't a name, of which each is told once.
several='percent not-utf8 no-scheme percent'
for name in $several; do "$program" explain "$name" >"$room/one.$name" 2>"$room/err"; done
printf '\n\n' >"$room/empty"
cat "$room/one.percent" "$room/empty" "$room/one.not-utf8" "$room/empty" "$room/one.no-scheme" "$room/empty" \
    "$room/one.percent" >"$room/several"
"$program" explain $several >"$room/out" 2>"$room/err"
ends_with 0 $? '' 'explain of several names'
cmp -s "$room/several" "$room/out" || fail "explain of several names: it wrote $(cat "$room/out")"
expect 2 '' "urlcheck: no rule is named 'percemt'; the nearest is percent\\nurlcheck: no rule is named 'nothing'\\n$rules\\nwords\\n" \
    explain no-scheme percemt nothing
expect 2 '' "urlcheck: no rule is named 'nothing'\\nurlcheck: no rule is named 'not'\\n\
urlcheck: the rules that begin so: not-utf8 not-located\\nurlcheck: no rule is named '\\0357\\0277\\0275'\\n$rules\\nwords\\n" \
    explain nothing not nothing percent $'\e' not
expect 2 '' "urlcheck: no rule is named 'nothing'\\n$rules\\nwords\\n" explain nothing percent

# The addresses of the sections of the URL Standard: as SARIF names them, in the order of the names, a line each, and none
# for what isn't a rule of the standard; without a name all rules by number; and nothing if one of the names is
# no rule's.
"$program" explain --url >"$room/addresses" 2>"$room/err"
ends_with 0 $? '' 'explain --url'
grep -o '"helpUri":"[^"]*"' "$room/report" | cut -d '"' -f 4 | cmp -s - "$room/addresses" || fail "explain --url: it wrote $(cat "$room/addresses")"
[ "$(wc -l <"$room/addresses")" = 14 ] || fail "explain --url: a rule has no address"
standard=https://url.spec.whatwg.org/
expect 0 "$(printf "$standard#%s\\\\n" relative-url-string no-scheme-state absolute-url-string valid-host-string valid-domain-string \
    ends-in-a-number-checker valid-ipv6-address-string valid-opaque-host-string url-port-string url-port-string path-absolute-url-string \
    path-absolute-non-windows-file-url-string url-code-points url-units)" '' explain --url
expect 0 "$standard#valid-host-string\n" '' explain --url host-missing
expect 0 "$standard#url-units\n$standard#relative-url-string\n$standard#url-units\n" '' \
    explain percent --url not-utf8 no-scheme percent
expect 0 '' '' explain --url line-too-long not-located
expect 2 '' "urlcheck: no rule is named 'percemt'; the nearest is percent\n$rules\nwords\n" explain --url percent percemt
expect 0 "$standard#url-units\n" '' explain --url -- percent

# The output can't be written.
for words in 'explain' 'explain percent' 'explain percent no-scheme' 'explain --url'; do
    "$program" $words >/dev/full 2>"$room/err"
    ends_with 3 $? "${no_space}write\\n" "$words to a full device"
done
all_cases 124
