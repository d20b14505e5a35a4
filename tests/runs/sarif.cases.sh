# Documents of SARIF, read by a reader of JSON, and what SARIF 2.1.0 says of their members.
# in_sarif WHAT WORD.. : the document of a lint with these words has at each pointer (RFC 6901) of standard input,
# `POINTER VALUE` in JSON, this value, or none where the value is missing
in_sarif() {
    local what=$1
    shift
    (cd "$room" && "$program" lint --format sarif --quiet "$@") >"$room/out" 2>"$room/err"
    count=$((count + 1))
    python3 -c '
import json, sys

def found(value, pointer):
    for name in pointer.split("/")[1:]:
        try:
            value = value[int(name)] if isinstance(value, list) else value[name]
        except (IndexError, KeyError):
            return None
    return value

document = json.load(open(sys.argv[1], encoding="utf-8"))
for row in sys.stdin.read().splitlines():
    pointer, _, wanted = row.partition(" ")
    value = found(document, pointer)
    if value != (json.loads(wanted) if wanted else None):
        sys.exit("{} is {}".format(pointer, value))
' "$room/out" >"$room/said" 2>&1 || fail "SARIF of $what: $(cat "$room/said" "$room/err")"
    rm -f "$room/said"
}
mkdir "$room/a b"
printf 'urn:a\nurn:a\nhttp://a_b/\nhttp://a_b/\n' >"$room/a b/"$'\xc3\xa9.md'
in_sarif 'two results' "a b/"$'\xc3\xa9.md' <<'ROWS'
/version "2.1.0"
/runs/0/columnKind "unicodeCodePoints"
/runs/0/tool/driver/name "urlcheck"
/runs/0/tool/driver/rules/0/id "not-utf8"
/runs/0/tool/driver/rules/1/id "line-too-long"
/runs/0/tool/driver/rules/2/id "not-located"
/runs/0/tool/driver/rules/7/id "host-domain"
/runs/0/tool/driver/rules/16/id "percent"
/runs/0/tool/driver/informationUri
/runs/0/tool/driver/rules/0/helpUri
/runs/0/tool/driver/rules/7/helpUri "https://url.spec.whatwg.org/#valid-domain-string"
/runs/0/tool/driver/rules/10/fullDescription/text "Under a scheme that isn't special a host has URL units, but no forbidden host code points."
/runs/0/results/0/ruleIndex 7
/runs/0/results/0/level "error"
/runs/0/results/0/fixes
/runs/0/results/0/locations/0/physicalLocation/region/startLine 3
/runs/0/results/0/locations/0/physicalLocation/region/startColumn 8
/runs/0/results/0/partialFingerprints {"urlcheckText/v1": "fda428217e20ecb1ca51b58ca5e3aec637890cc68db7f7359427e54b248268b7"}
/runs/0/results/1/partialFingerprints {"urlcheckText/v1": "fda428217e20ecb1ca51b58ca5e3aec637890cc68db7f7359427e54b248268b7"}
/runs/0/results/1/ruleId "host-domain"
/runs/0/results/1/level "error"
/runs/0/results/1/message/text "U+005F LOW LINE is not allowed in a domain; --profile wide allows it"
/runs/0/results/1/properties/text "http://a_b/"
/runs/0/results/1/locations/0/physicalLocation/artifactLocation/uri "a%20b/%C3%A9.md"
/runs/0/results/2
/runs/0/invocations/0/executionSuccessful true
/runs/0/invocations/0/toolExecutionNotifications
ROWS
rm -r "$room/a b"
printf 'a b:3:40:http://h/a b\nf:4:1:foo:a b\nf:5:1:http:a\nf:6:1:http://a_b/\n' >"$room/list"
in_sarif 'fixes' --located --base http://h/ list <<'ROWS'
/runs/0/results/0/locations/0/physicalLocation/region {"endColumn": 51, "startColumn": 50, "startLine": 3}
/runs/0/results/0/fixes/0/description/text "write the same URL as a valid URL string"
/runs/0/results/0/fixes/0/artifactChanges/0/artifactLocation/uri "a%20b"
/runs/0/results/0/fixes/0/artifactChanges/0/replacements/0/insertedContent/text "http://h/a%20b"
/runs/0/results/0/fixes/0/artifactChanges/0/replacements/0/deletedRegion/startLine 3
/runs/0/results/0/fixes/0/artifactChanges/0/replacements/0/deletedRegion/startColumn 40
/runs/0/results/0/fixes/0/artifactChanges/0/replacements/0/deletedRegion/endColumn 52
/runs/0/results/1/fixes/0/description/text "percent-encode what is not allowed in a URL string"
/runs/0/results/2/fixes/0/description/text "write a valid URL string, which may be another URL"
/runs/0/results/3/level "error"
/runs/0/results/3/fixes
ROWS
link=http://h/$(head -c 65526 /dev/zero | tr '\0' a)
printf '%s \n' "$link" >"$room/list"
in_sarif 'the longest line' list <<<'/runs/0/results/0/locations/0/physicalLocation/region/startColumn 65536'
printf 'urn:a\n' >"$room/list"
in_sarif 'no result' list <<'ROWS'
/runs/0/results []
/runs/0/columnKind "unicodeCodePoints"
/runs/0/invocations/0/executionSuccessful true
/runs/0/invocations/0/toolExecutionNotifications
ROWS
in_sarif 'UTF-16' --columns utf16 list <<<'/runs/0/columnKind "utf16CodeUnits"'
in_sarif 'a file that is missing' missing list <<'ROWS'
/runs/0/invocations/0/executionSuccessful false
/runs/0/invocations/0/toolExecutionNotifications/0/message/text "a file can't be read, which standard error names"
ROWS
# The reader finds no result where there is none.
count=$((count + 1))
if (fail() { exit 1; }; in_sarif 'no result' list <<<'/runs/0/results/0/level "error"'); then
    fail 'the reader of SARIF finds what is not there'
fi
rm -f "$room/said"

all_cases 7
