# Jobs over the standard input with many options at once, in any order, and names that are refused before it is read.

# does STATUS STDOUT STDERR TEXT WORD.. : a run with these words, of a standard input with this text, ends so
does() {
    local status=$1 stdout=$2 stderr=$3 text=$4
    shift 4
    printf '%b' "$text" | (cd "$room" && "$program" "$@") >"$room/out" 2>"$room/err"
    ends_with "$status" $? "$stderr" "$*"
    if ! wrote "$stdout" "$room/out"; then fail "$*: it wrote: $(cat "$room/out")"; fi
}

# A lint: the input is read once, in its place among the files, and a file that isn't there keeps none back.
wrong='-:2:1: error: [no-scheme]\n'
does 1 "$wrong" 'urlcheck: 2 lines, 1 refused\n' 'urn:a\nx\n' lint -
does 2 "$wrong" "urlcheck: no/such/file: can't be read: there is no such file\nurlcheck: 2 lines, 1 refused, 1 file not read\n" \
    'urn:a\nx\n' lint no/such/file --format gnu - -
does 0 '' 'urlcheck: 2 lines, 0 refused\n' 'urn:a\nx\n' lint --base http://h/ -

# A name after `--` is a file's, even an empty one and one that begins as an option.
printf 'x\n' | tee "$room/a" >"$room/--all"
scheme='1:1: error: [no-scheme]\n'
does 2 "a:$scheme--all:$scheme" "urlcheck: '': can't be read: there is no such file\nurlcheck: 2 lines, 2 refused, 1 file not read\n" '' \
    lint a -- --all ''
rm -f "$room/a" "$room/--all"

# All options of a lint: the base and one of the links are valid only under the wide profile.
printf 'http://x_y//a b\n' >"$room/a b"
space='"message":"U+0020 SPACE is not allowed in a URL","offered":true,"rule":"code-point"'
says='"message":"U+0025 PERCENT SIGN has to be followed by two hex digits"'
percent="$says,\"rule\":\"percent\""
does 1 "{\"column\":2,\"cut\":false,\"file\":\"-\",\"kind\":\"escaped\",\"line\":1,\"mended\":\"c%20d%25g4\",$space,\"text\":\"c d%g4\"}
{\"column\":4,\"cut\":false,\"file\":\"-\",\"line\":1,$percent,\"text\":\"c d%g4\"}
{\"column\":14,\"cut\":false,\"file\":\"a b\",\"kind\":\"same\",\"line\":1,\"mended\":\"http://x_y//a%20b\",$space,\"text\":\"http://x_y//a b\"}
" '' 'c d%g4\n' lint - --base=http://x_y// --all --wide --format json --quiet 'a b'
rm -f "$room/a b"
printf 'q:2:8:\xe6\x97\xa5 e\n' >"$room/a b"
printf 'r:3:1:%%g4\n' >"$room/--all"
does 1 "{\"column\":12,\"cut\":false,\"file\":\"p\",\"kind\":\"escaped\",\"line\":1,\"mended\":\"http://h_/c%20d%25g4\",\
$space,\"text\":\"http://h_/c d%g4\"}
{\"column\":14,\"cut\":false,\"file\":\"p\",\"line\":1,$percent,\"text\":\"http://h_/c d%g4\"}
{\"column\":10,\"cut\":false,\"file\":\"q\",\"kind\":\"same\",\"line\":2,\"mended\":\"\xe6\x97\xa5%20e\",$space,\
\"text\":\"\xe6\x97\xa5 e\"}
{\"column\":1,\"cut\":false,\"file\":\"r\",\"kind\":\"escaped\",\"line\":3,\"mended\":\"%25g4\",$says,\"offered\":true,\"rule\":\"percent\",\"text\":\"%g4\"}
" '' 'p:1:1:http://h_/c d%g4\n' lint - --base=http://h/ --all --wide --format json --columns=screen --located \
    --stdin-name=n --quiet 'a b' -- --all
rm -f "$room/a b" "$room/--all"

# Columns: before the space are U+00E9, of two bytes, and in the first link U+65E5, which is wide.
does 1 'page:3:12: error: [code-point]\n' 'urlcheck: 1 line, 1 refused\n' \
    'page:3:5:urn:\xc3\xa9\xe6\x97\xa5 \n' lint --columns=screen - --located
does 1 '-:1:7: error: [code-point]\n' 'urlcheck: 1 line, 1 refused\n' \
    'urn:\xc3\xa9 ' lint --columns bytes -

# Names of no format and of no column unit, and which of them is told of where both are such: nothing is read.
does 2 '' "urlcheck: no format is named 'GNU'; the nearest is gnu
urlcheck: the formats: gnu caret json github sarif checkstyle junit gitlab rdjson\nwords\n" 'x\n' lint --columns byte --format GNU -
does 2 '' "urlcheck: no column unit is named ''\nurlcheck: the column units: code-points bytes utf16 screen\nwords\n" 'x\n' \
    lint --format sarif --columns= -
does 2 '' "$(no_base 0 no-scheme 'it has no scheme')" 'x\n' lint --base x -

# A filter of lines: a valid one, one whose mended text is the same URL, one whose mended text has escapes, and one that
# has none. Each mended text is written, or only those that are the same URL, and the counts are said or not.
list='http://h/a\nhttp://h/a b\r\nhttp://h/a|b\nhttp://h:x/'
does 1 'http://h/a\nhttp://h/a%20b\r\nhttp://h/a%7Cb\nhttp://h:x/' \
    'urlcheck: 4 lines, 2 mended (1 same, 1 escaped, 0 changed), 1 refused\n' "$list" mend
does 1 'http://h/a\nhttp://h/a%20b\r\nhttp://h/a|b\nhttp://h:x/' '' "$list" mend --only same -q
does 0 a%20b 'urlcheck: 1 line, 1 mended (1 same, 0 escaped, 0 changed), 0 refused\n' 'a b' mend --base http://h/
does 1 'http://h_/%20a\nb|c\nd%20e\n' '' 'http://h_/ a\nb|c\nd e\n' mend --only same -q --base=http://k_/ --wide
does 1 'c%20d\nhttp://h/a|b\n' '' 'c d\nhttp://h/a|b\n' mend --only same -q --base=http://a%2Db/ --profile parser
does 2 '' "urlcheck: no kind is named 'Same'; the nearest is same\nurlcheck: the kinds: same escaped changed\nwords\n" \
    'http://h/ a\n' mend --only Same
does 2 '' "$(no_base 0 no-scheme 'it has no scheme')" 'a b\n' mend --base x
all_cases 18
