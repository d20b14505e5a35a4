# Diagnostics of lists written out, word for word, from the rules of the URL Standard, section 4.3, and the documents of
# the formats.

# of_list STATUS STDOUT STDERR BYTES WORD.. : a lint with these words of a file named `list` with these bytes ends so
of_list() {
    local status=$1 stdout=$2 stderr=$3
    printf '%b' "$4" >"$room/list"
    shift 4
    expect "$status" "$stdout" "$stderr" lint "$@" list
}
# counted LINES REFUSED : what standard error says of so many lines
counted() { [ "$1" = 1 ] && echo "urlcheck: 1 line, $2 refused\\n" || echo "urlcheck: $1 lines, $2 refused\\n"; }
domain='error: [host-domain]'
utf8="error: this line isn't UTF-8 [not-utf8]"
scheme='error: [no-scheme]'
space='error: [code-point]'
credentials='error: [host-domain]'
percent='error: [percent]'
slashes='error: [two-slashes]'
document='<?xml version="1.0" encoding="UTF-8"?>\n<checkstyle version="4.3">\n'

# An empty line, a CR before LF, a byte that isn't UTF-8, a last line without LF, and a CR that stays.
of_list 1 "list:3:8: $domain\nlist:4:1: $utf8\nlist:6:1: $scheme\n" "$(counted 4 3)" \
    'http://h/\n\nhttp://x_y/\r\n\xff\n\r\nb'
of_list 0 '' "$(counted 0 0)" ''
of_list 0 '' "$(counted 0 0)" '\n\n\r\n'
of_list 1 'list:2:11: error: [code-point]\n' "$(counted 2 1)" \
    'http://h/\nhttp://h/a\r'

# A byte order mark at the start isn't a part of the first line, alone too; before another line it is one of its code
# points.
of_list 1 "list:1:10: $space\nlist:2:1: error: U+FEFF is before the scheme; leave it out [no-scheme]\n" "$(counted 2 2)" \
    '\xef\xbb\xbfhttp://h/ \n\xef\xbb\xbfurn:a\n'
of_list 0 '' "$(counted 0 0)" '\xef\xbb\xbf'
of_list 1 "list:1:1: $scheme\nb\n^\n" "$(counted 1 1)" '\xef\xbb\xbfb' --format caret

# The profile and the base.
of_list 1 "list:1:8: $domain\nlist:2:1: $scheme\n" "$(counted 2 2)" 'http://x_y/\nb\n'
of_list 1 "list:2:1: $scheme\n" "$(counted 2 1)" 'http://x_y/\nb\n' --wide
of_list 1 "list:1:8: $domain\n" "$(counted 2 1)" 'http://x_y/\nb\n' --base http://h/
of_list 0 '' "$(counted 2 0)" 'http://x_y/\nb\n' --wide --base http://h/
of_list 1 'list:3:8: error: [host-number]\n' "$(counted 3 1)" 'http://a%2Db/\nurn:a b\nhttp://256/\n' --profile parser

# What is before a scheme: a control, a space, or another code point of which nothing is seen, as a no-break space, a
# zero width space, a line separator, a soft hyphen, an ideographic space, a word joiner or a tag. Of another code point
# nothing is said.
# before CODE_POINT : that it is before the scheme
before() { echo "error: U+$1 is before the scheme; leave it out [no-scheme]"; }
of_list 1 "list:1:1: $(before '0020 SPACE')\nlist:2:1: $(before '0009 CHARACTER TABULATION')
list:3:1: $(before '001F INFORMATION SEPARATOR ONE')\nlist:4:1: $(before '007F DELETE')\nlist:5:1: $(before 0085)
list:6:1: $(before 00A0)\nlist:7:1: $(before 200B)\nlist:8:1: $(before 2028)\nlist:9:1: $(before 00AD)
list:10:1: $(before 3000)\nlist:11:1: $(before 2060)\nlist:12:1: $(before E0001)
list:13:1: $scheme\nlist:14:1: $scheme\nlist:15:1: $scheme\n" "$(counted 15 15)" \
    ' https://a/\n\thttp://h/\n\x1furn:a\n\x7furn:a\n\xc2\x85urn:a\n\xc2\xa0urn:a\n\xe2\x80\x8burn:a\n\xe2\x80\xa8urn:a
\xc2\xadurn:a\n\xe3\x80\x80urn:a\n\xe2\x81\xa0urn:a\n\xf3\xa0\x80\x81urn:a\n\xc3\xa9urn:a\n:a\n\xe2\x80\x90urn:a\n'
# A quotation mark, an apostrophe, a backtick or a bracket, where a scheme follows it.
of_list 1 "list:1:1: $(before '0022 QUOTATION MARK')\nlist:2:1: $(before '0027 APOSTROPHE')
list:3:1: $(before '0028 LEFT PARENTHESIS')\nlist:4:1: $(before '003C LESS-THAN SIGN')
list:5:1: $(before '005B LEFT SQUARE BRACKET')\nlist:6:1: $(before '0060 GRAVE ACCENT')
list:7:1: $(before '00AB \xc2\xab')\nlist:8:1: $(before '2018 \xe2\x80\x98')\nlist:9:1: $(before '201C \xe2\x80\x9c')
list:10:1: $scheme\nlist:11:1: $scheme\nlist:12:1: $scheme\nlist:13:1: $scheme\n" "$(counted 13 13)" \
    '"https://a/\n'"'"'urn:a\n(urn:a\n<a+b-c.1:\n[urn:a\n\x60urn:a\n\xc2\xaburn:a\n\xe2\x80\x98urn:a\n\xe2\x80\x9curn:a
"a"\n(1:2)\n"a b:c"\n"\n'
# A noncharacter is told as one, only by its number, and nothing is after the number of what isn't seen.
of_list 1 'list:1:10: error: U+FFFE <noncharacter> is not allowed in a URL [code-point]
list:2:6: error: U+FDD0 <noncharacter> is not allowed in a URL [code-point]
list:3:11: error: U+10FFFF <noncharacter> is not allowed in a port [port-digit]
list:4:11: error: U+200B is not allowed in a port [port-digit]
list:5:10: error: U+0663 \xd9\xa3 is not allowed in a port [port-digit]\n' "$(counted 5 5)" \
    'http://h/\xef\xbf\xbe\nurn:a\xef\xb7\x90\nhttp://h:8\xf4\x8f\xbf\xbf/\nhttp://h:8\xe2\x80\x8b/\nhttp://h:\xd9\xa3/\n'

# The least violation, or all.
of_list 1 "list:1:11: $space\nlist:2:8: $credentials\n" "$(counted 2 2)" 'http://h/a b%zz\nhttp://u@h/a b\n'
of_list 1 "list:1:11: $space\nlist:1:13: $percent\nlist:2:8: $credentials\nlist:2:13: $space\n" "$(counted 2 2)" \
    'http://h/a b%zz\nhttp://u@h/a b\n' --all

# A code point of two columns and one of two bytes before the fault of a line, and one that isn't UTF-8, in each format.
both='/\xe6\x97\xa5\xc3\xa9 \na\xffb\n'
of_list 1 "list:1:1: $scheme\nlist:2:2: $utf8\n" "$(counted 2 2)" "$both" --format gnu
of_list 1 "list:1:1: $scheme\n/\xe6\x97\xa5\xc3\xa9 \n^\nlist:2:2: $utf8\na\xef\xbf\xbdb\n ^\n" "$(counted 2 2)" "$both" \
    --format caret
of_list 1 '{"column":1,"cut":false,"file":"list","line":1,"message":"there is no scheme and no base; give the address of its page (--base)","rule":"no-scheme",'\
'"text":"/\xe6\x97\xa5\xc3\xa9 "}\n{"column":2,"cut":false,"file":"list","line":2,"message":"this line isn'"'"'t UTF-8",'\
'"rule":"not-utf8","text":"a\xef\xbf\xbdb"}\n' "$(counted 2 2)" "$both" --format json
of_list 1 "::error file=list,line=1,col=1,title=no-scheme::there is no scheme and no base; give the address of its page (--base)
::error file=list,line=2,col=2,title=not-utf8::this line isn't UTF-8\n" "$(counted 2 2)" "$both" --format github
of_list 1 "$document<file name=\"list\">
<error line=\"1\" column=\"1\" severity=\"error\" message=\"there is no scheme and no base; give the address of its page (--base)\" source=\"urlcheck.no-scheme\"/>
<error line=\"2\" column=\"2\" severity=\"error\" message=\"this line isn't UTF-8\" source=\"urlcheck.not-utf8\"/>
</file>\n</checkstyle>\n" "$(counted 2 2)" "$both" --format checkstyle
suites='<?xml version="1.0" encoding="UTF-8"?>\n<testsuites name="urlcheck">\n'
run_passed='<testsuite name="urlcheck">\n<testcase classname="urlcheck" name="run"/>\n</testsuite>\n</testsuites>\n'
of_list 1 "$suites<testsuite name=\"list\">\n<testcase classname=\"list\" name=\"file\"/>
<testcase classname=\"list\" name=\"1:1 no-scheme\"><failure type=\"no-scheme\" message=\"there is no scheme and no base; give the address of its page (--base)\">\
/\xe6\x97\xa5\xc3\xa9 </failure></testcase>
<testcase classname=\"list\" name=\"2:2 not-utf8\"><failure type=\"not-utf8\" message=\"this line isn't UTF-8\">\
a\xef\xbf\xbdb</failure></testcase>\n</testsuite>\n$run_passed" "$(counted 2 2)" "$both" --format junit
# digest BYTES : the SHA-256 of these
digest() { printf '%b' "$1" | sha256sum | cut -c 1-64; }
# issue LINE FINGERPRINT NAME SENTENCE : an issue of GitLab
issue() {
    echo "{\"check_name\":\"$3\",\"description\":\"$4\",\"fingerprint\":\"$2\",\
\"location\":{\"lines\":{\"begin\":$1},\"path\":\"list\"},\"severity\":\"major\"}"
}
no_scheme=$(issue 1 "$(digest '"list"\n0\nno-scheme\n0\n/\xe6\x97\xa5\xc3\xa9 ')" no-scheme 'there is no scheme and no base; give the address of its page (--base)')
no_utf8=$(issue 2 "$(digest '"list"\n0\nnot-utf8\n1\na\xef\xbf\xbdb')" not-utf8 "this line isn't UTF-8")
of_list 1 "[\n$no_scheme\n,$no_utf8\n]\n" "$(counted 2 2)" "$both" --format gitlab
of_list 0 '[\n]\n' "$(counted 1 0)" 'urn:a\n' --format gitlab
# told LINE START END SECTION NAME SENTENCE : a diagnostic of reviewdog; a rule of lines has no section
told() {
    echo "{\"code\":{${4:+\"url\":\"https://url.spec.whatwg.org/#$4\",}\"value\":\"$5\"},\"location\":{\"path\":\"list\",\"range\":{\
\"end\":{\"column\":$3,\"line\":$1},\"start\":{\"column\":$2,\"line\":$1}}},\"message\":\"$6\",\"severity\":\"ERROR\""
}
told_begin="{\"source\":{\"name\":\"urlcheck\"},\"severity\":\"ERROR\",\"diagnostics\":[\n"
of_list 1 "$told_begin$(told 1 1 2 relative-url-string no-scheme 'there is no scheme and no base; give the address of its page (--base)')}
,$(told 2 2 2 '' not-utf8 "this line isn't UTF-8")}\n]}\n" "$(counted 2 2)" "$both" --format rdjson
of_list 0 "$told_begin]}\n" "$(counted 1 0)" 'urn:a\n' --format rdjson
# Its columns are bytes of UTF-8: after 13 of them is one of three, and with the suggestion all 16 are replaced.
of_list 1 "$told_begin$(told 1 14 17 url-code-points code-point 'U+FDD0 <noncharacter> is not allowed in a URL'),\"suggestions\":[{\
\"range\":{\"end\":{\"column\":17,\"line\":1},\"start\":{\"column\":1,\"line\":1}},\
\"text\":\"http://h/\xf0\x9f\x98\x80%EF%B7%90\"}]}\n]}\n" "$(counted 1 1)" \
    'http://h/\xf0\x9f\x98\x80\xef\xb7\x90\n' --format rdjson

# The column of the first byte that isn't UTF-8, in each unit: after U+FFFD, which is UTF-8, U+65E5, `e` with U+0301,
# U+1F600 and a tab; after the column 10 of a link; and where a code point is cut off by the line's end.
foreign='\xef\xbf\xbd\xe6\x97\xa5e\xcc\x81\xf0\x9f\x98\x80\t\xff\xfe'
for unit in code-points,7 bytes,15 utf16,8 screen,9; do
    of_list 1 "list:1:${unit#*,}: $utf8\n" "$(counted 1 1)" "$foreign" --columns "${unit%,*}"
done
of_list 1 "a:3:16: $utf8\na:3:12: $utf8\n" "$(counted 2 2)" "a:3:10:$foreign\na:3:10:ab\xe6\x97\n" --located
of_list 1 "a:3:24: $utf8\n" "$(counted 1 1)" "a:3:10:$foreign" --located --columns bytes
of_list 1 "list:1:7: $utf8\n" "$(counted 1 1)" 'urn:\xc3\xa9 \xed\xa0\x80 \n' --all
of_list 1 "list:1:2: $utf8\n" "$(counted 1 1)" 'a\xff:1:2:x\n' --located

# What to write in place of a refused link, under a base and a profile: at the first diagnostic of its line, and only
# where the format says it.
of_list 1 "list:1:6: $space\nfoo:a b c\n     ^\nhelp: write foo:a%20b%20c\nlist:1:8: $space\nfoo:a b c\n       ^
list:2:8: $domain\nhttp://x_y/\n        ^\n" "$(counted 2 2)" 'foo:a b c\nhttp://x_y/\n' --all --format caret
of_list 1 "a:3:9: $slashes\nhttp:b\n     ^\nhelp: write http://b\n" "$(counted 1 1)" 'a:3:4:http:b\n' --all --format caret \
    --located
of_list 1 '{"column":12,"cut":false,"file":"list","kind":"same","line":1,"mended":"http://x_y/%20c",'\
'"message":"U+0020 SPACE is not allowed in a URL","offered":true,"rule":"code-point","text":"http://x_y/ c"}\n'\
'{"column":6,"cut":false,"file":"list","kind":"changed","line":2,"mended":"http://a",'\
'"message":"// has to follow this scheme","offered":true,"rule":"two-slashes","text":"http:a"}\n' "$(counted 2 2)" \
    'http://x_y/ c\nhttp:a\n' --wide --base http://h/ --format json

# A line of 65,536 code points is checked, also with its fault in the last column, and a longer one isn't. Of a long line
# a window is shown.
longest=urn:$(head -c 65531 /dev/zero | tr '\0' a)
lines="${longest}b\r\n$longest \n${longest}bb\n${longest}bb\r"
length='error: this line has more than 65536 bytes [line-too-long]'
window=$(printf 'a%.0s' {1..99})
of_list 1 "list:2:65536: $space\nlist:3:1: $length\nlist:4:1: $length\n" "$(counted 4 3)" "$lines"
of_list 1 "list:2:65536: $space\n\xe2\x80\xa6$window \n ${window//a/ }^\nhelp: write \xe2\x80\xa6$window
list:3:1: $length\nlist:4:1: $length\n" "$(counted 4 3)" "$lines" --format caret

# A line of which each code point is wrong: its diagnostics are more than are written at once.
carets=$(head -c 6995 /dev/zero | tr '\0' '^')
of_list 1 "$(awk 'BEGIN {
    for (n = 5; n <= 6999; n++)
        print "list:1:" n ": error: [code-point]"
}')\n" "$(counted 1 1)" "urn:$carets" --all

# Links that say where they are, and lines that don't: the first run of two numbers ends the file's name.
# form_of REASON : the diagnostic of a line that doesn't say where its link is
form_of() { echo "error: this line isn't FILE:LINE:COLUMN:LINK, since $1 [not-located]"; }
no_line=$(form_of 'LINE is missing') no_file=$(form_of 'FILE is empty')
column_range=$(form_of "COLUMN isn't from 1 to 4294967295")
of_list 1 "a.html:3:20: $space\nC:\\\\y.html:3:4: $scheme\na:1:2: $scheme\na:1:2: $scheme\nlist:7:1: $column_range\nlist:8:1: $column_range
a:7:8: $scheme\nlist:10:1: $no_file\nlist:11:1: $no_line\na:1:2: $utf8\nlist:13:1: $utf8\n" "$(counted 12 11)" \
    'a.html:3:10:http://h/a b\n\nC:\\x.html:3:4:http://h/\nC:\\y.html:3:4:b\na:1:2:3:4:x\na:1:2:\na:1:0:x
a:1:4294967296:x\na:007:08:x\n:1:2:x\nhttp://h/\na:1:2:\xff\n\xff:1:2:x\n' --located
of_list 1 "$document<file name=\"a\">
<error line=\"1\" column=\"2\" severity=\"error\" message=\"there is no scheme and no base\" source=\"urlcheck.no-scheme\"/>
</file>\n<file name=\"list\">
<error line=\"3\" column=\"1\" severity=\"error\" message=\"this line isn't FILE:LINE:COLUMN:LINK, since LINE is missing\" \
source=\"urlcheck.not-located\"/>
</file>\n</checkstyle>\n" "$(counted 3 2)" 'a:1:2:b\nb:1:2:urn:a\nurn:a\n' --located --format checkstyle
of_list 0 "$document</checkstyle>\n" "$(counted 0 0)" '' --located --format checkstyle

# After a combining mark, a wide code point and one beyond U+FFFF a space, a tab and another space: their columns in
# each unit, in a line and in a link from the 100th column on.
tab='error: [code-point]'
link='urn:e\xcc\x81\xe6\x97\xa5\xf0\x9f\x98\x80 \tb '
for row in code-points,9,10,12,108,109,111 bytes,15,16,18,114,115,117 utf16,10,11,13,109,110,112 \
    screen,10,11,18,109,110,114; do
    IFS=, read -r unit first second third in_file tab_in_file last_in_file <<<"$row"
    of_list 1 "list:1:$first: $space\nlist:1:$second: $tab\nlist:1:$third: $space\n" "$(counted 1 1)" "$link" \
        --all --columns "$unit"
    of_list 1 "a:1:$in_file: $space\na:1:$tab_in_file: $tab\na:1:$last_in_file: $space\n" "$(counted 1 1)" \
        "a:1:100:$link" --all --columns "$unit" --located
done

# Results of SARIF: two on the second line of a list, whose text has nine code points, and one on the third, of five. The
# first on each says what to write in its place, and a comma is before each but the first one of the whole report.
# result LINE COLUMN TEXT : a result on a space
result() {
    echo "\"level\":\"error\",\"locations\":[{\"physicalLocation\":{\"artifactLocation\":{\"uri\":\"list\"},\
\"region\":{\"endColumn\":$(($2 + 1)),\"startColumn\":$2,\"startLine\":$1}}}],\
\"message\":{\"text\":\"U+0020 SPACE is not allowed in a URL\"},\
\"partialFingerprints\":{\"urlcheckText/v1\":\"$(digest "code-point\n$(($2 - 1))\n$3")\"},\"properties\":{\"cut\":false,\"text\":\"$3\"},\"ruleId\":\"code-point\",\"ruleIndex\":15}"
}
# fix LINE END TEXT SENTENCE : what puts a text in place of the first columns of a line
fix() {
    echo "\"fixes\":[{\"artifactChanges\":[{\"artifactLocation\":{\"uri\":\"list\"},\"replacements\":[{\"deletedRegion\":{\
\"endColumn\":$2,\"startColumn\":1,\"startLine\":$1},\"insertedContent\":{\"text\":\"$3\"}}]}],\
\"description\":{\"text\":\"$4\"}}]"
}
printf 'urn:a\nfoo:a b c\nurn: \n' >"$room/list"
(cd "$room" && "$program" lint --all --format sarif list) >"$room/out" 2>"$room/err"
ends_with 1 $? "$(counted 3 2)" 'results of SARIF'
echo "{$(fix 2 10 foo:a%20b%20c 'percent-encode what is not allowed in a URL string'),$(result 2 6 'foo:a b c')
,{$(result 2 8 'foo:a b c')
,{$(fix 3 6 urn: 'write the same URL as a valid URL string'),$(result 3 5 'urn: ')" >"$room/wanted"
grep '"ruleIndex":' "$room/out" | cmp -s - "$room/wanted" || fail "results of SARIF: $(grep '"ruleIndex":' "$room/out")"
# After diagnostics of other files too, and nothing if a file has none.
printf 'urn:a\n' >"$room/right"
(cd "$room" && "$program" lint --all --format sarif list right list) >"$room/out" 2>"$room/err"
ends_with 1 $? "$(counted 7 4)" 'results of SARIF of three files'
{ cat "$room/wanted"; sed '1s/^/,/' "$room/wanted"; } >"$room/twice"
grep '"ruleIndex":' "$room/out" | cmp -s - "$room/twice" || fail "results of SARIF of three files: $(cat "$room/out")"
rm -f "$room/wanted" "$room/twice" "$room/right"

# on_third FORMAT NAME LINE STDOUT WORD.. : a lint in this format of a file with this name and third line says so
on_third() {
    local format=$1 name=$2 stdout=$4
    has_file "$name" || return 0
    printf 'urn:a\nurn:a\n%b\n' "$3" >"$room/$name"
    shift 4
    expect 1 "$stdout" '' lint --quiet --format "$format" "$@" -- "$name"
    rm -f -- "$room/$name"
}

# What a name or a text is in each format where it has what the format escapes.
mkdir "$room/docs"
on_third gnu docs/a.md 'http://h/a b' "docs/a.md:3:11: $space\n"
rmdir "$room/docs"
on_third json 'a"b.md' 'x\\\x1b\ty' '{"column":1,"cut":false,"file":"a\\"b.md","line":3,'\
'"message":"there is no scheme and no base","rule":"no-scheme","text":"x\\\\\\u001b\\ty"}\n'
on_third github $'C:\\a,b%\r\n.md' 'http://h/%g4' '::error file=C%3A\\a%2Cb%25%0D%0A.md,line=3,col=10,title=percent::'\
'U+0025 PERCENT SIGN has to be followed by two hex digits\n'
on_third checkstyle $'a&b<">\t\n\r\x01\xef\xbf\xbe' http://h:65536/ \
    "$document<file name=\"a&amp;b&lt;&quot;&gt;&#9;&#10;&#13;\xef\xbf\xbd\xef\xbf\xbd\">
<error line=\"3\" column=\"10\" severity=\"error\" message=\"the port that begins here is above 65535\" \
source=\"urlcheck.port-range\"/>\n</file>\n</checkstyle>\n"

# A link that doesn't begin its line: the column counts in the line, and the caret is below the link.
# at_40 FORMAT FILE STDOUT : a lint in this format of a link in the 40th column of a file, with a space after ten of
# its code points, says so
at_40() {
    printf '%s:3:40:http://h/a b\n' "$2" >"$room/list"
    expect 1 "$3" '' lint --quiet --located --format "$1" list
}
at_40 gnu page.html "page.html:3:50: $space\n"
at_40 caret 'a b' "a b:3:50: $space\nhttp://h/a b\n          ^\nhelp: write http://h/a%20b\n"
at_40 json 'a b' '{"column":50,"cut":false,"file":"a b","kind":"same","line":3,"mended":"http://h/a%20b",'\
'"message":"U+0020 SPACE is not allowed in a URL","offered":true,"rule":"code-point","text":"http://h/a b"}\n'
at_40 github page.html '::error file=page.html,line=3,col=50,title=code-point::U+0020 SPACE is not allowed in a URL\n'
at_40 checkstyle page.html "$document<file name=\"page.html\">
<error line=\"3\" column=\"50\" severity=\"error\" message=\"U+0020 SPACE is not allowed in a URL\" \
source=\"urlcheck.code-point\"/>\n</file>\n</checkstyle>\n"

# The caret below a place after wide code points and a tab, a combining mark, what isn't shown as it is, and nothing.
# points LINE SHOWN CARET WORD.. : the last text on a line, in the format with carets, ends so
points() {
    local line=$1 shown=$2 caret=$3
    printf '%b\n' "$line" >"$room/list"
    shift 3
    (cd "$room" && "$program" lint --quiet --all --format caret "$@" list) 2>"$room/err" |
        sed '/^help: write /d' | tail -n 2 >"$room/out"
    count=$((count + 1))
    printf '%b\n%b\n' "$shown" "$caret" | cmp -s - "$room/out" || fail "a caret below $line: $(cat "$room/out")"
}
points '\xe6\x97\xa5\xe6\x9c\xac\ta b' '\xe6\x97\xa5\xe6\x9c\xac\ta b' '    \t ^' --base http://h/
points 'e\xcc\x81 ' 'e\xcc\x81 ' ' ^' --base http://h/
points '\x1b[31m\xe2\x80\xae x' '\xef\xbf\xbd[31m\xef\xbf\xbd x' '      ^' --base http://h/
points 'f:3:1:' '' '^' --located

# The caret below the code point that the sentence names, even if a host is refused for one that isn't its first:
# after capitals, after wide code points, a tab, a space, the `:` of a file link, a `%`, and in the middle of a long host.
# The same code point before the place is passed over, and below a host whose sentence names none it is at the place.
points 'http://EXAMPLE_X.com/_' 'http://EXAMPLE_X.com/_' '              ^'
points 'http://\xe6\x97\xa5\xe6\x9c\xac_c/' 'http://\xe6\x97\xa5\xe6\x9c\xac_c/' '           ^'
points 'http://a\tb_c/' 'http://a\tb_c/' '        ^'
points 'http://a b/' 'http://a b/' '        ^'
points 'file://host:8/' 'file://host:8/' '           ^'
points 'http://ab%2Dc/' 'http://ab%2Dc/' '         ^'
points 'http://h/%41/%g4' 'http://h/%41/%g4' '             ^'
points 'http://h-1:80a1/' 'http://h-1:80a1/' '             ^'
points 'http://h/a_b c' 'http://h/a_b c' '            ^'
points 'http://a..b_/' 'http://a..b_/' '           ^'
points 'http://ab\xef\xbc\x9f/' 'http://ab\xef\xbc\x9f/' '         ^'
points 'http://ab\xe2\x80\x8dc/' 'http://ab\xe2\x80\x8dc/' '         ^'
points 'http://[::\xc3\xa9:g]/' 'http://[::\xc3\xa9:g]/' '          ^'
points 'http://[1[2::]/' 'http://[1[2::]/' '         ^'
points 'http://ab..c/' 'http://ab..c/' '       ^'
tail_of=$(printf 'a%.0s' {1..150})
points "http://${tail_of}_$tail_of/" "\xe2\x80\xa6${tail_of:0:99}_${tail_of:0:98}\xe2\x80\xa6" "$(printf ' %.0s' {0..99})^"

# What is written in place of a text is shown as a line is: what turns its direction isn't shown as it is, and of a long
# one there is a window.
of_list 1 "list:1:11: $space\nfoo:aaaaaa \xef\xbf\xbd\n          ^\nhelp: write foo:aaaaaa%20%E2%80%AE\n" \
    "$(counted 1 1)" 'foo:aaaaaa \xe2\x80\xae\n' --format caret
tail_of=$(printf 'a%.0s' {1..400})
of_list 1 "list:1:11: $space\nfoo:aaaaaa b${tail_of:0:186}\xe2\x80\xa6\n          ^
help: write foo:aaaaaa%20b${tail_of:0:184}\xe2\x80\xa6\n" "$(counted 1 1)" "foo:aaaaaa b$tail_of\n" --format caret

# The last column of the longest line in the other formats, and a file with a name of 4,096 bytes.
link=http://h/$(head -c 65526 /dev/zero | tr '\0' a)
# object FILE LINE COLUMN : the object of JSON on the last column of the link
object() {
    echo "{\"column\":$3,\"cut\":true,\"file\":\"$1\",\"kind\":\"same\",\"line\":$2,\"mended\":\"$link\",\
\"message\":\"U+0020 SPACE is not allowed in a URL\",\"offered\":true,\"rule\":\"code-point\",\"text\":\"\xe2\x80\xa6$window \"}\n"
}
of_list 1 "$(object list 1 65536)" "$(counted 1 1)" "$link \n" --format json
of_list 1 '::error file=list,line=1,col=65536,title=code-point::U+0020 SPACE is not allowed in a URL\n' \
    "$(counted 1 1)" "$link \n" --format github
of_list 1 "$document<file name=\"list\">
<error line=\"1\" column=\"65536\" severity=\"error\" message=\"U+0020 SPACE is not allowed in a URL\" \
source=\"urlcheck.code-point\"/>\n</file>\n</checkstyle>\n" "$(counted 1 1)" "$link \n" --format checkstyle
name=$(printf 'f%.0s' {1..4096})
link=${link:0:61434}
of_list 1 "$name:3:61435: $space\n" "$(counted 1 1)" "$name:3:1:$link \n" --located
of_list 1 "$name:3:61435: $space\n\xe2\x80\xa6$window \n ${window//a/ }^\nhelp: write \xe2\x80\xa6$window\n" \
    "$(counted 1 1)" "$name:3:1:$link \n" --located --format caret
of_list 1 "$(object "$name" 3 61435)" "$(counted 1 1)" "$name:3:1:$link \n" --located --format json
of_list 1 "::error file=$name,line=3,col=61435,title=code-point::U+0020 SPACE is not allowed in a URL\n" \
    "$(counted 1 1)" "$name:3:1:$link \n" --located --format github

# What columns count before each code point of a text: a letter, a combining mark (U+0301), a wide code point (U+65E5),
# a wide one of two UTF-16 code units and four bytes (U+1F600), a tab and a letter; and after the last one.
letters=('' e '\xcc\x81' '\xe6\x97\xa5' '\xf0\x9f\x98\x80' '\t' a)
for row in code-points,1,2,3,4,5,6,7 bytes,1,2,4,7,11,12,13 utf16,1,2,3,4,6,7,8 screen,1,2,2,4,6,9,10; do
    IFS=, read -r unit places <<<"$row"
    for length in 0 1 2 3 4 5 6; do
        before=$(printf '%s' "${letters[@]:0:length+1}")
        printf '%b^' "$before" >"$room/list"
        count=$((count + 1))
        column=$(cut -d, -f $((length + 1)) <<<"$places")
        (cd "$room" && "$program" lint --quiet --all --base http://h/ --columns "$unit" list) 2>"$room/err" |
            tail -n 1 >"$room/out"
        wrote "list:1:$column: error: [code-point]\n" "$room/out" ||
            fail "the column after $before in $unit: $(cat "$room/out" "$room/err")"
    done
done
# A tab goes on to the columns 9, 17 and so on of the line, wherever the link begins in it; a control and what turns the
# direction take a column.
# ends_at COLUMN TEXT END : after a text that begins in this column of a screen `^` is in that one
ends_at() {
    printf 'a:1:%s:%b^' "$1" "$2" >"$room/list"
    (cd "$room" && "$program" lint --quiet --all --located --base http://h/ --columns screen list) 2>"$room/err" |
        tail -n 1 >"$room/out"
    count=$((count + 1))
    wrote "a:1:$3: error: [code-point]\n" "$room/out" ||
        fail "the column after $2 from $1 on: $(cat "$room/out" "$room/err")"
}
ends_at 1 '\t' 9
ends_at 8 '\t' 9
ends_at 9 '\t' 17
ends_at 10 '\t\t' 25
ends_at 40 'a\t' 49
ends_at 1 '\x1b\xe2\x80\xae' 3

all_cases 127
