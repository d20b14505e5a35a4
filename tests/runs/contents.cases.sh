# Lists that aren't lines of links: what they look like, and how their lines are handed over.

# said_of STATUS STDERR WORD.. : a run on the list with these words ends so
said_of() {
    local status=$1 stderr=$2
    shift 2
    (cd "$room" && "$program" "$@") >"$room/out" 2>"$room/err" <"$room/list"
    ends_with "$status" $? "$stderr" "$*, of a list that looks otherwise"
}

# links_say STDERR WORD.. : links of the list, of which a line isn't ok, says nothing on standard error unless that is a terminal,
# and this at a terminal
links_say() {
    local stderr=$1
    shift
    said_of 1 '' links "$@"
    has terminals 1 || return 0
    at_terminal list links "$@"
    ends_with 1 $? "$stderr" "links $*, at a terminal, of a list that looks otherwise"
}

# looks CLAIM REWRITER BYTES : a list of these bytes, of which something is refused, is said to look so: as a FILE, and as the
# standard input of each command that reads a list
looks() {
    printf '%b' "$3" >"$room/list"
    said_of 1 "urlcheck: list $1: ${2//FILE/list} | urlcheck lint -\\n" lint -q list
    said_of 1 "urlcheck: standard input $1: $2 | urlcheck lint -\\n" lint --quiet -
    links_say "urlcheck: standard input $1: $2 | urlcheck links\\n"
    said_of 1 "urlcheck: standard input $1: $2 | urlcheck mend\\n" mend -q
}

# plain STATUS BYTES [WORD..] : no message is about a list of these bytes, for lint with these words
plain() {
    local status=$1 bytes=$2
    shift 2
    printf '%b' "$bytes" >"$room/list"
    said_of "$status" '' lint -q "$@" list
    said_of "$status" '' lint -q "$@" -
}

gzip='is compressed by gzip' utf16='is UTF-16' json='looks like JSON' returns='ends its lines by CR alone'
table='looks like a table; where column N has the links'
looks "$gzip" 'gzip -dc FILE' '\037\0213\010\n'
latin="isn't UTF-8; if it is Latin-1"
for bytes in 'http://h/caf\0351\n' '\0240\n\0377' '["\0375"]' 'a,\0351\n'; do
    looks "$latin" 'iconv -f ISO-8859-1 -t UTF-8 FILE' "$bytes"
done
looks "$utf16" 'iconv -f UTF-16 -t UTF-8 FILE' '\0377\0376h\0000\n\0000'
looks "$utf16" 'iconv -f UTF-16 -t UTF-8 FILE' '\0376\0377\0000h\0000\n'
strings="jq -r '.. | strings' FILE"
looks "$json" "$strings" '["http://h/"]\n'
looks "$json" "$strings" ' \t\r\n{ "a": 1 }\n'
looks "$json" "$strings" '[\n{"url": "http://h/"}]'
looks "$json" "$strings" '{ [ "x\r'
looks "$returns" "tr '\\\\r' '\\\\n' <FILE" 'x\ry\r'
looks "$returns" "tr '\\\\r' '\\\\n' <FILE" 'name,url\rx,y'
looks "$table" 'cut -d , -f N FILE' 'Name,Web Site,"url_2"\r\nx,http://h/,y\n'
looks "$table" 'cut -d , -f N FILE' 'a-b,c'
looks "$table" 'cut -f N FILE' 'name\turl or none\nx\thttp://h/\n'
looks "$table" 'cut -f N FILE' 'a\tb,c\n'

# What has a NUL isn't text, whatever ends its lines.
printf '\177ELF\2\0\0x\ry\r' >"$room/list"
said_of 1 "urlcheck: list isn't text\n" lint -q list
said_of 1 "urlcheck: standard input isn't text\n" lint -q -
links_say "urlcheck: standard input isn't text\n"

# No such list: a sentence, links with commas, an IPv6 address, brackets without a string, one letter of a mark, LF after CR.
for bytes in 'Hello, world\n' 'a,b: c\n' 'a,b;c\n' 'x/a,b\n' '[::1]\n' '[{}]\n' '[[["x"]]]\n' 'x ["a"]\n' '\037x\n' '\0377x\n' \
    '\0376\n\0377' '\0237\n' '\0303\0251\0351\n' 'x\r\n' '\r\nx' 'x\n' 'x y\n'; do
    plain 1 "$bytes"
done
plain 0 ''
plain 0 'http://h/a,b\n'
# (if nothing is refused, there is no message)
plain 0 'name,url\n' --base http://h/
plain 0 'a,b\nc\n' --base http://h/
said_of 0 '' mend -q --base http://h/

# The first 256 bytes tell a table and JSON, and all bytes that were read tell CR from LF.
letters=$(printf 'a%.0s' {1..255})
looks "$table" 'cut -d , -f N FILE' "$letters,b\\n"
plain 1 "${letters}a,b\\n"
blanks=$(printf '%254s' '')
looks "$json" "$strings" "${blanks}[\""
plain 1 "$blanks [\""
many=$(printf "$letters%.0s" {1..1000})
looks "$returns" "tr '\\\\r' '\\\\n' <FILE" "x\\r$many"
plain 1 "x\\r$many\\n"

# A hint is once a file, before the counts, and the standard input's after the last file. What is printed is as without it.
printf '\x1f\x8b\n' >"$room/list"
printf 'a,b\n' >"$room/table"
said_of 2 "urlcheck: list $gzip: gzip -dc list | urlcheck lint -\\nurlcheck: missing: can't be read: there is no such file\\n\
urlcheck: table $table: cut -d , -f N table | urlcheck lint -\\n\
urlcheck: standard input $gzip: gzip -dc FILE | urlcheck lint -\\nurlcheck: 3 lines, 3 refused, 1 file not read\\n" lint - list missing table
wrote '-:1:2: error: [not-utf8]\nlist:1:2: error: [not-utf8]\ntable:1:1: error: [no-scheme]\n' "$room/out" ||
    fail "hints of lists: it wrote $(cat "$room/out")"
links_say "urlcheck: standard input $gzip: gzip -dc FILE | urlcheck links\\n" --base http://h/
printf '1 bad 0 not-utf8\nlinks 1 ok 0 bad 1 differs 0\n' | cmp -s - "$room/out" || fail "links of gzip: it wrote $(cat "$room/out")"
said_of 1 "urlcheck: standard input $gzip: gzip -dc FILE | urlcheck mend\\n\
urlcheck: 1 line, 0 mended (0 same, 0 escaped, 0 changed), 1 refused\\n" mend
cmp -s "$room/list" "$room/out" || fail "mend of gzip: it wrote $(cat "$room/out")"

# A mark whose bytes come in two reads, and a name as a terminal may show it.
(printf '\x1f'; sleep 0.1; printf '\x8b\n') | "$program" mend -q >"$room/out" 2>"$room/err"
ends_with 1 $? "urlcheck: standard input $gzip: gzip -dc FILE | urlcheck mend\\n" 'mend, of a mark in two pieces'
printf '\x1f\x8b\n' >"$room/"$'a\e'
if has_file $'a\e'; then
    (cd "$room" && "$program" lint -q $'a\e') >"$room/out" 2>"$room/err"
    ends_with 1 $? "urlcheck: a\\0357\\0277\\0275 $gzip: gzip -dc FILE | urlcheck lint -\\n" 'lint, of a name with a control'
fi
# A code point that is cut after 256 bytes is UTF-8, and a name is in a command where that needs no quotes.
plain 1 "x$(printf 'a%.0s' {1..254})\\0303\\0251\\n"
for name in latin.txt ./latin.txt 'la tin' la\'tin; do
    printf 'http://h/caf\xe9\n' >"$room/$name"
    case $name in *latin.txt) shown=$name ;; *) shown=FILE ;; esac
    (cd "$room" && "$program" lint -q "$name") >"$room/out" 2>"$room/err"
    ends_with 1 $? "urlcheck: $name $latin: iconv -f ISO-8859-1 -t UTF-8 $shown | urlcheck lint -\\n" "lint, of $name"
done
# The hint's own command hands the lines over.
printf 'http://h/\nhttp://h/a b\n' | gzip >"$room/list"
(cd "$room" && gzip -dc list | "$program" lint -q -) >"$room/out" 2>"$room/err"
ends_with 1 $? '' 'lint, of what gzip writes'
printf 'x,http://h/a b\n' | cut -d , -f 2 | "$program" links >"$room/out" 2>"$room/err"
ends_with 1 $? '' 'links, of a column'
printf 'http://h/\rhttp://h/x\r' | tr '\r' '\n' | "$program" mend -q >"$room/out" 2>"$room/err"
ends_with 0 $? '' 'mend, of lines that ended by CR'

all_cases 168
