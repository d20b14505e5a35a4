# What is written in place of a refused text, and the statuses of that. Each mended text is worked out by hand from the
# URL Standard, and each kind from its section 4.4.

expect 0 'valid\n' '' mend http://h/a
expect 0 'mended same\nhttp://h/a%20b\n' '' mend 'http://h/a b'
expect 0 'mended same\nhttp://h/a\n' '' mend $'\t http:\\\\h\\a\n'
expect 0 'mended escaped\nhttp://h/100%25\n' '' mend 'http://h/100%'
expect 0 'mended changed\nhttp://a\n' '' mend --base http://h/ http:a
expect 0 'mended same\n//k/a\n' '' mend --base=http://h/ ///k/a
expect 0 'mended same\n\n' '' mend --base http://h/ ' '
expect 0 'mended same\n-%22\n' '' mend --base http://h/ -- '-"'
expect 0 'mended same\nhttp://127.0.0.1/.//a%20b\n' '' mend 'http:\\127.0.01//a b'

# The profile and the base.
expect 1 'none\nrefused 7 host-domain\n' '' mend 'http://a_b//c d'
expect 0 'mended same\nhttp://a_b//c%20d\n' '' mend --wide 'http://a_b//c d'
expect 0 'mended same\nhttp://a_b//c%20d\n' '' mend --profile wide 'http://a_b//c d'
expect 0 'mended same\nhttp://a-b/c%20d\n' '' mend --wide 'http://a%2Db/c d'
expect 0 'mended same\nhttp://a%2Db/c%20d\n' '' mend --profile parser 'http://a%2Db/c d'
expect 0 'mended same\nhttp://0.0.0.1/\n' '' mend --profile parser http://0x1/
expect 0 'mended same\nfile://h/./C:/x\n' '' mend --wide file://h/C:/x
expect 0 'valid\n' '' mend --profile parser file://h/C:/x
expect 0 'valid\n' '' mend --profile parser 'urn:a b'
expect 1 'none\nrefused 0 no-scheme\n' '' mend ''
expect 1 'none\nrefused 0 opaque-base\n' '' mend --base mailto:a b
expect 2 '' "$(no_base 0 no-scheme 'it has no scheme')" mend --base '' 'http://h/a b'

# Each edit by the rule that is violated.
# mends BASE ROW.. : rows of three words, KIND TEXT WRITTEN: against the base, if there is one, the text is mended so
mends() {
    local base=$1
    shift
    while [ $# != 0 ]; do
        expect 0 "mended $1\n$3\n" '' mend ${base:+--base "$base"} -- "$2"
        shift 3
    done
}
# refuses ROW.. : rows of three words, PLACE RULE TEXT: the text is refused so, and has no edit
refuses() {
    while [ $# != 0 ]; do
        expect 1 "none\nrefused $1 $2\n" '' mend -- "$3"
        shift 3
    done
}
# Code points as escapes.
expect 0 'valid\n' '' mend http://h/a%20b
mends '' same 'http://h/a b' http://h/a%20b same $'http://h/\357\267\220' http://h/%EF%B7%90 \
    same 'http://h/?<a>' http://h/?%3Ca%3E escaped 'http://h/a|b' http://h/a%7Cb escaped 'http://h/a?b\c' http://h/a?b%5Cc \
    escaped 'http://h/#a#b' http://h/#a%23b escaped http://h/100% http://h/100%25 \
    escaped 'http://h/%1?%x#%' http://h/%251?%25x#%25 escaped 'mailto:a b' mailto:a%20b escaped 'foo:a\b' foo:a%5Cb
# What the parser passes over; slashes and hosts, as they are read.
mends '' same $' http://h/a\n' http://h/a same $'ht\ttp://h/a\r\nb' http://h/ab same 'http://h/ a ' http://h/%20a
mends '' same 'http://h/a\b' http://h/a/b same 'http:\\h\a' http://h/a same http:/h/a http://h/a same http:h/a http://h/a \
    same https:///h/a https://h/a same file:/a/b file:///a/b same file:a file:///a same 'file:\a' file:///a \
    same file:////a file:///.//a same http://h//a http://h/.//a same foo://h//a foo://h/.//a
# Also where lint doesn't offer it, since something else was likely meant.
mends '' same http://http://x http://http:/.//x same 'http://h/{{ x }}' http://h/%7B%7B%20x%20%7D%7D \
    escaped 'C:\x' C:%5Cx escaped http://h/%s http://h/%25s
mends '' same http://127.0.01/ http://127.0.0.1/ same http://a%2Db:80/x http://a-b:80/x \
    same $'http://\357\274\221.2.3.4/' http://1.2.3.4/ same 'http://0x7f.1?q#f' 'http://127.0.0.1?q#f' \
    same 'http://127.0.01//a b' http://127.0.0.1/.//a%20b
refuses 0 no-scheme '' 0 no-scheme 'a b' 7 host-missing http:// 7 host-domain http://a_b/ 7 host-domain http://u@a/ \
    9 port-digit http://u:p@a/ 9 port-digit http://h:x/ 9 port-range http://h:65536/ 7 host-ipv6 'http://[::1/' \
    7 host-number http://1.2.3.256/
# References.
mends http://h/a/b same 'c d' c%20d same 'c\d' c/d same '\\k\d' //k/d same ///k/d //k/d same ' ' '' changed http:c http://c \
    same https:c https://c
mends file://h/a same /C:/x /./C:/x
mends mailto:a same '#a b' '#a%20b'

# A failed write.
"$program" mend 'http://h/a b' >/dev/full 2>"$room/err"
ends_with 3 $? "${no_space}write\\n" 'mend to a full device'

# ---- without a TEXT: a filter of lines

# filters STATUS STDOUT STDERR WORD.. : a run of `mend` without a TEXT, on the bytes of $room/list, ends so
filters() { on_list mend "$@"; }

# No line, one without LF, and each kind of line with each end.
printf '' >"$room/list"
filters 0 '' 'urlcheck: 0 lines, 0 mended (0 same, 0 escaped, 0 changed), 0 refused\n'
filters 0 '' '' --quiet
printf 'http://h/a b' >"$room/list"
filters 0 'http://h/a%20b' 'urlcheck: 1 line, 1 mended (1 same, 0 escaped, 0 changed), 0 refused\n'
printf 'http://h/a\nhttp://h/a b\r\nhttp://h/a|b\nhttp:c\nhttp://h:x/\r\n\n\377\nhttp://h/\0' >"$room/list"
# (what has a NUL isn't text)
no_text="urlcheck: standard input isn't text\\n"
filters 1 'http://h/a\nhttp://h/a%20b\r\nhttp://h/a%7Cb\nhttp://c\nhttp://h:x/\r\n\n\0377\nhttp://h/' \
    "$no_text"'urlcheck: 7 lines, 4 mended (2 same, 1 escaped, 1 changed), 2 refused\n' --base http://h/x
filters 1 'http://h/a\nhttp://h/a%20b\r\nhttp://h/a|b\nhttp:c\nhttp://h:x/\r\n\n\0377\nhttp://h/' \
    "$no_text"'urlcheck: 7 lines, 2 mended (2 same, 0 escaped, 0 changed), 4 refused\n' --base http://h/x --only same
filters 1 'http://h/a\nhttp://h/a b\r\nhttp://h/a%7Cb\nhttp:c\nhttp://h:x/\r\n\n\0377\nhttp://h/\0' "$no_text" \
    --base http://h/x --only=escaped -q
printf '\357\273\277http://h/ a\n' >"$room/list"
filters 0 '\0357\0273\0277http://h/%20a\n' '' --quiet

# The base and the profile.
printf '../a b\nhttp://h_/ a\n' >"$room/list"
filters 1 '../a b\nhttp://h_/ a\n' 'urlcheck: 2 lines, 0 mended (0 same, 0 escaped, 0 changed), 2 refused\n'
filters 0 '../a%20b\nhttp://h_/%20a\n' '' --quiet --wide --base http://h/
filters 0 '../a%20b\nhttp://h_/%20a\n' '' --quiet --profile wide --base http://h/
printf 'http://a%%2Db/ c\nfoo:a b\nfile://h/C:/x\n' >"$room/list"
filters 1 'http://a-b/%20c\nfoo:a%20b\nfile://h/C:/x\n' '' --quiet --wide
filters 0 'http://a%2Db/%20c\nfoo:a b\nfile://h/C:/x\n' \
    'urlcheck: 3 lines, 1 mended (1 same, 0 escaped, 0 changed), 0 refused\n' --profile parser
filters 2 '' "$(no_base 0 no-scheme 'it has no scheme')" --base ''

# Each list of bytes, what is written in its place, and its counts.
# mends_list BYTES WRITTEN COUNTS WORD.. : COUNTS is how many lines there are, same, escaped, changed and refused
mends_list() {
    local lines same escaped changed refused noun=lines
    printf '%b' "$1" >"$room/list"
    read -r lines same escaped changed refused <<<"$3"
    [ "$lines" != 1 ] || noun=line
    filters $((refused > 0)) "$2" "urlcheck: $lines $noun, $((same + escaped + changed)) mended \
($same same, $escaped escaped, $changed changed), $refused refused\n" "${@:4}"
}
mends_list 'http://h/a\nhttp://h/a b\r\nhttp://h/a|b\nhttp:c\nhttp://h:x/\r\n\n\0377\nhttp://h/\0001' \
    'http://h/a\nhttp://h/a%20b\r\nhttp://h/a%7Cb\nhttp://c\nhttp://h:x/\r\n\n\0377\nhttp://h/' '7 3 1 0 2'
mends_list 'http://h/a b\nhttp://h/a|b\nhttp:c\n' 'http://h/a%20b\nhttp://h/a|b\nhttp:c\n' '3 1 0 0 2' --base http://h/x \
    --only same
mends_list 'http://h/a b\nhttp://h/a|b\nhttp:c\n' 'http://h/a b\nhttp://h/a|b\nhttp://c\n' '3 0 0 1 2' --base http://h/x \
    --only changed
mends_list 'a b\n' 'a%20b\n' '1 1 0 0 0' --base http://h/x
mends_list 'a b\n' 'a b\n' '1 0 0 0 1'
mends_list 'http://a_b/\n' 'http://a_b/\n' '1 0 0 0 1'
mends_list 'http://a_b/\n' 'http://a_b/\n' '1 0 0 0 0' --wide
mends_list 'http://%68/\n' 'http://h/\n' '1 1 0 0 0' --wide
mends_list 'http://%68/\n' 'http://%68/\n' '1 0 0 0 0' --profile parser
mends_list 'http://0x1/\n' 'http://0x1/\n' '1 0 0 0 1' --profile parser
mends_list 'http://0x1/\n' 'http://0.0.0.1/\n' '1 1 0 0 0' --profile parser --all-mended
mends_list '\0001http://h/a\0' 'http://h/a' '1 1 0 0 0'
# No line, empty ones, a byte order mark at the start and elsewhere, and CR that isn't a part of an end.
mends_list '' '' '0 0 0 0 0'
mends_list '\n\r\n' '\n\r\n' '0 0 0 0 0'
mends_list '\xef\xbb\xbf' '\xef\xbb\xbf' '0 0 0 0 0'
mends_list '\xef\xbb\xbfhttp://h/ a\r\n' '\xef\xbb\xbfhttp://h/%20a\r\n' '1 1 0 0 0'
mends_list '\n\xef\xbb\xbfhttp://h/\n' '\n\xef\xbb\xbfhttp://h/\n' '1 0 0 0 1'
mends_list 'http://h/\r\r\n' 'http://h/\r\n' '1 1 0 0 0'
mends_list 'http://h/\ra\r' 'http://h/a' '1 1 0 0 0'
# Lines of the most bytes, and of more, with each end, and of several pieces: they stay as they were.
for row in a,65536,0 ' ,65537,1' ' ,65538,1' ' ,65539,1' ' ,200000,1'; do
    IFS=, read -r byte length refused <<<"$row"
    line=http://h/$(head -c $((length - 9)) /dev/zero | tr '\0' "${byte:- }")
    mends_list "$line\nhttp://h/a b" "$line\nhttp://h/a%20b" "2 1 0 0 $refused"
    mends_list "$line\r\nhttp://h/a b" "$line\r\nhttp://h/a%20b" "2 1 0 0 $refused"
    mends_list "$line" "$line" "1 0 0 0 $refused"
done

# (a byte order mark isn't a part of the first line, which may have as many bytes after it; no other line has one)
for row in 65536,0 65537,1 65538,1 65539,1 65540,1 65541,1 200000,1; do
    IFS=, read -r length refused <<<"$row"
    line=http://h/$(head -c $((length - 9)) /dev/zero | tr '\0' a)
    mends_list "\xef\xbb\xbf$line" "\xef\xbb\xbf$line" "1 0 0 0 $refused"
    mends_list "\xef\xbb\xbf$line\nhttp://h/ b" "\xef\xbb\xbf$line\nhttp://h/%20b" "2 1 0 0 $refused"
    mends_list "\xef\xbb\xbf$line\r\n" "\xef\xbb\xbf$line\r\n" "1 0 0 0 $refused"
    mends_list "http://h/ b\n$line\r\n" "http://h/%20b\n$line\r\n" "2 1 0 0 $refused"
done

# Words.
filters 2 '' "urlcheck: no kind is named 'sam'; the nearest is same\nurlcheck: the kinds: same escaped changed\nwords\n" \
    --only sam
filters 2 '' "urlcheck: no kind is named ''\nurlcheck: the kinds: same escaped changed\nwords\n" --only ''
of_lines='urlcheck: --only, --all-mended and --quiet are for the lines of standard input, not for a TEXT\nwords\n'
filters 2 '' "$of_lines" --only same urn:a
filters 2 '' "$of_lines" --quiet urn:a
filters 2 '' "$of_lines" --all-mended urn:a
several='urlcheck: mend accepts one TEXT: put it in single quotes if it has spaces; --in-place mends files\nwords\n'
filters 2 '' "$several" urn:a b
filters 2 '' "$several" --quiet urn:a b c

# Only what lint offers is written, and all mended texts by --all-mended.
printf 'http://h/{{ x }}\nhttp://http://x\nC:\\x\r\nhttp://h//a\nhttp://h/a b\nhttp://h/100%%' >"$room/list"
filters 1 'http://h/{{ x }}\nhttp://http://x\nC:\\x\r\nhttp://h//a\nhttp://h/a%20b\nhttp://h/100%25' \
    'urlcheck: 6 lines, 2 mended (1 same, 1 escaped, 0 changed), 4 refused\n'
filters 0 'http://h/%7B%7B%20x%20%7D%7D\nhttp://http:/.//x\nC:%5Cx\r\nhttp://h/.//a\nhttp://h/a%20b\nhttp://h/100%25' \
    'urlcheck: 6 lines, 6 mended (4 same, 2 escaped, 0 changed), 0 refused\n' --all-mended
filters 1 'http://h/{{ x }}\nhttp://http://x\nC:%5Cx\r\nhttp://h//a\nhttp://h/a b\nhttp://h/100%25' '' -q --only escaped --all-mended
# offered_lines : the lines of $room/list with each text in place that lint offers, by its JSON
offered_lines() {
    "$program" lint -q --format json "$@" - <"$room/list" >"$room/json"
    python3 - "$room/list" "$room/json" <<'END'
import json, sys
lines = open(sys.argv[1], encoding="utf-8", newline="").read().split("\n")
for it in map(json.loads, open(sys.argv[2], encoding="utf-8")):
    if it.get("offered"):
        lines[it["line"] - 1] = it["mended"]
sys.stdout.write("\n".join(lines))
END
}
printf '%s\n' 'http://h/a b' 'http://h/<%= id %>' 'http://h/${a}' 'http://h/%s' 'http://h/%4' '\\server\x' 'file:///C|/x' 'file:C:\x' \
    'https://https//x' 'http:\\h\a' 'http:h' 'http://h//a b' 'foo://h//a' 'mailto:a b' 'tel:+1 555' http://127.0.01/ http://0x1/ \
    'x y' '/a|b' '?q"' '#a#b' 'http://h:x/' 'http://[::1/' 'http://exa mple.com/' 'http://a%2Db/' ' http://h/' 'HTTP://H/{a}' \
    'http://h/.//' 'http:/.//a' 'ftp:///h/ ' >"$room/list"
for words in '' '--base http://h/a/b' '--profile wide' '--profile parser --base file://h/'; do
    count=$((count + 1))
    offered_lines $words >"$room/wanted"
    "$program" mend -q $words <"$room/list" >"$room/out" 2>"$room/err"
    cmp -s "$room/out" "$room/wanted" || fail "mend $words: it doesn't write what lint offers"
    [ "$words" != '' ] || ! cmp -s "$room/wanted" "$room/list" || fail 'lint offers nothing'
done

# ---- --in-place: the lines of files

# in_place STATUS STDERR WORD.. : a run of `mend --in-place` with these words in $room/files ends so, without output
in_place() {
    local status=$1 stderr=$2 ended
    shift 2
    (cd "$room/files" && "$program" mend --in-place "$@") >"$room/out" 2>"$room/err" </dev/null
    ended=$?
    ends_with "$status" $ended "$stderr" "mend --in-place $*"
    [ ! -s "$room/out" ] || fail "mend --in-place $*: it wrote: $(cat "$room/out")"
    [ -z "$(find "$room/files" -name '*.urlcheck-new*')" ] || fail "mend --in-place $*: a new file is left"
}
# has_bytes FILE BYTES : a file of $room/files has these bytes
has_bytes() {
    count=$((count + 1))
    printf '%b' "$2" | cmp -s - "$room/files/$1" || fail "$1 in place: $(cat "$room/files/$1")"
}
mkdir "$room/files"
chmod 777 "$room/files"
bad='http://h/a b\r\nhttp://h/{{ x }}\nhttp://ok/'
good='http://h/a%20b\r\nhttp://h/{{ x }}\nhttp://ok/'
one='1 mended (1 same, 0 escaped, 0 changed)'
printf '%b' "$bad" >"$room/files/a.txt"
chmod 640 "$room/files/a.txt"
in_place 1 "urlcheck: 3 lines, $one, 1 refused\n" a.txt
has_bytes a.txt "$good"
if has posix_modes 1; then
    count=$((count + 1))
    [ "$(stat -c %a "$room/files/a.txt")" = 640 ] || fail 'mend --in-place: the mode is another one'
fi
# (a second run changes nothing: not even the time of the file, nor which file it is)
touch -d 2020-01-01 "$room/files/a.txt"
stat -c '%i %Y' "$room/files/a.txt" >"$room/before"
in_place 1 'urlcheck: 3 lines, 0 mended (0 same, 0 escaped, 0 changed), 1 refused\n' a.txt
count=$((count + 1))
stat -c '%i %Y' "$room/files/a.txt" | cmp -s - "$room/before" || fail 'mend --in-place wrote a file of which no line is mended'
# (several files, the options of a filter, and the name of an option; another URL is written only if that is asked for)
printf 'http://h/a|b\nhttp:c\nfile:a[1] b\n' >"$room/files/b.txt"
printf 'a b\n' >"$room/files/-i"
in_place 1 'urlcheck: 4 lines, 2 mended (1 same, 1 escaped, 0 changed), 2 refused\n' --base http://h/ b.txt -- -i
has_bytes b.txt 'http://h/a%7Cb\nhttp:c\nfile:a[1] b\n'
has_bytes -i 'a%20b\n'
in_place 1 'urlcheck: 3 lines, 0 mended (0 same, 0 escaped, 0 changed), 2 refused\n' --base http://h/ --only same b.txt
in_place 0 'urlcheck: 3 lines, 2 mended (0 same, 0 escaped, 2 changed), 0 refused\n' --base http://h/ --only changed b.txt
has_bytes b.txt 'http://h/a%7Cb\nhttp://c\nfile:///a%5B1%5D%20b\n'
printf 'file:a[1] b\n' >"$room/files/b.txt"
in_place 0 'urlcheck: 1 line, 1 mended (0 same, 0 escaped, 1 changed), 0 refused\n' --all-mended b.txt
has_bytes b.txt 'file:///a%5B1%5D%20b\n'
printf 'http://h/a|b\nhttp://h/ c\n' >"$room/files/b.txt"
in_place 1 '' -q --only same b.txt
has_bytes b.txt 'http://h/a|b\nhttp://h/%20c\n'
in_place 0 '' -q --all-mended a.txt
has_bytes a.txt 'http://h/a%20b\r\nhttp://h/%7B%7B%20x%20%7D%7D\nhttp://ok/'
# (a link is followed, and stays one)
mkdir "$room/files/of"
printf 'http://h/a b\n' >"$room/files/of/real.txt"
ln -s of/real.txt "$room/files/link.txt"
in_place 0 "urlcheck: 1 line, $one, 0 refused\n" link.txt
has_bytes of/real.txt 'http://h/a%20b\n'
count=$((count + 1))
[ -L "$room/files/link.txt" ] || fail 'mend --in-place: the link is a file'
# (what can't be read stays, and the next file goes on; an empty name, a folder, what isn't a file)
printf 'http://h/a b\n' >"$room/files/c.txt"
in_place 2 "urlcheck: none.txt: can't be read: there is no such file\nurlcheck: 1 line, $one, 0 refused\n" none.txt c.txt
has_bytes c.txt 'http://h/a%20b\n'
in_place 2 "urlcheck: of: can't be read: it is a folder\n" -q of
in_place 2 "urlcheck: '': can't be read: there is no such file\n" -q ''
if has_file $'bad\377'; then
    # (nor does a name that isn't UTF-8 keep the others from being mended; a base that isn't UTF-8 does)
    printf 'http://h/a b\n' >"$room/files/c.txt"
    cp "$room/files/c.txt" "$room/files/"$'bad\377'
    in_place 2 "urlcheck: argument 3 isn't UTF-8\nurlcheck: 1 line, $one, 0 refused\n" $'bad\377' c.txt
    has_bytes c.txt 'http://h/a%20b\n'
    has_bytes $'bad\377' 'http://h/a b\n'
    in_place 2 "urlcheck: argument 4 isn't UTF-8\nwords\n" --base $'\377' c.txt
    rm "$room/files/"$'bad\377'
fi
# (a pipe and a device end at once)
mkfifo "$room/files/pipe"
for special in pipe /dev/null; do
    (cd "$room/files" && timeout 20 "$program" mend -qi $special) >"$room/out" 2>"$room/err"
    ends_with 2 $? "urlcheck: $special: can't be written: it is no ordinary file; it stays as it was\n" "mend --in-place of $special"
done
rm "$room/files/pipe"
# (a file or a link of a new file's name is nobody's to overwrite: it is named, and the file is mended next to it)
printf 'http://h/a b\n' >"$room/files/c.txt"
ln -s of/real.txt "$room/files/c.txt.urlcheck-new"
echo other >"$room/files/c.txt.urlcheck-new-2"
left="left by an interrupted run; remove it if no other run is going on"
named="urlcheck: $(realpath "$room")/files/c.txt.urlcheck-new"
(cd "$room/files" && "$program" mend -qi c.txt) >"$room/out" 2>"$room/err"
ends_with 0 $? "$named: $left\n$named-2: $left\n" 'mend --in-place beside new files'
has_bytes c.txt 'http://h/a%20b\n'
has_bytes c.txt.urlcheck-new-2 'other\n'
has_bytes of/real.txt 'http://h/a%20b\n'
[ -L "$room/files/c.txt.urlcheck-new" ] || fail 'mend --in-place beside a link: the link is a file'
# (nine of them are too many)
printf 'http://h/a b\n' >"$room/files/c.txt"
for number in 3 4 5 6 7 8 9; do echo other >"$room/files/c.txt.urlcheck-new-$number"; done
(cd "$room/files" && "$program" mend -qi c.txt) >"$room/out" 2>"$room/err"
ends_with 2 $? "$named: $left\n$(printf "$named-%d: $left\\\\n" 2 3 4 5 6 7 8 9)urlcheck: c.txt: can't be written: \
interrupted runs left too many new files; it stays as it was\n" 'mend --in-place beside nine new files'
has_bytes c.txt 'http://h/a b\n'
rm "$room/files/c.txt.urlcheck-new"*
# (one may not be written, or not grow as large)
if has posix_modes 4; then
    # (the file's own path is found by the folders above it)
    chmod 711 "$room"
    chmod 444 "$room/files/c.txt"
    (cd "$room/files" && as_nobody "$program" mend -qi c.txt) >"$room/out" 2>"$room/err"
    ends_with 2 $? "urlcheck: c.txt: can't be written: permission denied; it stays as it was\n" 'mend --in-place of a file to read'
    chmod 666 "$room/files/c.txt"
    chmod 555 "$room/files"
    (cd "$room/files" && as_nobody "$program" mend -qi c.txt) >"$room/out" 2>"$room/err"
    ends_with 2 $? "urlcheck: c.txt: can't be written: permission denied; it stays as it was\n" 'mend --in-place in a folder to read'
    chmod 777 "$room/files"
    chmod 600 "$room/files/c.txt"
    (cd "$room/files" && as_nobody "$program" mend -qi c.txt) >"$room/out" 2>"$room/err"
    ends_with 2 $? "urlcheck: c.txt: can't be read: permission denied\n" 'mend --in-place of a file that may not be read'
    has_bytes c.txt 'http://h/a b\n'
fi
# in_turn TEXT.. : 100,000 lines, each of these texts in turn with the line's number at its end
in_turn() { awk 'BEGIN { for (n = 1; n <= 100000; n++) print ARGV[n % (ARGC - 1) + 1] n }' "$@"; }
in_turn 'http://h/a b?' http://ok/ >"$room/files/long.txt"
in_turn 'http://h/a%20b?' http://ok/ >"$room/long.new"
cp "$room/files/long.txt" "$room/long.old"
if has prlimit 2; then
    (cd "$room/files" && trap '' XFSZ && prlimit --fsize=100000 "$program" mend -qi long.txt) >"$room/out" 2>"$room/err"
    ends_with 2 $? "urlcheck: long.txt: can't be written: the file may not get larger; it stays as it was\n" 'mend --in-place of a file too large'
    count=$((count + 1))
    cmp -s "$room/files/long.txt" "$room/long.old" || fail 'mend --in-place of a file too large: the file is another one'
    [ ! -e "$room/files/long.txt.urlcheck-new" ] || fail 'mend --in-place of a file too large: a new file is left'
fi
if has prlimit 8; then
    # (what a run leaves that is killed before the first byte, and after many, has the file's mode, whatever the user's mask)
    for row in 0,600 0,640 100000,600 100000,604; do
        IFS=, read -r most mode <<<"$row"
        cp "$room/long.old" "$room/files/long.txt"
        chmod "$mode" "$room/files/long.txt"
        { (cd "$room/files" && umask 0 && exec prlimit --fsize="$most" "$program" mend -qi long.txt) >"$room/out"; } 2>/dev/null
        count=$((count + 1))
        [ "$(stat -c '%a %s' "$room/files/long.txt.urlcheck-new")" = "$mode $most" ] ||
            fail "mend --in-place of a file of mode $mode, killed: $(stat -c 'mode %a, %s bytes' "$room/files/long.txt.urlcheck-new")"
        cmp -s "$room/files/long.txt" "$room/long.old" || fail 'mend --in-place that was killed: the file is another one'
        # (the next run mends the file, and names what was left)
        (cd "$room/files" && "$program" mend -qi long.txt) >"$room/out" 2>"$room/err"
        ends_with 0 $? "urlcheck: $(realpath "$room")/files/long.txt.urlcheck-new: $left\n" 'mend --in-place after a run that was killed'
        cmp -s "$room/files/long.txt" "$room/long.new" || fail 'mend --in-place after a run that was killed: it wrote other bytes'
        [ "$(stat -c '%a %s' "$room/files/long.txt.urlcheck-new")" = "$mode $most" ] || fail 'mend --in-place wrote to what was left'
        rm "$room/files/long.txt.urlcheck-new"
    done
fi
# (ended at any moment, the file is the old one or the new one, whole)
for wait in 0.001 0.005 0.01 0.02 0.05; do
    cp "$room/long.old" "$room/files/long.txt"
    (cd "$room/files" && timeout -s KILL $wait "$program" mend -qi long.txt; true) 2>/dev/null
    count=$((count + 1))
    cmp -s "$room/files/long.txt" "$room/long.old" || cmp -s "$room/files/long.txt" "$room/long.new" ||
        fail "mend --in-place that was killed after $wait s: the file isn't whole"
    rm -f "$room/files/long.txt.urlcheck-new"
done
# (words)
in_place 2 'urlcheck: --in-place mends the lines of files: name one, or leave it out for standard input\nwords\n'
in_place 2 "urlcheck: no kind is named 'x'\nurlcheck: the kinds: same escaped changed\nwords\n" --only x c.txt
in_place 2 "$(no_base 0 no-scheme 'it has no scheme')" --base x c.txt
has_bytes c.txt 'http://h/a b\n'

# Lines of the most bytes and of one more, which stays as it was; and 16 MiB without LF in little memory.
awk 'BEGIN { printf "http://h/ "; for (n = 10; n < 65536; n++) printf "a" }' >"$room/long"
{ cat "$room/long"; printf '\r\n'; cat "$room/long"; printf 'a\nhttp://h/a b\n'; } >"$room/list"
{ sed 's/ /%20/' "$room/long"; printf '\r\n'; cat "$room/long"; printf 'a\nhttp://h/a%%20b\n'; } >"$room/wanted"
"$program" mend <"$room/list" >"$room/out" 2>"$room/err"
ends_with 1 $? 'urlcheck: 3 lines, 2 mended (2 same, 0 escaped, 0 changed), 1 refused\n' 'mend of long lines'
cmp -s "$room/wanted" "$room/out" || fail 'mend of long lines: it wrote other bytes'
{ printf 'http://h/ \n'; head -c 16777216 /dev/zero | tr '\0' ' '; printf '\nurn:a \n'; } >"$room/list"
{ printf 'http://h/\n'; head -c 16777216 /dev/zero | tr '\0' ' '; printf '\nurn:a\n'; } >"$room/wanted"
if has prlimit 1; then
    prlimit --as=$((16 * 1024 * 1024)) "$program" mend <"$room/list" >"$room/out" 2>"$room/err"
    ends_with 1 $? 'urlcheck: 3 lines, 2 mended (2 same, 0 escaped, 0 changed), 1 refused\n' 'mend of a line of 16 MiB'
    cmp -s "$room/wanted" "$room/out" || fail 'mend of a line of 16 MiB: it wrote other bytes'
fi

# A list of 100,000 lines in little memory, made a second time here as it is mended, and that list, which stays.

kept=https://EXAMPLE.com:443/a/../
in_turn $kept 'http://h/a b?' 'http://h/a|' 'http:\\h\' >"$room/list"
in_turn $kept 'http://h/a%20b?' http://h/a%7C http://h/ >"$room/wanted"
if has prlimit 1; then
    prlimit --as=$((16 * 1024 * 1024)) "$program" mend <"$room/list" >"$room/out" 2>"$room/err"
    ends_with 0 $? 'urlcheck: 100000 lines, 75000 mended (50000 same, 25000 escaped, 0 changed), 0 refused\n' \
        'mend of 100,000 lines'
    cmp -s "$room/wanted" "$room/out" || fail 'mend of 100,000 lines: it wrote other bytes'
fi
"$program" mend --quiet <"$room/wanted" 2>"$room/err" | cmp -s - "$room/wanted" ||
    fail 'mend of mended lines: it wrote other bytes'

answers_at_once 'mend of a live pipe' 'foo: N' 'foo:%20N' '' mend --quiet

# Streams that fail.
printf 'http://h/a b\n' >"$room/list"
counted='urlcheck: 1 line, 1 mended (1 same, 0 escaped, 0 changed), 0 refused\n'
"$program" mend <"$room/list" >/dev/full 2>"$room/err"
ends_with 3 $? "$no_space${counted}write\\n" 'mend of a list to a full device'
to_nobody "$program" mend <"$room/list"
ends_with 3 "$(cat "$room/status")" '' 'mend of a list to a closed pipe'
if has folder_input 1; then
    "$program" mend --quiet <"$room" >"$room/out" 2>"$room/err"
    ends_with 3 $? "${from_folder}read\\n" 'mend of a folder'
    [ ! -s "$room/out" ] || fail "mend of a folder: it wrote $(head -c 40 "$room/out")"
fi
if has closed_streams 1; then
    "$program" mend --quiet <&- >"$room/out" 2>"$room/err"
    ends_with 3 $? "${no_input}read\\n" 'mend with standard input closed'
fi

all_cases 234
