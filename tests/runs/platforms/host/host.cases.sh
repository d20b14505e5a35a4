# What the host of a program hands on: the bytes of arguments, errors of files, and what is read and written. It is short, so
# that each spoiled copy of a host is tried on it.

# U+FFFD may be in a URL. Bytes that aren't UTF-8 are another text, and are refused, even if the argument has both.
expect 0 'valid\nscheme http\nhost domain h\nsegment %EF%BF%BD\n' '' check $'http://h/\xef\xbf\xbd'
if has byte_arguments 3; then
    expect 2 '' "urlcheck: argument 2 isn't UTF-8\nwords\n" check $'http://h/\xff'
    expect 2 '' "urlcheck: argument 2 isn't UTF-8\nwords\n" check $'http://h/\xef\xbf'
    expect 2 '' "urlcheck: argument 4 isn't UTF-8\nwords\n" check $'http://h/\xef\xbf\xbd' --base $'http://h/\xef\xbf\xbd\xfe'
fi

# A file that isn't there, and a folder.
expect 2 '' "urlcheck: missing: can't be read: there is no such file\nurlcheck: 0 lines, 0 refused, 1 file not read\n" lint missing
mkdir "$room/folder"
expect 2 '' "urlcheck: folder: can't be read: it is a folder
urlcheck: lint reads files, not folders; urlcheck-documents FOLDER checks the documents in it
urlcheck: 0 lines, 0 refused, 1 file not read\n" lint folder

# A file and standard input are read to the last byte, in lines of any length.
awk 'BEGIN { for (n = 0; n < 70000; n++) printf "urn:a\n"; printf "x y" }' >"$room/list"
wrong='70001:1: error: there is no scheme and no base [no-scheme]\n'
expect 1 "list:$wrong" 'urlcheck: 70001 lines, 1 refused\n' lint list
"$program" lint - <"$room/list" >"$room/out" 2>"$room/err"
ends_with 1 $? 'urlcheck: 70001 lines, 1 refused\n' 'lint of a long input'
printf '%b' "-:$wrong" | cmp -s - "$room/out" || fail "lint of a long input: it wrote $(head -c 80 "$room/out")"

# A pipe without a reader, a full device, and a pipe that brings a line late.
to_nobody "$program" check urn:a
ends_with 3 "$(cat "$room/status")" '' 'check to a closed pipe'
"$program" check urn:a >/dev/full 2>"$room/err"
ends_with 3 $? "${no_space}write\\n" 'check to a full device'
(printf 'urn:'; sleep 1; printf 'a\n') | "$program" links >"$room/out" 2>"$room/err"
ends_with 0 $? '' 'links of a slow pipe'
printf '1 ok urn:a\nlinks 1 ok 1 bad 0 differs 0\n' | cmp -s - "$room/out" || fail 'links of a slow pipe: it wrote other bytes'

all_cases 11
