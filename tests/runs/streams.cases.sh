# Streams that fail: outputs that take nothing, end early or are closed, and inputs that can't be read or end early.

printf 'urn:a\nurn:b\n' >"$room/list"
for words in 'check urn:a' 'check x' 'links'; do
    "$program" $words <"$room/list" >/dev/full 2>"$room/err"
    ends_with 3 $? "${no_space}write\\n" "$words to a full device"
    if has closed_streams 1; then
        "$program" $words <"$room/list" >&- 2>"$room/err"
        ends_with 3 $? "${no_output}write\\n" "$words with standard output closed"
    fi
    # A pipe without a reader, about which there is no message, with the signal SIGPIPE at its default, and ignored.
    to_nobody "$program" $words <"$room/list"
    ends_with 3 "$(cat "$room/status")" '' "$words to a closed pipe"
    (trap '' PIPE; to_nobody "$program" $words <"$room/list")
    ends_with 3 "$(cat "$room/status")" '' "$words to a closed pipe, SIGPIPE ignored"
done

# A file that may not get larger, where the signal that says so is ignored. (Standard error isn't a file then.)
if has prlimit 1; then
    (trap '' XFSZ; ulimit -f 0; exec "$program" check urn:a 2>&1 >"$room/written") | cat >"$room/err"
    ends_with 3 "${PIPESTATUS[0]}" "urlcheck: standard output: can't be written: the file may not get larger\\nwrite\\n" 'check to a file of no bytes'
fi

# Help and the version, into a full device and to a closed pipe.
for words in '--help' 'help' 'check --help' 'help lint' '--version'; do
    "$program" $words >/dev/full 2>"$room/err"
    ends_with 3 $? "${no_space}write\\n" "$words to a full device"
    to_nobody "$program" $words
    ends_with 3 "$(cat "$room/status")" '' "$words to a closed pipe"
done

# A pipe that is closed after one line: the line is whole, and the list, which is longer than a pipe holds, isn't read
# to its end.
awk 'BEGIN { for (n = 1; n <= 100000; n++) print "urn:isbn:" n }' >"$room/long"
("$program" links <"$room/long" 2>"$room/err"; echo $? >"$room/status") | head -n 1 >"$room/out"
ends_with 3 "$(cat "$room/status")" '' 'links to a pipe closed after one line'
[ "$(cat "$room/out")" = '1 ok urn:isbn:1' ] || fail "a pipe closed after one line: it wrote $(cat "$room/out")"

# Inputs: closed, open only for writing, a folder; and a list that ends within a line, a code point and a scheme.
if has closed_streams 1; then
    "$program" links <&- >"$room/out" 2>"$room/err"
    ends_with 3 $? "${no_input}read\\n" 'links with standard input closed'
fi
"$program" links 0>"$room/written" >"$room/out" 2>"$room/err"
ends_with 3 $? "${no_input}read\\n" 'links on an input for writing'
if has folder_input 1; then
    "$program" links <"$room" >"$room/out" 2>"$room/err"
    ends_with 3 $? "${from_folder}read\\n" 'links on a folder'
    [ ! -s "$room/out" ] || fail "links on a folder: it wrote $(head -c 40 "$room/out")"
fi

# ends_early BYTES REPORT : the report on the first bytes of the list, which then ends
ends_early() {
    printf 'urn:a\nhttp://h/\303\251\n' | head -c "$1" | "$program" links >"$room/out" 2>"$room/err"
    ends_with "$2" $? '' "a list that ends after $1 bytes"
    printf '%b' "$3" | cmp -s - "$room/out" || fail "a list that ends after $1 bytes: it wrote $(cat "$room/out")"
}
ends_early 3 1 '1 bad 0 no-scheme\nlinks 1 ok 0 bad 1 differs 0\n'
ends_early 5 0 '1 ok urn:a\nlinks 1 ok 1 bad 0 differs 0\n'
ends_early 6 0 '1 ok urn:a\nlinks 1 ok 1 bad 0 differs 0\n'
ends_early 13 1 '1 ok urn:a\n2 bad 7 host-missing\nlinks 2 ok 1 bad 1 differs 0\n'
ends_early 16 1 '1 ok urn:a\n2 bad 0 not-utf8\nlinks 2 ok 1 bad 1 differs 0\n'
ends_early 17 0 '1 ok urn:a\n2 ok http://h/%C3%A9\nlinks 2 ok 2 bad 0 differs 0\n'

all_cases 33
