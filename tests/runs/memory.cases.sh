# Little memory: each command in an address space that grows from where the program doesn't start to where its run
# succeeds, and a long list of random bytes in a small one.

if ! has prlimit 46; then
    all_cases 46
    return
fi

# A step is refused with the status 3, the word `memory` and whole lines, or nothing, on standard output.
refused_at() {
    [ "$(cat "$room/err")" = memory ] || fail "$1: on standard error: $(head -c 80 "$room/err")"
    [ ! -s "$room/out" ] || [ "$(tail -c 1 "$room/out" | wc -l)" = 1 ] || fail "$1: it wrote a part of a line"
    [ "$(head -c "$(stat -c %s "$room/out")" "$room/whole" | cmp - "$room/out" 2>&1)" = '' ] ||
        fail "$1: it wrote other bytes than its whole run"
}

# walks WORD.. : a run with these words, on the bytes of $room/list, in more and more address space. Below the first
# space in which it starts, the system ends it before its first step: by a signal, or with 127.
walks() {
    local kilobytes status wanted refused=0 words="$*"
    words=${words:0:40}
    "$program" "$@" <"$room/list" >"$room/whole" 2>"$room/said"
    wanted=$?
    [ ! -s "$room/said" ] || fail "$words: on standard error: $(cat "$room/said")"
    for ((kilobytes = 1500; kilobytes <= 40000; kilobytes += 20)); do
        # (in a shell of its own, which says nothing of a signal)
        (prlimit --as=$((kilobytes * 1024)) "$program" "$@" <"$room/list" >"$room/out" 2>"$room/err"; exit $?) 2>/dev/null
        status=$?
        case $status in
            127 | 137 | 139) [ $refused = 0 ] || fail "$words: status $status in $kilobytes KiB" ;;
            3) refused_at "$words in $kilobytes KiB"; refused=$((refused + 1)) ;;
            *) break ;;
        esac
    done
    ends_with "$wanted" $status '' "$words in $kilobytes KiB"
    cmp -s "$room/whole" "$room/out" || fail "$words: its output in $kilobytes KiB is another one"
    [ $refused -gt 1 ] || fail "$words: $refused steps were refused"
}

long=$(awk 'BEGIN { for (n = 0; n < 100000; n++) printf "a" }')
printf '' >"$room/list"
walks check "urn:$long"
walks check "http://h/${long:0:50000}?${long:0:50000}#${long:0:20000}"
walks check "http://h/${long:0:50000} "
walks check --base "http://h/$long" x
walks check --base "foo://$long/" //h
walks check --all "http://h/${long:0:50000} ${long:0:50000}%"
walks check --wide "http://h_/${long:0:50000}//${long:0:50000}"
walks check $'http://b\xc3\xbccher.example/'
walks check --profile parser "http://%61${long:0:50000}.%C3%BC/${long:0:50000}"
awk -v long="${long:0:65000}" 'BEGIN {
    for (n = 1; n <= 1000; n++) print "http://h/" n
    print "http://h/" long
    for (n = 1; n <= 100; n++) print "http://EXAMPLE.com/" n
}' >"$room/list"
walks links
walks links --wide --base "http://h/$long"
awk -v long="${long:0:65000}" 'BEGIN {
    for (n = 1; n <= 1000; n++) print "http://h/a b" n
    print "http://h/ " long
    for (n = 1; n <= 100; n++) print "https:///" n
}' >"$room/list"
walks lint --quiet -
walks lint --quiet --all --format caret --base "http://h/$long" -
walks mend --quiet --base "http://h/$long"

# A vector file is read into memory whole: out of memory for its bytes, and for its cases, is reported as such.
{
    printf '['
    awk 'BEGIN { for (n = 1; n <= 3000; n++) printf "%s{\"input\":\"http://h/%d\",\"text\":\"http://h/%d\"}", (n > 1 ? "," : ""), n, n }'
    printf ']'
} >"$room/vectors.json"
walks vectors "$room/vectors.json"

# While there is memory, none is wanted: each kind of host and many segments, in a line and in the base.
many=$(awk 'BEGIN { for (n = 0; n < 20000; n++) printf "/a" }')
for prefix in http://h http://xn--bcher-kva.example http://192.168.0.1 'http://[1:2::8]' file://h file:// foo://h foo:// \
    'foo://[1:2::8]' foo:; do
    printf 'x\n%s/y\n%s%s/z\n' "$prefix" "$prefix" "$many" >"$room/list"
    "$program" links --base "$prefix$many/b" <"$room/list" >"$room/out" 2>"$room/err"
    ends_with 0 $? '' "links of and against $prefix"
    printf '1 ok %s%s/x\n2 ok %s/y\n3 ok %s%s/z\nlinks 3 ok 3 bad 0 differs 0\n' \
        "$prefix" "$many" "$prefix" "$prefix" "$many" | cmp -s - "$room/out" ||
        fail "links of and against $prefix: it wrote $(head -c 100 "$room/out")"
done

# Long texts in each part, and many segments, alone, against a base and as the base. The system takes no argument of more
# than 131,071 bytes.
# repeated PIECE : the piece 65,000 times
repeated() { yes "$1" | head -n 65000 | tr -d '\n'; }
while IFS='|' read -r prefix piece before printed end; do
    text=$prefix$(repeated "$piece")
    wanted=$before$(repeated "$printed")$end
    expect 0 "$wanted" '' check "$text"
    expect 0 "$wanted" '' check --base urn:a "$text"
    expect 0 'valid\nscheme urn\nopaque a\n' '' check --base "$text" urn:a
done <<ROWS
urn:|$(printf '\303\251')|valid\nscheme urn\nopaque |%C3%A9|\n
foo://|a|valid\nscheme foo\nhost opaque |a|\n
http://h/|a|valid\nscheme http\nhost domain h\nsegment |a|\n
http://h/?|a|valid\nscheme http\nhost domain h\nsegment \nquery |a|\n
http://h/#|a|valid\nscheme http\nhost domain h\nsegment \nfragment |a|\n
http://h|/a|valid\nscheme http\nhost domain h\n|segment a\n|
ROWS
segments=$(repeated 'segment a\n')
expect 0 "valid\nscheme http\nhost domain h\n${segments%segment a\\n}segment b\n" '' check --base "http://h$(repeated /a)" b
expect 1 'refused 130009 code-point\n' '' check "http://h/$(repeated a/) "

# 64 MiB of random bytes, in an address space that a list which memory grew with wouldn't fit into. Python counts the
# lines, and those that aren't UTF-8, a second time.
python3 - "$room" <<'PYTHON'
import random, sys
data = random.Random(7).getrandbits(8 << 26).to_bytes(1 << 26, "little")
open(sys.argv[1] + "/list", "wb").write(data)
lines = data.split(b"\n")
if lines[-1] == b"":
    lines.pop()

def is_text(line):
    try:
        line.decode()
        return True
    except UnicodeDecodeError:
        return False

other = sum(not is_text(line.removesuffix(b"\r")) for line in lines)
open(sys.argv[1] + "/wanted", "w").write(f"{len(lines)} {other}\n")
PYTHON
prlimit --as=$((16 * 1024 * 1024)) "$program" links <"$room/list" >"$room/out" 2>"$room/err"
ends_with 1 $? '' '64 MiB of random bytes'
awk -v ends=0 '/^links / { print $2, other; if ($2 != $4 + $6 + $8 || $2 != NR - 1) print "counts differ" }
    / bad 0 not-utf8$/ { other++ }' "$room/out" | cmp -s - "$room/wanted" ||
    fail "64 MiB of random bytes: $(tail -n 1 "$room/out"), and not $(cat "$room/wanted")"

all_cases 46
