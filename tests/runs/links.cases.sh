# Lists of links: from a pipe, from a file, against a base, with a line that isn't UTF-8, and streams that fail.

# reports STATUS STDOUT STDERR WORD.. : a run of `links` on the bytes of $room/list ends so
reports() { on_list links "$@"; }

printf 'a\n\nhttp://x_y/\n' >"$room/list"
against='1 ok http://h/a\n2 ok http://h/\n3 bad 7 host-domain\nlinks 3 ok 2 bad 1 differs 0\n'
reports 1 "$against" '' --base http://h/
reports 1 "$against" '' --base=http://h/
wide='1 ok http://h/a\n2 ok http://h/\n3 ok http://x_y/\nlinks 3 ok 3 bad 0 differs 0\n'
reports 0 "$wide" '' --wide --base http://h/
reports 0 "${wide//h\//h_\/}" '' --wide --base http://h_/
reports 2 '' "$(no_base 7 host-domain 'U+005F LOW LINE is not allowed in a domain; --profile wide allows it')" --base http://h_/
reports 2 '' "$(no_base 7 host-missing 'a host is missing here')" --base http://

# An accepted line has the text that the second parser gives too. Each is worked out by hand from the URL Standard's
# sections 4.3 to 4.5 or is in tests/vectors/standard.json.
# gives PROFILE BASE NUMBER LINE.. : under the profile so many lines `LINK => TEXT` are ok, against the base, if there is one
gives() {
    local profile=$1 base=$2 wanted=$3 lines
    shift 3
    printf '%s\n' "$@" | sed 's/ => .*//' >"$room/list"
    lines=$(printf '%s\n' "$@" | awk -F ' => ' '{ print NR " ok " $2 }')
    reports 0 "$lines\nlinks $wanted ok $wanted bad 0 differs 0\n" '' --profile "$profile" ${base:+--base "$base"}
}
# Hosts; ports, paths and queries; references; those to files.
longest=http://aaaaaaaaaaaaaaaaaaaaaaaaaaaaaaaaaaaaaaaaaaaaaaaaaaaaaaaaaaaaaaa/
gives standard '' 18 \
    'http://h => http://h/' 'http://EXAMPLE.com./ => http://example.com./' \
    $'https://b\303\274cher.example/ => https://xn--bcher-kva.example/' "$longest => $longest" \
    'http://192.168.0.1/ => http://192.168.0.1/' 'http://[1:2:3:4:5:6:7::]/ => http://[1:2:3:4:5:6:7:0]/' \
    'http://[::ffff:1.2.3.4]/ => http://[::ffff:102:304]/' 'http://[::1]:8080/ => http://[::1]:8080/' 'foo://h => foo://h' \
    'foo://192.168.0.1/ => foo://192.168.0.1/' 'foo://[0:0::1]/ => foo://[::1]/' 'foo://u%40h:80/a/ => foo://u%40h:80/a/' \
    'foo:// => foo://' 'file:/// => file:///' 'file://localhost/etc => file:///etc' 'file://h => file://h/' \
    'file://h?q => file://h/?q' 'file://h/C: => file://h/C:'
gives standard '' 22 \
    $'https://EXAMPLE.com:443/a/../b?x=\'y\'#\303\251 => https://example.com/b?x=%27y%27#%C3%A9' \
    'http://h:065535/ => http://h:65535/' 'http://h:/ => http://h/' 'ws://h:80/x => ws://h/x' \
    'wss://h:80/x => wss://h:80/x' 'https://example.com/a//b => https://example.com/a//b' \
    'http://h/a/%2E%2e/b => http://h/b' 'http://h/a/. => http://h/a/' 'http://h/? => http://h/?' 'http://h/# => http://h/#' \
    'http://h/?# => http://h/?#' 'file:///C:/.. => file:///C:/' \
    'file:///C:/../.. => file:///C:/' 'file:///c%3A/.. => file:///' 'foo:/a => foo:/a' 'foo:/.//a => foo:/.//a' \
    'foo: => foo:' 'foo:? => foo:?' 'urn:isbn:0451450523 => urn:isbn:0451450523' \
    $'urn:\303\251?x\'y#\' => urn:%C3%A9?x\'y#\'' $'urn:\364\217\277\275 => urn:%F4%8F%BF%BD' 'urn:%e9 => urn:%e9'
gives standard 'http://h/a/b?q' 6 \
    ' => http://h/a/b?q' 'x => http://h/a/x' '#f => http://h/a/b?q#f' '?x => http://h/a/b?x' '. => http://h/a/' \
    '.. => http://h/'
gives standard http://h/ 3 'a:b => a:b' './a:b => http://h/a:b' '1:b => http://h/1:b'
gives standard 'http://h/a?q#f' 1 ' => http://h/a?q'
gives standard https://h/a 1 '//g => https://g/'
gives standard foo://h/a 1 '//g => foo://g'
gives standard foo:/a 2 '..//x => foo:/.//x' '// => foo://'
gives standard urn:a 1 '#t => urn:a#t'
gives standard file:///C:/d/f 8 \
    '/x => file:///C:/x' '/D:?q => file:///D:?q' '/.. => file:///C:/' 'C:/x => c:/x' '.. => file:///C:/' \
    '../../x => file:///C:/x' '///x => file:///x' '//h/x => file://h/x'
gives standard file://h/a 1 '/b => file://h/b'
# What the wide profile takes.
gives wide '' 3 'http://a_b/ => http://a_b/' 'http://h//a => http://h//a' 'http://-A_b-:80//x => http://-a_b-//x'
gives wide http://a_b//x 2 '//c_d => http://c_d/' 'y => http://a_b//y'
# Under the parser's profile hosts of every kind, files with and without a host, opaque paths with spaces, and what the
# narrower profiles take.
gives parser '' 10 \
    'http://a%2Db/ => http://a-b/' 'http://A+b..c/ => http://a+b..c/' 'http://b%C3%BCcher/ => http://xn--bcher-kva/' \
    'http://%31.2.3:80//x => http://1.2.0.3//x' 'file:// => file:///' 'file://?q => file:///?q' \
    'file://h/C:/x => file://h/C:/x' 'urn:a b => urn:a b' 'urn:a ?q => urn:a%20?q' 'urn:a  #f => urn:a %20#f'
gives parser file://h/C:/x 3 '// => file:///' '/D:/y => file://h/D:/y' '/y => file://h/C:/y'
gives parser 'http://h/a/b?q' 34 \
    'x => http://h/a/x' ' => http://h/a/b?q' '#f => http://h/a/b?q#f' '//a%2Db/c => http://a-b/c' \
    '//1.2 => http://1.0.0.2/' 'http://%41b/ => http://ab/' 'http://%31.2.3/ => http://1.2.0.3/' 'http://1/ => http://0.0.0.1/' \
    'http://255.255/ => http://255.0.0.255/' $'http://\357\274\221.2.3.4/ => http://1.2.3.4/' \
    $'http://b\303\274cher/ => http://xn--bcher-kva/' 'http://b%C3%BCcher/ => http://xn--bcher-kva/' \
    'http://XN--N3H/ => http://xn--n3h/' 'http://A+b_c/ => http://a+b_c/' 'http://a..b/ => http://a..b/' \
    'http://-/ => http://-/' 'http://../ => http://../' 'http://~*/ => http://~*/' 'http://a%C2%ADb:80/ => http://ab/' \
    'http://h//a => http://h//a' 'http://[::1.2.3.4]/ => http://[::102:304]/' 'file:// => file:///' \
    'file://?q => file:///?q' 'file://localhost/C:/x => file:///C:/x' 'file://h/C:/x => file://h/C:/x' \
    'file://%68/C:/.. => file://h/C:/' 'file://1.2 => file://1.0.0.2/' 'urn:a b => urn:a b' 'urn:a ?q => urn:a%20?q' \
    'urn:a  #f => urn:a %20#f' 'javascript:alert(1, 2) => javascript:alert(1, 2)' 'foo://A%2Fb/ => foo://A%2Fb/' \
    'foo://h//a => foo://h//a' "https://EXAMPLE.com:443/a/../b?x='y' => https://example.com/b?x=%27y%27"
gives parser file://h/C:/d/f 9 \
    'x => file://h/C:/d/x' '/x => file://h/C:/x' '/D:/x => file://h/D:/x' '../../.. => file://h/C:/' '// => file:///' \
    '//?q => file:///?q' '//g => file://g/' '///x => file:///x' 'C:/x => c:/x'
gives parser 'urn:a b' 3 '#f => urn:a b#f' 'urn:c d => urn:c d' 'http://1.2.3/ => http://1.2.0.3/'
printf 'http://256/\nurn:a \nfile://C:/x\nhttp://h/a b\n' >"$room/list"
bad='1 bad 7 host-number\n2 bad 5 code-point\n3 bad 7 host-domain\n4 bad 10 code-point\n'
reports 1 "${bad}links 4 ok 0 bad 4 differs 0\n" '' --profile parser
reports 2 '' "$(no_base 5 code-point 'U+0020 SPACE is not allowed in a URL')" --wide --base 'urn:a b'

printf 'a\r\n\377\nb' >"$room/list"
reports 1 '1 bad 0 no-scheme\n2 bad 0 not-utf8\n3 bad 0 no-scheme\nlinks 3 ok 0 bad 3 differs 0\n' ''
printf '' >"$room/list"
reports 0 'links 0 ok 0 bad 0 differs 0\n' ''
printf 'http://h/\303\n' >"$room/list"
reports 1 '1 bad 0 not-utf8\nlinks 1 ok 0 bad 1 differs 0\n' ''
reports 1 '1 bad 0 not-utf8\nlinks 1 ok 0 bad 1 differs 0\n' '' --wide
printf 'a\r' >"$room/list"
reports 1 '1 bad 1 code-point\nlinks 1 ok 0 bad 1 differs 0\n' '' --base http://h/
reports 1 '1 bad 1 code-point\nlinks 1 ok 0 bad 1 differs 0\n' '' --wide --base http://h/
printf 'http://h/a\r' >"$room/list"
reports 1 '1 bad 10 code-point\nlinks 1 ok 0 bad 1 differs 0\n' ''
printf 'urn:a\nurn:b' >"$room/list"
reports 0 '1 ok urn:a\n2 ok urn:b\nlinks 2 ok 2 bad 0 differs 0\n' ''

# A line of 65,536 bytes is checked, and one of 65,537 is too long, with and without an LF.
longest=urn:$(head -c 65532 /dev/zero | tr '\0' a)
printf '%s\r\n%sa\n%sa' "$longest" "$longest" "$longest" >"$room/list"
reports 1 "1 ok $longest\n2 bad 0 line-too-long\n3 bad 0 line-too-long\nlinks 3 ok 1 bad 2 differs 0\n" ''

answers_at_once 'a live pipe' 'urn:N' 'N ok urn:N' 'links 3 ok 3 bad 0 differs 0' links

# Streams that fail.
printf 'urn:a\n' >"$room/list"
"$program" links <"$room/list" >/dev/full 2>"$room/err"
ends_with 3 $? "${no_space}write\\n" 'links to a full device'
to_nobody "$program" links <"$room/list"
ends_with 3 "$(cat "$room/status")" '' 'links to a closed pipe'
if has folder_input 1; then
    "$program" links <"$room" >"$room/out" 2>"$room/err"
    ends_with 3 $? "${from_folder}read\\n" 'links from a folder'
fi

# A list of 100,000 lines, whose report is made a second time here: five kinds of line, each with its known answer.
awk 'BEGIN {
    for (n = 1; n <= 100000; n++) {
        kind = n % 5
        if (kind == 0) print "https://EXAMPLE.com:443/a/../" n
        else if (kind == 1) print "urn:isbn:" n
        else if (kind == 2) print "http://h/a b"
        else if (kind == 3) print n
        else print "http://h:" n % 60000 + 100 "/?q=" n
    }
}' >"$room/list"
awk 'BEGIN {
    for (n = 1; n <= 100000; n++) {
        kind = n % 5
        if (kind == 0) print n " ok https://example.com/" n
        else if (kind == 1) print n " ok urn:isbn:" n
        else if (kind == 2) print n " bad 10 code-point"
        else if (kind == 3) print n " bad 0 no-scheme"
        else print n " ok http://h:" n % 60000 + 100 "/?q=" n
    }
    print "links 100000 ok 60000 bad 40000 differs 0"
}' >"$room/wanted"
"$program" links <"$room/list" >"$room/out" 2>"$room/err"
ends_with 1 $? '' 'a list of 100,000 lines'
cmp -s "$room/wanted" "$room/out" || fail "a list of 100,000 lines: $(diff "$room/wanted" "$room/out" | head -3)"

all_cases 43
