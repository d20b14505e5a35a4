# What `check` writes of texts written out, as the URL Standard's section 4.3 and docs/DECISIONS.md give it. Each expected
# line is worked out by hand from these. The refused texts are in `tests/vectors/`, with which
# tests/runs/library.sh compares what `check` writes of them.

# says WORD.. : a run of `check` with these words and the text of each row of standard input writes the lines of that row,
# `TEXT => LINES`, and ends with 0 where the first of them is `valid`, and otherwise with 1. Both are read with escapes.
says() {
    local row lines status
    while IFS= read -r row; do
        lines=${row#* => }
        case $lines in valid*) status=0 ;; *) status=1 ;; esac
        expect $status "$lines" '' check "$@" -- "$(printf '%b' "${row%% => *}")"
    done
}

# Texts with an opaque path: escapes, other code points, query and fragment.
says <<'ROWS'
urn:isbn:0451450523 => valid\nscheme urn\nopaque isbn:0451450523\n
foo: => valid\nscheme foo\nopaque \n
foo:? => valid\nscheme foo\nopaque \nquery \n
urn:\xc3\xa9?x'y#' => valid\nscheme urn\nopaque %C3%A9\nquery x'y\nfragment '\n
urn:\xf4\x8f\xbf\xbd => valid\nscheme urn\nopaque %F4%8F%BF%BD\n
urn:%e9 => valid\nscheme urn\nopaque %e9\n
urn:a/b => valid\nscheme urn\nopaque a/b\n
ROWS

# Texts of class SpecialNotFile: hosts, ports, paths, queries and fragments.
says <<'ROWS'
https://EXAMPLE.com:443/a/../b?x='y'#\xc3\xa9 => valid\nscheme https\nhost domain example.com\nsegment b\nquery x=%27y%27\nfragment %C3%A9\n
https://example.com/a//b => valid\nscheme https\nhost domain example.com\nsegment a\nsegment \nsegment b\n
http://[1:2:3:4:5:6:7::]/ => valid\nscheme http\nhost ipv6 [1:2:3:4:5:6:7:0]\nsegment \n
http://[::ffff:1.2.3.4]/ => valid\nscheme http\nhost ipv6 [::ffff:102:304]\nsegment \n
http://192.168.0.1/ => valid\nscheme http\nhost ipv4 192.168.0.1\nsegment \n
http://h:065535/ => valid\nscheme http\nhost domain h\nport 65535\nsegment \n
http://h:/ => valid\nscheme http\nhost domain h\nsegment \n
ws://h:80/x => valid\nscheme ws\nhost domain h\nsegment x\n
wss://h:80/x => valid\nscheme wss\nhost domain h\nport 80\nsegment x\n
http://[::1]:8080/ => valid\nscheme http\nhost ipv6 [::1]\nport 8080\nsegment \n
http://h => valid\nscheme http\nhost domain h\nsegment \n
http://h/ => valid\nscheme http\nhost domain h\nsegment \n
http://h/? => valid\nscheme http\nhost domain h\nsegment \nquery \n
http://h/# => valid\nscheme http\nhost domain h\nsegment \nfragment \n
http://h/?# => valid\nscheme http\nhost domain h\nsegment \nquery \nfragment \n
http://h/a/%2E%2e/b => valid\nscheme http\nhost domain h\nsegment b\n
http://h/a/. => valid\nscheme http\nhost domain h\nsegment a\nsegment \n
https://b\xc3\xbccher.example/ => valid\nscheme https\nhost domain xn--bcher-kva.example\nsegment \n
http://example.com./ => valid\nscheme http\nhost domain example.com.\nsegment \n
http://b\xc3\xbccher.example. => valid\nscheme http\nhost domain xn--bcher-kva.example.\nsegment \n
ROWS

# A label of 63 code points is one of a domain, and one of 64 isn't.
label=$(printf 'a%.0s' {1..63})
expect 0 "valid\nscheme http\nhost domain $label\nsegment \n" '' check "http://$label/"
expect 1 'refused 7 host-domain\n' '' check "http://${label}a/"

# Texts of class Other with an authority or a path.
says <<'ROWS'
foo:/a => valid\nscheme foo\nsegment a\n
foo://h => valid\nscheme foo\nhost opaque h\n
foo://192.168.0.1/ => valid\nscheme foo\nhost opaque 192.168.0.1\nsegment \n
foo://u%40h:80/a/ => valid\nscheme foo\nhost opaque u%40h\nport 80\nsegment a\nsegment \n
foo:// => valid\nscheme foo\nhost empty\n
foo:/.//a => valid\nscheme foo\nsegment \nsegment a\n
ROWS

# Texts of class File: hosts, empty hosts and drive letters.
says <<'ROWS'
file://localhost/etc => valid\nscheme file\nhost empty\nsegment etc\n
file:///C:/.. => valid\nscheme file\nhost empty\nsegment C:\nsegment \n
file:/// => valid\nscheme file\nhost empty\nsegment \n
file://h/C: => valid\nscheme file\nhost domain h\nsegment C:\n
file://h => valid\nscheme file\nhost domain h\nsegment \n
file://h?q => valid\nscheme file\nhost domain h\nsegment \nquery q\n
file:///C:/../.. => valid\nscheme file\nhost empty\nsegment C:\nsegment \n
file:///c%3A/.. => valid\nscheme file\nhost empty\nsegment \n
ROWS

# References against bases of each class.
says --base file:///C:/d/f <<'ROWS'
/x => valid\nscheme file\nhost empty\nsegment C:\nsegment x\n
/D:?q => valid\nscheme file\nhost empty\nsegment D:\nquery q\n
/.. => valid\nscheme file\nhost empty\nsegment C:\nsegment \n
C:/x => valid\nscheme c\nsegment x\n
.. => valid\nscheme file\nhost empty\nsegment C:\nsegment \n
../../x => valid\nscheme file\nhost empty\nsegment C:\nsegment x\n
///x => valid\nscheme file\nhost empty\nsegment x\n
//h/x => valid\nscheme file\nhost domain h\nsegment x\n
ROWS
says --base file://h/a <<'ROWS'
/b => valid\nscheme file\nhost domain h\nsegment b\n
ROWS
says --base foo:/a <<'ROWS'
..//x => valid\nscheme foo\nsegment \nsegment x\n
// => valid\nscheme foo\nhost empty\n
ROWS
says --base foo://h/a <<<'//g => valid\nscheme foo\nhost opaque g\n'
says --base https://h/a <<<'//g => valid\nscheme https\nhost domain g\nsegment \n'
says --base 'http://h/a/b?q' <<'ROWS'
 => valid\nscheme http\nhost domain h\nsegment a\nsegment b\nquery q\n
#f => valid\nscheme http\nhost domain h\nsegment a\nsegment b\nquery q\nfragment f\n
?x => valid\nscheme http\nhost domain h\nsegment a\nsegment b\nquery x\n
. => valid\nscheme http\nhost domain h\nsegment a\nsegment \n
.. => valid\nscheme http\nhost domain h\nsegment \n
ROWS
says --base http://h/ <<'ROWS'
a:b => valid\nscheme a\nopaque b\n
./a:b => valid\nscheme http\nhost domain h\nsegment a:b\n
1:b => valid\nscheme http\nhost domain h\nsegment 1:b\n
ROWS

# A base that is refused by itself is named with its own place and rule, and of many faults with the least.
expect 2 '' "$(no_base 7 host-missing 'a host is missing here')" check --base http:// '#f'
expect 2 '' "$(no_base 10 code-point 'U+0020 SPACE is not allowed in a URL')" check --base 'http://h/a b' x
expect 2 '' "$(no_base 7 host-domain 'a URL string has no credentials: no user name, password or @ before its host; leave them out')" \
    check --base http://u@h/ x
expect 2 '' "$(no_base 5 two-slashes '// has to follow this scheme')" check --all --base 'http:a b' 'x y'

# All that is wrong with a text, alike under each profile, and where they differ.
for profile in standard wide parser; do
    says --all --profile $profile <<'ROWS'
http://u@h/a b?%4 => refused 7 host-domain\nrefused 12 code-point\nrefused 15 percent\n
http:x y => refused 5 two-slashes\nrefused 6 code-point\n
foo://a^:8x9y/ => refused 7 host-code-point\nrefused 10 port-digit\nrefused 12 port-digit\n
http:// => refused 7 host-missing\n
file:///x => valid\nscheme file\nhost empty\nsegment x\n
urn:a => valid\nscheme urn\nopaque a\n
ROWS
    says --all --profile $profile --base urn:a <<<'//h%4/x => refused 0 opaque-base\n'
done
says --all <<'ROWS'
http://a_b//c d => refused 7 host-domain\nrefused 11 first-segment-empty\nrefused 13 code-point\n
http://h//a => refused 9 first-segment-empty\n
ROWS
says --all --wide <<'ROWS'
http://a_b//c d => refused 13 code-point\n
http://h//a => valid\nscheme http\nhost domain h\nsegment \nsegment a\n
http://a%2Db//c d => refused 7 host-domain\nrefused 15 code-point\n
urn:a b => refused 5 code-point\n
ROWS
says --all --profile parser <<'ROWS'
http://a%2Db//c d => refused 15 code-point\n
http://a%2Fb:8x/ => refused 7 host-domain\nrefused 14 port-digit\n
urn:a b\x20 => refused 7 code-point\n
urn:a b => valid\nscheme urn\nopaque a b\n
http://1.2/ => valid\nscheme http\nhost ipv4 1.0.0.2\nsegment \n
ROWS

# Each kind of host in the text, in the base, and in both.
while IFS='|' read -r scheme host kind; do
    host=$(printf '%b' "$host")
    text="$scheme://$host/a/b/c/d/e?q"
    four="valid\nscheme $scheme\nhost $kind\nsegment a\nsegment b\nsegment c\nsegment d\n"
    expect 0 "${four}segment e\nquery q\n" '' check "$text"
    expect 0 "${four}segment e\nquery q\n" '' check --base "$text" "$text"
    expect 0 "${four}segment e\nquery q\n" '' check --base "$text" "//$host/a/b/c/d/e?q"
    expect 0 "${four}segment x\n" '' check --base "$text" x
done <<'ROWS'
http|h|domain h
http|b\xc3\xbccher.example|domain xn--bcher-kva.example
http|192.168.0.1|ipv4 192.168.0.1
http|[1:2::8]|ipv6 [1:2::8]
file|h|domain h
file||empty
foo|h|opaque h
foo||empty
foo|[1:2::8]|ipv6 [1:2::8]
ROWS
all_cases 136
