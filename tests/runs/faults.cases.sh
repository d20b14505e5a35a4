# All that is wrong with texts: `check --all` under each profile, alone and against a base. Each place and rule is worked out by
# hand from the rules of docs/rules/README.md.

# faulty TEXT FAULTS WORD.. : with these words the text is refused by these places and rules, in pairs
faulty() {
    local text=$1 faults=$2
    shift 2
    expect 1 "$(printf 'refused %s %s\\n' $faults)" '' check --all "$@" -- "$text"
}

# Each part is checked by itself, and the start, the host and the port before what follows them.
faulty 'foo://[a:b//C|?^#%' '6 host-ipv6 11 first-segment-empty 13 code-point 15 code-point 17 percent'
faulty 'foo://a[b]:99999/' '7 host-code-point 9 host-code-point 11 port-range'
faulty 'http://h//%^' '9 first-segment-empty 10 percent 11 code-point'

# No host is checked where the start is at fault.
faulty '//h^/a b' '0 no-scheme 6 code-point'
faulty '#^' '1 code-point' --base urn:a

# What only the standard profile refuses.
faulty http://h//a '9 first-segment-empty'
faulty http://h//.. '9 first-segment-empty'
faulty file:////a '8 first-segment-empty'
faulty file:////C:/.. '8 first-segment-empty'
faulty http://a_b/ '7 host-domain'
faulty http://-a/ '7 host-domain'
faulty http://ab--c/ '7 host-domain'
faulty 'http://a_b//c d' '7 host-domain 11 first-segment-empty 13 code-point'
faulty 'http://a_b//c d' '13 code-point' --wide

# What both refuse.
for profile in standard wide; do
    faulty http://1.2.3/ '7 host-number' --profile $profile
    faulty $'http://\u00ad/' '7 host-domain' --profile $profile
    faulty http://a%62/ '7 host-domain' --profile $profile
    faulty file://h/C:/x '8 drive-after-host' --profile $profile
done

# A fault after more than three times 32 bytes.
letters=$(printf '%0100d' 0)
for profile in standard wide parser; do
    faulty "http://h/${letters//0/a} " '109 code-point' --profile $profile
done

# The texts of each length, and lists of them.
python3 "$here/lengths.py" vectors "$room/vectors.json" || fail 'the texts of each length'
expect 0 'vectors 22970 pass 22970 fail 0\n' '' vectors vectors.json
count=$((count + 1))
python3 "$here/lengths.py" check "$program" >"$room/out" 2>&1 || fail "the texts of each length: $(cat "$room/out")"
rm -f "$room/vectors.json"

all_cases 27
