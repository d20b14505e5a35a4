# Hostile texts, which `lint`, `links` and `vectors` check alike: prefixes and mutations of texts, long lines.

# (the longest texts are words of a command line too)
if has long_command_lines 1; then
    count=$((count + 1))
    python3 "$here/hostile.py" "$program" >"$room/out" 2>&1 || fail "hostile texts: $(cat "$room/out")"
    grep -qx 'hostile: 93 lists' "$room/out" || fail "hostile texts: $(cat "$room/out")"
fi

# A program that answers one of them otherwise is found: another rule of a fault, one fault less of all, a URL for a fault.
spoiled() {
    local what=$1 words=$2 edit=$3
    cat >"$room/spoiled" <<SCRIPT
#!/usr/bin/env bash
case " \$* " in
    *"$words"*) "$program" "\$@" | sed '$edit'; exit "\${PIPESTATUS[0]}" ;;
    *) exec "$program" "\$@" ;;
esac
SCRIPT
    chmod +x "$room/spoiled"
    count=$((count + 1))
    ! python3 "$here/hostile.py" "$room/spoiled" >"$room/out" 2>&1 || fail "hostile texts: $what is as wanted"
    grep -q '^FAILED: variants' "$room/out" || fail "hostile texts: $what: $(cat "$room/out")"
}
spoiled 'another rule' ' --all ' '0,/host-number/s//host-domain/'
spoiled 'a line less' ' lint --quiet --profile' '0,/^.*two-slashes.*$/{//d}'
spoiled 'a refusal for a URL' ' links ' 's/^1 bad .*/1 ok x/'
rm -f "$room/spoiled" "$room/list"

all_cases 4
