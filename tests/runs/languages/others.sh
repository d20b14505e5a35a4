# The programs of docs/guides/other-languages.md over the texts of the vectors, which they report as `urlcheck lint`
# does, and over lines with a NUL, with CR LF, with bytes that aren't UTF-8. Sourced by tests/runs/languages.sh.

# program_in LANGUAGE ENDING : the program of the guide in a language, of at most 25 lines, with the header where it is
program_in() {
    python3 guide.py "$top/docs/guides/other-languages.md" "$1" "$room/other.$2"
    [ "$(grep -c '' "$room/other.$2")" -le 25 ] || fail "the program in $1 has more than 25 lines"
    sed -i "s|/usr/include/urlcheck.ffi.h|$include/urlcheck.ffi.h|" "$room/other.$2"
}

# reporting LANGUAGE ENDING EDIT EDIT COMMAND.. : sees that a program reports what `lint` does, and that with either
# edit it reports something else. The command runs the file $room/other.ENDING.
reporting() {
    local language=$1 file=$room/other.$2 edit edits=("$3" "$4")
    shift 4
    "$@" <"$room/texts" >"$room/reported" 2>"$room/said" || { cat "$room/said"; fail "the program in $language"; }
    cmp "$room/reported" "$room/wanted" || fail "the program in $language reports something else"
    echo "languages: the program in $language reports $refused of $(grep -c '' "$room/texts") texts, as \`lint\`"
    cp "$file" "$room/kept"
    for edit in "${edits[@]}"; do
        sed "$edit" "$room/kept" >"$file"
        ! cmp -s "$file" "$room/kept" || fail "$language: the edit $edit changes nothing"
        ! { "$@" <"$room/texts" 2>/dev/null | cmp -s - "$room/wanted"; } ||
            fail "$language: a spoiled program passes: $edit"
        spoils=$((spoils + 1))
    done
}

# in_csharp : compiles the program in C#, and runs it
in_csharp() {
    mcs -warnaserror -out:"$room/other.exe" "$room/other.cs" && mono "$room/other.exe"
}

# long_line : a line of more than 2 GiB, whose last byte is wrong
long_line() {
    printf 'http://h/'
    head -c 2147483648 /dev/zero | tr '\0' a
    printf ' \n'
}

# The line, the column in bytes and the rule of each report of `lint`.
python3 texts.py "$top"/tests/vectors/*.json >"$room/texts"
"$program" lint --quiet --columns bytes "$room/texts" >"$room/linted" || [ $? = 1 ]
sed -E 's/^[^:]*:([0-9]+:[0-9]+): error: .* \[([a-z0-9-]+)\]$/\1: \2/' "$room/linted" >"$room/wanted"
refused=$(grep -c '' "$room/wanted")
[ "$refused" -gt 1000 ] || fail '`lint` reports less'

if here Ruby ruby && with Ruby 'its gem ffi' ruby -e 'require "ffi"'; then
    program_in ruby rb
    reporting Ruby rb 's/answer\[:byte_place\]/answer[:place]/' 's/text.bytesize, 0/text.bytesize, 2/' \
        ruby "$room/other.rb"
fi
if here PHP php && with PHP 'its FFI' php -r 'exit(class_exists("FFI") ? 0 : 1);'; then
    program_in php php
    reporting PHP php 's/found->byte_place/found->place/' 's/strlen($text), 0, null/strlen($text), 2, null/' \
        php "$room/other.php"
fi
if here 'C#' mcs && here 'C#' mono; then
    program_in csharp cs
    reporting 'C#' cs 's/answer.BytePlace/answer.Place/' 's/(UIntPtr)size, 0/(UIntPtr)size, 2/' in_csharp
fi
if here Lua luajit; then
    program_in lua lua
    reporting Lua lua 's/found.byte_place/found.place/' 's/#text, 0, nil/#text, 2, nil/' luajit "$room/other.lua"
fi
if here Perl perl && with Perl FFI::Platypus perl -MFFI::Platypus=2.00 -e 1; then
    program_in perl pl
    reporting Perl pl 's/, $byte_place) = unpack/, $other) = unpack/; s/$place/$byte_place/' \
        's/($text), 0, undef/($text), 2, undef/' perl "$room/other.pl"
fi

# A text of more than 2 GiB: the right answer where lengths have 64 bits, otherwise an error of the language's own.
if roomy 'texts of more than 2 GiB in Ruby, PHP, Lua and Perl' 9; then
    wanted='1:2147483658: code-point'
    if command -v ruby >/dev/null && ruby -e 'require "ffi"' 2>/dev/null; then
        # (Ruby itself reads no line so long)
        program_in ruby rb
        sed -i 's|$stdin.binmode.each_line|["http://h/" + "a" * 2**31 + " "].each|' "$room/other.rb"
        [ "$(ruby "$room/other.rb")" = "$wanted" ] || fail 'Ruby: a text of more than 2 GiB'
    fi
    if command -v perl >/dev/null && perl -MFFI::Platypus=2.00 -e 1 2>/dev/null; then
        program_in perl pl
        [ "$(long_line | perl "$room/other.pl")" = "$wanted" ] || fail 'Perl: a text of more than 2 GiB'
    fi
    if command -v php >/dev/null && php -r 'exit(class_exists("FFI") ? 0 : 1);'; then
        program_in php php
        ended=0
        long_line | php -d memory_limit=-1 "$room/other.php" >"$room/said" 2>&1 || ended=$?
        [ $ended = 255 ] && grep -qF 'FFI\ParserException' "$room/said" ||
            fail "PHP: status $ended: $(cat "$room/said")"
    fi
    if command -v luajit >/dev/null; then
        program_in lua lua
        ended=0
        long_line | luajit "$room/other.lua" >"$room/said" 2>&1 || ended=$?
        [ $ended = 1 ] && grep -qF 'not enough memory' "$room/said" || fail "Lua: status $ended: $(cat "$room/said")"
    fi
    echo 'languages: texts of more than 2 GiB are checked by Ruby and Perl, and errors in PHP and Lua'
fi
