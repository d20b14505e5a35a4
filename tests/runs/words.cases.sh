# The words of the command line, and the statuses that they give.

# ran STATUS WORD.. : a run of these words has this status
ran() {
    local status=$1 ended
    shift
    (cd "$room" && "$program" "$@") >"$room/out" 2>"$room/err" </dev/null
    ended=$?
    count=$((count + 1))
    if [ "$ended" != "$status" ]; then fail "$*: status $ended, and not $status"; fi
}

# refused WHY WORD.. : these words are refused: standard error says why, how the program is used, and at its end `words`,
# each line but this one after the program's name
refused() {
    local why=$1
    shift
    ran 2 "$@"
    if [ -s "$room/out" ]; then fail "$*: it wrote: $(cat "$room/out")"; fi
    if ! grep -qF -- "$why" "$room/err" || ! grep -q '^urlcheck: Usage: urlcheck' "$room/err" ||
        [ "$(tail -n 1 "$room/err")" != words ] || [ "$(grep -vc '^urlcheck: ' "$room/err")" != 1 ]; then
        fail "$*: on standard error: $(cat "$room/err")"
    fi
}

# shows LINE WORD.. : these words are answered only on standard output, with this line among others
shows() {
    local line=$1
    shift
    ran 0 "$@"
    if [ -s "$room/err" ]; then fail "$*: on standard error: $(cat "$room/err")"; fi
    if ! grep -qxF -- "$line" "$room/out"; then fail "$*: it wrote: $(cat "$room/out")"; fi
}

# Without words, standard error has the short help and then `words`.
"$program" -h >"$room/short"
ran 2
[ ! -s "$room/out" ] || fail "no words: it wrote: $(cat "$room/out")"
{ cat "$room/short"; echo words; } | cmp -s - "$room/err" || fail "no words: on standard error: $(cat "$room/err")"

# Words that are refused, and words that ask for help.
refused "'-x'" -x
refused '<TEXT>' check
refused "'-a'" check -a
refused "'-a'" lint -a b
# no_value OPTION VALUE HELP WORD.. : these words are refused since this option has no value, and its help says which it may have
no_value() {
    local option=$1 value=$2 help=$3
    shift 3
    expect 2 '' "urlcheck: a value is required for '$option <$value>' but none was supplied\n\
urlcheck: For more information, try '--help'.\nurlcheck: $option: $help\nwords\n" "$@"
}
formats='How to report [default: gnu] [possible values: gnu, caret, json, github, sarif, checkstyle, junit, gitlab, rdjson]'
no_value --base URL 'Resolve a relative link against this URL' check --base
no_value --format FORMAT "$formats" lint --format
no_value --format FORMAT "$formats" lint --format --quiet links.txt
no_value --format FORMAT "$formats" lint --base http://h/ --format -- links.txt
no_value --columns UNIT 'What columns count [default: code-points] [possible values: code-points, bytes, utf16, screen]' lint x --columns
refused "'urn:b'" check urn:a urn:b
refused "'urn:b'" check -- urn:a urn:b
no_value --profile PROFILE 'What to accept [default: standard] [possible values: standard, wide, parser]' check --profile
refused "'b'" check -- --base b t
refused "'chek'" chek urn:a
no_file='urlcheck: links reads standard input, not a file: urlcheck links <FILE'
# usage_of WORDS : the usage of a command: an option is one of those that may be left out, even if it is given
usage_of() { printf '%s' "urlcheck: Usage: $1\nurlcheck: For more information, try '--help'.\n"; }
usage=$(usage_of 'urlcheck links [OPTIONS]')
of_one=$(usage_of 'urlcheck check [OPTIONS] <TEXT>')
of_all='urlcheck: --all is an option of check and lint\n'
expect 2 '' "urlcheck: unexpected argument 'x' found\n$usage$no_file\nwords\n" links x
expect 2 '' "urlcheck: unexpected argument 'links.txt' found\n$usage$no_file\nwords\n" links --base http://h/ links.txt
expect 2 '' "urlcheck: unexpected argument '--all' found\n$usage$of_all""words\n" links --all links.txt
expect 2 '' "urlcheck: unexpected argument '--all' found\n$usage$of_all""words\n" links --all
refused "'--format'" mend --format gnu
refused '<FILE>' vectors
if has byte_arguments 4; then
    expect 2 '' "urlcheck: argument 2 isn't UTF-8\nwords\n" check $'\xff'
    expect 2 '' "urlcheck: argument 1 isn't UTF-8\nwords\n" $'\xff'
    expect 2 '' "urlcheck: argument 3 isn't UTF-8\nwords\n" check a $'b\xff' --base $'\xfe'
    expect 2 '' "urlcheck: argument 2 isn't UTF-8\nwords\n" vectors $'\xff'
fi
refused $'unexpected argument \'--\xef\xbf\xbd[2J\'' check $'--\e[2J' a
refused $'unrecognized subcommand \'a\xef\xbf\xbd\'' $'a\a'
shows 'Checks how links are written (WHATWG URL Standard). Opens no connection.' --help
shows '  2  the arguments, the base or the file of vectors are refused, or a file of' help
shows "  urlcheck check 'https://example.com/a b'" -h
shows '  urlcheck check --base https://example.com/a/ ../b' check --help
shows '  urlcheck links --base https://example.com/ <links.txt' help links
shows '  urlcheck lint --format caret links.txt' lint --help
shows "  urlcheck mend 'https://example.com/a b'" mend -h
shows '  urlcheck vectors tests/vectors/standard.json' help vectors

# Each help is at most 80 columns wide, without a space at the end of a line. The long form has the options of the short
# one, under the same headings, and more: the exit statuses. Both have examples.
# options_of FILE : the headings of a help and its options, in their order
options_of() { grep -o -e '^[A-Z][a-z]*:$' -e '^ *\(-[a-zA-Z], \)\?--[a-z-]*\( <[A-Z]*>\)\?' "$1" | sed 's/^ *//'; }
for command in '' check lint links mend vectors explain; do
    count=$((count + 1))
    "$program" $command -h >"$room/short"
    "$program" $command --help >"$room/long"
    [ "$(LC_ALL=C.UTF-8 awk 'length > 80 || / $/' "$room/short" "$room/long")" = '' ] || fail "$command --help: a line is too wide"
    options_of "$room/short" | cmp -s - <(options_of "$room/long") || fail "$command: -h and --help have other options"
    [ "$(wc -l <"$room/short")" -lt "$(wc -l <"$room/long")" ] || fail "$command --help has no more than -h"
    grep -q '^Exit statuses:$' "$room/long" || fail "$command --help has no exit statuses"
    ! grep -q '^Exit statuses:$' "$room/short" || fail "$command -h has exit statuses"
    [ "$(grep -c -e '^Examples\?:$' "$room/short" "$room/long" | grep -c ':1$')" = 2 ] || fail "$command: a help has no examples"
    # (the long form is the manual page's; the text of an option in the short one is what it begins with)
    count=$((count + 1))
    python3 - "$room/short" "$room/long" >"$room/wrong" <<'PYTHON' || fail "$command -h says otherwise than --help: $(cat "$room/wrong")"
import re, sys
short, long = (open(it, encoding="utf-8").read() for it in sys.argv[1:])
head = re.compile(r" {2,6}((?:-[a-z], )?--[a-z-]+(?: <[A-Z]+>)?|[<[][A-Z]+[]>](?:[.]{3})?)(?:  +(.*))?")
def entries(text):
    found, name = {}, None
    for line in text.split("\n"):
        begun = head.fullmatch(line)
        if begun:
            name = begun[1]
            found[name] = begun[2] or ""
        elif name and line.startswith(" " * 10):
            found[name] += " " + line.strip()
        else:
            name = None
    return {name: " ".join(said.split()) for name, said in found.items() if name != "-h, --help"}
def others(text):
    parts = [it for it in text.split("\n\n") if re.match("Usage|Commands|Example", it)]
    return [text.split("\n")[0]] + [line.rstrip() for it in parts for line in it.strip().split("\n")]
longs = entries(long)
wrong = [name for name, said in entries(short).items() if not longs.get(name, "").startswith(said.split(" [")[0])]
wrong += [it for it in others(short) if it not in others(long)]
print(*wrong, sep="\n")
sys.exit(bool(wrong) or len(others(short)) < 3)
PYTHON
done
# The values that the help names are those that the option accepts, as an unknown value is told, and the first is its default.
# has_values COMMAND OPTION NOUN : the values of an option in both helps, which the program calls so
has_values() {
    local names
    count=$((count + 1))
    local last=x
    [ $1 != links ] || last=
    names=$("$program" $1 --$2 none $last 2>&1 </dev/null | sed -n "s/^urlcheck: the $3s: //p")
    [ -n "$names" ] || fail "$1 --$2: none is named"
    [ "$("$program" $1 -h | tr -s '\n ' ' ' | sed -n "s/.*--$2 <[^[]*\(\[default: [^]]*\] \)\?\[possible values: \([^]]*\)\].*/\2/p")" = "${names// /, }" ] ||
        fail "$1 -h: --$2 doesn't have the values $names"
    [ "$("$program" $1 --help | sed -n "/--$2 /,/^\$/s/^ *- \([a-z0-9-]*\):.*/\1/p" | tr '\n' ' ')" = "$names " ] ||
        fail "$1 --help: --$2 doesn't have the values $names"
    "$program" $1 -h | tr -s '\n ' ' ' | grep -q -e "--$2 <[^[]*\[default: ${names%% *}\]" || [ $2 = only ] ||
        fail "$1 -h: --$2 has no default"
}
for command in check lint links mend; do has_values $command profile profile; done
has_values lint format format
has_values lint columns 'column unit'
has_values lint color 'colour choice'
count=$((count + 1))
[ "$("$program" mend -h | tr -s '\n ' ' ' | grep -c 'possible values: same, escaped, changed')" = 1 ] || fail 'mend -h has no kinds'
expect 0 "urlcheck $(cat "$(dirname "$(dirname "$here")")/VERSION")\n" '' -V
expect 0 "urlcheck $(cat "$(dirname "$(dirname "$here")")/VERSION")\nUnicode 18.0, in domains\n" '' --version

# The statuses of each command are in its help, and each command that checks says what the profiles are.
shows '  1  the text is refused' check --help
shows "  2  the arguments or the base are refused, or a file can't be read; the others" lint --help
shows "  1  a line isn't ok" help links
shows '  1  a case fails' vectors --help
shows '  2  the arguments are refused, or no rule has the name' explain --help
shows '      --profile <PROFILE>  What to accept [default: standard]' links -h
shows '  -q, --quiet            Leave out the counts on standard error' lint -h
shows '      --stdin-name <NAME>  Report on - under this name [default: -]' lint -h
# (a file that can't be read is 2 for lint, which goes on with the others, and 3 for vectors)
shows "  2  the arguments or the base are refused, or a file can't be read; the others" help lint
shows "  3  out of memory, the file can't be read, or the output failed" help vectors

# A profile by its name, by `--wide`, and by a name that none has.
expect 0 'valid\nscheme http\nhost domain a_b\nsegment \n' '' check --profile wide http://a_b/
expect 1 'refused 7 host-domain\n' '' check --profile=standard http://a_b/
expect 0 'valid\nscheme http\nhost domain a_b\nsegment x\n' '' check x --base http://a_b/ --profile wide
expect 0 'valid\nscheme http\nhost domain a-b\nsegment \n' '' check --profile parser http://a%2Db/
expect 0 'valid\nscheme http\nhost ipv4 1.0.0.2\nsegment x\n' '' check x --base http://1.2/ --profile=parser
expect 0 'links 0 ok 0 bad 0 differs 0\n' '' links --base http://h_/ --profile wide
expect 2 '' "$(no_base 7 host-domain 'U+005F LOW LINE is not allowed in a domain; --profile wide allows it')" links --profile=standard --base http://h_/
expect 2 '' "$(no_base 7 host-domain 'U+0021 EXCLAMATION MARK is not allowed in a domain')" links --wide --base http://h_!/
expect 2 '' "$(no_base 7 host-domain 'U+0021 EXCLAMATION MARK is not allowed in a domain')" mend --wide --base http://h_!/
expect 2 '' "$(no_base 7 host-domain 'U+0020 SPACE is not allowed in a domain')" mend --profile parser --base 'http://h_! /' x
expect 0 'mended same\na%20b\n' '' mend --base http://h_/ --wide 'a b'
refused "'--parser'" check --parser urn:a
profiles='urlcheck: the profiles: standard wide parser\nwords\n'
expect 2 '' "urlcheck: no profile is named 'wyde'; the nearest is wide\n$profiles" check --profile wyde urn:a
expect 2 '' "urlcheck: no profile is named 'WIDE'; the nearest is wide\n$profiles" links --profile WIDE --base 'a b'
expect 2 '' "urlcheck: no profile is named 'STANDRAD'; the nearest is standard\n$profiles" check --profile STANDRAD urn:a
expect 2 '' "urlcheck: no profile is named 'wdie'; the nearest is wide\n$profiles" check --profile wdie urn:a
expect 2 '' "urlcheck: no profile is named 'wdei'\n$profiles" check --profile wdei urn:a
expect 2 '' "urlcheck: no profile is named '\0357\0277\0275x'\n$profiles" check --profile $'\ex' urn:a
expect 2 '' "urlcheck: no profile is named 'Parse'; the nearest is parser\n$profiles" mend --profile Parse urn:a
expect 2 '' "urlcheck: no profile is named 'browser'\n$profiles" lint --profile browser missing
expect 2 '' "urlcheck: no profile is named ''\n$profiles" check --profile= urn:a
both='urlcheck: --wide is short for --profile wide: only one of them may be given\nwords\n'
expect 2 '' "$both" check --wide --profile wide urn:a
expect 2 '' "$both" links --profile standard --wide
expect 2 '' "$both" check --wide --profile parser urn:a

# hints STDOUT STDERR WORD.. : a check of a text that it refuses writes nothing on standard error unless that is a terminal.
# At a terminal it says a sentence for each place that it prints, in their order, perhaps what to write, and then STDERR.
hints() {
    local stdout=$1 stderr=$2 ended
    shift 2
    expect 1 "$stdout" '' "$@"
    has terminals 1 || return 0
    at_terminal /dev/null "$@"
    ended=$?
    sed -n 's/^urlcheck: at place \([0-9]*\): ..*/refused \1/p' "$room/err" | cmp -s - <(sed 's/ [a-z0-9-]*$//' "$room/out") ||
        fail "$*: at a terminal it wrote $(cat "$room/out") and said $(cat "$room/err")"
    sed -i -e '/^urlcheck: at place [0-9]*: /d' -e '/^urlcheck: write /d' "$room/err"
    ends_with 1 $ended "$stderr" "$*, at a terminal"
}

# A text that is only `-` isn't a standard input: if it is refused, a hint at a terminal says so.
of_check='urlcheck: - is the text here; lint - and links read standard input\n'
of_mend='urlcheck: - is the text here; mend without a TEXT reads standard input\n'
hints 'refused 0 no-scheme\n' "$of_check" check -
hints 'refused 0 no-scheme\n' "$of_check" check --all --wide -- -
expect 1 'none\nrefused 0 no-scheme\n' "$of_mend" mend -
expect 0 'valid\nscheme http\nhost domain h\nsegment -\n' '' check --base http://h/ -
expect 0 'valid\n' '' mend --base http://h/ -
expect 1 'refused 0 no-scheme\n' '' check -- --
expect 1 'none\nrefused 0 no-scheme\n' '' mend -- -x
expect 2 '' "$(no_base 0 no-scheme 'it has no scheme')" check --base - -

# So does one where a refused text has no base and looks like the name of a file: it has no `:`, `?`, `#` or space, and
# ends in a dot and what lists and documents end in, in any case. Whether there is such a file doesn't matter.
list_of_check='is the text here; lint FILE checks the lines of a file\n'
list_of_mend='is the text here; mend <FILE mends the lines of a file\n'
document='is the text here; urlcheck-documents FILE checks the links of a document\n'
for end in txt csv tsv json links; do
    hints 'refused 0 no-scheme\n' "urlcheck: links.$end $list_of_check" check links.$end
    expect 1 'none\nrefused 0 no-scheme\n' "urlcheck: .${end^^} $list_of_mend" mend .${end^^}
done
for end in html htm xhtml xht xml rss atom rdf svg md markdown; do
    hints 'refused 0 no-scheme\n' "urlcheck: page.$end $document" check page.$end
    expect 1 'none\nrefused 0 no-scheme\n' "urlcheck: .${end^^} $document" mend .${end^^}
done
hints 'refused 0 no-scheme\n' "urlcheck: ../a/x.y.Html $document" check --all --wide -- ../a/x.y.Html
hints 'refused 0 no-scheme\nrefused 1 code-point\n' "urlcheck: a\0357\0277\0275.md $document" check --all $'a\e.md'
# (`mend` says a hint also where standard error is no terminal)
for text in html x.opml x.htmlx x.html/ x.ht .h xhtml links.txt~ 'a b.html' a?b.html a#b.html .json.gz; do
    expect 1 'none\nrefused 0 no-scheme\n' '' mend "$text"
done
hints 'refused 0 opaque-base\n' '' check --base urn:a page.html
expect 1 'none\nrefused 0 opaque-base\n' '' mend --base urn:a page.html
expect 1 'refused 7 host-domain\n' '' check http://a_b/page.html
expect 0 'valid\nscheme http\nhost domain h\nsegment page.html\n' '' check --base http://h/ page.html
expect 2 '' "$(no_base 0 no-scheme 'it has no scheme')" check --base page.html page.html

# A first word that isn't a command: a hint at what may have been meant.
for word in links.txt a:b; do
    ran 2 "$word"
    if [ -s "$room/out" ] || [ "$(head -n 1 "$room/err")" != "urlcheck: unrecognized subcommand '$word'" ] ||
        [ "$(tail -n 2 "$room/err")" != $'urlcheck: check TEXT checks one text, and lint FILE the lines of a file\nwords' ]; then
        fail "$word: on standard error: $(cat "$room/err")"
    fi
done

ran 2 "http://h/'"
grep -qxF 'urlcheck: check TEXT checks one text, and lint FILE the lines of a file' "$room/err" || fail "a link with a quote: $(cat "$room/err")"

# One that is near to a command, or abbreviates just one by its first letter and further ones in their order: that one, in place
# of clap's tips. For `version` it is said which words show that.
# no_command HINT WORD.. : these words are refused for the first of them, with only this hint
no_command() {
    local hint=$1
    shift
    expect 2 '' "urlcheck: unrecognized subcommand '$1'\n$(usage_of "$(basename "$program") <COMMAND>")urlcheck: $hint\nwords\n" "$@"
}
for words in 'chk check' 'chek check' 'LINT lint' 'lnit lint' 'mnd mend' 'vec vectors' 'exp explain' 'lks links' 'link links'; do
    read -r word near <<<"$words"
    no_command "no command is named '$word'; the nearest is $near" $word urn:a
done
no_command 'urlcheck --version shows the version' version
for word in page.html docs/README.md; do
    no_command 'urlcheck-documents FILE checks the links of a document' $word
done
for word in https://e.com/ 'http://h/a b' foo://x; do
    no_command "urlcheck check '$word' checks this link" "$word"
done
# (with or without a slash, a folder that is there)
mkdir "$room/documents" "$room/lin"
of_folders='lint reads files, not folders; urlcheck-documents FOLDER checks the documents in it'
for word in . docs/ documents/; do no_command "$of_folders" $word; done
if has file_metadata 1; then no_command "$of_folders" documents; fi
no_command "no command is named 'lin'; the nearest is lint" lin
rmdir "$room/documents" "$room/lin"
# (so is the word after help)
expect 2 '' "urlcheck: unrecognized subcommand 'lnt'\n$(usage_of "$(basename "$program") <COMMAND>")\
urlcheck: no command is named 'lnt'; the nearest is lint\nwords\n" help lnt
# (two begin so, the first letter is another one, or the letters are in another order)
for word in ln hck vtc; do
    ran 2 $word
    if grep -q 'no command is named' "$room/err" ||
        [ "$(tail -n 2 "$room/err")" != $'urlcheck: check TEXT checks one text, and lint FILE the lines of a file\nwords' ]; then
        fail "$word: on standard error: $(cat "$room/err")"
    fi
done

# A text that is cut at its spaces: a hint at quotes, but not where the last word looks like an option.
# cut_up HINTS WORD.. : these words are refused for one too many, and so many lines hint at quotes, before the last one
cut_up() {
    local hints=$1 line
    shift
    ran 2 "$@"
    line="urlcheck: $1 accepts one TEXT: put it in single quotes if it has spaces"
    if [ -s "$room/out" ] || [ "$(tail -n 1 "$room/err")" != words ] ||
        ! head -n 1 "$room/err" | grep -q "^urlcheck: unexpected argument '" ||
        [ "$(tail -n 2 "$room/err" | grep -cxF -- "$line")" != "$hints" ] || [ "$(grep -c quotes "$room/err")" != "$hints" ]; then
        fail "$*: on standard error: $(cat "$room/err")"
    fi
}
cut_up 1 check http://h/a b
cut_up 1 check --wide http://h/a b c
cut_up 1 check -- -a b
cut_up 0 check a b --all
cut_up 0 check --bogus a b
cut_up 0 vectors a b
cut_up 0 links a b

# The usage shows no option that was given as one that has to be, nor does the help.
expect 2 '' "urlcheck: unexpected argument 'b' found\n${of_one}urlcheck: check accepts one TEXT: put it in single quotes if it has spaces\n\
words\n" check --base http://h/ --wide a b
expect 2 '' 'urlcheck: mend accepts one TEXT: put it in single quotes if it has spaces; --in-place mends files\nwords\n' \
    mend --base http://h/ a b
shows 'Usage: urlcheck lint [OPTIONS] <FILE>...' lint --help
shows 'Usage: urlcheck links [OPTIONS]' help links

# A lint without a file: a hint at standard input.
expect 2 '' "urlcheck: the following required arguments were not provided:\nurlcheck:   <FILE>...\n\
$(usage_of 'urlcheck lint [OPTIONS] <FILE>...')\
urlcheck: lint reads standard input as the FILE -\nwords\n" lint

# A file, or a text, that was taken as the value of the option before it: this is said, and what is missing.
# taken OPERAND USAGE HINT WORD.. : these words are refused since this operand is missing, with this hint
taken() {
    local operand=$1 of=$2 hint=$3
    shift 3
    expect 2 '' "urlcheck: the following required arguments were not provided:\nurlcheck:   $operand\n\
$(usage_of "$of")urlcheck: $hint\nwords\n" "$@"
}
of_files='urlcheck lint [OPTIONS] <FILE>...'
no_name='and no FILE is named; - is standard input'
for option in --base --profile --format --columns --color --stdin-name; do
    taken '<FILE>...' "$of_files" "links.txt is the value of $option, $no_name" lint $option links.txt
done
taken '<FILE>...' "$of_files" "https://h/ is the value of --base, $no_name" lint --wide -q --base https://h/
taken '<FILE>...' "$of_files" "a\0357\0277\0275b is the value of --base, $no_name" lint --base $'a\eb'
for option in --base --profile; do
    taken '<TEXT>' 'urlcheck check [OPTIONS] <TEXT>' "x is the value of $option, and no TEXT is given" check --all $option x
done
# (a long value isn't repeated; nor is it said of a value after `=`)
long=$(printf '%064d' 0)
taken '<FILE>...' "$of_files" "$long is the value of --stdin-name, $no_name" lint --stdin-name $long
taken '<FILE>...' "$of_files" "the last word is the value of --stdin-name, $no_name" lint --stdin-name ${long}0
taken '<FILE>...' "$of_files" 'lint reads standard input as the FILE -' lint --base=links.txt

# An option that another command takes: which commands these are, in place of the tip to hand it over as a text.
# of_others COMMANDS COMMAND WORD.. : these words of a command are refused for the first of them, which these commands take
of_others() {
    local takers=$1 shown=${3%%=*} line
    shift
    ran 2 "$@"
    line="urlcheck: $shown is an option of $takers"
    if [ "$(head -n 1 "$room/err")" != "urlcheck: unexpected argument '$shown' found" ] || [ -s "$room/out" ] ||
        ! grep -qxF -- "$line" "$room/err" || grep -q 'tip:' "$room/err" || [ "$(tail -n 1 "$room/err")" != words ]; then
        fail "$*: on standard error: $(cat "$room/err")"
    fi
}
of_others lint check --format json x
of_others lint check --format=json x
of_others lint mend --located
of_others mend lint --only same x
of_others mend lint --in-place x
of_others mend lint -i x
of_others mend lint --all-mended x
of_others 'check and lint' mend --all x
of_others 'lint and mend' check -q x
of_others 'lint and mend' vectors --quiet
of_others 'check, lint, links and mend' explain --base x
of_others explain check --url x
expect 2 '' "urlcheck: unexpected argument '--format' found\n${of_one}\
urlcheck: --format is an option of lint\nwords\n" check --all --format json x
# (before the command it is told where it is; the usage of all names the file of the program)
for words in '--format lint json lint x' '--wide check,_lint,_links_and_mend check x' '--all check_and_lint check x'; do
    read -r option takers words <<<"$words"
    expect 2 '' "urlcheck: unexpected argument '$option' found\n$(usage_of "$(basename "$program") <COMMAND>")\
urlcheck: $option is an option of ${takers//_/ }, and is written after the command\nwords\n" $option $words
done
# (one that none takes is first, or no option is, or it is after --)
for words in '--bogus --format x' '-- --format x' '- --bogus --format'; do
    refused "unexpected argument '" check $words
    ! grep -q 'is an option' "$room/err" || fail "check $words: on standard error: $(cat "$room/err")"
done
expect 2 '' "urlcheck: unexpected argument '--format' found\n$of_one""urlcheck: --format is an option of lint\nwords\n" \
    check --base --format

of_others lint check --stdin-name x y

# An option that no command takes, with the nearest of the command's own, whatever its case and value, in place of clap's tip.
# nearest_is OPTION COMMAND WORD.. : these words of a command are refused for the first of them, to which this one is near
nearest_is() {
    local near=$1 shown=${3%%=*}
    shift
    ran 2 "$@"
    if [ -s "$room/out" ] || [ "$(head -n 1 "$room/err")" != "urlcheck: unexpected argument '$shown' found" ] ||
        [ "$(tail -n 2 "$room/err")" != "urlcheck: $1 has no option $shown; the nearest is $near"$'\n'words ] ||
        grep -q 'tip:' "$room/err"; then
        fail "$*: on standard error: $(cat "$room/err")"
    fi
}
nearest_is --base links --bse http://h/
nearest_is --base links --bse=http://h/ links.txt
nearest_is --base links --BASE http://h/
nearest_is --profile check --porfile wide urn:a
nearest_is --wide check --wied --format x
nearest_is --columns lint --colums bytes links.txt
nearest_is --stdin-name lint --stdin-nam=n -
nearest_is --only mend --onyl same
nearest_is --all lint --alll links.txt
nearest_is --url explain --ulr percent
# (so is one that abbreviates just one of them: by its first letter, and by further ones in their order)
nearest_is --format lint --fmt gnu links.txt
nearest_is --format lint -f gnu links.txt
nearest_is --columns lint --cms=bytes links.txt
nearest_is --stdin-name lint --sin n -
nearest_is --base links --BS http://h/
for word in --fto --mat= --t; do
    ran 2 lint $word links.txt
    if grep -q 'has no option' "$room/err" || [ "$(tail -n 1 "$room/err")" != words ]; then
        fail "lint $word: on standard error: $(cat "$room/err")"
    fi
done
# (there is no hint on one that isn't near, nor that links takes no file; after -- none is an option)
for words in '--bogus http://h/' '-x links.txt' '--only= same'; do
    ran 2 links $words
    if grep -q -e 'has no option' -e 'takes no file' "$room/err" || [ "$(tail -n 1 "$room/err")" != words ]; then
        fail "links $words: on standard error: $(cat "$room/err")"
    fi
done
expect 2 '' "urlcheck: unexpected argument '--bse' found\n$usage$no_file\nwords\n" links -- --bse x
expect 2 '' "urlcheck: unexpected argument '-' found\n$usage$no_file\nwords\n" links -

# One hyphen in place of two is told too, where further letters are after it.
# misspelt SHOWN USAGE HINT WORD.. : these words are refused for an option that clap calls so, with only this hint
misspelt() {
    local shown=$1 of=$2 hint=$3
    shift 3
    expect 2 '' "urlcheck: unexpected argument '$shown' found\n$(usage_of "$of")urlcheck: $hint\nwords\n" "$@"
}
of_mend='urlcheck mend [OPTIONS] [TEXT]\nurlcheck:        urlcheck mend --in-place [OPTIONS] <FILE>...'
misspelt -w 'urlcheck check [OPTIONS] <TEXT>' 'check has no option -wide; the nearest is --wide' check -wide urn:a
misspelt -f "$of_files" 'lint has no option -format; the nearest is --format' lint -format=json links.txt
misspelt -o "$of_mend" 'mend has no option -only; the nearest is --only' mend -only same
# (a letter isn't looked for in a long name)
misspelt -a "$of_files" 'lint has no option -a; the nearest is --all' lint --base=http://h/ -a links.txt

# Only letters decide which name is near, not hyphens.
for words in 'lint --file' 'check --line' 'mend --mode' 'explain --rule=x'; do
    ran 2 $words x
    ! grep -q 'the nearest is' "$room/err" || fail "$words: on standard error: $(cat "$room/err")"
done

# If nothing is known about an option, the message says that it isn't one, and how the command is used, without clap's tips: neither
# to hand it over as a text, nor one at an option by letters of its name.
# unknown USAGE SHOWN WORD.. : these words are refused for an option that clap calls so, and nothing more is said
unknown() {
    local of=$1 shown=$2
    shift 2
    expect 2 '' "urlcheck: unexpected argument '$shown' found\n$(usage_of "$of")words\n" "$@"
}
for words in '--fixx x' '--fixx=1 x' '--no-progress x' '--preview x' '--first x' '--hidden' '--0 x'; do
    option=${words%% *}
    unknown "$of_files" "${option%%=*}" lint $words
done
unknown 'urlcheck check [OPTIONS] <TEXT>' --preview check --preview urn:a
unknown 'urlcheck check [OPTIONS] <TEXT>' -5 check -5
unknown 'urlcheck check [OPTIONS] <TEXT>' -x check --wide -x urn:a
unknown 'urlcheck check [OPTIONS] <TEXT>' --in_place check --in_place urn:a
unknown "$of_mend" --only-4xx mend --only-4xx
unknown "$(basename "$program") vectors <FILE>" --bogus vectors --bogus a.json
unknown "$(basename "$program") <COMMAND>" --bogus --bogus lint links.txt

# A word that looks like no option, but begins with a hyphen: how it is handed over, to a command that takes texts.
for words in 'check -a/b' 'check --base http://h/ -x?y' 'check -j/4.html' 'mend --a.b=c' 'mend -i -a.txt' $'check -\xc3\xa9'; do
    ran 2 $words
    if [ -s "$room/out" ] || grep -q 'tip:' "$room/err" ||
        [ "$(tail -n 2 "$room/err")" != $'urlcheck: write -- before a word that begins with - and is no option\nwords' ]; then
        fail "$words: on standard error: $(cat "$room/err")"
    fi
done
for words in 'explain -a.b' 'lint -a.txt' 'links -a.b' 'check -a=/b' 'lint --a-b_c=a.b x'; do
    ran 2 $words
    ! grep -q 'write --' "$room/err" || fail "$words: on standard error: $(cat "$room/err")"
done

# Each option of the help is one of the commands that have it in their help, and of no other: as vectors says, which has none.
count=$((count + 1))
for command in check lint links mend explain; do
    "$program" $command -h | grep -o -e '^ *\(-[a-z], \)\?--[a-z-]*' | grep -o -e '--[a-z-]*' -e '-[a-z],' | tr -d , |
        grep -vx -e --help -e -h | sed "s/$/ $command/"
done | awk '!seen[$0]++' | sort -s -k 1,1 | awk '$1 != option { option = $1; printf "%s%s %s", (NR > 1 ? "\n" : ""), $1, $2; next }
    { printf ", %s", $2 } END { print "" }' | sed 's/, \([a-z]*\)$/ and \1/' >"$room/options"
[ "$(wc -l <"$room/options")" -gt 8 ] || fail "the help has these options: $(cat "$room/options")"
while read -r option takers; do
    "$program" vectors $option >"$room/out" 2>"$room/err"
    grep -qxF -- "urlcheck: $option is an option of $takers" "$room/err" || fail "$option: of $takers: $(cat "$room/err")"
done <"$room/options"

# Each of them is the nearest to its name without the last letter.
for command in check lint links mend explain; do
    for option in $("$program" $command -h | sed -n 's/^ *\(-[a-z], \)\{0,1\}\(--[a-z-]*\).*/\2/p' | grep -vx -e --help); do
        nearest_is "$option" $command "${option%?}"
    done
done

# What people of other tools write: what to write here, in place of clap's tip to hand it over as a text. No hint is longer
# than two lines of a terminal.
# instead HINT COMMAND OPTION.. : each of these options is refused with this hint, by any command. Of letters after one
# hyphen the first is the option.
instead() {
    local hint=$1 command=$2 option shown
    shift 2
    for option in "$@"; do
        case $option in --*) shown=${option%%[= ]*} ;; *) shown=${option:0:2} ;; esac
        ran 2 $command $option x
        if [ -s "$room/out" ] || [ "$(head -n 1 "$room/err")" != "urlcheck: unexpected argument '$shown' found" ] ||
            [ "$(tail -n 2 "$room/err")" != "urlcheck: there is no option $shown; $hint"$'\n'words ] ||
            grep -q 'tip:' "$room/err" || [ "$(awk 'length > 160' "$room/err")" != '' ]; then
            fail "$command $option: on standard error: $(cat "$room/err")"
        fi
    done
}
instead 'urlcheck mend --in-place FILE mends the links of a list' lint --fix --fix-only --unsafe-fixes --write -w -wn
instead 'urlcheck mend -q <FILE | diff FILE - shows what mend changes' lint --diff --dry-run --fix-dry-run
instead 'lint --color WHEN takes auto, always and never' lint --colour --no-color --no-colour --colors --colours
instead "lint --format FORMAT names the format" lint --output-format --reporter --formatter=json
instead 'lint --format json writes an object a line' lint --json
instead 'lint --format sarif writes SARIF' lint --sarif
has_ignore='urlcheck-documents has --ignore' has_select='urlcheck-documents has --select'
instead "lint reports every rule: grep -v '\\[RULE\\]$' leaves one out; $has_ignore" lint --ignore --extend-ignore --disable --disable=percemt '--extend-ignore percent,host-ipv6'
instead "lint reports every rule: grep -v '\\[percent\\]$' leaves one out; $has_ignore" lint --ignore=percent '--ignore percent'
instead "lint reports every rule: grep -v '\\[first-segment-empty\\]$' leaves one out; $has_ignore" lint '--extend-ignore first-segment-empty'
instead "lint reports every rule: grep '\\[host-ipv6\\]$' leaves one; $has_select" lint '--select host-ipv6' --rule=host-ipv6
instead "lint reports every rule: grep '\\[RULE\\]$' leaves one; $has_select" lint --select --extend-select --rule
printf 'http://a..b/\nhttp://h/%%\n' >"$room/list"
count=$((count + 2))
[ "$("$program" lint -q "$room/list" | grep -v '\[percent\]$' | grep -c .)" = 1 ] || fail 'lint: grep leaves out more than a rule'
[ "$("$program" lint -q "$room/list" | grep '\[percent\]$' | grep -c .)" = 1 ] || fail 'lint: grep leaves more than a rule'
instead 'lint reads the FILEs that it is given, and each of their lines: leave some out before' lint --exclude --include --skip \
    --ignore-pattern --ignore-url --ignore-urls=x
instead 'lint reads lists; urlcheck-documents FOLDER checks the documents of a folder' lint --recursive -r -rn -R
instead 'lint --format caret shows each line, and urlcheck --version the version' lint --verbose -v -vv
instead 'lint --format caret shows each line, and urlcheck --version the version' '' -v --verbose
instead 'lint --format caret shows each line; explain RULE explains a rule' lint --debug --explain=x --show-source
instead 'lint --quiet leaves out the counts' lint --silent -s
instead '>FILE writes what is printed to a file' lint --output -o --output-file=x -ox.txt
instead "lint -q FILE | grep -o '\\[[a-z0-9-]*\\]$' | sort | uniq -c counts by rule" lint --statistics --stats --count --summary
instead '|| [ $? = 1 ] after the command goes on at a refused link' lint --exit-zero --no-fail
instead 'each refused link is an error' lint --max-warnings=0 --severity --minAlertLevel
instead 'lint reads a million links in less than a second: once, on one processor' lint --jobs -j -j4 -j=4 --threads --parallel \
    --watch --cache --no-cache
instead 'only urlcheck-documents reads a configuration' lint --config -c --isolated --no-config --norc --rcfile
instead 'no command fetches a link: only how it is written is checked' check --timeout --offline --online --retries=3 --max-retries \
    --max-redirects --user-agent --method --insecure --accept --check-extern --disable-external --recursion-level
for command in lint links check ''; do
    instead 'leave it out: check, lint and links change no file' "$command" --check
done
instead 'urlcheck-documents, which reads documents, has one' lint --list --type=html --gfm --git --no-empty --baseline --write-baseline
instead 'urlcheck-documents, which reads documents, has one' '' --list
instead '--base URL is what relative links are resolved against' lint --base-url=http://h/
instead 'the standard profile is the strictest, and the one without --profile' check --strict
instead 'urlcheck explain explains every rule' lint --list-rules --show-rules --rules
instead 'lint - reads standard input' lint --stdin
instead 'lint --stdin-name NAME - names standard input' lint --stdin-filename=x --stdin-display-name=x
# (the letter that a command doesn't take is the option)
misspelt -w "$of_mend" 'there is no option -w; urlcheck mend --in-place FILE mends the links of a list' mend -iw links.txt
misspelt -r "$of_files" 'there is no option -r; lint reads lists; urlcheck-documents FOLDER checks the documents of a folder' lint -qrn .
misspelt -i 'urlcheck check [OPTIONS] <TEXT>' '-i is an option of mend' check -in urn:a
misspelt --version "$of_files" 'urlcheck --version shows the version' lint --version
misspelt -V 'urlcheck check [OPTIONS] <TEXT>' 'urlcheck --version shows the version' check -V
# (before a command, and of each command, help is an option too; the usage may show it)
for words in '--verion --version' '--vers --version' '--hlep --help' '--halp=x --help'; do
    read -r word near <<<"$words"
    ran 2 $word
    word=${word%=*}
    if [ -s "$room/out" ] || [ "$(head -n 1 "$room/err")" != "urlcheck: unexpected argument '$word' found" ] ||
        [ "$(tail -n 2 "$room/err")" != "urlcheck: urlcheck has no option $word; the nearest is $near"$'\n'words ]; then
        fail "$word: on standard error: $(cat "$room/err")"
    fi
done
nearest_is --help lint --hlep
nearest_is --help vectors --halp

# The text and the base are taken as they are given.
expect 1 'refused 0 no-scheme\n' '' check ''
expect 0 'valid\nscheme http\nhost domain h\nsegment \n' '' check --base http://h ''
expect 2 '' "$(no_base 0 no-scheme 'it has no scheme')" check --base b ''
expect 2 '' "$(no_base 0 no-scheme 'it has no scheme')" check --base= a
expect 1 'refused 0 no-scheme\n' '' check ' a '
expect 1 'refused 5 code-point\n' '' check 'urn:a '
expect 1 'refused 0 no-scheme\n' '' check -- --x
expect 1 'refused 0 no-scheme\n' '' check -- --wide
expect 1 'refused 0 no-scheme\n' '' check -- -a
expect 0 'valid\nscheme urn\nopaque a\n' '' check -- urn:a
expect 2 '' "$(no_base 7 host-missing 'a host is missing here')" check --base http:// http://h/
expect 0 'links 0 ok 0 bad 0 differs 0\n' '' links --base x:

# A refused text, a base in each way of giving it, and a base that is refused, even if the text has a scheme.
expect 1 'refused 0 no-scheme\n' '' check x
expect 1 'refused 10 code-point\n' '' check 'http://h/a b'
expect 0 'valid\nscheme http\nhost domain h\nsegment a\nsegment x\n' '' check --base 'http://h/a/b?q' x
expect 0 'valid\nscheme http\nhost domain h\nsegment a\nsegment x\n' '' check '--base=http://h/a/b?q' x
expect 0 'valid\nscheme http\nhost domain h\nsegment -x\n' '' check --base=http://h/ -- -x
expect 0 'valid\nscheme urn\nopaque a\nfragment t\n' '' check --base urn:a '#t'
expect 1 'refused 0 drive-after-host\n' '' check --base file://h/a /C:/x
expect 2 '' "$(no_base 7 host-missing 'a host is missing here')" check --base http:// x
expect 2 '' "$(no_base 0 no-scheme 'it has no scheme')" check --base x urn:a

# All that is wrong with a text; tests/runs/check.cases.sh has more.
expect 1 'refused 7 host-missing\n' '' check http:// --all
expect 1 'refused 1 code-point\nrefused 4 percent\n' '' check --all --wide 'a b?%4' --base http://x_y//
expect 2 '' "$(no_base 7 host-missing 'a host is missing here')" check --all --base http:// 'a b'

# The standard and the wide profile: each text is refused by the standard one, but the last, and taken or refused by the
# wide one.
expect 1 'refused 9 first-segment-empty\n' '' check http://h//a
expect 0 'valid\nscheme http\nhost domain h\nsegment \nsegment a\n' '' check --wide http://h//a
expect 1 'refused 9 first-segment-empty\n' '' check http://h//..
expect 0 'valid\nscheme http\nhost domain h\nsegment \n' '' check --wide http://h//..
expect 1 'refused 8 first-segment-empty\n' '' check file:////a
expect 0 'valid\nscheme file\nhost empty\nsegment \nsegment a\n' '' check --wide file:////a
expect 1 'refused 8 first-segment-empty\n' '' check file:////C:/..
expect 0 'valid\nscheme file\nhost empty\nsegment \nsegment \n' '' check --wide file:////C:/..
for host in a_b -a ab--c; do
    expect 1 'refused 7 host-domain\n' '' check "http://$host/"
    expect 0 "valid\nscheme http\nhost domain $host\nsegment \n" '' check --wide "http://$host/"
done
for flag in --all --wide; do
    expect 1 'refused 7 host-number\n' '' check $flag http://1.2.3/
    expect 1 'refused 7 host-domain\n' '' check $flag $'http://\xc2\xad/'
    expect 1 'refused 7 host-domain\n' '' check $flag http://a%62/
    expect 1 'refused 8 drive-after-host\n' '' check $flag file://h/C:/x
    expect 0 'valid\nscheme http\nhost domain h\nsegment \n' '' check $flag --base http://x/a //h
done
expect 2 '' "$(no_base 7 host-domain 'U+005F LOW LINE is not allowed in a domain; --profile wide allows it')" check --base http://a_b/ x
expect 0 'valid\nscheme http\nhost domain a_b\nsegment x\n' '' check --wide --base http://a_b/ x
expect 1 'refused 7 host-domain\nrefused 11 code-point\n' '' check --all 'http://a_b/ '
expect 1 'refused 11 code-point\n' '' check --all --wide 'http://a_b/ '

# The parser's profile.
# takes TEXT REFUSAL LINES : the wide profile refuses the text, and the parser's one takes it with these lines
takes() {
    expect 1 "refused $2\\n" '' check --wide "$1"
    expect 0 "valid\\n$3" '' check --profile parser "$1"
}
takes http://a%2Db/ '7 host-domain' 'scheme http\nhost domain a-b\nsegment \n'
takes http://b%C3%BCcher/ '7 host-domain' 'scheme http\nhost domain xn--bcher-kva\nsegment \n'
takes http://a+b/ '7 host-domain' 'scheme http\nhost domain a+b\nsegment \n'
takes http://a..b/ '7 host-domain' 'scheme http\nhost domain a..b\nsegment \n'
takes http://1.2.3/ '7 host-number' 'scheme http\nhost ipv4 1.2.0.3\nsegment \n'
takes http://%31.2.3/ '7 host-domain' 'scheme http\nhost ipv4 1.2.0.3\nsegment \n'
takes http://1/ '7 host-number' 'scheme http\nhost ipv4 0.0.0.1\nsegment \n'
takes $'http://\xef\xbc\x91.2.3.4/' '7 host-number' 'scheme http\nhost ipv4 1.2.3.4\nsegment \n'
takes file:// '7 host-missing' 'scheme file\nhost empty\nsegment \n'
takes 'file://?q' '7 host-missing' 'scheme file\nhost empty\nsegment \nquery q\n'
takes file://h/C:/x '8 drive-after-host' 'scheme file\nhost domain h\nsegment C:\nsegment x\n'
takes 'urn:a b' '5 code-point' 'scheme urn\nopaque a b\n'
takes 'javascript:alert(1, 2)' '19 code-point' 'scheme javascript\nopaque alert(1, 2)\n'
takes 'urn:a ?q' '5 code-point' 'scheme urn\nopaque a%20\nquery q\n'
takes 'urn:a  #f' '5 code-point' 'scheme urn\nopaque a %20\nfragment f\n'
# What it refuses too: what the parser reports or fails at.
for text in http://a%2Fb/ http://%ff/ http://xn--a/ $'http://\xc2\xad/' http://u@h/ 'http://h\x/' 'http://h ' \
    file://C:/x; do
    expect 1 'refused 7 host-domain\n' '' check --profile parser "$text"
done
for host in 256 01 0x1 1.2.3.4.5 1.2.3.4. a.1; do
    expect 1 'refused 7 host-number\n' '' check --profile parser "http://$host/"
done
expect 1 'refused 7 host-missing\n' '' check --profile parser http:///h
expect 1 'refused 5 two-slashes\n' '' check --profile parser http:h
expect 1 'refused 5 code-point\n' '' check --profile parser 'urn:a '
expect 1 'refused 6 code-point\n' '' check --profile parser 'foo:/a b'
expect 1 'refused 7 host-domain\nrefused 14 port-digit\nrefused 16 code-point\n' '' \
    check --profile parser --all 'http://a%2Fb:8x/ '
# The base is checked by it too.
expect 0 'valid\nscheme file\nhost domain h\nsegment C:\nsegment x\n' '' check --profile parser --base file://h/a /C:/x
expect 0 'valid\nscheme urn\nopaque a b\nfragment f\n' '' check --profile parser --base 'urn:a b' '#f'
expect 2 '' "$(no_base 5 code-point 'U+0020 SPACE is not allowed in a URL')" check --wide --base 'urn:a b' '#f'
expect 2 '' "$(no_base 7 host-number '256 is above 255, the largest number of an IPv4 address')" check --profile parser --base http://256/ x
# If a text is refused and standard error is a terminal, it shows what is wrong, as lint says it, and what to write,
# where lint offers that.
# tells STDERR WORD.. : a check of these words says this of a text that it refuses
tells() {
    local said=$1
    shift
    has terminals 1 || return 0
    at_terminal /dev/null check "$@"
    ends_with 1 $? "$said" "check $*, at a terminal"
}
tells 'urlcheck: at place 10: U+0020 SPACE is not allowed in a URL\nurlcheck: write http://h/a%20b\n' 'http://h/a b'
# (so that what is copied from there is the same URL, though the terminal doesn't turn its text)
tells 'urlcheck: at place 10: U+0020 SPACE is not allowed in a URL\nurlcheck: write http://h/a%20b%E2%80%AE\n' $'http://h/a b\xe2\x80\xae'
tells 'urlcheck: at place 1: U+0020 SPACE is not allowed in a URL\nurlcheck: write a%20b%25g4\n' --base http://h/ 'a b%g4'
# (a wider profile is named where it accepts the whole text)
tells 'urlcheck: in the host at place 7: U+005F LOW LINE is not allowed in a domain; --profile wide allows it\n' http://a_b/
tells 'urlcheck: in the host at place 2: U+005F LOW LINE is not allowed in a domain; --profile wide allows it\n' --base http://h/ //a_b/
tells 'urlcheck: in the host at place 7: U+005F LOW LINE is not allowed in a domain\n'\
'urlcheck: at place 11: U+0020 SPACE is not allowed in a URL\n' --all 'http://a_b/ '
tells 'urlcheck: at place 9: U+007B LEFT CURLY BRACKET is not allowed in a URL; this looks like a template: check what it makes\n' \
    'http://h/{{ id }}'
# (a variable of the shell that isn't set gives such a text)
tells 'urlcheck: at place 0: the text is empty\n' ''
# (a host is refused where it begins, wherever in it the code point is)
tells 'urlcheck: in the host at place 7: U+0020 SPACE is not allowed in a domain\n' 'http://exa mple.com/'
tells 'urlcheck: in the host at place 7: 256 is above 255, the largest number of an IPv4 address\n' http://1.2.3.256/
tells 'urlcheck: in the host at place 7: an IPv6 address has eight pieces, and this one has 2\n' 'http://[1:2]/'
tells 'urlcheck: at place 0: there is no scheme and no base\nurlcheck: - is the text here; lint - and links read standard input\n' -
while IFS=$'\037' read -r base text; do
    against=()
    [ -z "$base" ] || against=(--base "$base")
    has terminals 1 || continue
    at_terminal /dev/null check "${against[@]}" -- "$text"
    count=$((count + 1))
    printf '%s\n' "$text" | "$program" lint -q --format json "${against[@]}" - >"$room/json"
    python3 -c 'import json, sys; it = json.load(open(sys.argv[1]))
region = "in the host " if it["rule"] in ("host-domain", "host-number", "host-ipv6") else ""
print("urlcheck: %sat place %d: %s" % (region, it["column"] - 1, it["message"]))
if it.get("offered"): print("urlcheck: write " + it["mended"])' "$room/json" | cmp -s - "$room/err" ||
        fail "check $text: on standard error: $(cat "$room/err")"
done < <("$program" explain | awk '/^    / && !text { text = substr($0, 5) } /^The base of both: / { base = substr($0, 19) }
    /^URL Standard, / { print base "\037" text; base = text = "" }')
all_cases 585
