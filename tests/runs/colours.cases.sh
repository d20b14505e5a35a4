# Colours of reports that people read: when there are some, which, and that all that is shown is the same without them.

printf 'http://h/a b\nhttp://0x7f.1/\n\xff\n' >"$room/links.txt"
head -c 65537 /dev/zero | tr '\0' a >>"$room/links.txt"
printf '\nhelp: x:1:1: error: y [z]\n' >>"$room/links.txt"

bold='\e[1m' red='\e[1;31m' cyan='\e[36m' dim='\e[2m' plain='\e[0m'
# said_of FILE LINE COLUMN SENTENCE RULE : the coloured line of `gnu` on a link of a file
said_of() { printf '%s' "${bold}$1:$2:$3:$plain ${red}error:$plain $4 ${dim}[$5]$plain\\n"; }
# said LINE COLUMN SENTENCE RULE : the same of links.txt
said() { said_of links.txt "$@"; }
space='U+0020 SPACE is not allowed in a URL'
hex='0x7f is hex to URL parsers: write a decimal number'
bytes="this line isn't UTF-8"
long='this line has more than 65536 bytes'
first=$(said 1 11 "$space" code-point)
second=$(said 2 8 "$hex" host-number)
expect 1 "$first$second$(said 3 1 "$bytes" not-utf8)$(said 4 1 "$long" line-too-long)$(said 5 6 "$space" code-point)" '' \
    lint -q --color always links.txt

# The text is as it is, even if it looks like a line of a report; the marks below it are red, and none are of a line that
# is too long.
# marked TEXT MARKS : the text and the marks below it
marked() { printf '%s' "$1\\n$red$2^$plain\\n"; }
expect 1 "$first$(marked 'http://h/a b' '          ')${cyan}help:$plain write http://h/a%20b\\n\
$second$(marked http://0x7f.1/ '       ')${cyan}note:$plain the same URL, written validly, is http://127.0.0.1/\\n\
$(said 3 1 "$bytes" not-utf8)$(marked '\xef\xbf\xbd' '')\
$(said 4 1 "$long" line-too-long)\
$(said 5 6 "$space" code-point)$(marked 'help: x:1:1: error: y [z]' '     ')${cyan}help:$plain write help:%20x:1:1:%20error:%20y%20%5Bz%5D\\n" '' \
    lint -q --format caret --color=always links.txt

# A name may look like a part of a report, or like a colour.
if has posix_names 2; then
    names=('a: error: b.txt' 'note: c: 1:1: error: d [e]' $'f\e[31m')
    for name in "${names[@]}"; do printf 'http://h/a b\n' >"$room/$name"; done
    odd() { said_of "$1" 1 11 "$space" code-point; }
    expect 1 "$(odd "${names[0]}")$(odd "${names[1]}")$(odd 'f\xef\xbf\xbd[31m')" '' lint -q --color always "${names[@]}"
    expect 1 "$(odd "${names[1]}")$(marked 'http://h/a b' '          ')${cyan}help:$plain write http://h/a%20b\\n" '' \
        lint -q --format caret --color always "${names[1]}"
    (cd "$room" && rm -f "${names[@]}")
fi

# shows WANTED WORD.. : a lint with these words at a terminal, where WANTED says whether there are colours, and where it
# is the same without them; words with = are of the environment
shows() {
    local wanted=$1 environment=() words=() colours=()
    shift
    while [ $# -gt 0 ]; do
        case $1 in
            *=*) environment+=("$1") ;;
            --color) colours=("$1" "$2"); shift ;;
            *) words+=("$1") ;;
        esac
        shift
    done
    count=$((count + 1))
    (cd "$room" && env TERM=xterm "${environment[@]}" script -qec "$program lint -q ${words[*]} ${colours[*]} links.txt" /dev/null) </dev/null |
        tr -d '\r' >"$room/out"
    if grep -q $'\e' "$room/out"; then found=colours; else found=none; fi
    [ $found = "$wanted" ] || fail "${environment[*]} ${words[*]} ${colours[*]}: at a terminal it has $found"
    sed 's/\x1b\[[0-9;]*m//g' "$room/out" | cmp -s - <("$program" lint -q "${words[@]}" --color never "$room/links.txt" |
        sed "s|$room/||g") || fail "${environment[*]} ${words[*]} ${colours[*]}: with colours it says something else"
}

if has terminals 18; then
    for format in gnu caret; do
        shows colours --format $format
        shows none --format $format --color never
        shows none NO_COLOR=1 --format $format
        shows colours NO_COLOR= --format $format
    done
    shows none TERM=dumb
    shows colours TERM=dumb FORCE_COLOR=1
    for terminal in dumber dumb-emacs; do shows colours TERM=$terminal; done
    shows none INSIDE_EMACS=28.2,compile
    shows colours INSIDE_EMACS=28.2,compile FORCE_COLOR=1
    shows none NO_COLOR=1 FORCE_COLOR=1
    shows none NO_COLOR=yes
    shows colours TERM=dumb FORCE_COLOR=true
    shows colours NO_COLOR=1 --color always
fi

# In a pipe there are none unless they are asked for, and a format that programs read has none at all.
# piped WANTED VARIABLE WORD.. : whether a lint in a pipe has colours, with this variable of the environment
piped() {
    local wanted=$1 variable=$2 found=none
    shift 2
    count=$((count + 1))
    env "$variable" "$program" lint -q "$@" "$room/links.txt" >"$room/out"
    if grep -q $'\e' "$room/out"; then found=colours; fi
    [ $found = "$wanted" ] || fail "$variable $*: in a pipe it has $found"
}
piped none TERM=xterm
piped none TERM=xterm --color auto
if has environment 1; then piped colours FORCE_COLOR=1; fi
piped none FORCE_COLOR=
piped none FORCE_COLOR=1 --color never
for format in json github sarif checkstyle junit gitlab rdjson; do piped none FORCE_COLOR=1 --format $format --color always; done

# A word that doesn't say when.
choices='urlcheck: the colour choices: auto always never\nwords\n'
expect 2 '' "urlcheck: no colour choice is named 'allways'; the nearest is always\\n$choices" lint --color allways no/file
expect 2 '' "urlcheck: no colour choice is named ''\\n$choices" lint --color= --format x links.txt
rm -f "$room/links.txt"

all_cases 36
