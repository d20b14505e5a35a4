# The manual page and the completions are those that make-manual makes of the program's help, and they can be read.

top=$(dirname "$(dirname "$here")")
share=$top/docs/share
bash "$top/tools/make-manual" "$program" "$room/made" >"$room/out" 2>"$room/err"
ends_with 0 $? '' 'make-manual'
for file in man/urlcheck.1 completions/urlcheck.bash completions/_urlcheck completions/urlcheck.fish; do
    count=$((count + 1))
    [ -s "$room/made/$file" ] || fail "$file: nothing was made"
    cmp -s "$room/made/$file" "$share/$file" ||
        fail "$file is old; tools/make-manual crates/urlcheck/out/urlcheck docs/share makes it anew"
done

# It explains itself, and takes no other option and no other number of words.
bash "$top/tools/make-manual" --help >"$room/out" 2>"$room/err"
ends_with 0 $? '' 'make-manual --help'
grep -q '^tools/make-manual PROGRAM DIR: ' "$room/out" || fail "make-manual --help says: $(cat "$room/out")"
for words in '' --other one 'one two three'; do
    bash "$top/tools/make-manual" $words >"$room/out" 2>"$room/err"
    ends_with 2 $? 'usage: tools/make-manual PROGRAM DIR\n' "make-manual $words"
done

# A program without help, and one whose help names no command: nothing is made.
printf '#!/bin/sh\n' >"$room/silent"
chmod +x "$room/silent"
bash "$top/tools/make-manual" "$room/silent" "$room/none" >"$room/out" 2>"$room/err"
ends_with 1 $? 'make-manual: no help by --help\n' 'make-manual of a program without help'
printf '#!/bin/sh\necho "Usage: urlcheck"\n' >"$room/silent"
bash "$top/tools/make-manual" "$room/silent" "$room/none" >"$room/out" 2>"$room/err"
ends_with 1 $? 'make-manual: the help names no command\n' 'make-manual of a program without commands'
[ ! -e "$room/none" ] || fail 'make-manual made something of a program without help'

# Each command of the help has its part of the page.
count=$((count + 1))
for command in $("$program" --help | sed -n '/^Commands:$/,/^$/s/^  \([a-z]*\) .*/\1/p'); do
    [ "$command" = help ] || grep -q "^\.SS \"urlcheck $command" "$share/man/urlcheck.1" ||
        fail "the page lacks $command"
done

# Each example of the help is in the page as one, and not as an entry of a list.
count=$((count + 1))
examples=$(for command in '' $("$program" --help | sed -n '/^Commands:$/,/^$/s/^  \([a-z]*\) .*/\1/p'); do
    [ "$command" = help ] || "$program" $command --help
done | grep -c '^  urlcheck ')
[ "$(grep -A 1 '^\.nf$' "$share/man/urlcheck.1" | grep -c '^urlcheck ')" = "$examples" ] ||
    fail "the page doesn't have $examples examples"

# The page and the completions are read without a warning by what is installed of their readers.
# reads READER WORD.. : the reader has nothing to say
reads() {
    count=$((count + 1))
    command -v "$1" >/dev/null || return 0
    "$@" >"$room/out" 2>"$room/err" || fail "$*: status $?"
    [ ! -s "$room/err" ] || fail "$*: $(cat "$room/err")"
}
for name in urlcheck urlcheck-documents urlcheck-language-server; do
    reads groff -ww -man -Tutf8 "$share/man/$name.1"
    reads mandoc -T lint -W style "$share/man/$name.1"
done
for name in urlcheck urlcheck-documents; do
    reads bash -n "$share/completions/$name.bash"
    reads zsh -n "$share/completions/_$name"
    reads fish -n "$share/completions/$name.fish"
done

# Each option of the help is in the completions of each shell, by its name and by its letter, if it has one.
# offers SHELL COMMAND OPTION : the completions of a shell have an option of a command, or of the program
offers() {
    local of="use_subcommand " name=" -l ${3#--} "
    [ -z "$2" ] || of="seen_subcommand_from $2' "
    [ "${3#--}" != "$3" ] || name=" -s ${3#-} "
    case $1 in
        bash) sed -n "s/^ *${2:-''}) words='\(.*\)' ;;$/ \1 /p" "$share/completions/urlcheck.bash" |
            grep -q -e " $3 " ;;
        fish) grep -e "$of" "$share/completions/urlcheck.fish" | grep -q -e "$name" ;;
        zsh) sed -n "/${2:-CURRENT == 2}${2:+)$}/,/${2:+;;$}${2:-return}/p" "$share/completions/_urlcheck" |
            grep -q -e "[',{]$3[=+,}[]" ;;
    esac
}
for shell in bash fish zsh; do
    count=$((count + 1))
    for command in '' $("$program" --help | sed -n '/^Commands:$/,/^$/s/^  \([a-z]*\) .*/\1/p'); do
        [ "$command" != help ] || continue
        options=$("$program" $command --help | grep -o -e '^ *\(-[a-zA-Z], \)\?--[a-z-]*' | tr -d ,)
        [ -n "$options" ] || fail "the help of '$command' names no option"
        for option in $options; do
            offers $shell "$command" "$option" || fail "completions of $shell: '$command' lacks $option"
        done
    done
done

# completes WORDS WORD.. : after these words of a program bash completes the last one so, by the function completer
completer=_urlcheck
completes() {
    local wanted=$1
    shift
    count=$((count + 1))
    COMP_WORDS=(program "$@")
    COMP_CWORD=$#
    COMPREPLY=()
    (cd "$room" && $completer 2>/dev/null; echo "${COMPREPLY[*]}") >"$room/out"
    [ "$(cat "$room/out")" = "$wanted" ] || fail "completions of '$*': $(cat "$room/out")"
}
. "$share/completions/urlcheck.bash"
completes 'check' c
completes '--base' check --ba
completes '' check --base h
completes 'no-scheme not-utf8 not-located no-link' explain no
completes 'made' vectors ma
completes 'explain' help ex
completes 'sarif' lint --format sa
completes 'sarif' lint --format = sa
completes 'gnu caret json github sarif checkstyle junit gitlab rdjson' lint --format =
completes '--format=sarif' lint --format=sa
completes 'screen' lint --columns s
completes 'code-points bytes utf16 screen' lint --columns =
completes '' lint --base ma
completes 'parser' check --profile p
completes 'standard wide parser' links --profile =
completes '--quiet' lint --q
completes '-q' lint -q
completes '--in-place' mend --i
completes 'made' mend -i ma
completes '-V' -V
completes '' help check l
completes '' check -- --ba
completes 'made' lint --quiet -- ma
completes '' lint -- --format sa
. "$share/completions/urlcheck-documents.bash"
completer=_urlcheck_documents
completes '--exclude' --exc
completes '-q' -q
completes 'made' --list ma
completes 'made' --ignore ma
completes '--ignore=made' --ignore=ma
completes '' --exclude ma
completes 'wide' --profile w
completes '--format' --fo
completes 'sarif' --git --format s
completes 'gnu caret json github sarif checkstyle junit gitlab rdjson' --format =
completes 'html xml markdown mdx rst notebook epub css json-feed' --type =
completes 'code-points bytes utf16 screen' --list --columns =
completes 'screen' --columns s
completes '--type=xml' --type=x
completes 'auto always never' --color =
completes 'made' --baseline ma
all_cases 69
