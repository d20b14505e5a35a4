#!/usr/bin/env bash
# Checks the pages of this repository over the program given as the first argument: each block of commands prints what
# the page says, links and names lead somewhere, sentences are short and plain, figures are those that benches stored, pictures
# are those that their scripts draw. Then it spoils a copy of the pages in each of these ways, and sees that the check finds it.
set -euo pipefail
[ $# = 1 ] && [ -x "$1" ] || { echo 'usage: tests/runs/pages.sh PROGRAM'; exit 2; }
command -v python3 >/dev/null || { echo 'pages: python3 is missing; CONTRIBUTING.md says what the gate needs'; exit 70; }
program=$(realpath "$1")
top=$(realpath "$(dirname "$0")/../..")
room=$(mktemp -d)
trap 'rm -rf "$room"' EXIT
export PYTHONDONTWRITEBYTECODE=1
failed=0

python3 "$top/tests/runs/pages.py" texts || failed=1
python3 "$top/tests/runs/pages.py" commands "$program" || failed=1
python3 "$top/tests/runs/prose.py" || failed=1
python3 "$top/bench/figures.py" || failed=1
for picture in profiles:docs/profiles.py speed:bench/plot.sh; do
    read -ra words <<<"${picture#*:}"
    case $picture in
        *.py) python3 "$top/${words[0]}" ;;
        *) bash "$top/${words[0]}" "${words[@]:1}" ;;
    esac >"$room/drawn.svg" || true
    [ -s "$room/drawn.svg" ] && cmp -s "$room/drawn.svg" "$top/docs/${picture%:*}.svg" ||
        { echo "FAILED: docs/${picture%:*}.svg is old; ${picture#*:} draws it again, on standard output"; failed=1; }
done

# The page of each rule is what tools/make-rules makes of it.
if command -v node >/dev/null; then
    "$top/tools/make-rules" "$program" "$room/made" && diff -r -x README.md "$room/made/docs/rules" "$top/docs/rules" ||
        { echo 'FAILED: docs/rules is old; tools/make-rules makes its pages anew'; failed=1; }
else
    echo "pages: that docs/rules is as tools/make-rules makes it is left out, since node isn't installed"
fi

# Each public function that isn't about words has a contract, and each contract a sentence.
"$top/tools/make-contracts" --check || failed=1

# The checks, each with its words.
contracts='tools/make-contracts --check' texts='tests/runs/pages.py texts' commands="tests/runs/pages.py commands $program" prose=tests/runs/prose.py

# spoiled WHAT SAID CHECK FILE SED : in a copy where this edit of a page changed something the check, a script and its words, says so
count=0
spoiled() {
    local what=$1 said=$2 check=$3 file=$4
    count=$((count + 1))
    rm -rf "$room/copy"
    mkdir -p "$room/copy/docs"
    ln -s "$top"/* "$room/copy/" 2>/dev/null || true
    cp --remove-destination "$top"/*.md "$top/NOTICE" "$top/mkdocs.yml" "$room/copy/"
    rm -f "$room/copy/bench"
    mkdir "$room/copy/bench"
    cp -r "$top/bench/kinds" "$top/bench/verdicts" "$room/copy/bench/"
    ln -s "$top"/bench/* "$room/copy/bench/" 2>/dev/null || true
    cp -r "$top"/docs/* "$room/copy/docs/"
    # (where a file of a crate is spoiled, a copy has the code of all crates)
    case $file in
        crates/*)
            rm "$room/copy/crates"
            (cd "$top" && cp -r --parents crates/*/src "$room/copy")
            ;;
    esac
    sed -i "$5" "$room/copy/$file"
    if cmp -s "$room/copy/$file" "$top/$file"; then echo "FAILED: $what: $file stayed as it was"; failed=1; fi
    if python3 "$top/"$check "$room/copy" >"$room/said" 2>&1 || ! grep -q "^FAILED: .*$said" "$room/said"; then
        echo "FAILED: pages with $what: $(cat "$room/said")"
        failed=1
    fi
}
spoiled 'another output' 'urlcheck check ' "$commands" docs/PROFILES.md 's/^refused 22 percent$/refused 21 percent/'
spoiled 'a long README' 'rows of 80 columns, and at most' "$texts" README.md '$a \\nA line more.'
spoiled 'a link to nowhere' 'a link to docs/COMMAND.md' "$texts" README.md 's/(docs\/COMMANDS.md)/(docs\/COMMAND.md)/'
spoiled 'an anchor to nowhere' 'no heading makes' "$texts" docs/COMMANDS.md 's/(#vectors)/(#vector)/'
spoiled 'a path to nowhere' 'librarian' "$texts" docs/TRUST.md 's/runs\/library.sh`/runs\/librarian.sh`/'
spoiled 'a name of no function' 'no `fault_list`' "$texts" docs/PROVED.md 's/| `faults` |/| `fault_list` |/'
spoiled 'a clause that is none' 'no clause `reported`' "$texts" docs/PROVED.md 's/| `run_links` | `report`/| `run_links` | `reported`/'
spoiled 'a command for no function' 'no function checks::check' "$texts" docs/PROVED.md 's/--only checker::check/--only checks::check/'
spoiled 'another clause' 'no function has the clause' "$texts" docs/PROVED.md 's/{ IsDecided (/{ IsDone (/'
spoiled 'another length of a definition' 'Valid.antt has' "$texts" docs/PROVED.md 's/Valid.antt` (23/Valid.antt` (13/'
spoiled 'a clause of another name' 'has no clause `answer`' "$texts" crates/uv_grammar/src/checker.rt 's/ensures answer {/ensures answered {/'
spoiled 'a contract that is taken away' 'has no contract' "$contracts" crates/uv_grammar/src/laws.rt '/ensures { PartsAreTheText }/d'
spoiled 'a contract without a sentence' 'no comment says what it is' "$contracts" crates/uv_grammar/src/laws.rt '/^ *\/\/\//d'
spoiled 'a name of nothing' 'the name of nothing' "$texts" docs/ARCHITECTURE.md \
    's/`links::plain::plain_rest`/`links::plain::plain_''nest`/'
spoiled 'no word on a function for C' 'no word on `urlcheck_next_refused`' "$texts" docs/LIBRARY.md '/`urlcheck_next_refused`/d'
spoiled 'another number of a verdict' 'no verdict `URLCHECK_DONE`' "$texts" docs/LIBRARY.md 's/`URLCHECK_DONE` | 9/`URLCHECK_DONE` | 8/'
spoiled 'a link that is no URL string' 'a link of the pages' "$commands" docs/guides/hook.md \
    's/(https:\/\/pre-commit.com)/(https:\/pre-commit.com)/'
spoiled 'a page that the navigation lacks' 'its navigation has no' "$texts" mkdocs.yml '/guides\/hook.md/d'
spoiled 'a long sentence' 'a sentence of ' "$prose" docs/START.md \
    '$a A word and another one, '"$(printf 'and one more %.0s' {1..12})"'at the end.'
spoiled 'an odd sentence' "'is no ..': write isn't a" "$prose" docs/guides/mkdocs.md '$a A page is no place for notes, as everyone knows.'
spoiled 'a row of short sentences' 'sentences in a row of at most' "$prose" docs/guides/mkdocs.md \
    '$a A page is short. Its words are few. Nobody reads it.'
spoiled 'a word that the pages avoid' "the pages avoid 'judges'" "$prose" docs/QUESTIONS.md 's/finds \[the links/judges [the links/'
spoiled 'a message with such a word' "a message has 'judges'" "$prose" crates/uv_messages/src/hints.rt 's/TEXT checks one text/TEXT judges one text/'
spoiled 'an odd message' "'is no ..': write isn't a" "$prose" docs/share/man/urlcheck-language-server.1 '$a This is no message.'
spoiled 'an odd comment' "'whoever': write anyone who" "$prose" crates/uv_grammar/src/checker.rt 's/^\/\/\/ Whether/\/\/\/ For whoever asks, whether/'
spoiled 'no table of avoided words' 'the table of avoided words is missing' "$prose" CONTRIBUTING.md '/^| `/d'
spoiled 'no word on who needs a page' "doesn.t say who needs it" "$prose" docs/guides/hook.md 's/^For a repository/A repository/'
spoiled 'a long guide' 'a guide has at most' "$prose" docs/guides/mend.md 's/$/\n\n/'
! command -v codespell >/dev/null ||
    spoiled 'a slip of the pen' 'recieve ==> receive' "$prose" docs/INSTALL.md '$a You recieve it.'
spoiled 'another figure in a table' 'the row should be' bench/figures.py docs/SPEED.md 's/^| plain | [0-9]* |/| plain | 343 |/'
spoiled 'another figure in a sentence' 'the figures of' bench/figures.py README.md 's/costs 0[.][0-9]* times the/costs 0.01 times the/'
spoiled "another bound than the gate's" 'the figures of' bench/figures.py docs/SPEED.md 's/plain link takes at most [0-9]* in/plain link takes at most 1 in/'
spoiled 'a stored output that says otherwise' 'the figures of' bench/figures.py bench/verdicts/mixed.txt 's/^check: [0-9]*/check: 999/'
spoiled 'no notice of a crate' 'no row for idna' "$texts" NOTICE '/^idna /d'
spoiled 'another headline' 'the headline' "$texts" docs/PROVED.md 's/in at most 3n + 16 steps/in at most 2n + 5 steps/'
[ $failed = 0 ] && echo "pages: each of $count spoiled copies was found"
exit $failed
