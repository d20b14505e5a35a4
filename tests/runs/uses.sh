#!/usr/bin/env bash
# Runs the recipes of docs/guides, as a reader would copy them, over the program given as the first argument: on links that are
# right, on wrong ones, and on what once made a recipe end well though nothing was checked. A recipe whose tool isn't
# installed is left out, and a line says so. Those for documents are run where PACKAGE names the folder of the Python package,
# and with the word `documents` only these, as tests/runs/library.sh does.
set -uo pipefail
[ $# -ge 1 ] && [ -x "$1" ] && [[ ${*:2} =~ ^(documents)?$ ]] ||
    { echo 'usage: tests/runs/uses.sh PROGRAM [documents]'; exit 2; }
for tool in awk find python3; do
    command -v "$tool" >/dev/null || { echo "uses: $tool is missing; CONTRIBUTING.md says what the gate needs"; exit 70; }
done
top=$(realpath "$(dirname "$0")/../..")
guides=$top/docs/guides
room=$(mktemp -d)
trap 'rm -rf "$room"' EXIT
mkdir "$room/path"
ln -s "$(realpath "$1")" "$room/path/urlcheck"
export PATH=$room/path:$PATH LC_ALL=C.UTF-8 HOME=$room PYTHONDONTWRITEBYTECODE=1
export GIT_CONFIG_NOSYSTEM=1 GIT_AUTHOR_NAME=a GIT_AUTHOR_EMAIL=a GIT_COMMITTER_NAME=a GIT_COMMITTER_EMAIL=a
failed=0 count=0

# recipe GUIDE LANGUAGE [NUMBER] : the block of the language, by its number from 1, of the page docs/guides/GUIDE.md
recipe() {
    local found
    found=$(awk -v fence="\`\`\`$2" -v wanted="${3:-1}" '
        $0 == fence { seen++; inside = seen == wanted; next }
        /^```$/ { inside = 0 }
        inside' "$guides/$1.md")
    [ -n "$found" ] || { echo "FAILED: docs/guides/$1.md has no block in $2 with number ${3:-1}" >&2; exit 1; }
    printf '%s\n' "$found"
}

# ends STATUS WHAT COMMAND.. : the command ends so, where any means any status but 0; its output is left in out
ends() {
    local wanted=$1 what=$2 ended
    shift 2
    "$@" >"$room/out" 2>&1 </dev/null
    ended=$?
    count=$((count + 1))
    if [ "$wanted" = any ]; then [ $ended != 0 ]; else [ $ended = "$wanted" ]; fi ||
        { echo "FAILED: $what: status $ended, and not $wanted: $(cat "$room/out")"; failed=1; }
}

# says WHAT LINE.. : the last command has written exactly these lines
says() {
    local what=$1
    shift
    printf '%s\n' "$@" | cmp -s - "$room/out" || { echo "FAILED: $what: it wrote: $(cat "$room/out")"; failed=1; }
}

# has TOOL : the tool is installed, or a line says that its recipe is left out
has() {
    command -v "$1" >/dev/null || { echo "uses: the recipe for $1 is left out, since it isn't installed"; return 1; }
}

# in_folder NAME : makes an empty folder of this name, and goes there
in_folder() {
    mkdir -p "$room/$1" && cd "$room/$1" || exit 1
}

# What else takes blocks of the guides: the guide, the language, and the run; `-` where no run does, with a reason below.
elsewhere='list console tests/runs/pages.py
mend console tests/runs/pages.py
mend shell-session tests/runs/authors/pages.py
sphinx shell-session tests/runs/authors/pages.py
mkdocs shell-session tests/runs/authors/pages.py
other-documents shell-session tests/runs/authors/pages.py
site shell-session tests/runs/authors/pages.py
editor lua tests/runs/authors/recipes.py
editor elisp tests/runs/authors/recipes.py
editor vim tests/runs/authors/recipes.py
database sql tests/runs/registers/page.py
database bash tests/runs/registers/duckdb.sh
python python tests/runs/library/programs.py
c c tests/runs/library/programs.py
cpp cpp tests/runs/languages.sh
cpp sh tests/runs/languages.sh
c sh tests/runs/library.sh
c cmake tests/runs/packages.sh
forms python tests/runs/library/forms.py
rust toml tests/runs/languages.sh
rust rust tests/runs/languages.sh
rust sh tests/runs/languages.sh
go text tests/runs/languages.sh
go go tests/runs/languages.sh
go sh tests/runs/languages.sh
java java tests/runs/languages.sh
java sh tests/runs/languages.sh
other-languages ruby tests/runs/languages/others.sh
other-languages php tests/runs/languages/others.sh
other-languages csharp tests/runs/languages/others.sh
other-languages lua tests/runs/languages/others.sh
other-languages perl tests/runs/languages/others.sh
javascript js tests/runs/browser.sh
sphinx python -
mkdocs yaml -
database sh -
javascript sh -'
# (the lines for conf.py and mkdocs.yml are those that the commands of their guides write; the extension for DuckDB is built by its run;
# the other needs npm)

# Each block of the guides is taken, by a line of this file or by another run; a run that is named names the guides.
while IFS=$'\t' read -r guide language number; do
    [ "$number" = 1 ] && number= || number=" $number"
    count=$((count + 1))
    if grep -qF "recipe $guide $language$number" "$0"; then continue; fi
    run=$(awk -v guide="$guide" -v language="$language" '$1 == guide && $2 == language { print $3 }' <<<"$elsewhere")
    if [ "$run" = - ]; then continue; fi
    [ -n "$run" ] && grep -qE "guides|recipes.py|page.py" "$top/$run" ||
        { echo "FAILED: docs/guides/$guide.md: block${number:- 1} in $language isn't run"; failed=1; }
done < <(for page in "$guides"/*.md; do
    awk -v guide="$(basename "$page" .md)" '
        /^```[a-z]/ { language = substr($0, 4); print guide "\t" language "\t" ++seen[language] }' "$page"
done)
echo "uses: no run takes: $(awk '$3 == "-" { printf "%s%s in %s", sep, $1, $2; sep = ", " }' <<<"$elsewhere")"

right='https://example.com/' wrong='http://h/a b'

# Links that are in text files and in documents, reported where they are.
if [ $# = 1 ] && has rg; then
    in_folder text
    recipe text-files sh >../text.sh
    printf 'a\nsee <http://x_y/>, https://example.com/\n\303\251 http://x/\303\251^\n' >a.txt
    ends 1 'links in text files' bash -o pipefail ../text.sh
    says 'links in text files' \
        './a.txt:2:13: error: U+005F LOW LINE is not allowed in a domain; --profile wide allows it [host-domain]' \
        './a.txt:3:15: error: U+005E CIRCUMFLEX ACCENT is not allowed in a URL [code-point]' 'urlcheck: 3 lines, 2 refused'
    printf 'see https://example.com/\n' >a.txt
    ends 0 'right links in text files' bash -o pipefail ../text.sh
    cd "$room" || exit 1
fi

# Links of tables and of JSON, in which a wrong one is named, and a file that isn't one isn't taken for a right one.
if [ $# = 1 ]; then
    in_folder tables
    recipe text-files bash >../table.sh
    recipe text-files bash 2 >../json.sh
    printf '\357\273\277url,name\r\nhttps://example.com/,"two\r\nlines"\r\n"http://h/a b",c\r\n' >links.csv
    ends 1 'links in a table' bash ../table.sh
    says 'links in a table' 'links.csv:4:11: error: U+0020 SPACE is not allowed in a URL [code-point]' \
        'urlcheck: 2 lines, 1 refused'
    printf 'name,url\na,https://example.com/\n' >links.csv
    ends 0 'right links in a table' bash ../table.sh
    printf 'name,link\na,https://example.com/\n' >links.csv
    ends any 'a table without the column' bash ../table.sh
    if has jq; then
        echo '{"a": ["http://h/b", {"c": "http://h/a b"}], "d": "no link"}' >links.json
        ends 1 'links in JSON' bash ../json.sh
        says 'links in JSON' 'links.json:2:11: error: U+0020 SPACE is not allowed in a URL [code-point]' \
            'urlcheck: 2 lines, 1 refused'
        echo '["http://h/b"]' >links.json
        ends 0 'right links in JSON' bash ../json.sh
        echo '["http://h/b"' >links.json
        ends any 'what is no JSON' bash ../json.sh
    fi
    cd "$room" || exit 1
fi
if [ -n "${PACKAGE:-}" ]; then
    in_folder pages
    printf '#!/bin/sh\nPYTHONPATH=%s exec python3 -m urlcheck.documents "$@"\n' "$PACKAGE" >../path/urlcheck-documents
    chmod +x ../path/urlcheck-documents
    recipe site sh >../check.sh
    recipe site bash >../formats.sh
    recipe site yaml | sed -n 's/^ *run: //p' >../step.sh
    recipe site sh 3 >../feeds.sh
    sentence='U+005F LOW LINE is not allowed in a domain; --profile wide allows it'
    # (a runner runs a step so)
    for recipe in 'check.sh' 'formats.sh' '-e step.sh'; do
        script=../${recipe##* } options=${recipe%"${recipe##* }"}
        rm -rf site
        ends any "documents in no folder, $recipe" bash $options "$script"
        mkdir site
        printf '<a href="http://x_y/">a</a>\n<a href="b">b</a>\n' >site/a.html
        ends 1 "wrong links in documents, $recipe" bash $options "$script"
        grep -qxF -e "site/a.html:1:17: error: $sentence [host-domain]" \
            -e "::error file=site/a.html,line=1,col=17,title=host-domain::$sentence" "$room/out" ||
            { echo "FAILED: links in documents, $recipe: it wrote: $(cat "$room/out")"; failed=1; }
        printf '<a href="b">b</a>\n' >site/a.html
        ends 0 "right links in documents, $recipe" bash $options "$script"
        printf '<a>' >site/b.xml
        ends any "a document that isn't read, $recipe" bash $options "$script"
    done
    # The job of GitLab for documents, but for its installation.
    recipe github yaml 3 | sed -n 's/^ *- \(urlcheck-documents .*\)/\1/p' >../gitlab.sh
    rm -rf docs
    ends 2 'documents in no folder, GitLab' bash -eo pipefail ../gitlab.sh
    mkdir docs
    printf '<a href="b">b</a>\n' >docs/a.html
    ends 0 'right links in documents, GitLab' bash -eo pipefail ../gitlab.sh
    printf '<a href="http://x_y/">a</a>\n' >docs/b.html
    ends 1 'wrong links in documents, GitLab' bash -eo pipefail ../gitlab.sh
    file=$(sed -n 's/^ *codequality: \(documents.*\)/\1/p' "$guides/github.md")
    grep -q '"docs/b.html"' "$file" || { echo "FAILED: the report for GitLab on documents: $(cat "$file")"; failed=1; }
    # Each line that builds a site ends with the check of what it built.
    recipe site sh 2 >../builds.sh
    while IFS= read -r line; do
        folder=$(sed -n 's/.* \([a-z]*\) && .*/\1/p' <<<"$line")
        [ "${line##*&& }" = "urlcheck-documents $folder" ] || { echo "FAILED: docs/guides/site.md: $line"; failed=1; }
        count=$((count + 1))
    done <../builds.sh
    printf '<urlset><loc>http://h/ b</loc></urlset>' | tee feed.xml | gzip >sitemap.xml.gz
    ends 1 'a feed and a sitemap' bash ../feeds.sh
    for place in feed.xml:1:23: -:1:23:; do
        grep -qF -e "$place" "$room/out" || { echo "FAILED: a feed and a sitemap: $(cat "$room/out")"; failed=1; }
    done
    cd "$room" || exit 1
else
    echo 'uses: PACKAGE names no Python package; tests/runs/library.sh runs the recipes for documents'
fi
if [ $# = 2 ]; then
    [ $failed = 0 ] && echo "uses: $count runs of recipes for documents"
    exit $failed
fi

# hard_names COMMAND.. : the command in a folder of lists: none, right ones, and wrong ones with names that are hard
hard_names() {
    local what=$1 name
    shift
    rm -f -- *.links
    ends 0 "$what without a list" "$@"
    echo $right >right.links
    ends 0 "$what of a right list" "$@"
    for name in 'wrong.links' 'two words.links' '-x.links' '--all.links' "quote's.links" $'line\nfeed.links' \
        'sub/one.links'; do
        mkdir -p sub
        echo "$wrong" >"./$name"
        ends any "$what of $name" "$@"
        rm -f "./$name"
    done
    echo $right >'two words.links'
    ends 0 "$what of right lists" "$@"
}

# What is new besides the known faults: none known yet, all known, one moved, one more, the same once more, no list.
in_folder known
recipe list sh 2 >../new-faults.sh
printf 'http://h/a b\n%s\n' $right >a.links
ends 2 'faults without a file of known ones' sh ../new-faults.sh a.links
: >known.json
ends 1 'faults of which none is known' sh ../new-faults.sh a.links
cp ../out known.json
says 'faults of which none is known' '{"cut":false,"file":"a.links","kind":"same","mended":"http://h/a%20b","message":'\
'"U+0020 SPACE is not allowed in a URL","offered":true,"rule":"code-point","text":"http://h/a b"}'
ends 0 'known faults' sh ../new-faults.sh a.links
printf '%s\n\nhttp://h/a b\n' $right >a.links
ends 0 'known faults elsewhere' sh ../new-faults.sh a.links
printf 'http://x_y/\n' >>a.links
ends 1 'a new fault' sh ../new-faults.sh a.links
grep -q '"text":"http://x_y/"' ../out || { echo "FAILED: a new fault: it wrote: $(cat ../out)"; failed=1; }
printf 'http://h/a b\nhttp://h/a b\n' >a.links
ends 1 'a known fault twice' sh ../new-faults.sh a.links
ends 2 'known faults of a list that is missing' sh ../new-faults.sh missing.links

in_folder find
recipe list sh >../find.sh
hard_names 'find' bash ../find.sh

# The hook: what is staged is checked, whatever the working tree has, and a list that is renamed too.
try_hook() {
    in_folder hook
    git init -q . && git commit -q --allow-empty -m first
    recipe hook sh >.git/hooks/pre-commit
    chmod +x .git/hooks/pre-commit
    ends 0 'a commit without a list' git commit -q --allow-empty -m none
    for name in right.links 'two words.links' -x.links; do echo $right >"./$name"; done
    git add .
    ends 0 'a commit of right lists' git commit -q -m right
    for name in wrong.links 'two words.links' -x.links; do
        echo "$wrong" >"./$name"
        git add -- "./$name"
        echo $right >"./$name"
        ends any "a commit of $name" git commit -q -m wrong
        git reset -q --hard
    done
    echo "$wrong" >right.links
    ends 0 'a commit whose working tree alone is wrong' git commit -q --allow-empty -m tree
    git reset -q --hard
    git mv right.links renamed.links && { seq -f 'https://example.com/%g' 100; echo "$wrong"; } >renamed.links && git add .
    ends any 'a commit of a list that is renamed' git commit -q -m renamed
    seq -f 'https://example.com/%g' 100 >renamed.links && git add . && git commit -q -m long
    git mv renamed.links again.links && echo "$wrong" >>again.links && git add .
    git diff --cached --name-status | grep -q '^R' || { echo 'FAILED: the list is not seen as renamed'; failed=1; }
    ends any 'a commit of a list that is renamed and much the same' git commit -q -m again
    git reset -q --hard
    git rm -q again.links renamed.links 2>/dev/null || git rm -q renamed.links
    ends 0 'a commit that deletes a list' git commit -q -m deleted
}
if has git; then try_hook; fi

if has git && has pre-commit; then
    in_folder source
    git init -q . && cp "$top/.pre-commit-hooks.yaml" . && git add . && git commit -q -m hooks && git tag "v$(cat "$top/VERSION")"
    in_folder framework
    git init -q .
    recipe hook yaml 2 | sed "s|https://example.com/urlcheck.git.*|$room/source|" >.pre-commit-config.yaml
    echo $right >-x.links
    git add .
    ends 0 'pre-commit of a right list' pre-commit run --all-files
    echo "$wrong" >-x.links
    ends 1 'pre-commit of a wrong list' pre-commit run --all-files
    grep -q 'x.links:1:11: error' "$room/out" || { echo "FAILED: pre-commit says: $(cat "$room/out")"; failed=1; }
fi

# The hooks for documents that the guide names are there.
recipe hook yaml >"$room/hooks.yaml"
while IFS= read -r id; do
    grep -qx -- "- id: $id" "$top/.pre-commit-hooks.yaml" || { echo "FAILED: no hook $id"; failed=1; }
    count=$((count + 1))
done < <(sed -n 's/^ *- id: //p' "$room/hooks.yaml")

# The workflows: each script that a runner gives to its shell, as a reader of YAML finds it.
try_workflows() {
    local number step
    in_folder jobs
    recipe github yaml >../workflow-1.yml
    recipe github yaml 2 >../workflow-2.yml
    recipe github yaml 3 >../workflow-3.yml
    cat >../steps.py <<'PYTHON'
import sys, yaml
count = 0
for name in sys.argv[1:]:
    found = yaml.safe_load(open(name))
    steps = found if isinstance(found, list) else found.get("jobs", {}).get("links", {}).get("steps")
    scripts = [step["run"] for step in steps if "run" in step] if steps else [
        "\n".join(found["links"][part]) for part in ("before_script", "script")]
    for script in scripts:
        count += 1
        open("../step-%d" % count, "w").write(script)
PYTHON
    rm -f ../step-[0-9]
    ends 0 'the workflows are YAML' python3 ../steps.py ../workflow-1.yml ../workflow-2.yml ../workflow-3.yml
    [ "$(printf '%s ' ../step-[0-9])" = '../step-1 ../step-2 ../step-3 ../step-4 ../step-5 ' ] ||
        { echo "FAILED: docs/guides/github.md has other steps: $(printf '%s ' ../step-*)"; failed=1; }
    [ "$(grep -c 'PROGRAM: urlcheck' ../workflow-[13].yml | xargs)" = '../workflow-1.yml:1 ../workflow-3.yml:1' ] ||
        { echo 'FAILED: docs/guides/github.md names the program of a release otherwise'; failed=1; }
    try_fetching 1
    try_fetching 4
    for step in ../step-2 ../step-3 ../step-5; do
        rm -rf docs
        mkdir docs
        ends 2 "without a list: $(head -n 1 $step)" bash -eo pipefail $step
        echo $right >docs/a.links
        ends 0 "right: $(head -n 1 $step)" bash -eo pipefail $step
        echo "$wrong" >'docs/two words.links'
        ends 1 "wrong: $(head -n 1 $step)" bash -eo pipefail $step
    done
    grep -q code-point urlcheck.sarif || { echo 'FAILED: urlcheck.sarif lacks the wrong place'; failed=1; }
    python3 -c 'import json
found, = json.load(open("links-quality.json"))
assert found["location"] == {"path": "docs/two words.links", "lines": {"begin": 1}}, found
assert found["check_name"] == "code-point" and found["description"] and found["fingerprint"] and found["severity"] == "major"' ||
        { echo "FAILED: the report for GitLab: $(cat links-quality.json)"; failed=1; }
}

# try_fetching NUMBER : a step that gets the program of a release, put where a job finds it; one whose bytes are others isn't
try_fetching() {
    local program
    program=$(sed -n 's/^ *PROGRAM: //p' ../workflow-1.yml)
    rm -rf release fetched
    mkdir release fetched
    cp "$room/path/urlcheck" "release/$program"
    { (cd release && sha256sum "$program") && echo "$(printf '%064d' 0)  another"; } >sums
    mv sums release/SHA256SUMS
    cd fetched || exit 1
    fetch=(env RELEASE="file://$room/jobs/release" PROGRAM="$program" GITHUB_PATH="$room/jobs/paths" bash -eo pipefail "../../step-$1")
    ends 0 'a program that was fetched' "${fetch[@]}"
    ends 0 'the program that is put there' "$HOME/.local/bin/urlcheck" check $right
    [ "$(cat ../paths)" = "$HOME/.local/bin" ] || { echo "FAILED: a later step looks into: $(cat ../paths)"; failed=1; }
    rm -r "$HOME/.local"
    echo x >>"../release/$program"
    ends any 'a program with other bytes' "${fetch[@]}"
    rm ../release/SHA256SUMS "$program"
    ends any 'a release without its checksums' "${fetch[@]}"
    [ ! -e "$HOME/.local" ] || { echo 'FAILED: a program with other bytes is put there'; failed=1; }
    cd ..
}

if has curl; then
    if python3 -c 'import yaml' 2>/dev/null; then
        try_workflows
    else
        echo "uses: the recipes for GitHub and GitLab are left out, since Python's package yaml isn't installed"
    fi
fi

# Editors: the place they go to, in a line with wide and combining characters and a tab before it.
in_folder editors
printf 'http://h/\nhttp://h/\344\270\255e\314\201\tx\n' >'two words.links'
if has vim; then
    cat >check.vim <<'VIM'
silent make!
call writefile([printf('%d entries, line %d, %s', len(getqflist()), line('.'), matchstr(getline('.'), '\%' . col('.') . 'c.') ==# "\t")], 'place')
cfirst
call writefile([printf('%d entries, line %d, at the tab %d', len(getqflist()), line('.'), getline('.')[col('.') - 1] ==# "\t")], 'place')
qall!
VIM
    recipe editor vim 2 >bytes.vimrc
    sed 's/bytes/screen/; s/%c/%v/' bytes.vimrc >screen.vimrc
    for settings in bytes screen; do
        ends 0 "vim, by $settings" timeout 60 \
            vim -Nu $settings.vimrc -i NONE -n -es -c 'edit two\ words.links' -c 'source check.vim'
        mv place "$room/out" 2>/dev/null || : >"$room/out"
        says "vim, of the place by $settings" '1 entries, line 2, at the tab 1'
    done
fi
if has emacs; then
    recipe editor elisp 2 >settings.el
    cat >check.el <<'LISP'
(require 'compile)
(when (equal (getenv "SETTINGS") "yes") (load (expand-file-name "settings.el") nil t))
(let ((compilation-buffer (compilation-start (getenv "LINT"))))
  (while (get-buffer-process compilation-buffer) (accept-process-output nil 0.1))
  (accept-process-output nil 0.1)
  (with-current-buffer compilation-buffer
    (goto-char (point-min))
    (compilation-next-error 1)
    (compile-goto-error))
  (with-current-buffer (window-buffer)
    (princ (format "line %d, at the tab %s\n" (line-number-at-pos) (eq (char-after) ?\t)))))
LISP
    # Emacs stays before a combining mark where it goes by columns of the screen.
    printf 'http://h/\nhttp://h/\344\270\255\tx\n' >wide.links
    for run in "yes urlcheck lint 'two words.links'" 'no urlcheck lint --columns screen wide.links'; do
        ends 0 "emacs, ${run#* }" env SETTINGS="${run%% *}" LINT="${run#* }" timeout 60 emacs -Q --batch -l check.el
        tail -n 1 "$room/out" >"$room/last" && mv "$room/last" "$room/out"
        says "emacs, of the place by ${run#* }" 'line 2, at the tab t'
    done
fi

# The task of an editor that runs a command and matches each line it writes.
recipe editor json >tasks.json
cat >task.py <<'PYTHON'
import json, re, subprocess, sys
task, = json.load(open("tasks.json"))["tasks"]
command = [task["command"], *(word.replace("${file}", sys.argv[1]) for word in task["args"])]
ran = subprocess.run(command, stdout=subprocess.PIPE, text=True)
pattern = task["problemMatcher"]["pattern"]
parts = ("file", "line", "column", "message", "code")
for line in ran.stdout.splitlines():
    found = re.search(pattern["regexp"], line)
    print(*(found[pattern[name]] for name in parts), sep="|")
sys.exit(ran.returncode)
PYTHON
printf 'http://h/\nhttp://h/\360\237\230\200 x\n' >'two words.links'
ends 1 'the task of Visual Studio Code' python3 task.py 'two words.links'
says 'the task of Visual Studio Code' 'two words.links|2|12|U+0020 SPACE is not allowed in a URL|code-point'

# A list with a byte order mark.
in_folder marked
sed_line=$(tr '\n' ' ' <"$guides/list.md" | sed -n "s/.*GNU \`\(sed [^\`]*\)\`.*/\1/p")
[ -n "$sed_line" ] || { echo 'FAILED: docs/guides/list.md has no line for the byte order mark'; failed=1; }
printf '\357\273\277https://example.com/\n' >list
ends any 'a list with a byte order mark' sh -c 'urlcheck links <list'
ends 0 'a byte order mark that is taken off' sh -c "$sed_line <list | urlcheck links"

[ $failed = 0 ] && echo "uses: $count runs of recipes"
exit $failed
