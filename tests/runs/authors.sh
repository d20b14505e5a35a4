#!/usr/bin/env bash
# Where authors write, over the library: the server for editors by a client of its own and by real ones, and builds of Sphinx
# and MkDocs. What isn't installed is left out, and a line says so. LIBRARY may name a folder that tools/build-library wrote. The
# first argument is the program.
. "$(dirname "$(realpath "$0")")/start.sh"
cd "$top"
needs authors python3
with_library
export PYTHONPATH=$library/python PYTHONDONTWRITEBYTECODE=1 TERM=xterm
failed=0 left=0

# lacks WHAT WHY : what isn't tried
lacks() {
    left=$((left + 1))
    left_out authors "$1" "$2"
}

# wrong WHAT : what went wrong, with what was said
wrong() {
    echo "FAILED: $1: $(cat "$room/said")"
    failed=1
}

# python_with MODULE.. : a Python that has these modules
python_with() {
    local python
    for python in python3 /usr/bin/python3; do
        "$python" -c 'import importlib.util, sys; sys.exit(not all(map(importlib.util.find_spec, sys.argv[1:])))' "$@" \
            2>/dev/null && { echo "$python"; return; }
    done
    return 1
}

# tested PYTHON FILE : the tests of a file, whose count is said
tested() {
    (unittests "$1" "tests/runs/authors/$2") || { failed=1; return; }
    echo "authors: $2: $(sed -n 's/^Ran \([0-9]* tests\) .*/\1/p' "$room/said")$(sed -n 's/^OK \((skipped=.*)\)$/ \1/p' "$room/said")"
}

# ---- the server

if python=$(python_with pylsp_jsonrpc markdown_it docutils tinycss2); then
    tested "$python" server.py
    tested "$python" documents.py
    "$python" tests/runs/authors/pieces.py || failed=1
    "$python" tests/runs/authors/expectations.py || failed=1
    [ ! -e "/proc/$$/task/$$/children" ] || "$python" tests/runs/authors/latency.py || failed=1
    mkdir "$room/bin"
    printf '#!/bin/sh\nexec "%s" -m urlcheck.language_server "$@"\n' "$(command -v "$python")" >"$room/bin/urlcheck-language-server"
    chmod +x "$room/bin/urlcheck-language-server"
    PATH=$room/bin:$PATH
    # A document of each kind, with one link that is wrong, after code points of one and of two units of UTF-16.
    mkdir "$room/pages"
    cd "$room/pages"
    printf '# \360\237\230\200\n\n\360\237\230\200 [x](http://h/a^b) ok\n' >page.md
    printf '<!doctype html>\n<title>x</title>\n<p>\303\251\360\237\230\200 <a href="http://h/a^b">x</a>\n' >page.html
    printf 'http://h/\nhttp://h/\303\274 b\n' >page.links
    printf '<?xml version="1.0"?>\n<rss><channel>\n<link>http://h/\303\251^b</link>\n</channel></rss>\n' >page.xml
    printf 'Title\n=====\n\n\303\251 `x <http://h/a^b>`__\n' >page.rst
    # The recipes are the page's.
    python3 "$top/tests/runs/authors/recipes.py" vim 'ale#linter' >"$room/recipe.vim"
    python3 "$top/tests/runs/authors/recipes.py" lua start_client >"$room/recipe.lua"
    python3 "$top/tests/runs/authors/recipes.py" elisp eglot >"$room/recipe.el"
    export RECIPE=$room/recipe.vim RECIPE_LUA=$room/recipe.lua RECIPE_EL=$room/recipe.el

    # saw EDITOR FILE PLACE MENDED : the last run of an editor saw the diagnostic at its place, and mended it
    saw() {
        local wanted
        for wanted in '^one diagnostic: \(true\|t\|1\)$' "^at line $3" "line: .*$4" '^none left: \(true\|t\|1\)$'; do
            grep -q "$wanted" "$room/said" || { wrong "$1 on $2 has no '$wanted'"; return; }
        done
        if grep -q '^\(hover\|one that is typed\|one server\): \(false\|nil\)' "$room/said"; then wrong "$1 on $2"; fi
        # (the recipe of Neovim names no lists, and Emacs has no mode of Markdown without a package)
        case $1-$2 in *.links | Emacs-page.md | ALE-*) return ;; esac
        grep -q '^by the recipe: \(true\|t\)$' "$room/said" || wrong "$1 on $2 isn't started by the page's recipe"
    }

    tried=0
    while IFS='|' read -r file place text mended; do
        if command -v nvim >/dev/null; then
            cp "$file" "nvim.$file"
            timeout 120 nvim --headless -u NONE -i NONE -c "luafile $top/tests/runs/authors/nvim.lua" "nvim.$file" >"$room/said" 2>&1 || true
            saw Neovim "$file" "$place \[code-point\]" "$mended"
            tried=$((tried + 1))
        fi
        if emacs --batch --eval '(progn (package-initialize) (require (quote eglot)))' >/dev/null 2>&1; then
            cp "$file" "eglot.$file"
            timeout 120 emacs --batch -l "$top/tests/runs/authors/eglot.el" "eglot.$file" >"$room/said" 2>&1 || true
            saw Emacs "$file" "${place%% *}: $text" "$mended"
            tried=$((tried + 1))
        fi
        if [ -d "${ALE:-/usr/share/vim-ale}" ] && command -v vim >/dev/null && command -v script >/dev/null; then
            case $file in page.xml | page.rst) continue ;; esac
            cp "$file" "ale.$file"
            rm -f "$room/said"
            SAID=$room/said timeout 120 \
                script -qec "vim -Nu $top/tests/runs/authors/ale.vim ale.$file" /dev/null </dev/null \
                >"$room/screen" 2>&1 || true
            touch "$room/said"
            saw ALE "$file" "$place" "$mended"
            tried=$((tried + 1))
        fi
    done <<'END'
page.md|3 byte 20|^b|http://h/a%5Eb)
page.html|3 byte 30|^b|http://h/a%5Eb">x
page.links|2 byte 12| b|%20b
page.xml|3 byte 18|^b|%5Eb</link>
page.rst|4 byte 18|^b|http://h/a%5Eb>`__
END
    cd "$top"
    command -v nvim >/dev/null || lacks Neovim "nvim isn't installed"
    emacs --batch --eval '(progn (package-initialize) (require (quote eglot)))' >/dev/null 2>&1 ||
        lacks Emacs "emacs or eglot isn't installed"
    [ -d "${ALE:-/usr/share/vim-ale}" ] && command -v vim script >/dev/null || lacks ALE "vim, vim-ale or script isn't installed"
    echo "authors: $tried runs of editors"
else
    lacks 'the server' "python-lsp-jsonrpc, markdown-it-py, docutils or tinycss2 isn't installed"
fi

# ---- builds

"$(command -v python3)" -B - "$library/python" "$room/about" <<'END'
import os, sys
os.chdir(sys.argv[1])
sys.path.insert(0, ".")
import wheel_backend
wheel_backend.write_about(sys.argv[2])
END
export PYTHONPATH=$PYTHONPATH:$room/about
if python=$(python_with sphinx) || python=$(python_with mkdocs); then
    tested "$python" builds.py
else
    lacks 'builds of Sphinx and MkDocs' "neither is installed"
fi
python=$(python_with pylsp_jsonrpc markdown_it docutils tinycss2 sphinx mkdocs) || python=$(python_with markdown_it) || python=python3
"$python" tests/runs/authors/spoiled.py || failed=1
# Faults planted into documentation in reStructuredText, as Debian has it.
documentations=()
for folder in /usr/share/doc/docutils-doc/docs /usr/share/doc/python3*-doc/html/_sources; do
    [ -d "$folder" ] || continue
    # (Debian has Python's under two names)
    folder=$(realpath "$folder")
    case " ${documentations[*]} " in *" $folder "*) continue ;; esac
    documentations+=("$folder")
done
if [ ${#documentations[@]} -gt 0 ] && python=$(python_with docutils); then
    for folder in "${documentations[@]}"; do
        case $folder in */_sources) kind=--sphinx ;; *) kind=--alone ;; esac
        "$python" tests/runs/authors/planted.py "$kind" "$folder" || failed=1
    done
else
    lacks 'faults planted into documentation' "docutils, docutils-doc or python3-doc isn't installed"
fi
# The action for GitHub, whose program of Python makes an environment.
if command -v curl >/dev/null && python=$(python_with yaml venv ensurepip); then
    "$python" tests/runs/authors/action.py "$library/python" || failed=1
else
    lacks 'the action for GitHub' "curl, or Python's yaml or venv, isn't installed"
fi
# The commands of the guides on documents, by a Python that has most of what they name.
python=$(python_with sphinx mkdocs) || python=$(python_with sphinx) || python=python3
"$python" tests/runs/authors/pages.py "$program" || failed=1
if python=$(python_with feedparser); then
    "$python" tests/runs/authors/feeds.py || failed=1
else
    lacks 'feeds against feedparser' "feedparser isn't installed"
fi
echo "authors: $left parts left out"
exit $failed
