#!/usr/bin/env bash
# Builds the site of the pages. Each link in it leads somewhere, and it loads nothing from elsewhere. In a browser its pages
# fit a width of 320 pixels and one of 1,280, in light and dark, with enough contrast and without an error, and its search finds
# a page. Then it spoils a copy of the site in each of some ways, and sees that the check finds it. What isn't installed is
# left out, and a line says so. The first argument is the program. A word of the environment: PICTURES, a folder for pictures
# of the pages.
. "$(dirname "$(realpath "$0")")/start.sh"
needs site python3 mkdocs
export PYTHONDONTWRITEBYTECODE=1
failed=0
"$top/tools/build-site" "$room/site" >"$room/said" 2>&1 || { cat "$room/said"; exit 1; }
python3 "$top/tests/runs/site/site.py" links "$room/site" || failed=1
browser=
if command -v chromedriver >/dev/null && /usr/bin/python3 -c 'import selenium' 2>/dev/null; then
    browser=1
    /usr/bin/python3 "$top/tests/runs/site/site.py" browser "$room/site" ${PICTURES:+"$PICTURES"} || failed=1
else
    left_out site 'the browser' "chromium-driver or python3-selenium isn't installed"
fi

# spoiled WHAT SAID FILE SED [NAME] : in a copy where this edit changed a page the check says so, the check of the looks of the
# page NAME if it is given
count=0
spoiled() {
    local words=(python3 "$top/tests/runs/site/site.py" links "$room/copy")
    [ $# = 4 ] || words=(/usr/bin/python3 "$top/tests/runs/site/site.py" looks "$room/copy" "$5")
    count=$((count + 1))
    rm -rf "$room/copy"
    cp -r "$room/site" "$room/copy"
    sed -i "$4" "$room/copy/$3"
    ! cmp -s "$room/copy/$3" "$room/site/$3" || { echo "FAILED: $1: $3 stayed as it was"; failed=1; }
    if "${words[@]}" >"$room/said" || ! grep -q "^FAILED: .*$2" "$room/said"; then
        echo "FAILED: a site with $1: $(cat "$room/said")"
        failed=1
    fi
}
spoiled 'a link to nowhere' "which isn't there" index.html 's/"docs\/COMMANDS.html"/"docs\/COMMAND.html"/'
spoiled 'an anchor to nowhere' 'no such anchor' docs/GLOSSARY.html 's/id="words"/id="word"/'
spoiled 'a font from elsewhere' 'it loads https:' docs/ERRORS.html \
    's/<\/head>/<link rel="stylesheet" href="https:\/\/fonts.example\/a.css"><\/head>/'
spoiled 'a backslash in a table' 'a table shows' docs/rules/code-point.html 's/<td><code>file:\/\/\/C|/<td><code>file:\/\/\/C\\|/'
spoiled 'a name twice in its title' "says 'urlcheck' twice" index.html 's/<title>urlcheck</<title>urlcheck - urlcheck</'
if [ -n "$browser" ]; then
    spoiled 'pale links' 'dark: little contrast' site.css 's/--md-typeset-a-color: #4db6ac/--md-typeset-a-color: #00796b/' index
    spoiled 'a wide page' 'at 320 pixels, light: it is ' index.html 's/<body/<body style="min-width: 400px"/' index
fi
[ $failed = 0 ] && echo "site: each of $count spoiled copies was found"
exit $failed
