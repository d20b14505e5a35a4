#!/usr/bin/env bash
# Runs the checker for JavaScript, and the page, over every file of vectors, and compares with the program given as the
# first argument; then what callers see, types, out of memory, and the page in each browser that is installed; and it
# sees that spoiled copies are found. What isn't installed is left out, and a line says so. A folder that
# tools/build-page has made may be given second; otherwise one is made. Words of the environment: QUICK leaves out the
# browsers and the spoiled copies, GLUE compiles and tries copies with a spoiled glue too, BROWSERS names those for the
# page (chromium, firefox and webkit, otherwise only the first), ALL tries all in each of them (else all tests in Chromium,
# a sample in the others, and some of the spoiled copies), and PICTURE is a file for the picture of the page.
. "$(dirname "$(realpath "$0")")/start.sh"
here=$top/tests/runs/browser
needs browser node python3 wasm-opt
[ "$(node -p 'process.versions.node.split(".")[0] >= 18')" = true ] ||
    { left_out browser '' 'node is older than 18'; exit 0; }
folder=${2:-$room/page}
if [ $# -lt 2 ]; then
    KEEP=$room/proved.o "$top/tools/build-page" "$folder" >"$room/built" 2>&1 ||
        { cat "$room/built"; exit 1; }
fi

# The heap of the module, on a memory that refuses to grow.
if command -v cc >/dev/null; then
    sanitized=(-fsanitize=address,undefined -fno-sanitize-recover=all)
    cc -std=c11 -Wall -Wextra -Werror -g "${sanitized[@]}" -I "$top/bindings/web/module" \
        "$top/bindings/web/module/heap.c" "$here/heap.c" -o "$room/heap"
    "$room/heap"
else
    left_out browser 'the heap alone' "cc isn't installed"
fi

python3 "$here/answers.py" "$program" "$room/cases.json" "$top"/tests/vectors/*.json
node "$here/vectors.mjs" "$folder" "$room/cases.json"
node "$here/calls.mjs" "$folder"
node "$here/reports.mjs" "$folder" "$room/cases.json" "$program"
"$top/tools/write-attributes" --check

# block_of PAGE NUMBER : the program of a page with this number
block_of() { awk -v number="$2" '/^```js$/ { inside = ++seen == number; next } /^```$/ { inside = 0 } inside' "$1"; }

# example PAGE FOLDER : the first program of a page, as it is written there, prints in the folder what the page says
example() {
    local name=${1#"$top/"}
    block_of "$1" 1 >"$2/example.mjs"
    awk '/^```js$/ { found = 1 } found && /^```$/ { fences++; next } fences == 2' "$1" >"$room/wanted"
    [ -s "$room/wanted" ] || { echo "FAILED: $name has no example"; exit 1; }
    node "$2/example.mjs" >"$room/said" || { cat "$room/said"; exit 1; }
    diff "$room/wanted" "$room/said" || { echo "FAILED: the example of $name prints something else"; exit 1; }
    echo "browser: the example of $name"
}
cp -r "$folder" "$room/example"
example "$top/docs/JAVASCRIPT.md" "$room/example"

# What a release hands out: the package, which npm installs and would make of the same files, and the page.
"$top/release/pack-page" "$folder" "$room/packed"
package=$(cd "$room/packed" && ls "$PWD"/urlcheck-[0-9]*.tgz)
mkdir -p "$room/user/node_modules/urlcheck"
if command -v npm >/dev/null; then
    (cd "$room/user" && npm install --offline --no-audit --no-fund "$package") >"$room/said" 2>&1 ||
        { cat "$room/said"; exit 1; }
    (cd "$folder" && npm pack --dry-run --json 2>/dev/null) |
        node -p 'JSON.parse(fs.readFileSync(0))[0].files.map(it => `package/${it.path}`).sort().join("\n")' >"$room/wanted"
    tar -tzf "$package" | grep -v '/$' | sort | diff "$room/wanted" - ||
        { echo 'FAILED: npm makes the package of other files'; exit 1; }
else
    left_out browser npm "it isn't installed"
    tar -C "$room/user/node_modules/urlcheck" --strip-components=1 -xzf "$package"
fi
example "$top/bindings/web/README.md" "$room/user"
guide=$top/docs/guides/javascript.md
example "$guide" "$room/user"
tar -C "$room" -xzf "$room"/packed/urlcheck-page-*.tar.gz
diff -r --exclude='program.*' "$folder" "$room"/urlcheck-page-* || { echo 'FAILED: the page is packed otherwise than it was built'; exit 1; }

# The guide's lines for a bundle, of a program that sets the title of its page.
cat >"$room/user/app.js" <<'END'
import { load } from 'urlcheck'
const urlcheck = await load()
document.title = urlcheck.check('https://example.com/a b').rule
END
mkdir "$room/user/site"
echo '<!doctype html><script type="module" src="app.js"></script>' >"$room/user/site/index.html"
if command -v esbuild >/dev/null; then
    awk '/^## In a bundle/ { on = 1 } on && /^```sh$/ { inside = 1; next } inside && /^```$/ { exit } inside' "$guide" >"$room/lines"
    (cd "$room/user" && sh -e "$room/lines") >"$room/said" 2>&1 || { cat "$room/said"; exit 1; }
else
    left_out browser 'the bundle' "esbuild isn't installed"
fi

# A bundle by rollup, which leaves addresses of files as they are written.
if command -v rollup >/dev/null; then
    mkdir -p "$room/user/rolled"
    sed "s|'urlcheck'|'./node_modules/urlcheck/urlcheck.js'|" "$room/user/app.js" >"$room/user/rolled.js"
    cp "$room/user/site/index.html" "$room/user/node_modules/urlcheck/urlcheck.wasm" "$room/user/rolled/"
    (cd "$room/user" && quietly rollup rolled.js --format es --external node:fs/promises --file rolled/app.js)
else
    left_out browser 'the bundle by rollup' "it isn't installed"
fi

if command -v tsc >/dev/null; then
    mkdir "$room/types"
    cp "$folder"/*.js "$folder/urlcheck.d.ts" "$here/types.ts" "$here/node.d.ts" "$room/types/"
    cp "$folder/urlcheck.js" "$room/types/written.js"
    tsc --strict --noEmit --target es2022 --module es2022 --moduleResolution node --lib es2022,dom --allowJs --checkJs \
        "$room/types/types.ts" "$room/types/node.d.ts"
    echo 'browser: the types are those of urlcheck.js'
else
    left_out browser 'the types' "tsc isn't installed"
fi

if [ -n "${QUICK:-}" ]; then
    left_out browser 'the browsers and the spoiled copies' 'QUICK is set'
    exit 0
fi
module=''
if [ -n "${GLUE:-}" ] && [ -e "$room/proved.o" ]; then module=$room/proved.o; fi
bash "$here/edits.sh" "$folder" "$room/cases.json" "$program" "$module"

# The page in each browser that is asked for and installed, and spoiled copies of it.
python=''
for it in python3 /usr/bin/python3; do
    if "$it" -c 'import selenium' 2>/dev/null; then python=$it; fi
done
if [ -z "$python" ]; then
    left_out browser 'the page' "python3-selenium isn't installed"
    exit 0
fi
export PYTHONDONTWRITEBYTECODE=1
if command -v mypy >/dev/null; then
    (cd "$here" && mypy --strict --cache-dir "$room/mypy" --python-executable "$(command -v "$python")" ./*.py) \
        >"$room/said" 2>&1 || { cat "$room/said"; echo 'FAILED: the types of the tests of the page'; exit 1; }
else
    left_out browser 'the types of the tests' "mypy isn't installed"
fi
if [ -f "$room/user/site/app.js" ] || [ -f "$room/user/rolled/app.js" ]; then
    for bundle in site rolled; do
        [ ! -f "$room/user/$bundle/app.js" ] || [ "$("$python" "$here/bundle.py" "$room/user/$bundle")" = code-point ] ||
            fail "a bundle of the package: $bundle"
    done
    echo 'browser: bundles by esbuild and rollup, in Chromium'
fi
cp -r "$folder" "$room/limited"
node "$here/limited.mjs" "$folder/urlcheck.wasm" 4 "$room/limited/urlcheck.wasm"
BROWSERS=${BROWSERS:-chromium} "$python" "$here/each_browser.py" "$folder" "$room/limited" "$room/cases.json" "$program"
[ -z "${PICTURE:-}" ] || "$python" "$here/picture.py" "$folder" "$PICTURE"
case " ${BROWSERS:-chromium} " in
    *' chromium '*) (cd "$top" && "$python" "$here/picture.py" "$folder" docs/page.png --check) ;;
esac
