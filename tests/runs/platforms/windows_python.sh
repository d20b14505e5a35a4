#!/usr/bin/env bash
# Looks at the Python package for Windows as far as no Python of Windows is needed, and compares with the program given first:
#
#     tests/runs/platforms/windows_python.sh PROGRAM [WHEEL]
#
# pip takes the wheel for Windows, and finds each file as its list has it. The extension module takes of python3.dll
# what the stable ABI has; under Wine it is loaded with a substitute for python3.dll, and tells its functions. Windows
# is told of a job's limits as its header lays them out. Without a WHEEL one is made, of what platform/build and
# platform/build-library write. What isn't installed here is left out, with a line. BUILT, of the environment, is a
# folder that both wrote, the program into its bin/.
. "$(dirname "$(dirname "$(realpath "$0")")")/start.sh"
part='platforms: the Python package for windows'
cross=x86_64-w64-mingw32-
needs "$part" wine wineserver "${cross}gcc" python3
export PYTHONDONTWRITEBYTECODE=1 WINEPREFIX=$room/wine WINEDEBUG=-all
trap 'wineserver -k || true; rm -rf "$room"' EXIT
wheel=${2:+$(realpath "$2")}
cd "$top"
. tools/builds.sh
headers=$(python_headers) || { echo "$part: left out, since Python.h isn't installed"; exit 0; }
python3 -m pip --version >/dev/null 2>&1 || { echo "$part: left out, since pip isn't installed"; exit 0; }

wine wineboot --init >"$room/said" 2>&1 || { cat "$room/said"; echo "FAILED: $part: Wine doesn't start"; exit 1; }

fail() {
    echo "FAILED: $part: $*"
    exit 1
}

if [ -z "$wheel" ]; then
    built=${BUILT:-$room/built}
    if [ -z "${BUILT:-}" ]; then
        { platform/build windows "$built/bin" && platform/build-library windows "$built"; } >"$room/said" 2>&1 ||
            { cat "$room/said"; fail "it isn't built"; }
    fi
    cp -r "$built/python" "$room/package"
    install -D "$built/bin/urlcheck.exe" "$room/package/bin/urlcheck.exe"
    (cd "$room/package" && python3 -c 'import sys, wheel_backend; wheel_backend.build_wheel(sys.argv[1])' "$room")
    wheel=$(ls "$room"/*.whl)
fi

# ---- the wheel

for version in 3.8 3.13; do
    python3 -m pip install --quiet --no-deps --no-index --only-binary=:all: --implementation cp --abi abi3 \
        --python-version $version --platform win_amd64 --target "$room/site.$version" "$wheel" 2>"$room/said" ||
        { cat "$room/said"; fail "pip doesn't take it for Python $version"; }
done
site=$room/site.3.8
python3 "$top/tests/runs/platforms/windows/wheel.py" "$wheel" || fail 'the wheel'
wine "$site/bin/urlcheck.exe" -V | cmp - <(echo "urlcheck $(cat VERSION)") || fail "the wheel's program"
"$program" check 'http://h/ ' >"$room/wanted" || true
{ wine "$site/bin/urlcheck.exe" check 'http://h/ ' || true; } | cmp "$room/wanted" - ||
    fail "the wheel's program says something else"

# ---- the extension module

module=$site/urlcheck/_native.pyd
needed=$("${cross}objdump" -p "$module" | sed -n 's/.*DLL Name: //p' | sort | xargs)
[ "$needed" = 'KERNEL32.dll msvcrt.dll python3.dll' ] || fail "the module needs $needed"
sed -n 's/^    \([A-Za-z_0-9]*\).*/\1/p' platform/python/python3.def | sort >"$room/listed"
"${cross}objdump" -p "$module" |
    awk '/DLL Name: / { inside = $3 == "python3.dll"; next } inside && NF == 3 { print $3 }' | sort |
    diff "$room/listed" - || fail 'the module takes other names of python3.dll than platform/python/python3.def has'

cp -r "$headers" "$room/headers"
cp platform/python/pyconfig.h "$room/headers/"
sed 's/.*/SUBSTITUTE(&)/' "$room/listed" | grep -v PyModuleDef_Init >"$room/substituted.h"
compiled() { "${cross}gcc" -std=c11 -O2 -Wall -Wextra -Werror -static -I "$room" -I "$room/headers" "$@"; }
compiled -shared tests/runs/platforms/windows/substitute.c -o "$room/python3.dll"
compiled tests/runs/platforms/windows/loads.c -o "$room/loads.exe"
echo urlcheck._native >"$room/functions"
sed -n 's/^def \([a-z_]*\)(.*/\1/p' bindings/python/urlcheck/_native.pyi | LC_ALL=C sort >>"$room/functions"

# functions_of MODULE : whether it is loaded, and has the functions that the package's types name
functions_of() { (cd "$room" && wine loads.exe "Z:$1") | tr -d '\r' | diff "$room/functions" -; }
functions_of "$module" || fail "the module has other functions than bindings/python/urlcheck/_native.pyi"
echo "$part: pip takes the wheel, its files are as listed, and the module is loaded with a substitute for Python"

# ---- the limits of a job

compiled tests/runs/platforms/windows/job_limits.c -o "$room/job_limits.exe"
for seconds in 0 1 60.5; do
    wine "$room/job_limits.exe" $seconds >"$room/wanted"
    python3 tests/runs/platforms/windows/job_limits.py $seconds | cmp "$room/wanted" - ||
        fail 'Windows lays out the limits of a job otherwise'
done
echo "$part: the limits of a job are laid out as Windows has them"

# ---- spoiled copies

# spoiled WHAT SED : the wheel with this edit of its list is found
spoiled() {
    rm -rf "$room/spoiled"
    python3 -m zipfile -e "$wheel" "$room/spoiled"
    sed -i "$2" "$room"/spoiled/*.dist-info/RECORD "$room"/spoiled/*.dist-info/WHEEL
    (cd "$room/spoiled" && python3 -m zipfile -c "$room/spoiled.whl" ./*)
    mv "$room/spoiled.whl" "$room/spoiled/$(basename "$wheel")"
    if python3 tests/runs/platforms/windows/wheel.py "$room/spoiled/$(basename "$wheel")" >"$room/said" 2>&1; then
        fail "$1 isn't found"
    fi
}
spoiled 'a checksum of another file' 's/\(_native.pyd,sha256=\)./\1-/'
spoiled 'a file that is not listed' '/_native.pyd/d'
spoiled 'a tag of another system' 's/^Tag: .*/Tag: cp38-abi3-win32/'
sed 's/check_arrow/check_arroz/g' "$module" >"$room/spoiled.pyd"
! cmp -s "$module" "$room/spoiled.pyd" || fail 'the edit of the module changes nothing'
if functions_of "$room/spoiled.pyd" >"$room/said"; then fail "a function of another name isn't found"; fi
if functions_of "$room/loads.exe" >"$room/said" 2>&1; then fail "a module that isn't loaded isn't found"; fi
echo "$part: spoiled copies are found"
