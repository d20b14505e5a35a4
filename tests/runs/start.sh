# What the runs over things that may not be installed start with: the program given as the first argument, the top of
# the repository, and a folder that is removed at the end.
set -euo pipefail
program=$(realpath "$1")
top=$(realpath "$(dirname "${BASH_SOURCE[0]}")/../..")
room=$(mktemp -d)
trap 'rm -rf "$room"' EXIT

# fail WORD.. : ends the run, and says why
fail() {
    echo "FAILED: $*"
    exit 1
}

# quietly COMMAND.. : what it says is shown only if it fails
quietly() {
    "$@" >"$room/said" 2>&1 || { cat "$room/said"; fail "$*"; }
}

# left_out PART WHAT WHY : says that something isn't tried, by a line that the gate counts
left_out() {
    echo "$1: ${2:+$2 }left out, since $3"
}

# needs PART TOOL.. : ends the run where a tool isn't installed, with a line that says so
needs() {
    local part=$1 tool
    shift
    for tool in "$@"; do
        command -v "$tool" >/dev/null || { left_out "$part" '' "$tool isn't installed"; exit 0; }
    done
}

# with_library : the folder `library`, which tools/build-library wrote: LIBRARY, if the environment has it, otherwise
# one that is built now
with_library() {
    library=${LIBRARY:-$room/installed}
    [ -n "${LIBRARY:-}" ] || quietly "$top/tools/build-library" "$library"
    library=$(realpath "$library")
}

# unittests PYTHON FILE WORD.. : runs the tests of a file in Python, only `Class.test_name` if there are such words, and sees that
# so many ran. What they say is left in said, and shown where one fails.
unittests() {
    local word wanted=0 ran
    "$@" >"$room/said" 2>&1 || { cat "$room/said"; fail "$2"; }
    ran=$(sed -n 's/^Ran \([0-9]*\) tests\{0,1\} in .*/\1/p' "$room/said")
    for word in "${@:3}"; do
        case $word in *.test_*) wanted=$((wanted + 1)) ;; esac
    done
    [ $wanted != 0 ] || wanted=$(grep -cE '^ +(async )?def test_' "$2")
    [ "${ran:-0}" -ge "$wanted" ] || fail "$2: ${ran:-0} tests ran, and not $wanted"
}
