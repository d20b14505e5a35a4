# shellcheck shell=bash
# Sourced by the benches.
# words NAME.. -- WORD.. : gives each variable NAME the value after its word `--NAME`
words() {
    local names=' ' name
    while [ "$1" != -- ]; do
        names+="$1 "
        shift
    done
    shift
    while (($# > 0)); do
        name=${1#--}
        [[ $1 == --* && $names == *" $name "* ]] || { echo "unknown word: $1"; exit 2; }
        (($# > 1)) || { echo "a word without its value: $1"; exit 2; }
        printf -v "$name" '%s' "$2"
        shift 2
    done
}
