# Sourced first by a script with a comment at its head, whose first line is how the script is called, up to a colon.
set -euo pipefail
shopt -s inherit_errexit

# takes LEAST MOST WORD.. : prints the comment where the words begin with --help or -h, and ends with how the script is called where there
# are other words than it takes, or an option
takes() {
    case ${3:-} in
        -h | --help) sed -n '2,/^[^#]/s/^# \{0,1\}//p' "$0"; exit 0 ;;
        -*) ;;
        *) if [ $(($# - 2)) -ge "$1" ] && [ $(($# - 2)) -le "$2" ]; then return; fi ;;
    esac
    sed -n '2s/^# \([^:]*\).*/usage: \1/p' "$0" >&2
    exit 2
}
