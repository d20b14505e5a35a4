#!/usr/bin/env bash
# What a call from C costs, compared with Ada's can_parse: the kinds of bench/kinds whose call is from_c, by bench/verdicts.sh, which
# takes the same words and fails when it says so. A call of `urlcheck_check` checks a text alone, against a base that both
# sides keep, or against one that is prepared from its text for that call. It also sees that the bytes are UTF-8, and lays
# out the places of the parts. LIBRARY may name a folder that tools/build-library wrote.
# Usage: bench/library.sh [--ada FOLDER] [--by instructions|time] [--rounds ROUNDS] [--count COUNT] [--seed SEED]
set -euo pipefail
top=$(dirname "$(dirname "$(realpath "$0")")")
room=$(mktemp -d)
trap 'rm -rf "$room"' EXIT
if [ -z "${LIBRARY:-}" ]; then
    "$top/tools/build-library" "$room/library" >&2
    export LIBRARY=$room/library
fi
failed=0 measured=0
while read -r kind _ call _; do
    [ "$call" = from_c ] || continue
    bash "$top/bench/verdicts.sh" "$@" --kind "$kind" </dev/null || failed=1
    measured=$((measured + 1))
done < <(grep -v '^#' "$top/bench/kinds")
((measured > 0)) || { echo 'FAILED: bench/kinds has no call from C'; exit 1; }
exit $failed
