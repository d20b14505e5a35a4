#!/usr/bin/env bash
# What calls from JavaScript cost, compared with the engine's own URL, under Node, the least of 15 rounds in one run. Compared with what
# URL.canParse takes for a link of 70 code points isValid takes at most 1.2 times, check 1.4 times and a line of
# checkMany 0.7 times; resolve takes at most 2 times what new URL does. Against a base a check takes at most 1.4 times as
# long as canParse, and its text as a base at most 1.1 times what one that was checked before takes. LINKS is a file of
# other links, one per line. It needs python3 and node, and builds the module unless a folder is given.
# Usage: bench/browser.sh [FOLDER [ROUNDS]]
set -euo pipefail
top=$(dirname "$(dirname "$(realpath "$0")")")
for tool in node python3; do
    command -v "$tool" >/dev/null || { echo "browser: $tool is missing"; exit 2; }
done
room=$(mktemp -d)
trap 'rm -rf "$room"' EXIT
folder=${1:-}
[ -n "$folder" ] || { folder=$room/page && "$top/tools/build-page" "$folder" >&2; }
if [ -n "${LINKS:-}" ]; then cp "$LINKS" "$room/links"
else python3 "$top/bench/links.py" 40000 1 2>/dev/null | awk 'length($0) == 70' >"$room/links"; fi
[ -s "$room/links" ] || { echo 'browser: no links'; exit 2; }
node "$top/bench/browser.mjs" "$folder" "${2:-15}" <"$room/links"
