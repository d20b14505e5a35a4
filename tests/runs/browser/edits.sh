#!/usr/bin/env bash
# edits.sh FOLDER CASES PROGRAM [MODULE]: spoils a copy of what tools/build-page has made in each of these ways, and
# sees that the runs find it. MODULE is the object of the proved code that tools/build-page keeps; with it the glue is
# spoiled too, and compiled again.
set -euo pipefail
folder=$(realpath "$1") cases=$(realpath "$2") program=$(realpath "$3") module=${4:-}
here=$(dirname "$(realpath "$0")")
top=$(realpath "$here/../../..")
room=$(mktemp -d)
trap 'rm -rf "$room"' EXIT
failed=0
count=0

# edited WHAT FILE SED : this edit of a file changes it
edited() {
    cp "$2" "$room/before"
    sed -i "$3" "$2"
    if cmp -s "$2" "$room/before"; then
        echo "FAILED: $1: the edit changes nothing"
        failed=1
        return 1
    fi
}

# found WHAT COMMAND.. : the command fails, and says why
found() {
    local what=$1
    shift
    count=$((count + 1))
    if "$@" >"$room/said" 2>&1 || ! grep -q 'FAILED' "$room/said"; then
        echo "FAILED: $what isn't found: $(tail -n 3 "$room/said")"
        failed=1
    fi
}

# run WHAT RUN : the run of this name fails on the copy
run() {
    case $2 in
        vectors) found "$1" node "$here/vectors.mjs" "$room/copy" "$cases" ;;
        calls) found "$1" node "$here/calls.mjs" "$room/copy" ;;
        reports) found "$1" node "$here/reports.mjs" "$room/copy" "$cases" "$program" ;;
    esac
}

# script WHAT RUN FILE SED : with this edit of a script of the package the run fails
script() {
    rm -rf "$room/copy"
    cp -r "$folder" "$room/copy"
    edited "$1" "$room/copy/$3" "$4" || return 0
    run "$1" "$2"
}

node "$here/vectors.mjs" "$folder" "$cases" >"$room/said" && node "$here/calls.mjs" "$folder" >>"$room/said" ||
    { cat "$room/said"; echo 'FAILED: the runs fail on what is not spoiled'; exit 1; }

script 'a wrong place of the byte place' vectors layout.js 's/^export const BYTE_PLACE = 3$/export const BYTE_PLACE = 2/'
script 'a wrong place of the place' vectors layout.js 's/^export const PLACE = 2$/export const PLACE = 3/'
script 'a wrong place of an end' vectors layout.js 's/^export const HOST_END = 6$/export const HOST_END = 5/'
script 'a wrong place of the start of a path' vectors layout.js 's/^export const PATH_START = 8$/export const PATH_START = 7/'
script 'a wrong place of the kind of a host' vectors layout.js 's/^export const HOST_KIND = 12$/export const HOST_KIND = 13/'
script 'a wrong offset of a fault' vectors layout.js \
    's/^export const FAULT_BYTE_PLACE = 4$/export const FAULT_BYTE_PLACE = 2/'
script 'a wrong size of a fault' vectors layout.js 's/^export const FAULT_WORDS = 6$/export const FAULT_WORDS = 4/'
script 'a base that is held and ignored by check' vectors urlcheck.js '/room.check(/s/this.#hold(base, profile)/0/'
script 'a base that is held and ignored by faults' vectors urlcheck.js '/exports.faults(/s/this.#hold(base, profile)/0/'
script 'a base that is ignored by resolve' vectors urlcheck.js '/room.resolve(/s/room.putBase(base)/-1/'
script 'a base that is ignored by mend' vectors urlcheck.js '/exports.mend(/s/room.putBase(base)/-1/'
script 'a base that stays held where another is given' calls memory.js \
    's/if (base === this.heldText \&\& /if (this.heldText \&\& /'
script 'a base that stays held by another profile' vectors memory.js 's/ \&\& profile === this.heldProfile) return true/) return true/'
script 'a base that stays in its room where another is given' vectors memory.js 's/^    if (base !== this.baseText) {$/    if (!this.baseText) {/'
script 'a name of a file taken for the base' calls memory.js "/this.base.set(part, at)/,/^  }/s/this.baseText = undefined/this.baseText += ''/"
script 'a base that is checked by another profile' calls options.js 's/=== undefined || profile === number/!== null/'
script 'a refused base that is held' calls urlcheck.js 's/if (!this.#room.hold(base, profile)) this.#isRefused(base)/this.#room.hold(base, profile)/'
script 'no memory taken for a refusal' calls urlcheck.js 's/if (verdict === MEMORY) room.stopForMemory()/if (verdict === MEMORY) return true/'
script 'a wrong place of the length of a text' vectors layout.js 's/^export const LENGTH = 4$/export const LENGTH = 3/'
script 'a mended text of the next kind' vectors urlcheck.js 's/MEND_KINDS\[answer\[MEND_KIND\] - 1\]/MEND_KINDS[answer[MEND_KIND]]/'
script 'a URL taken for the text' vectors urlcheck.js 's/answer\[IS_SAME\] === 1 ? text/answer[IS_SAME] < 2 ? text/'
script 'a mended text without its first code point' vectors memory.js 's/, { ignoreBOM: true }//'
script 'a rule with the next number' vectors urlcheck.js 's/this.rules\[answer\[RULE\] - 1\]/this.rules[answer[RULE]]/'
script 'the wide profile read as the standard one' vectors options.js "/=== 'wide'/s/return 1/return 0/"
script "the parser's profile read as the wide one" vectors options.js "/=== 'parser'/s/return 2/return 1/"
script 'units counted as bytes' vectors urlcheck.js 's/length === text.length/true/'
script 'a lone surrogate let through' calls memory.js 's/^    if (written !== text.length) stopAt/    if (written < 0) stopAt/'
script 'a room that is too small' calls memory.js 's/^const SMALL_ROOM = 3 \* SHORT$/const SMALL_ROOM = SHORT/'
script 'a memory that is seen as it was' calls memory.js \
    's/if (this.answer.length !== 0) return$/if (this.answer.length !== 0 || this.heldText) return/'
script 'a base that is taken for the empty one' calls memory.js 's/^    this.baseText = undefined$/    this.baseText = ""/'
script 'an option that is passed over' calls options.js '/there is no option/d'
script 'large rooms kept after out of memory' calls memory.js 's/^    if (this.textRoom > SMALL_ROOM || .*$//'
script 'a profile of any name' calls options.js 's/^  throw new TypeError("the profile.*$/  return 0/'
script 'lines against a base that is ignored' calls lines.js 's/from, profile, isHeld)/from, profile, 0)/'
script 'lines numbered from each piece on' calls lines.js 's/line: many.lines + words/line: words/'
script 'lines that stand where they do in their piece' calls lines.js 's/const from = start + words/const from = words/'
script 'the lines after the rows of a call left out' calls lines.js '/^    for (let from = 0/s/from = room.answer\[NEXT_LINE\]/from = end/'
script 'a piece that ends within a line' calls lines.js 's/return last + 1$/return last + 2/'
script 'empty lines counted as checked' calls lines.js 's/ - answer\[EMPTY_LINES\]//'
script 'a wrong offset of a place of a line' calls layout.js 's/^export const ROW_PLACE = 5$/export const ROW_PLACE = 6/'
script 'a place after the end let through' calls memory.js '/=== NO_PLACE/d'
script 'a line of a report that is any number' calls reports.js "s/wholeNumber(line, 'line', 1)/line || 1/"
script 'each diagnostic taken for the first' calls reports.js 's/^    this.#isFirst = false$//'
script 'a mended text that is left out' reports reports.js "s/mended?.text ?? ''/''/"
script 'two ends of a report that are swapped' calls reports.js "s/'whole', 'unread', 'stopped'\]/'whole', 'stopped', 'unread']/"
script 'a sentence by another profile' reports urlcheck.js 's/exports.message(length, profile,/exports.message(length, 0,/'
script 'a report by another profile' reports reports.js 's/message(length, by.profile,/message(length, 0,/'
script 'a report against no base' reports reports.js 's/by.profile, isHeld,/by.profile, 0,/'
script 'a report in another unit' reports reports.js 's/exports.diagnostic(this.#format, this.#unit/exports.diagnostic(this.#format, 0/'
script 'a mended text that is offered by none' reports reports.js 's/mended?.isOffered ? 1 : 0/0/'
script 'a sentence of other words' calls urlcheck.js 's/this.#hold(base, profile), wording,/this.#hold(base, profile), 0,/'
script 'a sentence against no base' calls urlcheck.js 's/message(length, profile, this.#hold(base, profile),/message(length, profile, 0,/'
script 'a report of other words' calls reports.js 's/isHeld, this.#wording,/isHeld, 0,/'
script 'each mended text taken for one to write' calls urlcheck.js 's/answer\[IS_OFFERED\] === 1/true/'
script 'a mended text of another kind' reports reports.js 's/this.#numbers.ofKind(mended.kind)/3/'

# Only the heap: with this edit of it its test fails.
heap() {
    rm -rf "$room/module"
    cp -r "$top/bindings/web/module" "$room/module"
    edited "$1" "$room/module/heap.c" "$2" || return 0
    cc -std=c11 -g -fsanitize=address,undefined -fno-sanitize-recover=all -I "$room/module" "$room/module/heap.c" \
        "$here/heap.c" -o "$room/heap"
    found "$1" "$room/heap"
}

if command -v cc >/dev/null; then
    heap 'a heap that is not emptied' '/^void heap_empty(/s/top = last = bottom/last = bottom/'
    heap 'a refused growth taken for one' 's/return end <= memory_end();/return true;/'
    heap 'an address that is too high' 's/start <= LIMIT \&\& size <= LIMIT - start/start + size <= LIMIT/'
    heap 'blocks that are given up and stay' 's/{ top = last = mark; }/{ last = mark; }/'
    heap 'a block that is not aligned' 's/uint64_t start = aligned(top, alignment);/uint64_t start = top;/'
    heap 'a block that moves without its bytes' 's/at < kept; at++/at < kept \&\& 0; at++/'
else
    echo "browser: the edits of the heap alone are left out, since cc isn't installed"
fi

# glue WHAT RUN FILE SED : with this edit of the glue, compiled again, the run fails
glue() {
    rm -rf "$room/module" "$room/copy"
    cp -r "$top/bindings/web/module" "$room/module"
    cp -r "$folder" "$room/copy"
    edited "$1" "$room/module/$3" "$4" || return 0
    "$room/module/compile" "$(dirname "$(rt doc)")" "$module" "$room/copy/urlcheck.wasm" "$top/bindings/c/include" \
        "$top/platform"
    run "$1" "$2"
}

if [ -n "$module" ]; then
    glue 'a heap of the module that is not emptied' calls heap.c \
        '/^void heap_empty(/s/top = last = bottom/if (!top) top = last = bottom/'
    glue 'a base that the glue holds and ignores' vectors glue.c '/proved_check(&/s/is_held/0/'
    glue 'an end without its start' vectors glue.c 's/(part->start + part->length)/(part->length)/'
    glue 'a URL that is said to be the text' vectors glue.c 's/record.length == length \&\& are_same/1 || are_same/'
    glue 'a long text that is not written' calls glue.h 's/^        if ((needed) <= room) break; /        if ((needed) <= 9 * room) break; /'
    glue 'rows of lines that a line writes over' calls lines.c 's/uint64_t mark = heap_mark();/uint64_t mark = 0;/'
    glue 'a line of its own for a CR' calls lines.c "s/lines\[end - 1\] == '.r'/0/"
    glue 'a column of the text for that of its place' reports reports.c 's/column_of(length, unit, column, place)/column/'
    glue 'a growth that is refused and not seen' calls heap.c 's/return end <= memory_end();/return true;/'
else
    echo 'browser: the edits of the glue are left out, since no module was given'
fi

[ $failed = 0 ] && echo "browser: each of $count edits was found"
exit $failed
