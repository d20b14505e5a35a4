#!/usr/bin/env python3
"""bench/mended.py PROGRAM [COUNT]: texts made by mutation, and what `mend` writes in their place.

Each answer is compared with `check`: a mended text is accepted, and `valid` is answered exactly for an accepted text. If
Node is installed, its URL parser reads each text and its mended one. Those that are called `same` and that it reads as
two URLs are counted, with those among them that differ only in the escapes of `^`, which older versions keep in a path.
"""

import json
import random
import shutil
import subprocess
import sys
from collections import Counter
from concurrent.futures import ThreadPoolExecutor

TEXTS = [
    "http://example.com/a/b?x=1#f", "https://EXAMPLE.com:443/a/../b?x=y", "file:///C:/x/y", "file://host/share/a",
    "ftp://h/a;b", "ws://h:80/c?d", "mailto:user@example.com", "urn:isbn:0451450523", "foo://u:80/a/b?c#d",
    "http://[::1]:8080/", "http://192.168.0.1/x", "//h/a/b", "../x?y", "/a/b#c", "?q", "#f",
    "http://xn--bcher-kva.example/", "https://h/a%20b?c%2Fd",
]
BASES = [None, None, None, "http://example.com/a/b?q", "file:///C:/d/f", "mailto:a", "foo://h/a/b"]
PIECES = [*" \t\n\\|^`{}<>\"%#?/:@[]", "\u00e9", "\u0080", "\ufdd0", "\u00a0", "\u0663", "%zz", "%2", "//", "\\\\", "..",
          "/./", "C:", "C|", "127.0.01", "0x7f.1", "\uff11.2.3.4", "a%2Db", "%00", "\x01", "\x7f", "::", "u:p@", "&",
          "\u00df", "--"]
NODE = """const rows = JSON.parse(require('fs').readFileSync(0));
const read = (text, base) => { try { return new URL(text, base ?? undefined).href } catch { return null } };
const two = rows.filter(([text, base, mended]) => read(text, base) === null || read(text, base) !== read(mended, base));
const caret = (text) => text?.replaceAll('^', '%5E');
const alone = two.filter(([text, base, mended]) => caret(read(text, base)) === caret(read(mended, base)));
console.log(`node: ${rows.length} same, ${two.length} read as two URLs, ${alone.length} of them by ^ alone`);
"""


def mutated(text):
    """The text after one to four changes."""
    points = list(text)
    for _ in range(random.randint(1, 4)):
        place = random.randint(0, len(points))
        end = min(place + 1, len(points))
        points[place:random.choice([place, place, end])] = random.choice([[], [random.choice(PIECES)]])
    return "".join(points)


def run(program, command, text, base):
    """What the program writes of the text, and its status."""
    words = [program, command, *(["--base", base] if base else []), "--", text]
    ended = subprocess.run(words, capture_output=True, check=False)
    return ended.stdout.decode(), ended.returncode


def checked(program, text, base):
    """The answer of `mend`, the mended text if there is one, and whether `check` disagrees."""
    answer, _ = run(program, "mend", text, base)
    valid = run(program, "check", text, base)[1] == 0
    kind, _, rest = answer.partition("\n")
    mended = rest[:-1] if kind.startswith("mended ") else None
    wrong = valid != (kind == "valid") or (mended is not None and run(program, "check", mended, base)[1] != 0)
    return text, base, kind, mended, wrong


def main():
    """Checks the texts and prints the counts."""
    program, count = sys.argv[1], int(sys.argv[2]) if len(sys.argv) > 2 else 10000
    random.seed(1)
    rows = set()
    while len(rows) < count:
        rows.add((mutated(random.choice(TEXTS)), random.choice(BASES)))
    with ThreadPoolExecutor() as pool:
        found = list(pool.map(lambda row: checked(program, *row), sorted(rows, key=str)))
    for kind, number in sorted(Counter(row[2] for row in found).items()):
        print(f"{kind}: {number}")
    wrong = [row for row in found if row[4]]
    print(f"check disagrees: {len(wrong)}", *wrong[:3])
    same = [[text, base, mended] for text, base, kind, mended, _ in found if kind == "mended same"]
    if shutil.which("node"):
        subprocess.run(["node", "-e", NODE], input=json.dumps(same).encode(), check=True)
    sys.exit(1 if wrong else 0)


if __name__ == "__main__":
    main()
