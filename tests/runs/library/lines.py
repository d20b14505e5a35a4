"""Writes the texts of files of vectors, a line each, for batches.c and lint.c: lines.py FILE.json .. Texts with an LF, and
those that end in a CR, aren't lines and are left out. Further lines are empty, have a CR before their LF, aren't UTF-8, or
are long."""

import json
import sys
from typing import List

FURTHER: List[bytes] = [
    b"",
    b"http://h/a\r",
    b"\xff",
    "e\u0301\u65e5\U0001f600\t^".encode(),
    "http://h/\u65e5\U0001f600\t\u202e b%".encode(),
    b"http://h/" + b"a" * 3000 + b" b",
    b"a" * 65537,
    b"http://h/ last line, without an LF",
]


def main(names: List[str]) -> None:
    texts: List[bytes] = []
    for name in names:
        with open(name, encoding="utf-8") as file:
            cases = json.load(file)
        for case in cases:
            text = case.get("input") if isinstance(case, dict) else None
            if isinstance(text, str) and "\n" not in text and not text.endswith("\r"):
                texts.append(text.encode("utf-8"))
    sys.stdout.buffer.write(b"\n".join(texts + FURTHER))


main(sys.argv[1:])
