"""Writes the texts of files of vectors, a line each, and some with a NUL, with bytes that aren't UTF-8, with CR LF, and one that the
input ends: texts.py VECTORS.. A text that has an LF isn't a line, and `lint` passes over one that is empty: they are left out."""

import json
import sys

lines = []
for name in sys.argv[1:]:
    with open(name, encoding="utf-8") as file:
        texts = [case["input"] for case in json.load(file)]
    lines += [text.encode() for text in texts if text not in ("", "\r") and "\n" not in text]
lines += [b"http://h/\0", b"\0", b"http://h/\0 ^", b"http://h/\xff", b"\xc3", b"http://h/\r", b"http://h/ b\r", b"http://h/\r\r"]
sys.stdout.buffer.write(b"\n".join([*lines, b"http://h/a b"]))
