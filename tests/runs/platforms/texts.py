"""Writes lines of hostile texts, the same each time: texts.py COUNT FILE.json .. Each is a text of a file of vectors with some bytes
changed, and may be no UTF-8. No line has an LF within."""

import json
import random
import sys
from typing import List

SEED = 20261128
MARKS = [bytes([byte]) for byte in b"/\\?#:@[]%. \t\r\x00\x7f\xc3\xff"] + ["\u00e9".encode(), "\u202e".encode(), "\U0001f600".encode()]


def texts_of(names: List[str]) -> List[bytes]:
    """The texts of files of vectors."""
    texts = []
    for name in names:
        with open(name, encoding="utf-8") as file:
            cases = json.load(file)
        texts += [case["input"].encode() for case in cases if isinstance(case, dict) and isinstance(case.get("input"), str)]
    return texts


def mutated(text: bytes, chance: random.Random) -> bytes:
    """The text with up to four changes."""
    for _ in range(chance.randrange(5)):
        at = chance.randrange(len(text) + 1)
        put = chance.choice(MARKS) if chance.randrange(4) else bytes([chance.randrange(256)])
        text = text[:at] + put + text[at + chance.randrange(3) :]
    return text.replace(b"\n", b"")


def main(count: int, names: List[str]) -> None:
    chance = random.Random(SEED)
    texts = [text for text in texts_of(names) if len(text) < 2000]
    for _ in range(count):
        sys.stdout.buffer.write(mutated(chance.choice(texts), chance) + b"\n")


main(int(sys.argv[1]), sys.argv[2:])
