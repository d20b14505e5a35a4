"""Writes the first block of a language on a page into a file, and the block after it, what it prints, into another.

    guide.py PAGE LANGUAGE PROGRAM [PRINTED]

All blocks for a shell, of the language `sh`, are written one after the other.
"""

import re
import sys

page, language, program = sys.argv[1:4]
with open(page, encoding="utf-8") as file:
    blocks = re.findall(r"^```(\w*)\n(.*?)^```$", file.read(), flags=re.M | re.S)
found = [number for number, (name, _) in enumerate(blocks) if name == language]
if not found:
    sys.exit("FAILED: {} has no block of the language {}".format(page, language))
last = found[-1] if language == "sh" else found[0]
with open(program, "w", encoding="utf-8") as out:
    out.write("".join(blocks[number][1] for number in found if number <= last))
if len(sys.argv) > 4:
    with open(sys.argv[4], "w", encoding="utf-8") as out:
        out.write(blocks[found[0] + 1][1])
