"""Writes the programs of docs/guides and of README.md, and what they print, as files into a folder.

programs.py TOP FOLDER: page.c, page.py and report.py with their outputs are from the guides on C and Python. start.py is the program
of README.md, and wheel.py that of the Python package's README.md.
"""

import pathlib
import re
import sys

top, folder = pathlib.Path(sys.argv[1]), pathlib.Path(sys.argv[2])
readme = (top / "README.md").read_text(encoding="utf-8")


def blocks(text):
    """The fenced blocks of a text, each with its language."""
    return re.findall(r"^```(\w*)\n(.*?)^```$", text, flags=re.M | re.S)


def program_of(guide, language, number=0):
    """A program and its output: the block of a language with this number, and the block after it."""
    found = blocks((top / "docs" / "guides" / (guide + ".md")).read_text(encoding="utf-8"))
    at = [place for place, (name, _) in enumerate(found) if name == language][number]
    return found[at][1], found[at + 1][1]


programs = (("c", "c", 0, "page.c"), ("python", "python", 0, "page.py"), ("python", "python", 1, "report.py"))
for guide, language, number, name in programs:
    program, printed = program_of(guide, language, number)
    (folder / name).write_text(program, encoding="utf-8")
    (folder / (name + ".out")).write_text(printed, encoding="utf-8")

wheel = dict(blocks((top / "bindings" / "python" / "README.md").read_text(encoding="utf-8")))
(folder / "wheel.py").write_text(wheel["python"], encoding="utf-8")
(folder / "start.py").write_text(dict(blocks(readme))["python"], encoding="utf-8")
