"""The blocks of the pages on databases and columns, for the runs that take them: GUIDE is the name of a page, by its path from
docs/guides, and SECTION one of its headings.

    page.py sql GUIDE SECTION       writes the blocks in SQL of a section, one after the other
    page.py errors GUIDE SECTION    writes what its comments say that the server says: lines of ERROR, DETAIL and HINT
    page.py bash GUIDE SECTION      writes the blocks of commands of a section
    page.py python GUIDE            runs each program in Python, and compares what it prints with the block after it
"""

import contextlib
import io
import pathlib
import re
import sys

GUIDES = pathlib.Path(__file__).resolve().parents[3] / "docs" / "guides"


def blocks_of(text):
    """The fenced blocks of a text: a language and a text each."""
    return re.findall(r"^```(\w*)\n(.*?)^```$", text, flags=re.M | re.S)


def page_of(guide):
    return (GUIDES / (guide + ".md")).read_text(encoding="utf-8")


def blocks(guide, section, language):
    """The blocks of a section in a language, one after the other."""
    text = page_of(guide).partition("\n## {}\n".format(section))[2].partition("\n## ")[0]
    found = [text for name, text in blocks_of(text) if name == language]
    if not found:
        sys.exit("FAILED: docs/guides/{}.md has no block in {} below {}".format(guide, language, section))
    return "".join(found)


def python(guide):
    """The programs whose libraries are here; each in a namespace of its own."""
    count, found = 0, blocks_of(page_of(guide))
    for (language, program), (other, printed) in zip(found, found[1:]):
        if language != "python" or other:
            continue
        out = io.StringIO()
        try:
            with contextlib.redirect_stdout(out):
                exec(compile(program, guide + ".md", "exec"), {"__name__": "page"})
        except ImportError as error:
            print("registers: a program of docs/guides/{}.md is left out:".format(guide), error)
            continue
        if out.getvalue() != printed:
            sys.exit("FAILED: docs/guides/{}.md: a program prints:\n{}".format(guide, out.getvalue()))
        count += 1
    if not count:
        sys.exit("FAILED: docs/guides/{}.md has no program in Python that runs here".format(guide))


if __name__ == "__main__":
    kind, *words = sys.argv[1:]
    if kind == "python":
        python(words[0])
    elif kind == "errors":
        for line in blocks(*words, "sql").splitlines():
            if re.match(r"-- (ERROR|DETAIL|HINT): ", line):
                print(line[3:])
    else:
        sys.stdout.write(blocks(*words, kind))
