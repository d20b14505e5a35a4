"""How the processor's time grows with a document: growth.py [TEXT], of the documents whose names have TEXT. Of each
kind of document one is sought that takes a while; one of twice and one of four times its size may take little more
than twice and four times as long. The package is on PYTHONPATH."""

import os
import resource
import subprocess
import sys
import tempfile
from typing import Callable, Dict, Tuple

from rooms import COMMAND, end

LEAST_SECONDS = 0.3
"""What the first document takes at least, beside what a document without content takes."""

MOST_POINTS = 1_500_000
"""How long a document may be of which each is fast enough."""

MOST_TIMES = ((2, 3.2), (4, 11.0))
"""How many times as long a document may take that is so many times as long."""

MOST_RUNS = 6
"""How many times each document runs before it is said to take too long."""

LINK = '<a href="http://h/a b">x</a>\n'

DOCUMENTS: Dict[str, Tuple[str, str, Callable[[int], str]]] = {
    "comments that leave out links": ("html", "", lambda n: ("<!-- urlcheck: ignore -->\n" + LINK) * n),
    "comments in one line": ("html", "", lambda n: "<!-- urlcheck: ignore -->" * n + LINK),
    "comments about a whole file": ("html", "", lambda n: "<!-- urlcheck: ignore-file[percent] -->\n" * n + LINK * n),
    "comments in Markdown": ("md", "", lambda n: "<!-- urlcheck: ignore -->\n[x](<http://h/a b>)\n\n" * n),
    "spaces in front matter": ("md", "", lambda n: "---\nurl: http://h/" + " " * n + "x\n---\n"),
    "values in front matter": ("md", "", lambda n: "---\n" + "url: http://h/a b\n" * n + "---\n"),
    "blocks in front matter": ("md", "", lambda n: "---\n" + "a: |\n  http://h/a b\n" * n + "---\n"),
    "tables in front matter": (
        "md",
        "",
        lambda n: "+++\n" + "".join("[a{}]\nurl = 'http://h/a b'\n".format(it) for it in range(n)) + "+++\n",
    ),
    "equal links in reStructuredText": ("rst", "", lambda n: "`x <http://h/a^b>`__ and more\n\n" * n),
    "spaces beside a link of reStructuredText": (
        "rst",
        "",
        lambda n: "`x <http://h/a\\ \\ \\ \\ \\ \\ \\ b>`__ http://h/a" + " " * n + "c\n",
    ),
    "bare addresses in one paragraph": ("md", "--gfm", lambda n: "See http://h/a^b, and www.h.org/c.\n" * n),
    "parentheses after an address": ("md", "--gfm", lambda n: "http://h/a" + ")" * n + "\n"),
    "spaces in a destination": ("md", "--gfm", lambda n: "[a](b" + " " * n + "c\n"),
    "beginnings of destinations": ("md", "--gfm", lambda n: "](a " * n + "\n"),
    "escapes in a paragraph": ("md", "", lambda n: "\\a" * n + "\n"),
    "emphasis that doesn't end": ("md", "", lambda n: "*a " * n + "\n"),
    "references in a paragraph": ("md", "", lambda n: "&amp;" * n + "\n"),
    "definitions with a space": ("md", "", lambda n: "[a]: b c\n\n" * n),
    "comments and links of one line": ("html", "", lambda n: ("<!-- urlcheck: ignore -->" + LINK.strip()) * n),
    "comments of XML": (
        "xml",
        "",
        lambda n: "<urlset>" + "<!-- urlcheck: ignore --><loc>http://h/a b</loc>" * n + "</urlset>",
    ),
    "comments of CSS": ("css", "", lambda n: '/* urlcheck: ignore */a{b:url("c d")}' * n),
    "titles of destinations": ("md", "", lambda n: '[a](b "c ' * n),
    "parentheses in a destination": ("md", "", lambda n: "[a](b " + "(" * n),
    "badges": ("md", "", lambda n: "[![a](b c)](d) " * n),
    "mathematics": ("md", "", lambda n: "$[a](b c) " * n),
    "spaces in a definition": ("md", "", lambda n: "[a]: b c" + " " * n + "\n"),
    "a list in front matter": ("md", "", lambda n: "---\nurl: [" + "http://h/a b, " * n + "]\n---\n"),
    "quotes in front matter": ("md", "", lambda n: "---\nurl: [" + '\\"' * n + "\n---\n"),
    "braces in MDX": ("mdx", "", lambda n: "{" * n + "}" * n),
    "beginnings of tags in MDX": ("mdx", "", lambda n: '<a b="' * n),
    "code in MDX": ("mdx", "", lambda n: "export a `{" * n + "\n\n" + "``` `" * n),
    "styles of elements": ("html", "", lambda n: '<p style="a:url(b c)">' * n),
    "a set of images": ("html", "", lambda n: '<img src="x" srcset="' + "a b 1x, " * n + '">'),
    "attributes of a tag": (
        "html",
        "",
        lambda n: "<a " + "".join("b{}='c' ".format(it) for it in range(n)) + "href='d e'>",
    ),
    "beginnings of tags": ("html", "", lambda n: "<a href='b c" * n),
}
"""The documents: each has its ending, an option, and what gives its text by a number."""


def seconds(end_of: str, option: str, text: str) -> float:
    """The processor's time that a run on such a document takes. Ends the program if it isn't read."""
    with tempfile.TemporaryDirectory() as room:
        name = os.path.join(room, "a." + end_of)
        with open(name, "w", encoding="utf-8") as file:
            file.write(text)
        before = resource.getrusage(resource.RUSAGE_CHILDREN)
        words = [*COMMAND, "-q", "--no-config", "--format", "json", *option.split(), name]
        ran = subprocess.run(words, stdout=subprocess.DEVNULL, stderr=subprocess.PIPE, check=False)
        after = resource.getrusage(resource.RUSAGE_CHILDREN)
    if ran.returncode not in (0, 1, 2) or b"time" in ran.stderr or b"memory" in ran.stderr:
        raise ValueError(ran.stderr.decode().strip()[-150:])
    return after.ru_utime + after.ru_stime - before.ru_utime - before.ru_stime


def tried(end_of: str, option: str, text: Callable[[int], str]) -> str:
    """What is wrong with how the time grows, or nothing."""

    def measured(count: int) -> float:
        return seconds(end_of, option, text(count))

    least = min(measured(1) for _ in range(2))
    count, taken = 2000, 0.0
    while taken < LEAST_SECONDS and len(text(count)) < MOST_POINTS:
        count = count * 2 if taken < LEAST_SECONDS / 4 else int(count * 1.5)
        taken = measured(count) - least
        if taken >= LEAST_SECONDS:
            # (once more, as another program may have taken the time)
            taken = min(taken, measured(count) - least)
    if taken < LEAST_SECONDS:
        return ""
    for times, most in MOST_TIMES:
        taken, longer = compared(measured, count, times, most)
        if longer > most * taken:
            return "{} times as many as {} take {:.2f} s in place of {:.2f}".format(times, count, longer, taken)
    return ""


def compared(measured: Callable[[int], float], count: int, times: int, most: float) -> Tuple[float, float]:
    """The least that a document takes, and one that is so many times as long, beside the least that a document without
    content takes, of runs of one after the other: what other programs add to the time comes and goes, and what grows
    faster than the text does so each time."""
    least = taken = longer = float("inf")
    for _ in range(MOST_RUNS):
        least = min(least, measured(1))
        taken = min(taken, measured(count))
        longer = min(longer, measured(count * times))
        if longer - least <= most * (taken - least):
            break
    return taken - least, longer - least


def main() -> None:
    """Tries the documents, and says how many grow as they should."""
    failed = []
    chosen = [name for name in DOCUMENTS if not sys.argv[1:] or sys.argv[1] in name]
    for name in chosen:
        try:
            wrong = tried(*DOCUMENTS[name])
        except ValueError as error:
            wrong = str(error)
        if wrong:
            failed.append("{}: {}".format(name, wrong))
    end("growth", failed, "{} documents of two and four times the size take as many times as long".format(len(chosen)))


if __name__ == "__main__":
    main()
