"""What authors expect of the links in what they write, each tried on a source that has a wrong link where it is to be told:
expectations.py [TEXT], of those whose names have TEXT. The package is on PYTHONPATH."""

import importlib.util
import json
import os
import shutil
import subprocess
import sys
import tempfile
import zipfile
from typing import Dict, List, NamedTuple, Tuple

FEED = "<rss xmlns:p='https://podcastindex.org/namespace/1.0'><channel><p:transcript url='http://h/a^'/></channel></rss>"
CELL = json.dumps({"cells": [{"cell_type": "markdown", "source": ["[a](http://h/a^)"]}]})
JSON_FEED = '{"version": "https://jsonfeed.org/version/1.1", "items": [{"url": "http://h/a^"}]}'


class Expectation(NamedTuple):
    """What is expected of the program."""

    name: str
    files: Dict[str, str]
    words: Tuple[str, ...]
    """Its words."""
    places: List[Tuple[str, str]]
    """The documents that have a wrong link, each with the text that is from its place on."""
    said: str = ""
    """What the last line of standard error has to have."""
    needs: str = ""
    """The module of Python without which it isn't tried."""


def refused(name: str, file: str, text: str, *words: str, needs: str = "") -> Expectation:
    """That the first ``^`` of a document is told."""
    return Expectation(name, {file: text}, (*words, file), [(file, "^")], needs=needs)


EXPECTATIONS = (
    Expectation("a folder of reStructuredText is read", {"docs/a.rst": "See `a <http://h/a^>`_.\n"}, ("docs",),
                [("docs/a.rst", "^")], needs="docutils"),
    Expectation("beside a page no wrong .mdx is passed over", {"d/a.html": "<p>", "d/b.mdx": "[a](http://h/a^)\n"}, ("d",),
                [("d/b.mdx", "^")], needs="markdown_it"),
    Expectation("what no reader takes is counted by its kind", {"d/a.html": "<p>", "d/b.docx": "", "d/c.tex": ""}, ("d",), [],
                "1 document, 0 links, 0 refused, 0 ignored; not read: 1 .docx, 1 .tex"),
    refused("DocBook 4", "a.xml", "<article><ulink url='http://h/a^'/></article>"),
    refused("a file of DocBook 4", "a.xml", "<article><imagedata fileref='a^.png'/></article>"),
    refused("AppStream", "a.xml", "<component><url type='homepage'>http://h/a^</url></component>"),
    refused("DITA", "a.dita", "<topic><xref href='http://h/a^'/></topic>"),
    refused("a project's POM", "pom.xml", "<project><url>http://h/a^</url></project>"),
    refused("XML of a vocabulary that isn't known", "a.xml", "<a><b href='http://h/a^'/></a>"),
    refused("a bare address of GitHub's Markdown", "a.md", "See http://h/a^b.\n", "--gfm", needs="markdown_it"),
    refused("one that begins with www.", "a.md", "See www.example.com/a^b.\n", "--gfm", needs="markdown_it"),
    refused("one in parentheses", "a.md", "(https://h/a^b)\n", "--gfm", needs="markdown_it"),
    refused("one in a table", "a.md", "| a |\n|---|\n| http://h/a^b |\n", "--gfm", needs="markdown_it"),
    Expectation("a destination with a space", {"a.md": "[a](b c)\n"}, ("--gfm", "a.md"), [("a.md", " c")], needs="markdown_it"),
    refused("a link of front matter", "a.md", "---\nurl: http://h/a^\n---\n\n# T\n", needs="markdown_it"),
    Expectation("front matter is no text", {"a.md": "---\nt: '[a](b^)'\n---\n\n# T\n"}, ("a.md",), [], "0 links", "markdown_it"),
    Expectation("what Git ignores is left out", {".gitignore": "out\n", "out/a.html": "<a href='^'>", "b.html": "<a href='^'>"},
                ("--git", "."), [("./b.html", "^")], "1 document"),
    Expectation("node_modules is left out, and counted", {"node_modules/a.html": "<a href='^'>", "b.html": "<p>"}, (".",), [],
                "left out: 1 folder"),
    refused("a podcast's transcript", "a.rss", FEED),
    refused("the HTML of a description", "a.rss", "<rss><channel><description>&lt;a href='a^'></description></channel></rss>"),
    Expectation("a relative loc", {"a.xml": "<urlset><url><loc>/a</loc></url></urlset>"}, ("a.xml",), [("a.xml", "/a<")]),
    Expectation("an empty src", {"a.html": "<img src=''>"}, ("a.html",), [("a.html", "'>")]),
    refused("a notebook", "a.ipynb", CELL, needs="markdown_it"),
    refused("JSON Feed", "feed.json", JSON_FEED),
    refused("OPML", "a.opml", "<opml><body><outline xmlUrl='http://h/a^'/></body></opml>"),
    refused("a book's package", "a.opf", "<package xmlns='http://www.idpf.org/2007/opf'><manifest><item href='a^'/></manifest></package>"),
    Expectation("a book", {"a.epub!one.xhtml": "<html xmlns='http://www.w3.org/1999/xhtml'><a href='a^'/></html>"}, ("a.epub",),
                [("a.epub/one.xhtml", "^")]),
    refused("CSS", "a.css", "a { background: url(a^) }\n", needs="tinycss2"),
    refused("CSS within HTML", "a.html", "<style>a { background: url(a^) }</style>", needs="tinycss2"),
    Expectation("a project's configuration", {".urlcheck.toml": "ignore = ['a']\n", "a.html": "<a href='a^'><a href='b^'>"},
                ("a.html",), [("a.html", "^'>")], "2 links, 1 refused, 1 ignored", "tomllib"),
)


def write(room: str, name: str, text: str) -> None:
    """Writes a file, or one within an archive, as ``ARCHIVE!NAME``."""
    archive, _, within = name.partition("!")
    path = os.path.join(room, archive)
    os.makedirs(os.path.dirname(path), exist_ok=True)
    if within:
        with zipfile.ZipFile(path, "w") as book:
            book.writestr(within, text)
    else:
        with open(path, "w", encoding="utf-8") as file:
            file.write(text)


def place(text: str, wanted: str) -> str:
    """The line and the column where the last such text begins."""
    at = text.rindex(wanted)
    return "{}:{}".format(text.count("\n", 0, at) + 1, at - text.rfind("\n", 0, at))


def missed(it: Expectation) -> str:
    """Why an expectation isn't met, if it isn't."""
    with tempfile.TemporaryDirectory() as room:
        for name, text in it.files.items():
            write(room, name, text)
        if "--git" in it.words:
            subprocess.run(["git", "init", "-q", room], check=True)
        words = [sys.executable, "-m", "urlcheck.documents", *it.words]
        ran = subprocess.run(words, cwd=room, stdout=subprocess.PIPE, stderr=subprocess.PIPE, check=False)
    texts = {name.replace("!", "/"): text for name, text in it.files.items()}
    wanted = ["{}:{}".format(name, place(texts[name.replace("./", "")], text)) for name, text in it.places]
    found = [line.partition(": ")[0] for line in ran.stdout.decode().splitlines()]
    last = ran.stderr.decode().splitlines()[-1:]
    is_met = found == wanted and ran.returncode == bool(wanted) and it.said in "".join(last)
    return "" if is_met else "status {}, {}, {}".format(ran.returncode, ran.stdout.decode(), ran.stderr.decode())


def main() -> None:
    """Tries each, and says how many are met."""
    tried = left = 0
    chosen = [it for it in EXPECTATIONS if not sys.argv[1:] or sys.argv[1] in it.name]
    for it in chosen:
        if (it.needs and importlib.util.find_spec(it.needs) is None) or ("--git" in it.words and not shutil.which("git")):
            left += 1
            continue
        why = missed(it)
        if why:
            sys.exit("FAILED: {}: {}".format(it.name, why))
        tried += 1
    if not tried:
        sys.exit("FAILED: none is tried")
    print("authors: {} expectations of authors are met, {} aren't tried for want of a package".format(tried, left))


if __name__ == "__main__":
    main()
