"""What the server reads in pieces, held against the same reader over the whole: pieces.py [TIMES]. Texts of Markdown and of
reStructuredText that are made up of blocks of each sort, and documents of Debian's packages as far as they are here, are cut into small
pieces and edited. The package is on PYTHONPATH."""

import glob
import importlib.util
import random
import sys

import urlcheck._editors.pieces as pieces
from urlcheck._readers import markdown_links, rst_links
from urlcheck._readers.source import Source

TIMES = int(sys.argv[1]) if sys.argv[1:] else 1
"""How many times as many texts are read as the gate reads."""

MOST = 20_000
"""How many code points a text of Debian's may have."""

MARKDOWN = (
    "Text [a](http://h/{0}^) and <http://h/{0}^b>.\n\n", "# Title [t](http://t/{0}^)\n\n", "- [l](http://l/{0}^)\n\n  more [m](m{0}^)\n\n- b\n\n",
    "1. one\n\n       code [no](n{0}^)\n\n2. two\n\n", "> [q](q{0}^)\n\n> more\nlazy [z](z{0}^)\n\n", "```\n[no](no{0}^)\n\nand [no](no{0}^)\n```\n\n",
    "~~~ x\n\n``` [no](no{0}^)\n\n~~~\n\n", "<!-- [no](no{0}^)\n\nurlcheck: ignore -->\n\n", "<!-- urlcheck: ignore -->\n[c](c{0}^)\n\n",
    "<div>\n```\n[d](d{0}^)\n\n</div>\n\n", "<pre>\n\n<a href='p{0}^'>\n\n</pre>\n\n", "<script>\n\n[no](no{0}^)\n\n</script>\n\n", "---\n\n",
    "    code [no](no{0}^)\n\n    more\n\n", "Setext [s](s{0}^)\n======\n\n", "a `b\n\nc` [e](e{0}^)\n\n", "***\nurl: [y](y{0}^)\n\n---\n\n", "<?x\n\n[no](n{0}^) ?>\n\n",
)
DEFINED = ("[r{0}]: http://r/{0}^\n\n", "See [r{0}] and [b](c d) [r1](e f).\n\n", "- x\n  ```\n\n  [no](no{0}^)\n\n  ```\n\n")
RST = (
    "Text `a <http://h/{0}^>`__ and b_.\n\n", "Title\n=====\n\n", "Sub `s <http://s/{0}^>`__\n-------------------------------------\n\n", "Subsub\n~~~~~~\n\n",
    "=======\nOver\n=======\n\n", "* item `l <http://l/{0}^>`__\n\n  more\n\n* two\n\n", "Code::\n\n   `no <http://no/{0}^>`__\n\n", "Quoted::\n\n> `no <http://no/{0}^>`__\n> x\n\n",
    ".. image:: http://i/{0}^.png\n   :alt: x\n\n", ".. note::\n\n   `n <http://n/{0}^>`__\n\n   more\n\n", ".. _t{0}: http://t/{0}^\n\n", "A t1_ and |s1|.\n\n",
    ".. |s{0}| image:: http://sub/{0}^.png\n\n", "=======================  =======================\na                        b\n"
    "=======================  =======================\n`x <http://x/{0}^>`__    y\n\nz                        `w <http://w/{0}^>`__\n"
    "=======================  =======================\n\n", "===  ===\nmalformed  `x <http://x/{0}^>`__\n\n`y <http://y/{0}^>`__\n===  ===\n\n",
    "+---+---+\n| a | b |\n+---+---+\n\n", ".. urlcheck: ignore\n\n`c <http://c/{0}^>`__\n\n", "term\n   `d <http://d/{0}^>`__\n\n", "__ http://u/{0}^\n\n", "para\n\n----\n\n",
    ".. raw:: html\n\n   <a href='http://r/{0}^'>\n\n   <b>\n\n", "i. one `e <http://e/{0}^>`__\n\nj. two\n\n", ":field: `f <http://f/{0}^>`__\n\n", ".. unknown::\n\n   `k <http://k/{0}^>`__\n\n",
)
ALWAYS = ("Title\n=====\n\nText.\n\nSub\n---\n\nText.\n\nTitle\n=====\n\nText.\n\nSubsub\n~~~~~~\n\nText.\n",)
ROLE = (".. role:: raw-html(raw)\n   :format: html\n\n", ":raw-html:`<a href='http://w/{0}^'>`\n\n")


def said(found):
    """What is compared: the links with their places, in order, the comments and the notes."""
    links = [(it.offset, it.text, it.is_verbatim, it.pieces, it.asks, it.is_certain, it.within) for it in found.links]
    return sorted(links, key=repr), sorted(found.comments), sorted(found.notes), sorted(found.lost), found.broken


def edited(text, chooser, blocks):
    """A text after an edit: letters, a line's end, a block or nothing in place of a part."""
    at = chooser.randrange(len(text) + 1)
    end = at + chooser.choice((0, 0, 0, 1, 20))
    return text[:at] + chooser.choice(("x", "\n", "\n\n", "`", "```\n", "*", chooser.choice(blocks).format(9))) + text[end:]


def compared(kind, reader, text, chooser, blocks):
    """Compares a text and what it is after some edits. Gives how many links it has, and how many pieces it was cut into."""
    count = 0
    for _ in range(4):
        whole = reader["read"](Source(text))
        found = reader["pieces"].read(Source(text))
        if said(whole) != said(found):
            sys.exit("FAILED: {} is read otherwise in pieces: {!r}:\n{}\n{}".format(kind, text, said(whole), said(found)))
        count += len(whole.links)
        text = edited(text, chooser, blocks)
    return count, len(reader["cut"](text))


def readers():
    """What reads each kind, as a whole and in pieces."""
    for kind, module, cut, blocks, end, count in (
        ("Markdown", "markdown_it", pieces.of_markdown, (MARKDOWN, DEFINED), "md", 150),
        ("reStructuredText", "docutils", pieces.of_rst, (RST, ROLE), "rst", 40),
    ):
        if importlib.util.find_spec(module):
            read = (markdown_links if end == "md" else rst_links).links_of
            yield kind, {"read": read, "cut": cut, "pieces": pieces.Pieces(cut, read, read)}, blocks, end, count * TIMES


def main():
    """Compares as many texts of each kind. What is chosen for one depends only on its number, so that the texts that are made up are the
    same on each machine."""
    pieces.LEAST = 1
    for kind, reader, (blocks, others), end, most in readers():
        names = sorted(glob.glob("/usr/share/doc/**/*." + end, recursive=True) + glob.glob("/usr/share/doc/**/*.{}.txt".format(end), recursive=True))
        random.Random(61).shuffle(names)
        texts = links = several = real = 0
        while texts < most:
            chooser = random.Random("{} {}".format(kind, texts))
            if end == "rst" and texts < len(ALWAYS):
                text = ALWAYS[texts]
            elif names and texts % 4 == 3:
                with open(names.pop(), encoding="utf-8", errors="replace", newline="") as file:
                    text = file.read(MOST)
                real += 1
            else:
                chosen = chooser.choices(blocks + others * (chooser.random() < 0.3), k=chooser.randrange(1, 14))
                text = "".join(block.format(chooser.randrange(4)) for block in chosen)
            more, count = compared(kind, reader, text, chooser, blocks)
            texts, links, several = texts + 1, links + more, several + (count > 1)
        if texts < 10 or several < texts // 4:
            sys.exit("FAILED: of {} texts of {} {} are cut".format(texts, kind, several))
        print("authors: {} texts of {}, {} of Debian's, with {} links are read in pieces as they are whole".format(texts, kind, real, links))


if __name__ == "__main__":
    main()
