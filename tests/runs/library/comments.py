"""Tests of comments in documents that say of links that they are meant as they are. The package is on PYTHONPATH."""

import importlib.util
import json
import re
import unittest
import zipfile
from typing import NamedTuple, Tuple

from room import Texts

FORMS = "there are 'urlcheck: ignore', 'urlcheck: ignore[RULES]' and 'urlcheck: ignore-file'"
WRONG = "<a href='x y'>\n"


class Case(NamedTuple):
    """A document of HTML with comments."""

    name: str
    text: str
    places: Tuple[str, ...]
    """Where a link is reported, each with its rule."""
    ignored: int
    """How many links are left out."""
    warnings: Tuple[str, ...] = ()
    """What standard error says of comments, each after the document's name."""


def said(place, comment, why):
    """What is said of a comment."""
    return "{}: warning: '{}' {}".format(place, comment, why)


UNNEEDED = "isn't needed: no link that it is about is refused"
CASES = (
    Case("on the line before", "<!-- urlcheck: ignore -->\n" + WRONG + WRONG, ("3:11 code-point",), 1),
    Case("before empty lines", "<!-- urlcheck: ignore -->\n\n \t\r\n" + WRONG + WRONG, ("5:11 code-point",), 1),
    Case("on the same line", "<a href='x y'> <!-- urlcheck: ignore -->\n" + WRONG, ("2:11 code-point",), 1),
    Case("before it on the same line", "<!--urlcheck:ignore--><a href='x y'>\n" + WRONG, ("2:11 code-point",), 1),
    Case("two of a line", "<!-- urlcheck: ignore -->\n<a href='x y'><a href='z'>\n", (), 2),
    Case("over lines", "<!--\n  urlcheck: ignore\n-->\n" + WRONG + WRONG, ("5:11 code-point",), 1),
    Case("for a rule", "<!-- urlcheck: ignore[percent] -->\n<a href='%zz'><a href='x y'>\n", ("2:25 code-point",), 1),
    Case("for two rules", "<!-- urlcheck: ignore[percent, code-point] -->\n<a href='%zz'><a href='x y'>\n", (), 2),
    Case("for the first of two faults", "<!-- urlcheck: ignore[percent] -->\n<a href='%zz^'>\n", ("2:13 code-point",), 0),
    Case("two comments", "<!-- urlcheck: ignore[percent] --><!-- urlcheck:ignore[code-point] -->\n<a href='%zz^'>\n", (), 1),
    Case("for a file", WRONG + WRONG + "<!-- urlcheck: ignore-file -->", (), 2),
    Case("for a rule in a file", WRONG + "<!-- urlcheck: ignore-file[code-point] -->\n<a href='%zz'>\n", ("3:10 percent",), 1),
    Case("that isn't needed", "<!-- urlcheck: ignore -->\n<a href='x'>\n" + WRONG, ("3:11 code-point",), 1,
         (said("1:5", "urlcheck: ignore", UNNEEDED),)),
    Case("without a link", "<!-- urlcheck: ignore -->", (), 0, (said("1:5", "urlcheck: ignore", UNNEEDED),)),
    Case("for another rule", "<!-- urlcheck: ignore[percent] -->\n" + WRONG, ("2:11 code-point",), 0,
         (said("1:5", "urlcheck: ignore[percent]", UNNEEDED + " by that"),)),
    Case("for a file that isn't needed", "<!-- urlcheck: ignore-file -->\n<a href='x'>", (), 1,
         (said("1:5", "urlcheck: ignore-file", "isn't needed: no link of the document is refused"),)),
    Case("misspelt", "<!-- urlcheck: ingore -->\n" + WRONG, ("2:11 code-point",), 0,
         (said("1:5", "urlcheck: ingore", "isn't understood; " + FORMS),)),
    Case("without a colon", "<!-- urlcheck ignore -->\n" + WRONG, ("2:11 code-point",), 0,
         (said("1:5", "urlcheck ignore", "isn't understood; " + FORMS),)),
    Case("as for another tool", "<!-- URLCheck-disable-next-line -->\n" + WRONG, ("2:11 code-point",), 0,
         (said("1:5", "URLCheck-disable-next-line", "isn't understood; " + FORMS),)),
    Case("with more words", "<!-- urlcheck: ignore this one -->\n" + WRONG, ("2:11 code-point",), 0,
         (said("1:5", "urlcheck: ignore this one", "isn't understood; " + FORMS),)),
    Case("for no rule", "<!-- urlcheck: ignore[percnt] -->\n" + WRONG, ("2:11 code-point",), 0,
         ("1:5: warning: 'urlcheck: ignore[percnt]': no rule is named 'percnt'; the nearest is percent",)),
    Case("of other words", "<!-- urlcheck is a checker; see urlcheck: ignore -->\n" + WRONG, ("2:11 code-point",), 0),
)


class Comments(Texts):
    def seen(self, name, *words):
        """What was reported of a document, what was said of its comments, and how many links were left out."""
        _, out, err = self.run_on(*words, name)
        *lines, counts = err.splitlines()
        places = re.findall(r"^[^:]*:(\d+:\d+): error: .* \[(.*)\]$", out, re.M)
        warnings = [it.split(name + ":", 1)[1] for it in lines if ": warning: " in it]
        return [" ".join(it) for it in places], warnings, int(re.search(r"(\d+) ignored", counts)[1])

    def test_comments_of_html(self):
        for case in CASES:
            with self.subTest(case.name):
                self.write("a.html", case.text)
                self.assertEqual(self.seen("a.html"), (list(case.places), list(case.warnings), case.ignored))

    def test_the_status(self):
        """What is said of comments changes no status, and isn't said with --quiet."""
        self.write("a.html", "<!-- urlcheck: ignore -->\n<!-- urlcheck: ingore -->\n<a href='x'>")
        self.assertEqual(self.run_on("a.html")[0], 0)
        self.assertEqual(self.run_on("--quiet", "a.html"), (0, "", ""))

    def test_each_kind(self):
        """Each format with comments has them, before a link and next to one; a second link is reported."""
        notebook = {"cells": [{"cell_type": "markdown", "source": ["<!-- urlcheck: ignore -->\n", "[a](x^)\n", "\n", "[b](y^)"]}]}
        for name, text, needs in (
            ("a.xml", "<urlset>\n<!-- urlcheck: ignore -->\n<loc>http://h/x^</loc>\n<loc>http://h/y^</loc></urlset>", ""),
            ("b.xml", "<urlset>\n<loc>http://h/x^</loc><!-- urlcheck:ignore -->\n<loc>http://h/y^</loc></urlset>", ""),
            ("a.md", "<!-- urlcheck: ignore -->\n[a](x^)\n\n[b](y^)\n", "markdown_it"),
            ("b.md", "- [a](x^) <!-- urlcheck: ignore -->\n- [b](y^)\n", "markdown_it"),
            ("c.md", "> <!-- urlcheck: ignore -->\n>\n> [a](x^)\n\n[b](y^)\n", "markdown_it"),
            ("d.md", "[//]: # (urlcheck: ignore)\n[a](x^)\n\n[b](y^)\n", "markdown_it"),
            ("e.md", "> [//]: # \"urlcheck: ignore\"\n>\n> [a](x^)\n\n[b](y^)\n\n[//]: # (other)\n", "markdown_it"),
            ("a.rst", ".. urlcheck: ignore\n\n`a <x^>`_\n\n`b <y^>`_\n", "docutils"),
            ("b.rst", "T\n=\n\n..\n   urlcheck: ignore\n\n`a <x^>`_\n`b <y^>`_\n", "docutils"),
            ("a.css", "/* urlcheck: ignore */\na { b: url(x^) }\nc { d: url(y^) }", "tinycss2"),
            ("b.css", "a { b: url(x^) } /* urlcheck: ignore */\nc { d: url(y^) }", "tinycss2"),
            ("a.ipynb", json.dumps(notebook), "markdown_it"),
            ("b.ipynb", json.dumps(notebook, indent=1), "markdown_it"),
        ):
            if needs and not importlib.util.find_spec(needs):
                continue
            with self.subTest(name):
                self.write(name, text)
                places, warnings, ignored = self.seen(name)
                line = text[: text.index("y^")].count("\n") + 1
                self.assertEqual(([it.partition(":")[0] for it in places], warnings, ignored), ([str(line)], [], 1))
                self.write(name, text.replace("x^", "x"))
                self.assertIn(UNNEEDED, "".join(self.seen(name)[1]))
                self.write(name, text.replace("ignore", "ingore", 1))
                places, warnings, ignored = self.seen(name)
                self.assertEqual((len(places), ignored), (2, 0))
                self.assertIn("urlcheck:", "".join(warnings))
                self.assertIn(FORMS, "".join(warnings))

    def test_a_book(self):
        with zipfile.ZipFile(self.room + "/a.epub", "w") as book:
            book.writestr("b.xhtml", '<html xmlns="http://www.w3.org/1999/xhtml">\n<!-- urlcheck: ingore -->\n<a href="b c"/></html>')
        self.assertIn("urlcheck-documents: a.epub/b.xhtml:2:5: warning: 'urlcheck: ingore' isn't understood; " + FORMS,
                      self.run_on("a.epub")[2].splitlines())

    def test_lists_and_fixes(self):
        """A list leaves out what a comment leaves out whatever is wrong; nothing is fixed that a comment is about."""
        text = "<!-- urlcheck: ignore -->\n" + WRONG + "<!-- urlcheck: ignore[percent] -->\n<a href='z w'>\n" + WRONG
        self.write("a.html", text)
        self.assertEqual(self.run_on("-q", "--list", "a.html")[1], "a.html:4:10:z w\na.html:5:10:x y\n")
        self.run_on("--fix", "a.html")
        with open(self.room + "/a.html", encoding="utf-8") as file:
            self.assertEqual(file.read(), text[: -len(WRONG)] + WRONG.replace(" y", "%20y"))

    def test_some_rules(self):
        """If only some rules are reported, no comment is reported as not needed."""
        self.write("a.html", "<!-- urlcheck: ignore[percent] -->\n" + WRONG)
        self.assertEqual(self.seen("a.html", "--select", "code-point"), (["2:11 code-point"], [], 0))
        self.write("a.html", "<!-- urlcheck: ignroe -->\n" + WRONG)
        self.assertEqual(len(self.seen("a.html", "--select", "code-point")[1]), 1)

    def test_a_document_that_is_not_read_to_its_end(self):
        self.write("a.xml", "<urlset>\n<!-- urlcheck: ignore-file -->\n<loc>http://h/</loc></urlst>")
        self.assertEqual(self.seen("a.xml")[1], [])


if __name__ == "__main__":
    unittest.main()
