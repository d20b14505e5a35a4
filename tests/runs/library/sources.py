"""Tests of the kinds of documents that urlcheck.documents reads besides HTML, feeds and CommonMark, and of what a format asks
of a link. What has to be found was worked out by hand. The package is on PYTHONPATH."""

import importlib.util
import io
import json
import resource
import unittest
import zipfile

from room import Texts

SPACE, PLACEHOLDER = "code-point", "${project.url}"


def has(module):
    """Skips a test where a package isn't installed."""
    return unittest.skipUnless(importlib.util.find_spec(module), module + " isn't installed")


class Markdown(Texts):
    @has("markdown_it")
    def test_names(self):
        for end in "md markdown mkd mkdn mdown mdwn mdx qmd Rmd MD".split():
            self.finds("a." + end, "[a](<b c>) [d](e)\n", "1:6:b c\n1:16:e\n")

    @has("markdown_it")
    def test_bare_addresses(self):
        """Those of GFM, section 6.9, with the examples of its text."""
        for text, links in (
            ("www.commonmark.org", ["http://www.commonmark.org"]),
            ("Visit www.commonmark.org/help for more", ["http://www.commonmark.org/help"]),
            ("Visit www.commonmark.org/a.b.", ["http://www.commonmark.org/a.b"]),
            ("www.google.com/search?q=Markup+(business)", ["http://www.google.com/search?q=Markup+(business)"]),
            ("www.google.com/search?q=Markup+(business)))", ["http://www.google.com/search?q=Markup+(business)"]),
            ("(www.google.com/search?q=Markup+(business))", ["http://www.google.com/search?q=Markup+(business)"]),
            ("www.google.com/search?q=(business))+ok", ["http://www.google.com/search?q=(business))+ok"]),
            ("www.google.com/search?q=commonmark&hl=en", ["http://www.google.com/search?q=commonmark&hl=en"]),
            ("www.google.com/search?q=commonmark&hl;", ["http://www.google.com/search?q=commonmark"]),
            ("www.commonmark.org/he<lp", ["http://www.commonmark.org/he"]),
            ("(Visit https://encrypted.google.com/search?q=Markup+(business))",
             ["https://encrypted.google.com/search?q=Markup+(business)"]),
            ("http://commonmark.org", ["http://commonmark.org"]),
            ("Anonymous FTP is available at ftp://foo.bar.baz.", ["ftp://foo.bar.baz"]),
            ("http://a_b.c/ http://a.b_c/ http://h", ["http://h"]),
            ("awww.h.x http:// https:/h mailto:a@h", []),
            ("`http://h/a` <http://h/b> [http://h/c](d) ![www.h.x](e)", ["http://h/b", "d", "e"]),
            ("\\[http://h/a^b](c)", ["http://h/a^b](c)"]),
        ):
            with self.subTest(text):
                self.write("a.md", text + "\n")
                out = self.run_on("--list", "-q", "--gfm", "a.md")[1]
                self.assertEqual([it.split(":", 3)[3] for it in out.splitlines()], links)
        self.write("a.md", "x\n\n- y http://h/a^b\n\n> www.h.x/%4\n\n[z](b c)\n")
        self.checks("a.md", [("3:15", SPACE), ("5:11", "percent"), ("7:6", "no-link")], "--gfm")
        self.checks("a.md", [("7:6", "no-link")])

    @has("markdown_it")
    def test_destinations_with_a_space(self):
        """What looks like a link and is text for a space, in all readings of Markdown, and what isn't meant as one."""
        for text, places in (
            ("[a](b c)", ["1:6"]), ("![a](my photo.png)", ["1:8"]), ("`[a](b c)`", []), ("[a] (b c)", []), ("x (b c) [y](z)", []),
            ("[a][b](c d)\n\n[b]: e", []), ("![b](my pic.png \"T\")", ["1:8"]), ("[a](my page.md 't')", ["1:7"]),
            ("[![c](my badge.svg)](https://ok/)", ["1:9"]), ("[ref]: http://h/my page.md", ["1:19"]), ("[r]: my page.md", ["1:8"]),
            ("[r]: my page.md \"T\"", ["1:8"]), ("[a](my file (1).pdf)", ["1:7"]), ("[a](it's mine.md)", ["1:9"]),
            ("[a]( b c )", ["1:7"]), ("[a [b](c d) e](f)", ["1:9"]), ("[n](a b)\n\n[n]: c", ["1:6"]), ("> - [a](b c)", ["1:10"]),
            ("[a](b&amp;c d)", ["1:12"]), ("[a](b\tc)", ["1:6"]),
            # A title isn't a part of a destination, and these aren't links.
            ("[a](b \"c d\")", []), ("[a](b 'c d')", []), ("[a](b (c d))", []), ("[a](b\n\"c d\")", []), ("\\[a](b c)", []),
            ("```\n[a](b c)\n```", []), ("$[i](j k)$", []), ("$$\n[i](j k)\n$$", []), ("![](pic.png =100x20)", []), ("handlers[i](event, data)", []),
            ("<!-- [a](b c) -->", []), ("[^1]: see this.md", []), ("[Ann]: I said so, and more.", []), ("[x]: done", []),
        ):
            for words in ((), ("--gfm",)):
                with self.subTest(text, words=words):
                    self.write("a.md", text + "\n")
                    self.checks("a.md", [(place, "no-link") for place in places], *words)
        for text, place in (("[a](<b c>)", "1:7"), ("[a]({{ url }})", "1:5")):
            self.write("a.md", text + "\n")
            self.checks("a.md", [(place, SPACE)])

    @has("markdown_it")
    def test_a_broken_link_counts_once(self):
        """An address before the space of a destination isn't one next to it, and a template is told as in HTML."""
        for text, place, rule in (
            ("[a](http://h/a b)", "1:15", "no-link"), ("x www.h.x/a [a](www.h.x/b c) www.h.x/%", "1:26", "no-link"),
            ("[a]({{ url }})", "1:5", "code-point"), ("[a](http://h/{{ url }}/b)", "1:14", "code-point"),
            ("[a](/%s b)", "1:6", "percent"), ("[a](${b c})", "1:6", "code-point"),
        ):
            with self.subTest(text):
                self.write("a.md", text + "\n")
                more = [("1:38", "percent")] if text.endswith("%") else []
                self.checks("a.md", [(place, rule), *more], "--gfm")
                count = 3 if more else 1
                self.assertIn("{} link{},".format(count, "s" * (count > 1)), self.run_on("--gfm", "a.md")[2])
                if rule != "no-link":
                    self.write("a.html", '<a href="{}">'.format(text[4:-1]))
                    words = [self.run_on("-q", "--gfm", name)[1].split(" ", 1)[1] for name in ("a.md", "a.html")]
                    self.assertEqual(words[0], words[1])

    @has("markdown_it")
    def test_mdx(self):
        """Code isn't Markdown, and what is between braces isn't a link; between tags there is Markdown."""
        for text, links in (
            ("<a href={url}>x</a> <a href=\"b^\">y</a>", ["1:30:b^"]), ("{list[i](one, two)} [a](b)", ["1:25:b"]),
            ("export const f = () => handlers[i](event, data)\n\n[a](b)", ["3:5:b"]),
            ("import a from 'b'\n\nexport const c = {\n  d: e[0](f, g)\n\n}\n\n# T [a](<b c>)", ["8:10:b c"]),
            ("<A b={`x`} c={{href: 'd e'}}>\n    [x](y)\n</A>", ["2:9:y"]), ("{a `x ${b['}']} y`} [a](b) `{` [c](d) \\{", ["1:25:b", "1:36:d"]),
            ("```js\n{ [x](y z)\n```\n\n[a](b)", ["5:5:b"]), ("{a && <p>it's {b} Bob's</p>}\n\n[a](b)", ["3:5:b"]),
            ("a\nimport b [c](d)", ["2:14:d"]), ("[a]: <b c>\n", ["1:7:b c"]), ("---\na: http://h/\n---\nimport b from 'c'\n\n[d](e)", ["2:4:http://h/", "6:5:e"]),
        ):
            with self.subTest(text):
                self.finds("a.mdx", text + "\n", "\n".join(links))
        self.write("a.mdx", "{/* urlcheck: ignore */}\n<a href='b^'>c</a>\n\n[d](e f)\n\n{ open\n\n[g](h i)\n")
        self.checks("a.mdx", [("4:6", "no-link")])
        self.assertIn("a.mdx:6:1: warning: isn't read: braces that don't end\n", self.run_on("a.mdx")[2])

    @has("markdown_it")
    def test_many_definitions(self):
        """A block of many definitions takes time by their number, and not by its square; a title may have many
        lines."""
        self.write("a.md", "".join("[a{0}]: http://h/{0}\n".format(number) for number in range(8_000)) + "[b]: http://h/^\n")
        before = resource.getrusage(resource.RUSAGE_CHILDREN).ru_utime
        self.checks("a.md", [("8001:15", "code-point")])
        self.assertLess(resource.getrusage(resource.RUSAGE_CHILDREN).ru_utime - before, 12)
        self.finds("b.md", "[a]: b\n'c\nd\ne\nf\ng'\n[h]: i\n", "1:6:b\n7:6:i\n")
        self.finds("b.md", "[a]: b 'c\nd\ne\nf\n\n[h]: i\n[j]:\nk\n'l\nm\nn\no\n\n[p]: q\n", "6:6:i\n8:1:k\n14:6:q\n")

    @has("markdown_it")
    def test_front_matter(self):
        """It isn't a text, and its values that begin with a scheme and // are links."""
        for front, links in (
            ("---\ntitle: a\ncanonical: https://h/a b\n---\n", ["3:12:https://h/a b"]),
            ("---\na: \"https://h/ b\"  # c\nb: 'ftp://h/'\n---\n", ["2:5:https://h/ b", "3:5:ftp://h/"]),
            ("---\nlist:\n  - https://h/1 # no\n  - b\nflow: [https://h/2, 'https://h/3', x]\n...\n",
             ["3:5:https://h/1", "5:8:https://h/2", "5:22:https://h/3"]),
            ("---\ntext: see https://h/\n---\n", []),
            ("+++\na = \"https://h/%4\"\nb = ['https://h/5']\n+++\n", ["2:6:https://h/%4", "3:7:https://h/5"]),
            # Escapes are read; blocks of text, texts over lines, and keys aren't links.
            ('---\na: "http://h/caf\\u00e9"\nb: \'http://h/it\'\'s\'\n---\n', ["2:5:http://h/caf\u00e9", "3:5:http://h/it's"]),
            ('+++\na = "http://h/caf\\u00e9"\n"https://k/" = 1\n["https://t/"]\nb = """\nhttps://no/"""\n+++\n', ["2:6:http://h/caf\u00e9"]),
            ("---\na: |\n  https://no/x is here.\nr:\n  - https://a.e/x: /y\n  - >-\n   https://no/\n---\n", []),
            ("---\na: see\n  https://no/^\nb: https://no/\n  and more\nc: 'https://no/\n  x'\nd:\n  https://h/\n---\n", ["9:3:https://h/"]),
        ):
            with self.subTest(front):
                line = front.count("\n") + 1
                self.finds("a.md", front + "[x](y)\n", "".join(it + "\n" for it in links + ["{}:5:y".format(line)]))
        # (a rule above a text isn't the beginning of one)
        self.finds("a.md", "---\n\n[x](<a b>)\n\n---\n\n[y](z)\n", "3:6:a b\n7:5:z\n")
        self.finds("a.md", "---\n- [x](y)\n\n---\n", "2:7:y\n")
        # (what isn't at the start isn't one: there a line below a text makes it a heading)
        self.finds("a.md", "\n---\na: https://h/\n---\n[x](y)\n", "5:5:y\n")


class Rst(Texts):
    @has("docutils")
    def test_links(self):
        self.finds("a.rst", """Title
=====

`a <http://h/a b>`__ and `c <http://h/c^>`_ bare http://h/d, e_.

.. _e: http://h/%4

.. image:: f^.png
   :target: http://h/g

.. raw:: html

   <a href="h i">x</a>

``http://no/``::

   http://no/

.. urlcheck: ignore
`j <^>`_
""", "4:5:http://h/a b\n4:30:http://h/c^\n4:50:http://h/d\n6:8:http://h/%4\n8:12:f^.png\n9:13:http://h/g\n13:13:h i\n")
        self.checks("a.rst", [("4:15", SPACE), ("4:40", SPACE), ("6:17", "percent"), ("8:13", SPACE), ("13:14", SPACE)])

    @has("docutils")
    def test_spaces_that_docutils_takes_away(self):
        """A link over two lines is read as it is meant; within a line a space is the author's."""
        self.finds("a.rst", "`a <http://h/long/\npath>`_ and `b <http://h/b\tc d>`_ and e_ and e_.\n\n.. _e: http://h/e f\n\n"
                   "`g <http://h/gh>`_ http://h/g h\n",
                   "1:5:http://h/long/path\n2:17:http://h/b\tc d\n4:8:http://h/e f\n6:5:http://h/gh\n6:20:http://h/g\n")
        self.checks("a.rst", [("2:27", SPACE), ("4:18", SPACE)])

    @has("docutils")
    def test_a_term(self):
        """A link in a term has its own place, not the place of the same text before it."""
        for after in ("  one\n", "  one\n  two\n", "  one\n\n  - two\n  - three\n\n"):
            with self.subTest(after):
                self.finds("a.rst", ".. http://h/t\n\nhttp://h/t\n" + after, "3:1:http://h/t\n")

    @has("docutils")
    def test_a_space_beside_the_same_link(self):
        """A link with a space has its own place, even if the same one without it, a literal, code or HTML is
        before it."""
        spaced = "Para `space <http://h/a b>`_ end.\n"
        for before, places in (
            ("Good `ok <http://h/ab>`_.\n\n", ["6:24"]),
            (spaced + "\n", ["4:24", "6:24"]),
            ("Para ``http://h/a b`` literal.\n\n", ["6:24"]),
            ("Para ``space <http://h/a b>`_`` literal.\n\n", ["6:24"]),
            (".. code::\n\n   `space <http://h/a b>`_\n   http://h/a b\n\n", ["9:24"]),
            (".. raw:: html\n\n   <!-- http://h/a b -->\n   <a href=\"http://h/a b\">x</a>\n\n", ["7:23", "9:24"]),
            (".. _t: http://h/a b\n   c\n\nThe text t_ and again t_.\n\n", ["4:18", "9:24"]),
            (".. image:: http://h/a b\n   :alt: http://h/ab\n   :target: http://h/a c\n\n", ["4:22", "6:23", "8:24"]),
            ("`http://h/ab <http://h/a b>`__ `\n\n", ["4:25", "6:24"]),
            ("`a <b c>`__\n\n", ["4:6", "6:24"]),
            (".. _t: \\\n   http://h/ab\n\n", ["7:24"]),
        ):
            with self.subTest(before):
                self.write("a.rst", "T\n=\n\n" + before + spaced)
                self.checks("a.rst", [(place, SPACE) for place in places])

    @has("docutils")
    def test_what_docutils_does_not_know(self):
        self.write("a.rst", ":doc:`x`\n\n.. versionadded:: 1\n   See `y <http://h/^>`_.\n\n:d:`z <http://h/%>`\n\n"
                   ".. code-block:: c\n\n   http://no/^\n")
        self.write("b.rst", ":doc:`x`\n")
        self.checks("a.rst", [("4:21", SPACE), ("6:17", "percent")])
        said = self.run_on("--list", "a.rst", "b.rst")[2]
        self.assertEqual(said.count("are read only for their text"), 1)
        self.assertTrue(said.startswith("urlcheck-documents: a.rst: roles and directives"), said)

    @has("docutils")
    def test_what_is_lost(self):
        """A block that docutils drops is told at its line, and a line that it refuses takes nothing else with it."""
        link = "`a <http://h/^>`_"
        for text, places in (
            ("T\n=\n\n.. image:: http://h/a^b\n   :widht: 3\n", ["4:1"]), ("x\n\n==  ==\n" + link + " x y\n==  ==\n", ["4:1"]),
            ("+----+---+\n| " + link + " |\n+----+---+\n", ["1:1"]), (".. figure:: a.png\n   :scale: x\n\n   " + link + "\n", ["1:1"]),
            (".. list-table::\n\n   * - " + link + "\n   - x\n", ["1:1"]), (".. csv-table::\n   :header: \"a\n\n   \"b\" c\n", ["1:1"]),
            (".. code-block:: c\n   :caption: x\n\n   y\n", []), (".. note::\n", []), ("`x`_ and |y|\n\n   z\n", []),
        ):
            with self.subTest(text):
                self.write("a.rst", text)
                said = [it.split(": warning: isn't read: ")[0] for it in self.run_on("a.rst")[2].splitlines()[:-1]]
                self.assertEqual(said, ["urlcheck-documents: a.rst:" + it for it in places])
        self.write("a.rst", "x\n\n" + "y " * 600_000 + "\n\n" + link + "\n")
        self.checks("a.rst", [("5:14", SPACE)])
        self.assertIn("a.rst:3:1: warning: isn't read: a line of more than a MiB\n", self.run_on("a.rst")[2])

    @has("docutils")
    def test_nothing_else_is_read(self):
        """No other file, and nothing of the network."""
        self.write("b.html", "<a href='x y'>")
        self.write("b.rst", "`a <^>`_\n")
        self.write("a.rst", ".. include:: b.rst\n\n.. raw:: html\n   :file: b.html\n\n.. raw:: html\n   :url: http://127.0.0.1:9/\n\n"
                   ".. csv-table::\n   :url: http://127.0.0.1:9/\n\n`c <d>`_\n")
        self.assertEqual(self.run_on("--list", "-q", "a.rst")[:2], (0, "a.rst:12:5:d\n"))

    @has("docutils")
    def test_broken(self):
        for text in ("``a\n", "`a <b\n", ".. image::\n", "=\n", "a\n==\n-\n", "\0 `a <http://h/^>`_\n", ".. |a| replace:: |a|\n\n|a|\n"):
            with self.subTest(text):
                self.write("a.rst", text)
                self.assertIn(self.run_on("-q", "a.rst")[0], (0, 1))


class Notebooks(Texts):
    @has("markdown_it")
    def test_cells(self):
        """Places are in the file, and the message names the cell and its line too."""
        cells = [{"cell_type": "code", "source": ["[a](^)"]},
                 {"cell_type": "markdown", "source": ["# T\n", "\"q\" \u00e9\\n [a](<x y>) [b](c&amp;\t)\n", "\n", "\U0001f600 [d](^)"]},
                 {"cell_type": "markdown", "source": "<a href='e f'>"}, {"cell_type": "markdown", "source": None}, 3]
        for text in (json.dumps({"cells": cells}, indent=1), json.dumps({"cells": cells}), json.dumps({"cells": cells}, ensure_ascii=False)):
            self.write("a.ipynb", text)
            status, out, _ = self.run_on("-q", "a.ipynb")
            lines = text.split("\n")
            found = [it.split(": error: ") for it in out.splitlines()]
            self.assertEqual([it[1].split(" [")[0] for it in found], [
                "U+0020 SPACE is not allowed in a URL, in cell 2, line 2",
                "U+005E CIRCUMFLEX ACCENT is not allowed in a URL, in cell 2, line 4",
                "U+0020 SPACE is not allowed in a URL, in cell 3, line 1"])
            for (place, _), wanted in zip(found, (" y>)", "^)", " f'>")):
                line, column = map(int, place.split(":")[1:])
                self.assertTrue(lines[line - 1][column - 1 :].startswith(wanted), place)

    @has("markdown_it")
    def test_broken(self):
        for text, said in (
            ("{", "a.ipynb:1:2: can't be read from here on: no JSON: expecting property name enclosed in double quotes"),
            ("[]", "a.ipynb: isn't a notebook that can be read: it has no cells"),
            ("{\"cells\": 1}", "a.ipynb: isn't a notebook that can be read: it has no cells"),
            ("[" * 100_000, "a.ipynb: is nested too deeply"),
        ):
            self.write("a.ipynb", text)
            status, out, err = self.run_on("-q", "a.ipynb")
            self.assertEqual((status, out, err), (2, "", "urlcheck-documents: " + said + "\n"))


class Feeds(Texts):
    def test_json_feed(self):
        feed = {"version": "https://jsonfeed.org/version/1.1", "home_page_url": "http://h/a b", "feed_url": "x", "icon": "",
                "_x": {"url": "^"}, "hubs": [{"type": "t", "url": "http://h/%"}],
                "items": [{"id": "^", "url": "http://h/", "content_html": "<p>\"<a href=\"y z\">", "content_text": "^",
                           "attachments": [{"url": "http://h/^"}]}]}
        for text in (json.dumps(feed), json.dumps(feed, indent=2)):
            self.write("feed.json", text)
            out = self.run_on("-q", "feed.json")[1]
            rules = [it.split("[")[-1] for it in out.splitlines()]
            self.assertEqual(rules, ["code-point]", "no-scheme]", "empty]", "percent]", "code-point]", "code-point]"])
            for line, wanted in zip(out.splitlines(), (" b\"", "x\"", "\"", "%\"", " z\\\"", "^\"")):
                row, column = map(int, line.split(":")[1:3])
                self.assertTrue(text.split("\n")[row - 1][column - 1 :].startswith(wanted), line)
        self.write("feed.json", "{}")
        self.assertIn("isn't a JSON Feed", self.run_on("--list", "feed.json")[2])

    def test_surrogates(self):
        """One in an escape loses no other link: it is read as U+FFFD."""
        self.write("feed.json", '{"items": [{"url": "http://h/\\ud800", "image": "a b\\ud800"}]}')
        self.checks("feed.json", [("1:50", SPACE)])

    def test_what_is_absolute(self):
        """A `loc`, the `link` of RSS and a `guid` that is a permalink, and the `id` of Atom."""
        self.write("a.xml", "<rss><channel><link>x</link>\n<link/><item><link></link>\n<guid> /a </guid><guid isPermaLink='false'/>"
                   "<comments>x</comments><guid isPermaLink='false'>y</guid></item></channel></rss>")
        self.checks("a.xml", [("1:21", "no-scheme"), ("2:1", "no-scheme"), ("2:20", "no-scheme"), ("3:8", "no-scheme")])
        self.write("b.xml", "<urlset><url><loc>/a</loc></url><url><loc>http://h/</loc></url><url><loc/></url></urlset>")
        self.checks("b.xml", [("1:19", "no-scheme"), ("1:69", "no-scheme")])
        self.checks("b.xml", [("1:19", "no-scheme")], "--no-empty")
        self.write("c.xml", "<feed xmlns='http://www.w3.org/2005/Atom'><id>tag:h,2005:x</id><id>y</id><link href='z'/></feed>")
        self.checks("c.xml", [("1:68", "no-scheme")])

    def test_html_in_feeds(self):
        """That of descriptions, however it is written, at its own places."""
        self.write("a.xml", "<rss xmlns:c='http://purl.org/rss/1.0/modules/content/'><channel>\n"
                   "<description>&lt;a href=\"x y\"&gt; &lt;img src='&amp;amp;^'&gt;</description>\n"
                   "<c:encoded><![CDATA[\n<p><a href='z z'>]]></c:encoded><title>&lt;a href='no no'></title>\n"
                   "<description>a &lt; b</description></channel></rss>")
        self.checks("a.xml", [("2:27", SPACE), ("2:57", SPACE), ("4:14", SPACE)])
        self.write("b.xml", "<feed xmlns='http://www.w3.org/2005/Atom' xml:base='urn:a'><summary type='html'>&lt;a href='b'></summary>"
                   "<summary>&lt;a href='no no'></summary></feed>")
        self.checks("b.xml", [("1:93", "opaque-base")])


class Vocabularies(Texts):
    def test_vocabularies(self):
        for name, text, links in (
            ("a.opml", "<opml><head><docs>b c</docs></head><body><outline xmlUrl='d e' htmlUrl='f' text='http://no/'/></body></opml>",
             "1:19:b c\n1:59:d e\n1:73:f\n"),
            ("a.xml", "<book><para><ulink url='x y'>t</ulink></para></book>", "1:25:x y\n"),
            ("a.dita", "<topic><xref href='x y'/><p conref='b.dita#c'/><link>no</link></topic>", "1:20:x y\n1:37:b.dita#c\n"),
            ("b.xml", "<component><url type='homepage'>http://h/a b</url><name>no</name><screenshots><screenshot><image>x</image>"
             "</screenshot></screenshots></component>", "1:33:http://h/a b\n1:98:x\n"),
            ("pom.xml", "<project xmlns='http://maven.apache.org/POM/4.0.0'><url>http://h/a b</url><scm><url>${x}</url></scm></project>",
             "1:57:http://h/a b\n"),
            ("e.xml", "<article><imagedata fileref='a b.png'/><graphic fileref='c'/><para fileref='no'/></article>",
             "1:30:a b.png\n1:58:c\n"),
            ("f.xml", "<article xmlns='http://docbook.org/ns/docbook'><imagedata fileref='a b.png'/></article>", "1:68:a b.png\n"),
            ("b.dita", "<topic><object data='a b'/><p conrefend='c'/><topicref copy-to='d'/></topic>", "1:22:a b\n1:42:c\n1:65:d\n"),
            ("g.xml", "<component><icon type='remote'>http://h/a b</icon><icon type='stock'>no</icon><issue url='x'/></component>",
             "1:32:http://h/a b\n1:91:x\n"),
            ("c.xml", "<project><organization><url>http://h/%</url></organization></project>", "1:29:http://h/%\n"),
            ("a.opf", "<package xmlns='http://www.idpf.org/2007/opf'><manifest><item href='a b.xhtml'/></manifest></package>",
             "1:69:a b.xhtml\n"),
            ("a.ncx", "<ncx xmlns='http://www.daisy.org/z3986/2005/ncx/'><content src='a b'/></ncx>", "1:65:a b\n"),
            ("d.xml", "<article xmlns='http://docbook.org/ns/docbook' xmlns:x='http://www.w3.org/1999/xlink'><link x:href='a b'/></article>",
             "1:101:a b\n"),
            ("e.svg", "<svg xmlns='http://www.w3.org/2000/svg'><a href='a b'/></svg>", "1:50:a b\n"),
        ):
            with self.subTest(name):
                self.finds(name, text, links)
                self.assertNotIn("its names aren't known", self.run_on("--list", name)[2])

    def test_a_catalog(self):
        """Images of AppStream have a scheme, unless the catalog says what they are relative to."""
        text = "<components{}><component><url>x</url><image>y</image><icon type='remote'>z</icon></component></components>"
        self.write("a.xml", text.format(""))
        self.checks("a.xml", [("1:29", "no-scheme"), ("1:43", "no-scheme"), ("1:72", "no-scheme")])
        self.write("b.xml", text.format(" media_baseurl='http://h/^'"))
        self.checks("b.xml", [("1:37", SPACE), ("1:56", "no-scheme")])

    def test_unknown(self):
        """What looks like a link is read, and that no name is known is said."""
        self.finds("a.xml", "<a href='http://h/a b' url='no no' x='http://no/'><url>urn:c d</url><link>no</link><src>http://no/</src>"
                   "<i src=' http://h/ '/></a>", "1:10:http://h/a b\n1:56:urn:c d\n1:114:http://h/\n")
        note = "urlcheck-documents: a.xml: its names aren't known: only each href, url and src, and each element"
        self.assertIn(note, self.run_on("--list", "a.xml")[2])
        self.assertNotIn("names", self.run_on("--list", "-q", "a.xml")[2])
        self.write("b.xml", "<a><b/></a>")
        self.assertIn("b.xml: its names aren't known", self.run_on("--list", "b.xml")[2])

    def test_feed_extensions(self):
        names = {
            "w": "http://wellformedweb.org/CommentAPI/", "m": "http://search.yahoo.com/mrss/", "f": "http://rssnamespace.org/feedburner/ext/1.0",
            "t": "http://purl.org/syndication/thread/1.0", "i": "http://www.itunes.com/dtds/podcast-1.0.dtd",
            "p": "https://podcastindex.org/namespace/1.0", "a": "http://www.w3.org/2005/Atom",
            "g": "http://www.google.com/schemas/sitemap-image/1.1",
        }
        spaces = "".join(" xmlns:{}='{}'".format(*it) for it in names.items())
        elements = (
            "<w:comment>{}</w:comment>", "<w:commentRss>{}</w:commentRss>", "<m:player url='{}'/>", "<m:license href='{}'/>",
            "<f:origLink>{}</f:origLink>", "<t:in-reply-to href='{}'/>", "<t:in-reply-to source='{}'/>",
            "<i:new-feed-url>{}</i:new-feed-url>", "<p:transcript url='{}'/>", "<p:chapters url='{}'/>", "<p:person img='{}'/>",
            "<p:person href='{}'/>", "<p:funding url='{}'>x</p:funding>", "<p:trailer url='{}'/>", "<p:source uri='{}'/>",
            "<a:id>{}</a:id>", "<a:category scheme='{}'/>", "<g:license>{}</g:license>", "<m:content url='{}'/>", "<enclosure url='{}'/>",
        )
        text = "<rss{}><channel>\n{}\n</channel></rss>".format(spaces, "\n".join(it.format("http://h/^") for it in elements))
        self.write("a.xml", text)
        wanted = [("{}:{}".format(at, it.index("{") + 10), SPACE) for at, it in enumerate(elements, 2)]
        self.checks("a.xml", wanted)


class Css(Texts):
    @has("tinycss2")
    def test_links(self):
        self.finds("a.css", "@import 'a b.css';\n@import url(c.css) print;/* url(no) */\n"
                   "b { background: url( \"d e\" ), url(f%); content: 'url(no)' }\n@media x { c { src: url('g') } }\nd { x: url(h\\) i) }\n"
                   "e { x: image-set(\"j k\" 1x, url(l) type(\"no\")), url( my pic.png ) }",
                   "1:10:a b.css\n2:13:c.css\n3:23:d e\n3:35:f%\n4:26:g\n5:12:h) i\n6:19:j k\n6:32:l\n6:53:my pic.png\n")
        self.write("b.css", "a { b: url(c\\ d) }\n/* urlcheck: ignore */\ne { f: url('g h') }\r\ni { j: url('\u00e9 k') }")
        self.checks("b.css", [("1:13", SPACE), ("4:14", SPACE)])
        for text in ("a{background:url(my pic.png)}", "@import url(my pic.png);", "url(my pic.png)"):
            self.write("c.css", text)
            self.checks("c.css", [("1:{}".format(text.index(" pic") + 1), SPACE)])
        # (a surrogate stands for no code point: CSS Syntax, section 4.3.7)
        self.finds("d.css", "a { b: url(\"x\\d800 y\"), url(z) }", "1:13:x\ufffdy\n1:29:z\n")

    @has("tinycss2")
    def test_in_html(self):
        self.write("a.html", "<style>\n@import 'a b';\nc { d: url(e^) }</style>\n<p style='x: url(\"f&amp;g^\")' style='url(no^)'><p style=\"color: red\">"
                   "<a href='h i'>")
        self.checks("a.html", [("2:11", SPACE), ("3:13", SPACE), ("4:26", SPACE), ("4:80", SPACE)])
        self.write("b.svg", "<svg xmlns='http://www.w3.org/2000/svg'><g style='fill: url(a^)'/>\n<style>a { fill: url(b^) }</style>\n"
                   "<style><![CDATA[a { fill: url('c d') }]]></style><g fill='url(#e f)' mask='none'/></svg>")
        self.checks("b.svg", [("1:62", SPACE), ("2:23", SPACE), ("3:33", SPACE), ("3:65", SPACE)])
        self.write("c.html", "<svg><g fill='url(#e f)'/></svg><p style='x: url(my pic.png)'><style>a { b: url(my pic.png) }</style>")
        self.checks("c.html", [("1:21", SPACE), ("1:52", SPACE), ("1:83", SPACE)])

    def test_without_its_package(self):
        """A folder's style sheets are counted, one that is named isn't read, and of HTML that is said."""
        self.write("sitecustomize.py", "import sys\nsys.modules['tinycss2'] = None\n")
        self.write("d/a.css", "a { b: url(c^) }")
        self.write("d/a.html", "<style>a { b: url(c^) }</style><a href=x>")
        import os
        from unittest import mock

        path = self.room + os.pathsep + os.environ.get("PYTHONPATH", "")
        with mock.patch.dict(os.environ, PYTHONPATH=path):
            status, out, said = self.run_on("d")
            self.assertEqual((status, out), (0, ""))
            self.assertIn("d/a.html: styles aren't read, which needs the package tinycss2", said)
            self.assertTrue(said.endswith("1 document, 1 link, 0 refused, 0 ignored; not read: 1 .css\n"), said)
            self.assertIn("d/a.css: is CSS, which needs the package tinycss2", self.run_on("--list", "d/a.css")[2])


class Books(Texts):
    def book(self, files, **given):
        data = io.BytesIO()
        with zipfile.ZipFile(data, "w", **given) as book:
            for name, text in files:
                book.writestr(name, text)
        return data.getvalue()

    def test_links(self):
        page = "<html xmlns='http://www.w3.org/1999/xhtml'>\n<a href='{}'/></html>"
        self.write("a.epub", self.book((
            ("mimetype", "application/epub+zip"), ("OEBPS/a.xhtml", page.format("x y")), ("OEBPS/b.xhtml", page.format("z")),
            ("OEBPS/c.opf", "<package xmlns='http://www.idpf.org/2007/opf'><item href='d e'/></package>"), ("OEBPS/c.png", "x"),
        ), compression=zipfile.ZIP_DEFLATED))
        status, out, said = self.run_on("a.epub")
        self.assertEqual((status, [it.split(": error")[0] for it in out.splitlines()]),
                         (1, ["a.epub/OEBPS/a.xhtml:2:11", "a.epub/OEBPS/c.opf:1:60"]))
        self.assertEqual(said, "urlcheck-documents: 1 document, 3 links, 2 refused, 0 ignored\n")
        self.assertEqual(self.run_on("--list", "a.epub")[1].splitlines()[1], "a.epub/OEBPS/b.xhtml:2:10:z")

    def test_broken(self):
        book = self.book((("a.xhtml", "<a"), ("b.html", "<a href='x y'>")))
        self.write("a.epub", book)
        status, out, said = self.run_on("-q", "a.epub")
        self.assertEqual((status, out.count("\n")), (2, 1))
        self.assertTrue(said.startswith("urlcheck-documents: a.epub/a.xhtml:1:1: can't be read from here on: "), said)
        large = self.book((("a.html", b" " * (129 << 20)),), compression=zipfile.ZIP_DEFLATED)
        for data, wanted in ((b"", "isn't a book"), (b"PK\x03\x04x", "isn't a book"), (book[:-9], "isn't a book"),
                             (large, "holds more than 128 MiB"), (book.replace(b"<a href", b"<b href"), "isn't a book")):
            self.write("b.epub", data)
            status, out, said = self.run_on("-q", "b.epub")
            self.assertEqual((status, said.count("\n")), (2, said.count("\n")))
            self.assertIn("b.epub: " + wanted, said)


class Asked(Texts):
    def test_empty(self):
        """HTML's elements whose URL isn't empty, and those whose may be."""
        wrong = ("<img src>", "<script src=''>x</script>", "<iframe src=' '></iframe>", "<link href=''>", "<form action=''>",
                 "<button formaction=''>", "<video poster=''>", "<object data=''>", "<input src=''>", "<source src=''>")
        for text in wrong:
            with self.subTest(text):
                self.write("a.html", text)
                out = self.run_on("-q", "a.html")[1]
                self.assertIn("this link is empty, which its format forbids here [empty]", out)
                self.assertEqual(self.run_on("-q", "--no-empty", "a.html"), (0, "", ""))
        self.write("b.html", "<a href=''><area href=''><base href=''><q cite=''></q>")
        self.checks("b.html", [])
        self.write("c.xhtml", "<html xmlns='http://www.w3.org/1999/xhtml'><img src=''/><a href=''/></html>")
        self.checks("c.xhtml", [("1:54", "empty")])

    def test_in_each_format(self):
        self.write("a.html", "<img src=''>")
        for name in "gnu caret json github sarif checkstyle junit gitlab rdjson".split():
            status, out, said = self.run_on("-q", "--format", name, "a.html")
            self.assertEqual((status, said), (1, ""))
            self.assertIn("empty", out)
        (result,) = json.loads(self.run_on("-q", "--format", "sarif", "a.html")[1])["runs"][0]["results"]
        self.assertEqual((result["ruleId"], "ruleIndex" in result, "fixes" in result), ("empty", False, False))


if __name__ == "__main__":
    unittest.main()
