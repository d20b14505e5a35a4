"""Tests of what urlcheck.documents writes in place of links: --fix, --diff and --unsafe-fixes. The package is on PYTHONPATH."""

import importlib.util
import os
import resource
import shutil
import stat
import subprocess
import sys
import time
import unittest

from room import PROGRAM, Texts

PAGE = (
    "<!doctype html>\r\n<a href='http://h/a b'>1</a> <a href=http:\\\\h\\x>2</a>\r\n"
    '<a href="http://h/{{ id }}">template</a> <a href="http://192.168.010.1/a b">octal</a>\n'
    '<a href="https://http://h/x">two</a> <a href="http://h/&amp;a b">reference</a>\n'
    '<!-- urlcheck: ignore -->\n<a href="http://h/meant so">left</a>\n\u00e9 <img src="p q.png" srcset="r^.png 1x, s.png 2x">'
)

FIXED = (
    "<!doctype html>\r\n<a href='http://h/a%20b'>1</a> <a href=http://h/x>2</a>\r\n"
    '<a href="http://h/{{ id }}">template</a> <a href="http://192.168.010.1/a b">octal</a>\n'
    '<a href="https://http://h/x">two</a> <a href="http://h/&amp;a%20b">reference</a>\n'
    '<!-- urlcheck: ignore -->\n<a href="http://h/meant so">left</a>\n\u00e9 <img src="p%20q.png" srcset="r%5E.png 1x, s.png 2x">'
)

# A document of each kind with one wrong link, and that as it is fixed.
KINDS = {
    "a.xml": ('<?xml version="1.0"?>\n<rss><channel><link>http://h/a b</link></channel></rss>', "http://h/a%20b"),
    "a.css": ('a { b: url("http://h/a b") }\n', "http://h/a%20b"),
    "a.jsonfeed": ('{"version": "https://jsonfeed.org/version/1.1", "home_page_url": "http://h/a b"}', "http://h/a%20b"),
    "a.md": ("# T\n\n[x](<http://h/a b>) and `[y](<http://h/a b>)`\n", "http://h/a%20b"),
    "a.rst": ("T\n=\n\n`x <http://h/a^b>`__ and ``http://h/a^b``\n", "http://h/a%5Eb"),
    "a.ipynb": (
        '{"cells": [{"cell_type": "markdown", "metadata": {}, "source": ["[x](<http://h/a b>)"]}], "metadata": {},\n'
        ' "nbformat": 4, "nbformat_minor": 5}\n',
        "http://h/a%20b",
    ),
}

# What is written in place of a link that has escapes of its document, by kinds: before, and as readers see the mended text.
ESCAPED = (
    ("a.html", '<a href="?a=1&amp;b=c d">', '<a href="?a=1&amp;b=c%20d">'),
    ("a.html", "<a href='?a=1&b=c d'>", "<a href='?a=1&b=c%20d'>"),
    ("a.html", '<a href="?a&am\tp;b">', '<a href="?a&amp;amp;b">'),
    ("a.html", "<a href='&eacute;&apos; b'>", "<a href='&#233;&#39;%20b'>"),
    ("a.html", "<a href='\u00e9\"&#x20;b'>", "<a href='\u00e9%22%20b'>"),
    ("a.html", '<img srcset="a b&amp;.png 1x, c">', '<img srcset="a%20b&amp;.png 1x, c">'),
    ("a.html", '<p style="a: url(&quot;x y&quot;)">', '<p style="a: url(&quot;x%20y&quot;)">'),
    ("a.rss", "<rss><channel><link>http://h/?a&amp;b c</link></channel></rss>",
     "<rss><channel><link>http://h/?a&amp;b%20c</link></channel></rss>"),
    ("a.rss", "<rss><channel><link><![CDATA[http://h/?a&b c]]></link></channel></rss>",
     "<rss><channel><link><![CDATA[http://h/?a&b%20c]]></link></channel></rss>"),
    ("a.rss", "<rss><channel><link>http://h/?a&#38;b&#32;c&#xe9;</link></channel></rss>",
     "<rss><channel><link>http://h/?a&amp;b%20c&#233;</link></channel></rss>"),
    ("a.rss", "<rss><channel><description>&lt;a href='?a&amp;amp;b c'></description></channel></rss>",
     "<rss><channel><description>&lt;a href='?a&amp;amp;b%20c'></description></channel></rss>"),
    ("a.svg", "<svg xmlns='http://www.w3.org/2000/svg'><a href='?a&amp;b\nc'/></svg>",
     "<svg xmlns='http://www.w3.org/2000/svg'><a href='?a&amp;b%20c'/></svg>"),
    ("a.jsonfeed", '{"items": [], "icon": "\\u00e9\\/\\"b c"}', '{"items": [], "icon": "\\u00e9/%22b%20c"}'),
    ("a.jsonfeed", '{"items": [{"content_html": "<a href=\\"?a&amp;b c\\">"}]}',
     '{"items": [{"content_html": "<a href=\\"?a&amp;b%20c\\">"}]}'),
    ("a.css", "a { b: url('c\\'d e') }", "a { b: url('c\\'d%20e') }"),
    ("a.css", "a { b: url(c\\ d\\)) }", "a { b: url(c%20d\\)) }"),
    ("a.md", "[a](<b&amp;c d>) [e](f\\)g^)\n", "[a](<b&amp;c%20d>) [e](f\\)g%5E)\n"),
    ("a.ipynb", '{"cells": [{"cell_type": "markdown", "source": "[a](<b&amp;c \\u00e9>)"}]}',
     '{"cells": [{"cell_type": "markdown", "source": "[a](<b&amp;c%20\\u00e9>)"}]}'),
    ("a.md", '---\na: "http://h/caf\\u00e9 \\"b"\nb: [\'http://h/it\'\'s ^\']\n---\n',
     '---\na: "http://h/caf\\u00e9%20%22b"\nb: [\'http://h/it\'\'s%20%5E\']\n---\n'),
    ("a.rst", "`a <http://h/long/\npa^th>`_\n", "`a <http://h/long/pa%5Eth>`_\n"),
)

# What isn't surely a link, or not surely the same one: it is written only with --unsafe-fixes.
UNCERTAIN = (
    ("a.md", "[sic](my own note)\n", "[sic](my%20own%20note)\n"),
    ("a.md", "![b](my pic.png \"T\")\n", "![b](my%20pic.png \"T\")\n"),
    ("a.css", "a { b: url(my pic.png) }", "a { b: url(my%20pic.png) }"),
    ("a.html", '<a href="http:/h/x">', '<a href="http://h/x">'),
)


class Fixing(Texts):
    def read(self, name):
        with open(os.path.join(self.room, name), "rb") as file:
            return file.read()

    def test_only_what_is_offered_is_written(self):
        for mark in (b"", b"\xef\xbb\xbf"):
            self.write("page.html", mark + PAGE.encode())
            status, out, said = self.run_on("--fix", "page.html")
            self.assertEqual(self.read("page.html"), mark + FIXED.encode())
            places = [line.split(": ")[0] for line in out.splitlines()]
            self.assertEqual((status, places), (1, ["page.html:3:19", "page.html:3:58", "page.html:4:24"]))
            self.assertTrue(said.endswith(": 1 document, 10 links, 3 refused, 1 ignored, 5 fixed\n"), said)
        # a second time there is nothing left to write
        before = os.stat(os.path.join(self.room, "page.html"))
        status, _, said = self.run_on("--fix", "page.html")
        after = os.stat(os.path.join(self.room, "page.html"))
        self.assertEqual((status, after.st_ino, after.st_mtime_ns), (1, before.st_ino, before.st_mtime_ns))
        self.assertTrue(said.endswith("1 ignored, 0 fixed\n"), said)

    def test_unsafe(self):
        self.write("page.html", "<a href=https:example.com/a>x</a> <a href=\"http://h/{{ a b }}\">y</a><a href=http://h:80x/>z</a>")
        offered = self.run_on("--format", "json", "page.html")[1].count('"offered":true')
        self.run_on("--fix", "--unsafe-fixes", "page.html")
        left = self.run_on("--format", "json", "page.html")[1]
        self.assertGreater(offered, 0)
        self.assertEqual(left.count('"offered":true'), 0)
        self.assertIn(b"{{ a b }}", self.read("page.html"))

    def test_counts(self):
        """A difference counts what is refused now; what only unsafe fixes would write is counted, unless that is quiet."""
        text = '<a href="http://h/a b">x</a> <a href=https:example.com/a>y</a> <a href="{{ a b }}">z</a>\n'
        more = "urlcheck-documents: {} could be fixed with --unsafe-fixes, perhaps to another URL\n"
        left = "urlcheck-documents: {} fixed: {} a template\n"
        counts = "urlcheck-documents: {}, {} refused, 0 ignored, {}\n"
        self.write("a.html", text)
        self.write("b.html", text)
        self.write("c.xml", '<svg xmlns="http://www.w3.org/2000/svg"><a href="https:example.com/a"/>&broken')
        both, one = "2 documents, 6 links", "1 document, 3 links"
        said = self.run_on("--diff", "a.html", "b.html")[2]
        two, one_left = left.format("2 links aren't", 2), left.format("1 link isn't", 1)
        self.assertEqual(said, two + more.format("2 more links") + counts.format(both, 6, "2 would be fixed"))
        said = self.run_on("--diff", "--unsafe-fixes", "a.html", "b.html")[2]
        self.assertEqual(said, two + counts.format(both, 6, "4 would be fixed"))
        said = self.run_on("--fix", "a.html")[2]
        self.assertEqual(said, one_left + more.format("1 more link") + counts.format(one, 2, "1 fixed"))
        said = self.run_on("--fix", "a.html")[2]
        self.assertEqual(said, one_left + more.format("1 more link") + counts.format(one, 2, "0 fixed"))
        self.assertEqual(self.run_on("--fix", "--quiet", "b.html")[2], "")
        self.assertNotIn("unsafe", self.run_on("--fix", "--type", "xml", "c.xml")[2])
        said = self.run_on("--fix", "--unsafe-fixes", "a.html")[2]
        self.assertEqual(said, one_left + counts.format(one, 1, "1 fixed"))

    def test_each_kind(self):
        packages = {"a.css": "tinycss2", "a.md": "markdown_it", "a.ipynb": "markdown_it", "a.rst": "docutils"}
        for name, (text, wanted) in KINDS.items():
            try:
                __import__(packages.get(name, "sys"))
            except ImportError:
                continue
            with self.subTest(name):
                wrong = wanted.replace("%20", " ").replace("%5E", "^")
                self.write(name, text)
                self.assertEqual(self.run_on("--fix", name)[:2], (0, ""))
                self.assertEqual(self.read(name).decode(), text.replace(wrong, wanted, 1))

    def test_escapes(self):
        """A text is written with the escapes that its document needs, and read back as the mended one."""
        packages = {"a.css": "tinycss2", "a.md": "markdown_it", "a.ipynb": "markdown_it", "a.rst": "docutils"}
        for name, before, after in ESCAPED:
            if not importlib.util.find_spec(packages.get(name, "sys")) or ("style=" in before and not importlib.util.find_spec("tinycss2")):
                continue
            with self.subTest(before):
                self.write(name, before)
                help_of = [it[12:] for it in self.run_on("-q", "--format", "caret", name)[1].splitlines() if it.startswith("help: write ")]
                self.run_on("--fix", name)
                self.assertEqual(self.read(name).decode(), after)
                self.assertTrue(help_of and all(it in after for it in help_of), help_of)
                self.assertEqual(self.run_on("-q", name), (0, "", ""))

    def test_what_is_uncertain(self):
        packages = {"a.css": "tinycss2", "a.md": "markdown_it"}
        for name, before, after in UNCERTAIN:
            if not importlib.util.find_spec(packages.get(name, "sys")):
                continue
            for gfm in ((), ("--gfm",)):
                with self.subTest(before, gfm=gfm):
                    self.write(name, before)
                    said = self.run_on("--fix", *gfm, name)[2]
                    self.assertEqual(self.read(name).decode(), before)
                    self.assertIn("1 more link could be fixed with --unsafe-fixes", said)
                    self.run_on("--fix", "--unsafe-fixes", *gfm, name)
                    self.assertEqual(self.read(name).decode(), after)
        # On a page whose address is known it is the same URL.
        for base, wanted in (('<base href="https://h/">', "http://h/x"), ('<base href="b/">', "http:/h/x")):
            self.write("a.html", base + '<a href="http:/h/x">')
            self.run_on("--fix", "a.html")
            self.assertIn(wanted, self.read("a.html").decode())

    @unittest.skipUnless(importlib.util.find_spec("markdown_it"), "markdown-it-py isn't installed")
    def test_texts_of_front_matter(self):
        """A value with a space is perhaps a text, and stays as it is."""
        text = "---\na: https://h/ is down\nb: |\n  https://h/x^ y\nc:\n  - https://h/^: /y\n---\n"
        self.write("a.md", text)
        places = self.run_on("-q", "--fix", "--unsafe-fixes", "a.md")[1]
        self.assertEqual((places.split(" ")[0], places.count("\n"), self.read("a.md").decode()), ("a.md:2:14:", 1, text))

    @unittest.skipUnless(importlib.util.find_spec("docutils"), "docutils isn't installed")
    def test_spaces_that_docutils_drops(self):
        """Readers see the link without its space, so that no other text is offered."""
        self.write("a.rst", "`a <http://h/b c>`_\n")
        status, out, said = self.run_on("--fix", "--unsafe-fixes", "--format", "caret", "a.rst")
        self.assertEqual((status, out.count("\n"), self.read("a.rst")), (1, 3, b"`a <http://h/b c>`_\n"))
        self.assertIn("0 fixed", said)

    def test_difference(self):
        lines = ["<p>{}</p>\n".format(number) for number in range(60)]
        for at in (0, 5, 20, 21, 28, 50, 59):
            lines[at] = '<a href="http://h/{} b">x</a>\n'.format(at)
        lines[35] = '<a href="http://h/x\n y">two lines</a>\n'
        for end in ("\n", ""):
            text = "".join(lines).rstrip("\n") + end
            self.write("page.html", text)
            status, out, said = self.run_on("--diff", "page.html")
            self.assertEqual((status, self.read("page.html").decode()), (1, text))
            self.assertTrue(out.startswith("--- page.html\n+++ page.html\n@@ -1,"), out)
            self.run_on("--fix", "page.html")
            fixed = self.read("page.html")
            self.assertEqual(fixed.count(b"%20"), 8)
            if shutil.which("patch"):
                self.write("page.html", text)
                subprocess.run(["patch", "-s", "-p0"], input=out.encode(), cwd=self.room, check=True)
                self.assertEqual(self.read("page.html"), fixed)
        self.assertEqual(self.run_on("--diff", "page.html")[:2], (0, ""))

    def test_modes_and_links(self):
        self.write("d/page.html", '<a href="http://h/a b">')
        self.write("out.html", '<a href="http://h/a b">')
        os.chmod(os.path.join(self.room, "d/page.html"), 0o640)
        os.symlink("page.html", os.path.join(self.room, "d", "same.html"))
        os.symlink("../out.html", os.path.join(self.room, "d", "other.html"))
        status, _, said = self.run_on("--fix", "d")
        self.assertEqual(status, 2)
        self.assertIn("d/other.html: is a symbolic link out of the folder, and isn't written\n", said)
        self.assertEqual(self.read("out.html"), b'<a href="http://h/a b">')
        self.assertEqual(self.read("d/page.html"), b'<a href="http://h/a%20b">')
        self.assertEqual(stat.S_IMODE(os.stat(os.path.join(self.room, "d/page.html")).st_mode), 0o640)
        self.assertTrue(os.path.islink(os.path.join(self.room, "d", "same.html")))
        # what is named itself is written, wherever it leads
        self.assertEqual(self.run_on("--fix", "d/other.html")[0], 0)
        self.assertEqual(self.read("out.html"), b'<a href="http://h/a%20b">')
        self.assertEqual(sorted(os.listdir(self.room)), ["d", "out.html"])
        self.assertEqual(sorted(os.listdir(os.path.join(self.room, "d"))), ["other.html", "page.html", "same.html"])

    def test_what_cant_be_written_stays_whole(self):
        text = '<a href="http://h/a b">' + " " * 200
        self.write("d/page.html", text)

        def limited():
            resource.setrlimit(resource.RLIMIT_FSIZE, (64, 64))

        command = [*PROGRAM, "--fix", "d/page.html"]
        ran = subprocess.run(command, cwd=self.room, capture_output=True, preexec_fn=limited, check=False)
        self.assertEqual((ran.returncode, ran.stdout.count(b"\n")), (2, 1), ran)
        self.assertIn(b"d/page.html: can't be written: the file may not get larger\n", ran.stderr)
        self.assertEqual(self.read("d/page.html").decode(), text)
        self.assertEqual(os.listdir(os.path.join(self.room, "d")), ["page.html"])
        # (root may write what permits it to nobody)
        if os.getuid():
            os.chmod(os.path.join(self.room, "d/page.html"), 0o444)
            self.assertIn("d/page.html: can't be written: permission denied\n", self.run_on("--fix", "d")[2])
            self.assertEqual(self.read("d/page.html").decode(), text)

    def test_broken_documents_are_left(self):
        text = '<rss><channel><link>http://h/a b</link>&broken'
        self.write("a.xml", text)
        status, _, said = self.run_on("--fix", "--type", "xml", "a.xml")
        self.assertEqual((status, self.read("a.xml").decode()), (2, text))
        self.assertIn("can't be read from here on", said)

    def test_killed_at_any_moment_no_file_is_broken(self):
        wrong = ('<a href="http://h/a b">x</a>\n' * 2000).encode()
        fixed = wrong.replace(b"a b", b"a%20b")
        for wait in range(8):
            for number in range(6):
                self.write("d/{}.html".format(number), wrong)
            run = subprocess.Popen([*PROGRAM, "-q", "--fix", "d"], cwd=self.room, stdout=subprocess.DEVNULL, stderr=subprocess.DEVNULL)
            time.sleep(0.05 + wait * 0.07)
            run.kill()
            run.wait()
            for number in range(6):
                self.assertIn(self.read("d/{}.html".format(number)), (wrong, fixed))

    def test_words(self):
        for words, said in (
            (["--fix", "-"], "--fix and --diff are for files, and - is standard input"),
            (["--unsafe-fixes", "a.html"], "--unsafe-fixes is for --fix and --diff"),
            (["--list", "--fix", "a.html"], "--list checks nothing, so that --fix has no use"),
            (["--diff", "--format", "json", "a.html"], "--diff shows what --fix would write, in place of a report"),
        ):
            status, out, err = self.run_on(*words)
            self.assertEqual((status, out, err.splitlines()[-1]), (2, "", "urlcheck-documents: " + said))


if __name__ == "__main__":
    unittest.main()
