"""Tests of sentences of urlcheck.documents, each compared as a whole: of what readers pass over or stop at, of missing packages, of
configurations and of folders, of what isn't fixed and isn't written; and of its help. The package is on PYTHONPATH."""

import errno
import importlib.util
import io
import os
import stat
import subprocess
import sys
import tempfile
import unittest
import zipfile
from unittest import mock

from room import PROGRAM, Room
from urlcheck._documents import git
from urlcheck._editors.editing import Text
from urlcheck._fixes import writing
from urlcheck._fixes.fixing import digest_of
from urlcheck._reports.rules import TITLES, rule_of

HERE = os.path.dirname(os.path.abspath(__file__))
NAMES = (
    "its names aren't known: only each href, url and src, and each element url and link, is read, where its value has a scheme"
)
ROLES = (
    "roles and directives that docutils doesn't know are read only for their text; the extension urlcheck.sphinx reads "
    "Sphinx's own"
)
MARKDOWN = "the package markdown-it-py: pip install markdown-it-py, or Debian's python3-markdown-it"
TINYCSS2 = "the package tinycss2: pip install tinycss2, or Debian's python3-tinycss2"
STYLE = "<style>a { b: url(c) }</style>"
BASELINE = "# urlcheck baseline 1: faults that are known, one a line\n"


def packed(entries, old=b"", new=b""):
    """A zip file of these entries, with other bytes in place of some."""
    file = io.BytesIO()
    with zipfile.ZipFile(file, "w") as book:
        for name, text in entries.items():
            book.writestr(name, text)
    return file.getvalue().replace(old, new) if old else file.getvalue()


def beginning(*lines):
    """The program, after these lines of Python."""
    return [sys.executable, "-c", "\n".join([*lines, "from urlcheck.documents import main", "main()"])]


def without(*modules):
    """The program where these modules aren't installed."""
    return beginning("import sys", "sys.modules.update(dict.fromkeys({!r}))".format(modules))


class Sentences(Room):
    def says(self, said, *words, status=2, program=PROGRAM):
        """The program ends with this status, and its standard error has this line, at most before the counts."""
        ended, _, error = self.run_on(*words, program=program)
        lines = error.decode().splitlines()
        self.assertEqual((ended, lines[:1]), (status, ["urlcheck-documents: " + said]))
        self.assertRegex(" ".join(lines[1:]), r"^(urlcheck-documents: \d+ documents?, [^:]*)?$")

    def test_readers(self):
        for name, text, said, status, needed in (
            ("a.css", 'a { b: url("x" "y") }', "1:8: warning: isn't read: a url() with several strings", 0, "tinycss2"),
            ("a.css", "a { b: url(c(d }", "1:8: warning: isn't read: a url() that doesn't end in its line", 0, "tinycss2"),
            ("a.css", 'a { b: "c\n }', "1:8: warning: isn't read: a string that doesn't end in its line", 0, "tinycss2"),
            ("a.md", '+++\na = "http://h/\\q"\n+++\n', "2:6: warning: isn't read: an escape that isn't one", 0, "markdown_it"),
            ("a.md", "---\na: [b\n---\n", "2:6: warning: isn't read: a string or a list that doesn't end", 0, "markdown_it"),
            ("a.mdx", "a <b\n", "1:4: warning: isn't read: a tag that doesn't end", 0, "markdown_it"),
            ("a.rst", ":x:`a`\n", " " + ROLES, 0, "docutils"),
            ("a.xml", "<x/>", " " + NAMES, 0, "sys"),
            ("a.xml", '<!DOCTYPE x [<!ENTITY e "f">]><x/>',
             "1:25: can't be read from here on: an entity is declared, but only the five of XML are expanded", 2, "sys"),
            ("a.svg", 10_002 * "<g>", "1:30001: can't be read from here on: more than 10000 elements are within one another", 2, "sys"),
            ("a.jsonfeed", "{}", " isn't a JSON Feed: it has no items and no version", 2, "sys"),
            ("a.ipynb", "{}", " isn't a notebook that can be read: it has no cells", 2, "markdown_it"),
            ("a.epub", "x", " isn't a book that can be read: File is not a zip file", 2, "sys"),
            ("a.epub", packed({"\u00e9.html": ""}, "\u00e9".encode(), b"\xff\xff"),
             " isn't a book that can be read: 'utf-8' codec can't decode byte 0xff in position 0: invalid start byte", 2, "sys"),
        ):
            with self.subTest(said):
                if not importlib.util.find_spec(needed):
                    self.skipTest(needed + " isn't installed")
                self.write(name, text)
                self.says("{}:{}".format(name, said), "--list", name, status=status)

    def test_missing_packages(self):
        for name, text, module, said, status in (
            ("a.html", STYLE, "tinycss2", "styles aren't read, which needs " + TINYCSS2, 0),
            ("a.css", "", "tinycss2", "is CSS, which needs " + TINYCSS2, 2),
            ("a.md", "", "markdown_it", "is Markdown, which needs " + MARKDOWN, 2),
            ("a.mdx", "", "markdown_it", "is MDX, which needs " + MARKDOWN, 2),
            ("a.ipynb", '{"cells": [{"cell_type": "markdown", "source": "a"}]}', "markdown_it", "is a notebook, which needs " + MARKDOWN, 2),
            ("a.rst", "", "docutils",
             "is reStructuredText, which needs the package docutils: pip install docutils, or Debian's python3-docutils", 2),
        ):
            with self.subTest(name):
                self.write(name, text)
                self.says("{}: {}".format(name, said), "--list", name, status=status, program=without(module))
        # (what of a book needs no package is read)
        self.write("a.epub", packed({"a.css": "a { b: url(c) }", "b.css": "a { b: url(d) }", "c.html": "<a href='d'>"}))
        self.says("a.epub: styles aren't read, which needs " + TINYCSS2, "--list", "a.epub", status=0, program=without("tinycss2"))
        self.assertEqual(self.run_on("--list", "a.epub", program=without("tinycss2"))[1], b"a.epub/c.html:1:10:d\n")
        self.write("p/pyproject.toml", "[tool.urlcheck]\n")
        self.write("p/a.html", "")
        said = "{}: a configuration before Python 3.11 needs the package tomli: pip install tomli, or Debian's python3-tomli"
        self.says(said.format(os.path.join(os.path.realpath(self.room), "p", "pyproject.toml")), "p/a.html",
                  program=without("tomllib", "tomli"))
        needed = "urlcheck-language-server: needs the package python-lsp-jsonrpc: pip install python-lsp-jsonrpc, or Debian's python3-pylsp-jsonrpc\n"
        run = "import sys; sys.modules['pylsp_jsonrpc'] = None; import urlcheck.language_server"
        ran = subprocess.run([sys.executable, "-c", run], stdout=subprocess.PIPE, stderr=subprocess.PIPE, check=False)
        self.assertEqual((ran.returncode, ran.stderr.decode()), (1, needed))

    @unittest.skipUnless(any(map(importlib.util.find_spec, ("tomllib", "tomli"))), "there is no reader of TOML")
    def test_configurations(self):
        for name, text, said in (
            ("pyproject.toml", "[tool]\nurlcheck = 1\n", "tool.urlcheck isn't a table"),
            (".urlcheck.toml", "kinds = 1\n", "kinds is a table of names' ends, each with its kind"),
        ):
            with self.subTest(said):
                self.write("p/" + name, text)
                self.write("p/a.html", "")
                path = os.path.join(os.path.realpath(self.room), "p", name)
                self.says("{}: {}".format(path, said), "p/a.html")

    def test_folders(self):
        os.mkdir(os.path.join(self.room, "d"))
        ends = "ends in .html, .md, .xml or another end of --help"
        self.says("d: has no document: no name in this folder " + ends, "d")
        self.says("d: has no document: no name in this folder that isn't excluded " + ends, "--exclude", "a.*", "d")
        self.write("bin/git", "#!/bin/sh\nexit 1\n")
        program = os.path.join(self.room, "bin", "git")
        os.chmod(program, 0o755)
        with mock.patch.dict(os.environ, PATH=os.path.dirname(program) + os.pathsep + os.environ["PATH"]):
            self.says("d: git doesn't list it: no reason is given", "--git", "d")
            self.write("bin/git", "#!/bin/sh\nexec sleep 60\n")
            hasty = beginning("from urlcheck._documents import git", "git.MOST_SECONDS = 1")
            self.says("d: git takes more than 1 seconds to list it", "--git", "d", program=hasty)
        with mock.patch.dict(os.environ, PATH=os.path.join(self.room, "none")):
            self.says("d: git can't be run: there is no such file", "--git", "d")
            with mock.patch.object(sys, "platform", "win32"), self.assertRaises(git.NoGit) as raised:
                git.files_of(self.room)
            self.assertEqual(str(raised.exception), "git can't be run: there is no git.exe on the path")

    @unittest.skipUnless(hasattr(os, "fork"), "no process is copied here")
    def test_no_process(self):
        self.write("a.html", "")
        refused = "def fork(): raise OSError({}, 'x')".format(errno.ENOSPC)
        self.says("a.html: can't be read: no process: no space is left", "a.html", program=beginning("import os", refused, "os.fork = fork"))

    def test_words(self):
        self.write("a.html", "<!-- urlcheck: ignore --><a href='http://h/'></a>\n")
        ended, _, error = self.run_on("--all", "a.html")
        said = "there is no option --all; pipe the links, which --list prints, into urlcheck lint --located --all -"
        usage = "usage: urlcheck-documents [OPTIONS] FILE..\n"
        self.assertEqual((ended, error.decode()), (2, usage + "urlcheck-documents: {}\n".format(said)))
        self.says("a.html:1:5: warning: 'urlcheck: ignore' isn't needed: no link that it is about is refused", "a.html", status=0)
        self.write("b.html", "<!-- urlcheck: ignore-file[percent] --><a href='http://h/'></a>\n")
        self.says("b.html:1:5: warning: 'urlcheck: ignore-file[percent]' isn't needed: no link of the document is refused by that",
                  "b.html", status=0)
        self.write("known", BASELINE + "x\n")
        self.says("known: line 2 isn't a fingerprint and a fault", "--baseline", "known", "a.html")

    def test_statistics(self):
        self.write("a.html", "".join("<a href='http://h/{0} b'></a>".format(number % 51) for number in range(102)))
        status, out, _ = self.run_on("--statistics", "a.html")
        self.assertEqual((status, out.decode().splitlines()[-1]), (1, "      1  further links that are there more than once"))

    def test_differences(self):
        self.write("a.html", '<a href="http://h/a b">')
        self.assertEqual(self.run_on("--diff", "a.html")[1].decode(), "--- a.html\n+++ a.html\n@@ -1,1 +1,1 @@\n"
                         '-<a href="http://h/a b">\n\\ No newline at end of file\n'
                         '+<a href="http://h/a%20b">\n\\ No newline at end of file\n')

    def test_what_is_not_fixed(self):
        for name, text, why in (
            ("a.html", '<a href="http://h:x/">', "with nothing offered"),
            ("a.html", '<a href="http://h/{{ a }}">', "a template"),
            ("a.html", '<a href="http://127.0.0.1/a b">', "with a host of numbers"),
            ("a.rss", "<rss><channel><link>http://h/a<![CDATA[b ^]]>c</link></channel></rss>", "with escapes of its document"),
            ("a.rss", "<rss><channel><link>http://h/a b</link></rss>", "in a document that can't be read to its end"),
            ("a.epub", packed({"a.html": '<a href="http://h/a b">'}), "in a book"),
        ):
            with self.subTest(why):
                self.write(name, text)
                said = self.run_on("--fix", name)[2].decode().splitlines()
                self.assertEqual(said[-2], "urlcheck-documents: 1 link isn't fixed: 1 " + why)
        # (no document is known in which this is so, so the guard is told that it is)
        changing = beginning("from urlcheck._fixes import fixing", "fixing.are_read_alike = lambda *_: False")
        self.write("a.html", '<a href="http://h/a b">')
        said = self.run_on("--fix", "a.html", program=changing)[2].decode().splitlines()
        self.assertEqual(said[-2], "urlcheck-documents: 1 link isn't fixed: 1 next to a link that would change")

    def test_help(self):
        """Each text of the help is as it is stored, in which a line ends after 80 columns at the latest."""
        with mock.patch.dict(os.environ, COLUMNS="80"):
            for word, name in (("--help", "help.txt"), ("-h", "help_short.txt")):
                with open(os.path.join(HERE, name), encoding="utf-8") as file:
                    self.assertEqual(self.run_on(word), (0, file.read().encode(), b""))


class Unwritten(unittest.TestCase):
    """Why a document isn't written."""

    def setUp(self):
        room = tempfile.TemporaryDirectory()
        self.addCleanup(room.cleanup)
        self.path = os.path.join(room.name, "a.html")
        with open(self.path, "wb") as file:
            file.write(b"old")

    def says(self, said, digest=digest_of(b"old"), folder=None):
        with self.assertRaises(writing.Unwritten) as raised:
            writing.replace(self.path, digest, b"new", folder)
        self.assertEqual(str(raised.exception), said)

    def test_changed(self):
        self.says("was written by another program meanwhile, and isn't written", digest_of(b"other"))

    def test_elsewhere(self):
        os.symlink(self.path, self.path + ".link")
        with tempfile.TemporaryDirectory() as folder:
            self.says("is a symbolic link out of the folder, and isn't written", folder=folder)

    @unittest.skipUnless(hasattr(os, "mkfifo"), "there are no pipes")
    def test_no_file(self):
        os.remove(self.path)
        os.mkfifo(self.path)
        self.says("isn't a regular file, and isn't written")

    @unittest.skipUnless(sys.platform == "linux", "it has no such attributes")
    def test_what_cannot_stay(self):
        def refused(*_):
            raise PermissionError(errno.EPERM, "refused")

        with mock.patch.object(writing.os, "chmod", refused):
            self.says("has a mode that can't be kept, and isn't written")
        for name, said in (
            ("user.kind", "has the extended attribute user.kind, which can't be kept, and isn't written"),
            ("system.posix_acl_access", "has an ACL, which can't be kept, and isn't written"),
        ):
            with mock.patch.object(writing, "_attributes", lambda path, name=name: {name: b""} if path == self.path else {}):
                with mock.patch.object(writing.os, "setxattr", refused):
                    self.says(said)


class Editors(unittest.TestCase):
    """What editors show of a rule of a format, and of a change that isn't one."""

    def test_rules(self):
        self.assertEqual(
            rule_of("empty")[1:3],
            ("this link is empty, which its format forbids here",
             "A link of an image, a script, a frame, a form's address or a link element isn't empty."),
        )
        self.assertEqual(
            rule_of("no-link")[1:3],
            ("Markdown reads this as text, because its address has a space: write %20",
             "A destination of Markdown has no space, unless < and > enclose it: it is percent-encoded as %20."),
        )
        self.assertEqual([it.format("a") for it in TITLES.values()],
                         ["Write a (the same URL)", "Percent-encode: a", "Write a (perhaps another URL)"])

    def test_changes(self):
        start = {"line": -1, "character": 0}
        for change, error, said in (
            ({"text": "", "range": {"start": start, "end": start}}, ValueError, "a place isn't negative"),
            ({"text": 1}, TypeError, "a text is a string"),
        ):
            with self.assertRaises(error) as raised:
                Text("a", "utf-16").change([change])
            self.assertEqual(str(raised.exception), said)


if __name__ == "__main__":
    unittest.main()
