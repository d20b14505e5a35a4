"""Tests of the extension of Sphinx and the plugin of MkDocs in builds of both. Each wrong link of a source has a ``^`` of its
own, whose place is what has to be told. The package is on PYTHONPATH, and so is what says that it has a plugin of MkDocs."""

import importlib.util
import os
import re
import subprocess
import sys
import tempfile
import threading
import unittest

HAS_MYST = importlib.util.find_spec("myst_parser") is not None
HAS_TOML = any(map(importlib.util.find_spec, ("tomllib", "tomli")))
PICTURE = "data:image/png;base64," + 2000 * "iVBORw0K" + "^"
"""A picture in a URL, of some thousand characters, whose last one is wrong."""

INDEX = """Title
=====

A paragraph that begins here
and goes on, with a `link <http://h/a^1>`_ in its second line,
and a `second <http://h/a^2>`__ in its third, and `code` and ``http://h/no``.

Bare http://h/three and named_.

.. _named: http://h/a^4

.. image:: http://h/a^5.png
   :alt: five

.. figure:: http://h/a^6.png
   :target: http://h/a^7

   The caption has `eight <http://h/a^8>`_.

.. raw:: html

   <p>
   <a href="http://h/a^9">nine</a>

=====  =====
a      b
=====  =====
x      `ten <http://h/a^10>`_
=====  =====

* item

  * inner `eleven
    <http://h/a^11>`_

.. include:: part.txt
   :start-line: 2

`Again <http://h/a^12>`_, and the same link `again <http://h/a^12>`_.

.. |sub| image:: http://h/a^13.png

See |sub| and |sub| and |anonymous|__.

.. |anonymous| replace:: anonymous

__ http://h/a^14

.. list-table::

   * - a
     - `lt <http://h/a^15>`_

.. csv-table::

   a,"`csv <http://h/a^16>`_"

.. note::

   A note with `note <http://h/a^17>`_.

term
   `def <http://h/a^18>`_ [#n]_

.. [#n] Foot `foot <http://h/a^19>`_.

::

   `code <http://h/a^20>`_

Then `later <http://h/a^20>`_ and `escaped <http://h/b\\^21>`_.

.. only:: html

   `only <http://h/a^22>`_

:download:`d <http://h/a^23>`

.. seealso:: `long
   text <http://h/long/
   a^24>`_

`Title <http://h/a^25>`_
------------------------

.. raw:: html
   :file: raw.html

.. automodule:: mod
   :members:

.. toctree::

   T <http://h/a^26>
   mst
"""

PART = """skipped

Here `part <http://h/a^30>`_.

.. image:: http://h/a^31.png
"""

RAW = "<p>\n<a href=\"http://h/a^32\">x</a>\n"

MODULE = '''"""Module.

See `m <http://h/a^33>`_.
"""


def function():
    """Does.

    More in `f <http://h/a^34>`_.
    """
'''

MYST = """# MyST

A paragraph that begins
and has [one](<http://h/a^40>) in its second line.

![two](http://h/a^41.png) and [three].

[three]: http://h/a^42

```{image} http://h/a^43.png
```

<a href="http://h/a^44">x</a>

```{eval-rst}
And `five <http://h/a^45>`_.
```

<!-- urlcheck: ignore -->
[meant](http://h/no^)
"""

PAGE = """---
title: T
canonical: https://h/a^1
---

# T

[one](http://h/a^2) and ![i](im^3.png)

[sp](https://h/b ^4) and <http://h/a^5>

[r]

[r]: http://h/a^6

<a href="http://h/a^7">p</a>

| a |
|---|
| [t](http://h/a^8) |

`[no](http://h/no)` and

    [no](http://h/no)
"""

TWICE = {"20": 2}
"""Those of whose marks the first is in a literal block."""


def places_of(files):
    """Returns the file, line and column of each mark in the sources."""
    places = {}
    for name, text in files.items():
        for found in re.finditer(r"\^(\d+)", text):
            count = sum(1 for it in places if it[0] == found[1])
            start = text.rfind("\n", 0, found.start()) + 1
            places[found[1], count] = (name, text.count("\n", 0, found.start()) + 1, found.start() - start + 1)
    return {places[mark, TWICE.get(mark, 1) - 1] for mark, count in places if count == 0 and mark != "12"} | {
        place for (mark, _), place in places.items() if mark == "12"}


class Built(unittest.TestCase):
    def setUp(self):
        room = tempfile.TemporaryDirectory()
        self.addCleanup(room.cleanup)
        self.room = os.path.realpath(room.name)

    def write(self, files):
        for name, text in files.items():
            path = os.path.join(self.room, name)
            os.makedirs(os.path.dirname(path), exist_ok=True)
            with open(path, "w", encoding="utf-8") as file:
                file.write(text)

    def run_in(self, *words):
        ran = subprocess.run([sys.executable, "-m", *words], cwd=self.room, capture_output=True, text=True)
        return ran.returncode, ran.stdout + ran.stderr

    def told(self, said):
        """The places of the warnings that have a column."""
        found = re.findall(r"(?:WARNING *-? *(?:\x1b\[0m)?|^)([^\s:]+?):(\d+):(\d+):? ", said.replace(self.room + "/", ""), re.M)
        return [(os.path.basename(name), int(line), int(column)) for name, line, column in found]


@unittest.skipUnless(importlib.util.find_spec("sphinx"), "Sphinx isn't installed")
class Sphinx(Built):
    def setUp(self):
        super().setUp()
        extensions = ["urlcheck.sphinx", "sphinx.ext.autodoc"] + ["myst_parser"] * HAS_MYST
        # (a document with one in its list that isn't there is read each time)
        index = INDEX if HAS_MYST else INDEX.replace("   mst\n", "")
        self.files = {"index.rst": index, "part.txt": PART, "raw.html": RAW, "mod.py": MODULE}
        if HAS_MYST:
            self.files["mst.md"] = MYST
        self.write(self.files)
        self.write({"conf.py": "import os, sys\nsys.path.insert(0, os.path.dirname(__file__))\nextensions = {}\n"
                    "exclude_patterns = ['out', 'part.txt']\nsuppress_warnings = ['toc']\n".format(extensions)})

    def build(self, *words):
        return self.run_in("sphinx", "-q", "-b", "dummy", *words, ".", "out")

    def test_each_link_at_its_place(self):
        status, said = self.build("-D", "urlcheck_columns=1")
        self.assertEqual(status, 0, said)
        told = self.told(said)
        self.assertEqual(sorted(told), sorted(places_of(self.files)), said)
        # Without columns in the location the message has them; a second build says nothing, and one from nothing all.
        self.assertEqual(self.build()[1].count("WARNING"), 0)
        said = self.build("-E")[1]
        self.assertEqual(said.count(", column "), len(told))
        self.assertIn("{}/index.rst:5: WARNING: http://h/a^1: U+005E CIRCUMFLEX ACCENT is not allowed in a URL, column 38 "
                      "[code-point]".format(self.room), said)

    def test_in_parallel(self):
        self.write({"p{}.rst".format(at): "Page\n====\n\n`a <http://h/^>`_\n" for at in range(12)})
        alone, together = self.build("-E"), self.build("-E", "-j", "4")
        self.assertEqual(sorted(alone[1].splitlines()), sorted(together[1].splitlines()))
        self.assertGreater(alone[1].count("/p"), 11)

    def test_warnings(self):
        """They are Sphinx's own: they fail a build by -W, and a rule's are suppressed."""
        self.write({"index.rst": "T\n=\n\n`a <http://h/%>`_ `b <http://h/^>`_\n"})
        self.write({"conf.py": "extensions = ['urlcheck.sphinx']\nexclude_patterns = ['mst.md', 'out']\n"})
        self.assertEqual(self.build("-E")[0], 0)
        self.assertEqual(self.build("-E", "-W", "--keep-going")[0], 1)
        status, said = self.build("-E", "-W", "--keep-going", "-D", "suppress_warnings=urlcheck.percent")
        self.assertEqual((status, "[percent]" in said, "[code-point]" in said), (1, False, True))
        self.assertEqual(self.build("-E", "-W", "-D", "suppress_warnings=urlcheck"), (0, ""))
        self.assertEqual(self.build("-E", "-W", "-D", "urlcheck_ignore=/[%^]"), (0, ""))

    def test_spaces_that_docutils_takes_away(self):
        """A space within a line is told where it is, once; a link over two lines is read as it is meant."""
        self.write({"conf.py": "extensions = ['urlcheck.sphinx']\nexclude_patterns = ['mst.md', 'out']\nurlcheck_columns = True\n"})
        self.write({"index.rst": "T\n=\n\n`a <http://h/long/\npath>`_ `b <http://h/b c>`_ e_ e_\n\n.. _e: http://h/e f\n\n"
                    "`g <http://h/gh>`_ http://h/g h\n"})
        status, said = self.build("-E")
        self.assertEqual((status, self.told(said)), (0, [("index.rst", 5, 23), ("index.rst", 7, 18)]), said)
        self.assertEqual(said.count("U+0020 SPACE is not allowed in a URL"), 2)

    def test_a_space_beside_the_same_link(self):
        """It has its own place, even if the same link without it, a literal, code or HTML is before it."""
        self.write({"conf.py": "extensions = ['urlcheck.sphinx']\nexclude_patterns = ['mst.md', 'out']\nurlcheck_columns = True\n"})
        spaced = "Para `space <http://h/a b>`_ end.\n"
        for before, places in (
            ("Good `ok <http://h/ab>`_.\n\n", [(6, 24)]),
            (spaced + "\n", [(4, 24), (6, 24)]),
            ("Para ``http://h/a b`` literal.\n\n", [(6, 24)]),
            (".. code::\n\n   `space <http://h/a b>`_\n\n", [(8, 24)]),
            (".. raw:: html\n\n   <!-- http://h/a b -->\n   <a href=\"http://h/a b\">x</a>\n\n", [(7, 23), (9, 24)]),
            (".. _t: http://h/a b\n\nThe text t_ and again t_.\n\n", [(4, 18), (8, 24)]),
        ):
            with self.subTest(before):
                self.write({"index.rst": "T\n=\n\n" + before + spaced})
                status, said = self.build("-E")
                self.assertEqual((status, sorted(self.told(said))), (0, [("index.rst", *place) for place in places]), said)

    def test_comments(self):
        """A comment leaves out the links of the next line; one that isn't needed or understood is a warning."""
        conf = "extensions = ['urlcheck.sphinx']\nexclude_patterns = ['mst.md', 'out']\nurlcheck_columns = True\n"
        self.write({"conf.py": conf})
        for comment, places, warnings in (
            ("urlcheck: ignore", [(7, 14)], []),
            ("urlcheck:ignore[code-point]", [(7, 14)], []),
            ("urlcheck: ignore-file", [], []),
            ("urlcheck: ignore[percent]", [(6, 14), (7, 14)], ["isn't needed: no link that it is about is refused by that"]),
            ("urlcheck: ingore", [(6, 14), (7, 14)], ["'urlcheck: ingore' isn't understood; there are "]),
        ):
            with self.subTest(comment):
                self.write({"index.rst": "T\n=\n\n.. {}\n\n`a <http://h/^>`_\n`b <http://h/^>`_\n".format(comment)})
                said = self.build("-E")[1]
                self.assertEqual(self.told(said), [("index.rst", *place) for place in places], said)
                lines = [it for it in said.splitlines() if it.endswith("[comment]")]
                self.assertEqual(len(lines), len(warnings), said)
                for line, warning in zip(lines, warnings):
                    self.assertTrue(line.startswith(self.room + "/index.rst:4: WARNING: ") and warning in line, line)
        self.assertEqual(self.build("-E", "-W", "-D", "suppress_warnings=urlcheck")[0], 0)

    def test_settings(self):
        self.write({"index.rst": "T\n=\n\n`a <http://a_b/>`_ `b <x>`_\n"})
        for given, rules in (
            ("", ["host-domain"]), ("urlcheck_profile = 'wide'", []), ("urlcheck_base = 'urn:a'", ["host-domain", "opaque-base"]),
        ):
            self.write({"conf.py": "extensions = ['urlcheck.sphinx']\nexclude_patterns = ['mst.md', 'out']\n" + given})
            self.assertEqual(re.findall(r"\[([a-z-]+)\]$", self.build("-E")[1], re.M), rules)
        for given, wanted in (
            ("urlcheck_profile = 'x'", "urlcheck_profile is one of standard, wide, parser"),
            ("urlcheck_base = 'x'", "urlcheck_base: the base is refused at place 0: it has no scheme [no-scheme]"),
            ("urlcheck_ignore = ['(']", "urlcheck_ignore: not a regular expression: missing ), unterminated subpattern at position 0"),
        ):
            self.write({"conf.py": "extensions = ['urlcheck.sphinx']\n" + given})
            status, said = self.build("-E")
            self.assertEqual((status, said.strip().splitlines()[-1]), (2, wanted))


    @unittest.skipUnless(HAS_TOML, "nothing reads TOML")
    def test_a_project(self):
        """A build after another one heeds what a project's file says now, even if that is new or gone."""
        self.write({"conf.py": "extensions = ['urlcheck.sphinx']\nexclude_patterns = ['mst.md', 'out']\n"})
        self.write({"index.rst": "T\n=\n\n`a <http://a_b/>`_\n\n.. raw:: html\n\n   <img src=''>\n"})
        rules = lambda: re.findall(r"\[([a-z-]+)\]$", self.build()[1], re.M)
        self.assertEqual(rules(), ["host-domain", "empty"])
        self.assertEqual(rules(), [])
        for text, wanted in (("profile = 'wide'", ["empty"]), ("ignore = ['a_b']", ["empty"]), ("no-empty = true", ["host-domain"])):
            self.write({".urlcheck.toml": text})
            self.assertEqual((rules(), rules()), (wanted, []), text)
        os.remove(os.path.join(self.room, ".urlcheck.toml"))
        self.assertEqual((rules(), rules()), (["host-domain", "empty"], []))
        # (what conf.py says goes before it, even if it is the default)
        self.write({".urlcheck.toml": "profile = 'wide'\nno-empty = true"})
        self.assertEqual(rules(), [])
        for words, wanted in ((["urlcheck_no_empty=0"], ["empty"]), (["urlcheck_profile=standard"], ["host-domain"])):
            self.assertEqual(re.findall(r"\[([a-z-]+)\]$", self.build("-E", "-D", *words)[1], re.M), wanted)

    @unittest.skipUnless(HAS_MYST, "MyST isn't installed")
    def test_markdown_by_another_name(self):
        """What is Markdown is said by the parser, and not by the end of a name."""
        conf = "extensions = ['urlcheck.sphinx', 'myst_parser']\nexclude_patterns = ['out', 'part.txt', 'mst.md']\nurlcheck_columns = True\n"
        self.write({"conf.py": conf + "source_suffix = {'.rst': 'restructuredtext', '.text': 'markdown', '.md': 'restructuredtext'}\n"})
        self.write({"index.rst": "T\n=\n\n.. toctree::\n\n   a\n   b\n", "a.text": "# A\n\n[b](<http://h/^z>) ![c](http://h/d^)\n",
                    "b.md": "B\n=\n\n`b <http://h/^z>`_ and [b](<http://h/^z>)\n"})
        said = self.build("-E")[1]
        self.assertEqual(sorted(self.told(said)), [("a.text", 3, 15), ("a.text", 3, 35), ("b.md", 4, 14)], said)

    def test_a_long_link(self):
        """Its beginning is shown."""
        self.write({"conf.py": "extensions = ['urlcheck.sphinx']\nexclude_patterns = ['mst.md', 'out']\n"})
        self.write({"index.rst": "T\n=\n\n.. image:: " + PICTURE + "\n"})
        said = self.build("-E")[1]
        self.assertIn(PICTURE[:120] + ".. (16023 code points): U+005E", said)
        self.assertNotIn(PICTURE[:121], said)


@unittest.skipUnless(importlib.util.find_spec("mkdocs"), "MkDocs isn't installed")
class MkDocs(Built):
    def build(self, *words, settings="[urlcheck]"):
        self.write({"mkdocs.yml": "site_name: x\nplugins: {}\nmarkdown_extensions: [tables]\n".format(settings)})
        return self.run_in("mkdocs", "build", *words, "-d", "out")

    def test_each_link_at_its_place(self):
        self.write({"docs/index.md": PAGE, "docs/a/b.md": "# B\n\n[x](../c^9.png) and [y](http://h/)\n"})
        status, said = self.build()
        self.assertEqual(status, 0, said)
        wanted = places_of({"index.md": PAGE, "b.md": "\n\n[x](../c^9.png)"})
        # (the one with a space is a link only for Python-Markdown: its space comes first)
        wanted = {(name, line, column - 1 if line == 10 and column < 20 else column) for name, line, column in wanted}
        self.assertEqual(sorted(self.told(said)), sorted(wanted), said)
        self.assertEqual(self.build("--strict")[0], 1)

    def test_a_template(self):
        """It is told once, at the same place and in the same words, by whichever reader takes it for a link."""
        self.write({"docs/index.md": "# T\n\nThe [u]({{ url }}).\n"})
        said = [self.build(settings="[{urlcheck: {gfm: " + gfm + "}}]")[1] for gfm in ("true", "false")]
        for each in said:
            self.assertEqual(self.told(each), [("index.md", 3, 9)], each)
        self.assertEqual(*(re.findall("^.*code-point.*$", each, re.M) for each in said))

    def test_comments(self):
        """A comment leaves out links, also one that only the page's HTML has; one that isn't needed is a warning."""
        every = [(4, 14), (4, 27), (6, 14)]
        for comment, places, warning in (
            ("urlcheck: ignore", [(6, 14)], ""),
            ("urlcheck:ignore-file[code-point]", [], ""),
            ("urlcheck: ignore[percent]", every, "isn't needed: no link that it is about is refused by that"),
            ("urlcheck: ingore", every, "'urlcheck: ingore' isn't understood; there are "),
        ):
            with self.subTest(comment):
                text = "# T\n\n<!-- {} -->\n[a](http://h/^x) and [b](b c)\n\n[c](http://h/^y)\n"
                self.write({"docs/index.md": text.format(comment)})
                said = self.build()[1]
                lines = [it for it in said.splitlines() if it.endswith("[comment]")]
                self.assertEqual(len(lines), int(warning != ""), said)
                self.assertIn(warning, "".join(lines))
                wanted = places + [(3, 5)] * len(lines)
                self.assertEqual(sorted(self.told(said)), sorted(("index.md", *place) for place in wanted), said)

    def test_a_long_link(self):
        """Its beginning is shown."""
        self.write({"docs/index.md": "# T\n\n![a](" + PICTURE + ")\n"})
        said = self.build()[1]
        self.assertIn(": " + PICTURE[:120] + ".. (16023 code points): U+005E", said)
        self.assertNotIn(PICTURE[:121], said)

    @unittest.skipUnless(HAS_TOML, "nothing reads TOML")
    def test_a_project(self):
        """What the plugin's settings say goes before the project's file, even if it is the default."""
        self.write({".urlcheck.toml": "profile = 'wide'\nno-empty = true\ngfm = true\n"})
        self.write({"docs/index.md": "# T\n\n[a](http://a_b/) <img src=''> http://h/^\n"})
        for settings, rules in (("[urlcheck]", ["code-point"]), ("[{urlcheck: {profile: standard}}]", ["host-domain", "code-point"]),
                                ("[{urlcheck: {gfm: false}}]", []), ("[{urlcheck: {no_empty: false}}]", ["empty", "code-point"])):
            said = self.build(settings=settings)[1]
            self.assertEqual(re.findall(r"\[([a-z-]+)\]$", said, re.M), rules, (settings, said))

    @unittest.skipUnless(HAS_TOML, "nothing reads TOML")
    def test_a_server(self):
        """A project's file that is saved has MkDocs's server build again, by what it says now."""
        self.write({".urlcheck.toml": "profile = 'wide'\n", "docs/index.md": "# T\n\n[a](http://a_b/)\n"})
        self.write({"mkdocs.yml": "site_name: x\nplugins: [urlcheck]\n"})
        words = [sys.executable, "-u", "-m", "mkdocs", "serve", "-a", "127.0.0.1:0"]
        server = subprocess.Popen(words, cwd=self.room, stdout=subprocess.PIPE, stderr=subprocess.STDOUT, text=True)
        self.addCleanup(server.stdout.close)
        self.addCleanup(server.wait)
        self.addCleanup(server.kill)
        # (one that never says it is ended, so that the test fails)
        ending = threading.Timer(90, server.kill)
        ending.start()
        self.addCleanup(ending.cancel)
        said = []
        for line in server.stdout:
            said.append(line)
            if "Serving on" in line:
                self.assertNotIn("[host-domain]", "".join(said))
                self.write({".urlcheck.toml": "profile = 'standard'\n"})
            if "[host-domain]" in line:
                break
        self.assertIn("index.md:3:12: http://a_b/: ", said[-1], said)

    def test_settings(self):
        self.write({"docs/index.md": "# T\n\n[a](http://a_b/) [b](mailto:^)\n"})
        self.assertEqual(self.build("--strict")[0], 1)
        self.assertEqual(self.build("--strict", settings="[{urlcheck: {profile: wide, ignore: ['\\^']}}]")[0], 0)
        for given, wanted in (
            ("profile: x", None),
            ("base: x", "urlcheck: the base is refused at place 0: it has no scheme [no-scheme]"),
            ("ignore: ['(']", "urlcheck: ignore has no regular expression: missing ), unterminated subpattern at position 0"),
        ):
            status, said = self.build(settings="[{urlcheck: {" + given + "}}]")
            told = re.search("ERROR *-? *(?:\x1b\\[0m)?(.*)", said)
            # (MkDocs itself refuses a name that isn't one of those it was told)
            self.assertEqual((status, told and told[1]), (1, wanted or told[1]), said)


if __name__ == "__main__":
    unittest.main()
