"""Tests of how urlcheck.documents takes a project: what of a folder isn't read, Git, configurations, several documents at once,
and a text of standard input with a name. The package is on PYTHONPATH."""

import importlib.util
import os
import shutil
import subprocess
import sys
import unittest
import zipfile

from urlcheck import FORMATS

from room import PROGRAM, Texts

WRONG = "<a href='x y'>"
COUNTS = "urlcheck-documents: {} document{}, {} link{}, 0 ignored"
HAS_TOML = any(map(importlib.util.find_spec, ("tomllib", "tomli")))


class Folders(Texts):
    def test_what_is_not_read(self):
        """The last line names the files that no reader takes, by how their names end, the most frequent first."""
        for name in ("d/a.html", "d/b.docx", "d/c.docx", "d/e/f.TEX", "d/Makefile", "d/.profile", "d/x.tar.gz"):
            self.write(name, WRONG)
        said = self.run_on("--list", "d")[2]
        self.assertEqual(said, COUNTS.format(1, "", 1, "") + "; not read: 2 .docx, 2 without an end, 1 .gz, 1 .tex\n")
        self.assertEqual(self.run_on("--list", "--quiet", "d")[2], "")
        self.assertEqual(self.run_on("--list", "d/a.html")[2], COUNTS.format(1, "", 1, "") + "\n")
        for number in range(12):
            self.write("d/y.e{:02}".format(number), "")
        self.assertIn(", 1 .e03, 1 .e04, 1 .e05, 8 of other kinds\n", self.run_on("--list", "d")[2])
        # (what is left out is asked for, and a name drives no terminal)
        self.assertEqual(self.run_on("--list", "--exclude", "*.*[!l]", "--exclude", "M*", "--exclude", ".*", "d")[2], COUNTS.format(1, "", 1, "") + "\n")
        self.write("d/z.\x1b[31m", "")
        self.assertNotIn("\x1b", self.run_on("--list", "d")[2])

    def test_hidden_folders(self):
        """They are left out of a folder with node_modules, and counted; what is named is read."""
        for name in ("d/a.html", "d/.git/b.html", "d/e/.f/c.html", "d/node_modules/g/h.html", "d/.i.html"):
            self.write(name, WRONG)
        self.assertEqual(self.run_on("--list", "d"), (0, "d/.i.html:1:10:x y\nd/a.html:1:10:x y\n",
                                            COUNTS.format(2, "s", 2, "s") + "; left out: 3 folders\n"))
        self.assertEqual(self.run_on("--list", "-q", "d/e/.f", "d/node_modules")[1],
                         "d/e/.f/c.html:1:10:x y\nd/node_modules/g/h.html:1:10:x y\n")
        # (one that is left out by a pattern isn't counted)
        self.assertTrue(self.run_on("--list", "--exclude", ".f", "d")[2].endswith("; left out: 2 folders\n"))

    @unittest.skipUnless(shutil.which("git"), "git isn't installed")
    def test_git(self):
        """With --git a folder's files are those that Git tracks, or doesn't ignore."""
        def git(*words):
            subprocess.run(["git", "-c", "user.name=a", "-c", "user.email=a@h", *words], cwd=self.room, check=True, capture_output=True)

        git("init", "-q")
        for name in ("a.html", "b/c.html", "b/build/d.html", ".github/e.html", "\u00e9.html", "gone.html", "b/f.o", "x/g.html"):
            self.write(name, WRONG)
        self.write(".gitignore", "build/\n*.o\n")
        git("add", "a.html", "gone.html")
        git("commit", "-qm", "a")
        os.remove(os.path.join(self.room, "gone.html"))
        status, out, said = self.run_on("--list", "--git", ".")
        names = [line.split(":")[0] for line in out.splitlines()]
        self.assertEqual((status, names), (0, ["./.github/e.html", "./a.html", "./b/c.html", "./x/g.html", "./\u00e9.html"]))
        self.assertEqual(said, COUNTS.format(5, "s", 5, "s") + "; not read: 1 without an end\n")
        self.assertEqual(self.run_on("--list", "-q", "--git", "--exclude", "x/", "--exclude", "b/*", "--exclude", ".github", "b", ".")[1],
                         "b/c.html:1:10:x y\n./a.html:1:10:x y\n./\u00e9.html:1:10:x y\n")

    @unittest.skipUnless(shutil.which("git"), "git isn't installed")
    def test_no_git(self):
        self.write("d/a.html", WRONG)
        status, out, said = self.run_on("-q", "--git", "d")
        self.assertEqual((status, out), (2, ""))
        self.assertTrue(said.startswith("urlcheck-documents: d: git doesn't list it: fatal: not a git repository"), said)
        from unittest import mock

        with mock.patch.dict(os.environ, PATH="/nowhere"):
            status, out, said = self.run_on("--list", "-q", "--git", "d")
        self.assertEqual((status, out, said), (2, "", "urlcheck-documents: d: git can't be run: there is no such file\n"))


    @unittest.skipUnless(shutil.which("git"), "git isn't installed")
    def test_what_git_would_run(self):
        """Nothing is run that the folder's own configuration names, and a folder outside of Git stops no other FILE."""
        def git(*words):
            subprocess.run(["git", "-C", "g", "-c", "user.name=a", "-c", "user.email=a@h", *words], cwd=self.room, check=True, capture_output=True)

        self.write("g/a.html", WRONG)
        self.write("none/a.html", WRONG)
        self.write("b.html", WRONG)
        git("init", "-q")
        git("add", ".")
        git("commit", "-qm", "a")
        taken = os.path.join(self.room, "taken")
        for key in ("core.fsmonitor", "core.pager", "pager.ls-files", "core.sshCommand", "filter.x.clean", "core.askPass", "core.editor"):
            git("config", key, "touch {}; echo".format(taken))
        self.write("g/.gitattributes", "* filter=x\n")
        self.write("g/hooks/post-index-change", "#!/bin/sh\ntouch {}\n".format(taken))
        os.chmod(os.path.join(self.room, "g/hooks/post-index-change"), 0o755)
        git("config", "core.hooksPath", os.path.join(self.room, "g/hooks"))
        status, out, said = self.run_on("--list", "--git", "none", "g", "b.html")
        self.assertEqual((status, out), (2, "g/a.html:1:10:x y\nb.html:1:10:x y\n"))
        self.assertIn("urlcheck-documents: none: git doesn't list it: fatal: not a git repository", said)
        self.assertFalse(os.path.exists(taken))
        # (without what keeps it, Git does run the first of them)
        git("ls-files", "--others")
        self.assertTrue(os.path.exists(taken))

    @unittest.skipUnless(shutil.which("git"), "git isn't installed")
    def test_a_partial_clone(self):
        """An object that isn't there isn't fetched, since the folder says by which program."""
        taken = os.path.join(self.room, "taken")
        for name in ("g/a.html", "g/d/b.html"):
            self.write(name, WRONG)
        line = ("git init -q && git add . && git -c user.name=a -c user.email=a@h commit -qm a && "
                "git sparse-checkout set --cone --sparse-index d >/dev/null && git config extensions.partialClone o && git config remote.o.promisor true && "
                "git config remote.o.url 'ext::sh -c touch% {0}' && git config protocol.ext.allow always && rm -rf .git/objects/??").format(taken)
        subprocess.run(["bash", "-c", line], cwd=os.path.join(self.room, "g"), check=True, capture_output=True)
        for words in (["g"], ["g/d"]):
            self.run_on("--list", "--git", *words)
            self.assertFalse(os.path.exists(taken))
        # (without what keeps it, Git does fetch)
        subprocess.run(["git", "-C", "g", "ls-files"], cwd=self.room, capture_output=True, check=False)
        self.assertTrue(os.path.exists(taken))

    def test_odd_folders(self):
        """A very deep folder is walked; a FIFO in one isn't read."""
        deep = self.room
        for _ in range(1100):
            deep = os.path.join(deep, "d")
            os.mkdir(deep)
        with open(os.path.join(deep, "a.html"), "w", encoding="utf-8") as file:
            file.write(WRONG)
        os.mkfifo(os.path.join(self.room, "f.html"))
        status, out, said = self.run_on("--list", "d", ".")
        self.assertEqual((status, [it[-16:] for it in out.splitlines()]), (0, ["/a.html:1:10:x y"] * 2))
        self.assertTrue(said.endswith(": 2 documents, 2 links, 0 ignored; not read: 1 .html\n"), said)
        name = "a/" * 1100 + "x.html"
        self.assertEqual(self.run_on("--list", "-q", "--stdin-name", name, "-", stdin=WRONG.encode()), (0, name + ":1:10:x y\n", ""))
        # (Python's own call goes no deeper than its stack)
        subprocess.run(["rm", "-r", "d"], cwd=self.room, check=True)

    def test_a_folder_that_is_gone(self):
        line = 'mkdir gone && cd gone && rmdir ../gone && exec "$@"'
        for words in (["--list", "a.html"], [os.path.join(self.room, "a.html")]):
            ran = subprocess.run(["bash", "-c", line, "x", *PROGRAM, *words], cwd=self.room, capture_output=True)
            said = b"urlcheck-documents: the current folder can't be read: there is no such file\n"
            self.assertEqual((ran.returncode, ran.stdout, ran.stderr), (2, b"", said))

    def test_names_within_a_book(self):
        """A name in a book forges no line of a list: its links aren't listed, and the links of the others are."""
        with zipfile.ZipFile(os.path.join(self.room, "b.epub"), "w") as book:
            for name in ("x\nother.html:7:1:http://evil.html", "a:1:1:b.html", "c.html"):
                book.writestr(name, "<a href='x y'>")
        status, out, said = self.run_on("--list", "-q", "b.epub")
        self.assertEqual((status, out), (2, "b.epub/c.html:1:10:x y\n"))
        self.assertEqual(said, "urlcheck-documents: b.epub/x\ufffdother.html:7:1:http://evil.html: its name has a control, which no located line can hold\n"
                         "urlcheck-documents: b.epub/a:1:1:b.html: its name has what a located line would read as its line and column\n")
        self.assertEqual(self.run_on("-q", "b.epub")[1].count("\n"), 3)


@unittest.skipUnless(HAS_TOML, "nothing reads TOML")
class Configured(Texts):
    def test_what_goes_before_what(self):
        """What is given counts, and otherwise what the file says; the base is checked under the profile that applies."""
        self.write("a.html", "<a href='http://a_b/'><a href='%zz'>")
        place = "the base is refused at place 7: U+005F LOW LINE is not allowed in a domain; {} allows it [host-domain]\n"
        for text, words, wanted in (
            ("select = ['percent']", ["--select", "host-domain"], "host-domain"),
            ("select = ['percent']\nignore-rules = ['host-domain']", ["--select", "host-domain"], "host-domain"),
            ("ignore-rules = ['host-domain']", ["--ignore", "percent"], ""),
            ("select = ['percent', 'host-domain']", ["--ignore", "percent"], "host-domain"),
            ("profile = 'wide'", ["--base", "http://a_b/"], "percent"),
            ("base = 'http://a_b/'\nprofile = 'wide'", ["--base", "http://h/"], "percent"),
        ):
            with self.subTest(text=text, words=words):
                self.write(".urlcheck.toml", text)
                status, out, said = self.run_on("-q", *words, "a.html")
                self.assertEqual((status, [it.split("[")[-1].rstrip("]") for it in out.splitlines()], said), (int(bool(wanted)), wanted.split(), ""))
        for text, words, said in (
            ("base = 'http://a_b/'\nprofile = 'wide'", ["--profile", "standard"], "{}/.urlcheck.toml: " + place.format("profile='wide'")),
            ("profile = 'standard'", ["--base", "http://a_b/"], place.format("--profile wide")),
            ("", ["--base", os.fsdecode(b"http://h/\xff")], "the base isn't UTF-8\n"),
        ):
            with self.subTest(text=text, words=words):
                self.write(".urlcheck.toml", text)
                wanted = "urlcheck-documents: " + said.format(os.path.realpath(self.room))
                self.assertEqual(self.run_on("-q", *words, "a.html"), (2, "", wanted))

    def test_within_folders(self):
        """Kinds and patterns of a configuration count for what is found, as for what is named; a pattern of a configuration within
        counts from its folder on."""
        self.write(".urlcheck.toml", "kinds = { 'html.in' = 'html', 'css' = 'html' }\n")
        self.write("d/.urlcheck.toml", "exclude = ['x.html', 'e/*', 'f/']\n")
        for name in ("a.html.in", "b.css", "x.html", "d/x.html", "d/e/y.html", "d/f/z.html", "d/g.html"):
            self.write(name, WRONG)
        for words in ([], ["--git"] if shutil.which("git") else []):
            subprocess.run(["git", "init", "-q"], cwd=self.room, check=True, capture_output=True)
            out = self.run_on("--list", "-q", *words, ".")[1]
            self.assertEqual([it.partition(":")[0] for it in out.splitlines()], ["./a.html.in", "./b.css", "./d/g.html", "./x.html"] if words else
                             ["./a.html.in", "./b.css", "./x.html", "./d/g.html"])
        self.assertEqual(self.run_on("--list", "-q", "d")[1], "d/g.html:1:10:x y\n")

    def test_a_wrong_one_in_a_subfolder(self):
        """It ends the run before anything is read, fixed or reported."""
        for number in range(130):
            self.write("m/{:03}.html".format(number), WRONG)
        self.write("m/z/a.html", WRONG)
        self.write("m/z/.urlcheck.toml", "gmf = true\n")
        for words in (["--format", "sarif"], ["--format", "junit"], ["--fix"], ["--output", "r"], ["--list"]):
            with self.subTest(words):
                status, out, said = self.run_on(*words, "m")
                self.assertEqual((status, out), (2, ""))
                self.assertRegex(said, "^urlcheck-documents: .*m/z/.urlcheck.toml: there is no key gmf; the nearest is gfm\n$")
        self.assertEqual(os.path.getsize(os.path.join(self.room, "m/000.html")), len(WRONG))
        self.assertFalse(os.path.exists(os.path.join(self.room, "r")))

    def test_tables_by_other_words(self):
        """TOML has several ways to write the same table; each is read, and one that is meant is never passed over."""
        self.write("a.html", WRONG)
        for text in ("[tool]\nurlcheck = { ignore = ['x'] }", "[tool.'urlcheck']\nignore = ['x']", "[tool]\nurlcheck.ignore = ['x']",
                     "tool.urlcheck.ignore = ['x']", "tool = { urlcheck = { ignore = ['x'] } }", "[ tool . urlcheck ]\nignore = ['x']"):
            with self.subTest(text):
                self.write("pyproject.toml", text)
                self.assertEqual(self.run_on("-q", "a.html"), (0, "", ""))
        self.write("pyproject.toml", "[project]\ndependencies = ['urlcheck']\n")
        self.assertEqual(self.run_on("-q", "a.html")[0], 1)
        self.write(".urlcheck.toml", "[tool.urlcheck]\nignore = ['x']")
        self.assertIn("there is no key tool; here the keys come without [tool.urlcheck]\n", self.run_on("-q", "a.html")[2])

    def test_what_is_no_file(self):
        self.write("a.html", WRONG)
        os.mkfifo(os.path.join(self.room, ".urlcheck.toml"))
        status, out, said = self.run_on("-q", "a.html")
        self.assertEqual((status, out), (2, ""))
        self.assertTrue(said.endswith("/.urlcheck.toml: isn't a regular file\n"), said)

    @unittest.skipIf(os.getuid(), "only root may become another user")
    def test_a_closed_folder_above(self):
        """What may not be looked into has no configuration."""
        os.makedirs(os.path.join(self.room, "closed", "open"))
        os.chmod(os.path.join(self.room, "closed"), 0o700)
        os.chmod(self.room, 0o755)
        self.write("a.html", WRONG)
        # (Python's own modules may be closed to the other user, so a first call has all of them loaded)
        script = (
            "import os, sys\n"
            "from urlcheck.documents import main\n"
            "words, sys.argv[1:] = sys.argv[1:], ['--list', '-q', 'a.html']\n"
            "try: main()\n"
            "except SystemExit: pass\n"
            "os.chdir('closed/open')\n"
            "os.setuid(65534)\n"
            "sys.argv[1:] = words\n"
            "main()\n"
        )
        words = [sys.executable, "-c", script, "--list", "-q", "--type", "html", "-"]
        ran = subprocess.run(words, cwd=self.room, input=WRONG.encode(), capture_output=True)
        wanted = b"a.html:1:10:x y\n-:1:10:x y\n"
        self.assertEqual((ran.returncode, ran.stdout, ran.stderr), (0, wanted, b""))

    def test_what_it_says(self):
        """Each key, and that an option goes before it."""
        self.write("a.html", "<a href='http://a_b/'><a href='{{ x }}'><img src=''><a href='c'>")
        self.write("b/c.html", WRONG)
        self.write("d.txt", "[a](<b c>)")
        for text, words, places in (
            ("", "a.html", ["1:17 host-domain", "1:32 code-point", "1:51 empty"]),
            ("profile = 'wide'", "a.html", ["1:32 code-point", "1:51 empty"]),
            ("profile = 'wide'", "--profile standard a.html", ["1:17 host-domain", "1:32 code-point", "1:51 empty"]),
            ("ignore = ['\\{\\{']", "a.html", ["1:17 host-domain", "1:51 empty"]),
            ("no-empty = true", "a.html", ["1:17 host-domain", "1:32 code-point"]),
            ("base = 'urn:x'\nignore = ['_', 'x']", "a.html", ["1:51 empty", "1:62 opaque-base"]),
            ("base = 'urn:x'\nignore = ['_', 'x']", "--base http://h/ a.html", ["1:51 empty"]),
            ("exclude = ['a.*', 'd.*']", ".", ["1:11 code-point"]),
            ("profile = 'wide'", "--no-config a.html", ["1:17 host-domain", "1:32 code-point", "1:51 empty"]),
        ):
            for name, before in ((".urlcheck.toml", ""), ("pyproject.toml", "[tool.other]\n[tool.urlcheck]\n")):
                with self.subTest(text=text, words=words, name=name):
                    self.write(name, before + text)
                    out = self.run_on("-q", *words.split())[1]
                    found = [" ".join((":".join(it.split(":")[1:3]), it.split("[")[-1].rstrip("]"))) for it in out.splitlines()]
                    self.assertEqual(found, places)
                    os.remove(os.path.join(self.room, name))
        self.write(".urlcheck.toml", "format = 'json'")
        self.assertTrue(self.run_on("-q", "b")[1].startswith('{"column":11'))
        self.assertTrue(self.run_on("-q", "--format", "gnu", "b")[1].startswith("b/c.html:1:11: "))
        self.assertEqual(self.run_on("--list", "-q", "b")[1], "b/c.html:1:10:x y\n")

    @unittest.skipUnless(importlib.util.find_spec("markdown_it"), "markdown-it-py isn't installed")
    def test_kinds_and_gfm(self):
        self.write(".urlcheck.toml", "gfm = true\n[kinds]\n'md.in' = 'markdown'\n")
        self.write("a.md.in", "[a](<b c>) http://h/^\n")
        self.checks("a.md.in", [("1:7", "code-point"), ("1:21", "code-point")])

    def test_the_nearest_counts(self):
        self.write(".urlcheck.toml", "ignore = ['x']")
        self.write("b/pyproject.toml", "[project]\nname = 'tool.urlcheck'\n")
        self.write("b/a.html", WRONG)
        self.write("c/pyproject.toml", "[tool.urlcheck]\n")
        self.write("c/a.html", WRONG)
        self.assertEqual(self.run_on("-q", "b/a.html")[0], 0)
        self.assertEqual(self.run_on("-q", "c/a.html")[0], 1)
        # (both of a folder: its own goes before the project's)
        self.write("c/.urlcheck.toml", "ignore = ['x']")
        self.assertEqual(self.run_on("-q", "c")[0], 0)

    def test_what_is_wrong(self):
        self.write("a.html", WRONG)
        for text, said in (
            ("profil = 'wide'", "there is no key profil; the nearest is profile"),
            ("x = 1", "there is no key x"),
            ("profile = 'wider'", "no profile is named 'wider': there are standard wide parser"),
            ("profile = 1", "profile is a text"),
            ("base = 'x'", "the base is refused at place 0: it has no scheme [no-scheme]"),
            ("ignore = 'x'", "ignore is a list of texts"),
            ("ignore = ['(']", "'(' isn't a regular expression: "),
            ("gfm = 1", "gfm is true or false"),
            ("kinds = 1", "kinds is a table of names' ends, each with its kind"),
            ("kinds = { x = 'y' }", "no kind is named 'y': there are html xml "),
            ("a", ""),
            ("a = '\xff'".encode("latin-1"), ""),
        ):
            with self.subTest(text):
                self.write(".urlcheck.toml", text)
                status, out, err = self.run_on("-q", "--format", "sarif", "a.html")
                self.assertEqual((status, out), (2, ""))
                self.assertIn("/.urlcheck.toml: " + said, err)
                self.assertEqual(err.count("\n"), 1)
        self.write(".urlcheck.toml", "format = 'x'")
        self.assertIn("no format is named 'x': there are gnu", self.run_on("-q", "a.html")[2])


class Several(Texts):
    def test_jobs(self):
        """Any number of documents at once gives the same report, in the same order."""
        for number in range(40):
            self.write("d/{:02}.html".format(number), "<a href='{} y'>\n".format(number) * (1 + number * 97 % 1000))
        self.write("d/05.html", b"<a href='x y'>\xff")
        self.write("d/06.xml", "<urlset><loc>http://h/ a</loc>")
        wanted = self.run_on("--format", "sarif", "d")
        for jobs in ("1", "2", "4", "64", "256"):
            self.assertEqual(self.run_on("--format", "sarif", "--jobs", jobs, "d"), wanted)
        self.assertEqual(wanted[0], 2)
        for word in ("0", "x", "257", "-1", "", "1.5"):
            status, _, said = self.run_on("--list", "--jobs=" + word, "d")
            self.assertEqual((status, said.splitlines()[1]), (2, "urlcheck-documents: --jobs is a number from 1 to 256"))

    def test_names_of_the_current_folder(self):
        """In a format for programs a name has no `./` before it; for people it is as it was given."""
        self.write("d/a.html", WRONG)
        self.write("d/b.html", "<a href=x>")
        self.write("d/c.html", b"\xff")
        for name in FORMATS:
            for words in (["."], ["./d", ".//./d"]):
                with self.subTest(name=name, words=words):
                    _, out, said = self.run_on("-q", "--format", name, *words)
                    self.assertEqual(out.count("./d/") > 0, name in ("gnu", "caret"), out)
                    self.assertIn("d/a.html", out)
                    self.assertIn("urlcheck-documents: ./d/c.html:1:1: ", said)

    def test_a_name_for_standard_input(self):
        """It is reported, says the kind, and finds the configuration; nothing of that name is read."""
        self.assertEqual(self.run_on("-q", "--stdin-name", "d/a.html", "-", stdin=WRONG.encode())[:2],
                         (1, "d/a.html:1:11: error: U+0020 SPACE is not allowed in a URL [code-point]\n"))
        self.assertEqual(self.run_on("--list", "-q", "--stdin-name", "a.xml", "-", stdin=b"<urlset><loc>x</loc></urlset>")[1], "a.xml:1:14:x\n")
        self.assertEqual(self.run_on("--list", "-q", "--stdin-name", "a.xml", "--type", "html", "-", stdin=WRONG.encode())[1], "a.xml:1:10:x y\n")
        status, _, said = self.run_on("--list", "-q", "--stdin-name", "a", "-", stdin=b"")
        self.assertEqual(status, 2)
        self.assertIn("it has no known file extension", said)
        self.assertIn("--stdin-name is for standard input, which - is", self.run_on("--list", "--stdin-name", "a.html", "b.html")[2])
        if HAS_TOML:
            self.write("d/.urlcheck.toml", "ignore = ['x']")
            self.assertEqual(self.run_on("-q", "--stdin-name", "d/a.html", "-", stdin=WRONG.encode())[0], 0)


if __name__ == "__main__":
    unittest.main()
