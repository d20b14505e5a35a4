"""Tests that urlcheck.documents loses nothing: what a file has besides, what is written besides, known faults, and what is never
written. The package is on PYTHONPATH."""

import os
import shutil
import signal
import stat
import subprocess
import sys
import unittest
import zipfile
from unittest import mock

from room import PROGRAM, Texts
from urlcheck._fixes import writing
from urlcheck._fixes.fixing import digest_of

WRONG = '<a href="http://h/a b">x</a>\n'
OLD, NEW = b"what was read", b"what is written"


class Besides(Texts):
    """What a file has besides its text, when another one takes its place."""

    def setUp(self):
        super().setUp()
        self.write("a.html", OLD)
        self.path = os.path.join(self.room, "a.html")

    def read(self):
        with open(self.path, "rb") as file:
            return file.read()

    def replaced(self, old):
        writing.replace(self.path, digest_of(old), NEW)

    @unittest.skipUnless(sys.platform == "linux", "extended attributes are those of Linux")
    def test_what_a_file_has_besides(self):
        """The new one has its attributes and its ACL, and no others; if one can't be kept, it stays."""
        try:
            os.setxattr(self.path, "user.kind", b"page")
        except OSError:
            self.skipTest("this file system has no extended attributes")
        # (an ACL by which the user 65534 may write, as setfacl -m u:65534:rw writes it: six entries of 8 bytes after a version)
        entries = ((1, 6, -1), (2, 6, 65534), (4, 4, -1), (16, 6, -1), (32, 4, -1))
        acl = (2).to_bytes(4, "little") + b"".join(
            tag.to_bytes(2, "little") + mode.to_bytes(2, "little") + (who % 2**32).to_bytes(4, "little") for tag, mode, who in entries)
        os.setxattr(self.path, "system.posix_acl_access", acl)
        mode = stat.S_IMODE(os.stat(self.path).st_mode)
        self.replaced(OLD)
        self.assertEqual(self.read(), NEW)
        self.assertEqual(os.getxattr(self.path, "user.kind"), b"page")
        self.assertEqual(os.getxattr(self.path, "system.posix_acl_access"), acl)
        self.assertEqual(stat.S_IMODE(os.stat(self.path).st_mode), mode)
        for name, said in (("user.kind", "has the extended attribute user.kind, which"), ("system.posix_acl_access", "has an ACL, which")):
            set_to = os.setxattr

            def refused(path, attribute, value, refused=name):
                if attribute == refused:
                    raise PermissionError(1, "refused")
                set_to(path, attribute, value)

            with self.subTest(name), mock.patch.object(writing.os, "setxattr", refused):
                with self.assertRaisesRegex(writing.Unwritten, said + " can't be kept, and isn't written"):
                    self.replaced(NEW)
                self.assertEqual((self.read(), os.listdir(self.room)), (NEW, ["a.html"]))
        # (a folder's default ACL isn't to open the new file)
        os.removexattr(self.path, "system.posix_acl_access")
        os.setxattr(self.room, "system.posix_acl_default", acl)
        os.chmod(self.path, 0o600)
        self.replaced(NEW)
        self.assertNotIn("system.posix_acl_access", os.listxattr(self.path))
        self.assertEqual(stat.S_IMODE(os.stat(self.path).st_mode), 0o600)

    def test_no_file(self):
        """What isn't a file isn't waited for."""
        os.remove(self.path)
        os.mkfifo(self.path)
        self.addCleanup(signal.alarm, 0)
        signal.alarm(60)
        with self.assertRaisesRegex(writing.Unwritten, "isn't a regular file"):
            writing.replace(self.path, digest_of(OLD), NEW)
        said = "urlcheck-documents: a.html: isn't a regular file, and isn't fixed\n"
        self.assertEqual(self.run_on("-q", "--fix", "a.html"), (2, "", said))


class Outputs(Texts):
    """The files that are written besides documents."""

    def held(self, name):
        with open(os.path.join(self.room, name), encoding="utf-8") as file:
            return file.read()

    def test_what_is_read_is_not_written(self):
        """Under each of its names, and before anything is read."""
        for name in ("o.html", "d/o.html", "patterns", ".urlcheck.toml"):
            self.write(name, WRONG if name.endswith("html") else "" if name == "patterns" else "gfm = true\n")
        os.link(os.path.join(self.room, "o.html"), os.path.join(self.room, "hard"))
        os.symlink("o.html", os.path.join(self.room, "soft"))
        for option in ("--output", "--write-baseline"):
            for file, words in (
                ("o.html", ["o.html"]), ("./o.html", ["--fix", "o.html"]), ("hard", ["o.html"]), ("soft", ["o.html"]), ("o.html", ["soft"]),
                (".urlcheck.toml", ["o.html"]), ("patterns", ["--ignore", "patterns", "o.html"]),
            ):
                with self.subTest(option=option, file=file, words=words):
                    before = self.held(file)
                    status, out, said = self.run_on(option, file, *words)
                    self.assertEqual((status, out, self.held(file)), (2, "", before))
                    self.assertRegex(said, "^urlcheck-documents: .*: is read, so that {} needs another FILE\n$".format(option))
        said = "urlcheck-documents: --output and --write-baseline name the same file\n"
        self.assertEqual(self.run_on("--output", "x", "--write-baseline", "./x", "o.html"), (2, "", said))
        # (in a folder the file of the report isn't a document)
        for _ in range(2):
            self.assertEqual(self.run_on("--output", "d/r.html", "d")[::2], (1, "urlcheck-documents: 1 document, 1 link, 1 refused, 0 ignored\n"))
            self.assertEqual(self.held("d/r.html").count("\n"), 1)
        self.assertEqual(sorted(os.listdir(os.path.join(self.room, "d"))), ["o.html", "r.html"])

    def test_a_report_in_the_place_of_another_one(self):
        """It has the mode of the old one, or of any new file; what isn't whole takes no place."""
        self.write("a.html", WRONG)
        self.write("r", "old")
        os.chmod(os.path.join(self.room, "r"), 0o604)
        self.assertEqual(self.run_on("--output", "r", "a.html")[0], 1)
        self.assertEqual(stat.S_IMODE(os.stat(os.path.join(self.room, "r")).st_mode), 0o604)
        mask = os.umask(0o027)
        self.addCleanup(os.umask, mask)
        self.assertEqual(self.run_on("--output", "new", "a.html")[0], 1)
        self.assertEqual(stat.S_IMODE(os.stat(os.path.join(self.room, "new")).st_mode), 0o640)
        self.assertEqual(self.held("r"), self.held("new"))
        self.write("r", "old")
        self.write("a.html", WRONG * 2000)
        line = 'ulimit -f 4; trap "" XFSZ; exec "$@"'
        ran = subprocess.run(["bash", "-c", line, "x", *PROGRAM, "--output", "r", "a.html"], cwd=self.room, capture_output=True)
        self.assertEqual((ran.returncode, self.held("r")), (3, "old"))
        self.assertIn(b"urlcheck-documents: r: can't be written: the file may not get larger\n", ran.stderr)
        run = subprocess.Popen([*PROGRAM, "-q", "--output", "r", "--type", "html", "-"], cwd=self.room, stdin=subprocess.PIPE)
        run.stdin.write(WRONG.encode())
        run.stdin.flush()
        run.kill()
        run.communicate()
        self.assertEqual((self.held("r"), sorted(os.listdir(self.room))), ("old", ["a.html", "new", "r"]))

    def test_what_a_killed_run_left(self):
        self.write(".urlcheck-x1.tmp", WRONG)
        self.write("a.html", WRONG)
        said = "urlcheck-documents: ./.urlcheck-x1.tmp: was left by a run that was killed, and isn't needed\n"
        self.assertNotIn(said, self.run_on(".")[2])
        os.utime(os.path.join(self.room, ".urlcheck-x1.tmp"), (1, 1))
        self.assertIn(said, self.run_on(".")[2])
        self.assertIn(" 1 fixed", self.run_on("--fix", ".")[2])


class Baselines(Texts):
    """What a run writes of known faults."""

    def known(self, name="k"):
        with open(os.path.join(self.room, name), encoding="utf-8") as file:
            return [line.partition(" ")[2] for line in file.read().splitlines()[1:]]

    def link(self, *texts):
        return "".join('<a href="http://h/{}">x</a>\n'.format(it) for it in texts)

    def test_an_update(self):
        """Known faults that are there stay, new ones come in, and those that are gone go: the counts say so."""
        self.write("s/a.html", self.link("a b", "c d"))
        self.write("s/b.html", self.link("e f"))
        self.assertEqual(self.run_on("-q", "--write-baseline", "k", "s")[::2], (0, ""))
        both = ["s/a.html code-point http://h/a b", "s/a.html code-point http://h/c d", "s/b.html code-point http://h/e f"]
        self.assertEqual(sorted(self.known()), both)
        update = ["--baseline", "k", "--write-baseline", "k"]
        said = "urlcheck-documents: k: {} kept, {} added, {} gone\n"
        self.assertIn(said.format(3, 0, 0), self.run_on(*update, "s")[2])
        self.assertEqual(sorted(self.known()), both)
        self.write("s/a.html", self.link("a b", "g h"))
        self.assertIn(said.format(2, 1, 1), self.run_on(*update, "s")[2])
        wanted = [both[0], "s/a.html code-point http://h/g h", both[2]]
        self.assertEqual(sorted(self.known()), wanted)
        # what a run doesn't read, or not to its end, or by other rules, isn't gone
        self.write("s/b.html", b"\xff")
        for words in (["s/a.html"], ["s"], ["--select", "percent", "s/a.html"], ["--exclude", "b.*", "s"]):
            with self.subTest(words):
                said_now = self.run_on("--baseline", "k", *words)[2]
                self.assertNotIn("gone", said_now)
                self.assertNotIn("gone\n", self.run_on(*update, *words)[2].replace(" 0 gone", ""))
                self.assertEqual(sorted(self.known()), wanted)
        os.remove(os.path.join(self.room, "s/b.html"))
        self.assertNotIn("gone", self.run_on("--baseline", "k", "s/a.html")[2])
        self.assertIn("1 fault of the baseline is gone\n", self.run_on("--baseline", "k", "s")[2])
        self.assertIn(said.format(2, 0, 1), self.run_on(*update, "s")[2])

    def test_fixes(self):
        """A known fault stays as it is, and isn't gone."""
        self.write("a.html", self.link("a b", "a b"))
        self.run_on("-q", "--write-baseline", "k", "a.html")
        self.write("a.html", self.link("a b", "a b", "a b", "c d"))
        status, out, said = self.run_on("--fix", "--baseline", "k", "a.html")
        self.assertEqual((status, out, said), (0, "", "urlcheck-documents: 1 document, 4 links, 0 refused, 0 ignored, 2 known, 2 fixed\n"))
        with open(os.path.join(self.room, "a.html"), encoding="utf-8") as file:
            self.assertEqual(file.read(), self.link("a b", "a b", "a%20b", "c%20d"))

    def test_no_baseline(self):
        """What isn't one is never written over."""
        self.write("a.html", self.link("a b"))
        self.write("notes", "mine\n")
        self.assertEqual(self.run_on("--write-baseline", "notes", "a.html"), (2, "", "urlcheck-documents: notes: isn't a baseline, and isn't written\n"))
        with open(os.path.join(self.room, "notes"), encoding="utf-8") as file:
            self.assertEqual(file.read(), "mine\n")
        self.write("none", "")
        self.assertEqual(self.run_on("--write-baseline", "none", "a.html")[0], 0)
        self.assertEqual(self.known("none"), ["a.html code-point http://h/a b"])


class Differences(Texts):
    """What isn't fixed is counted, and what would be is shown."""

    def test_what_is_not_fixed_is_counted(self):
        self.write("a.html", '<a href="http://h/{{ a b }}">x</a><a href="http://127.0.0.1/a b">y</a>' + WRONG)
        with zipfile.ZipFile(os.path.join(self.room, "b.epub"), "w") as book:
            book.writestr("c.xhtml", '<html xmlns="http://www.w3.org/1999/xhtml"><a href="b c"/><a href="d e"/></html>')
        said = self.run_on("--fix", "a.html", "b.epub")[2]
        self.assertIn("urlcheck-documents: 4 links aren't fixed: 2 in a book, ", said)
        self.assertIn("1 a template", said)
        self.assertIn("1 with a host of numbers", said)

    @unittest.skipUnless(shutil.which("patch") and shutil.which("git"), "patch or git isn't installed")
    def test_differences_of_any_name(self):
        """`patch -p0` and `git apply -p0` take them from `.`: names with spaces and quotes, a byte order mark, CRLF, no last end."""
        texts = {
            "my dir/my page.html": WRONG, "mark.html": "\ufeff" + WRONG, "crlf.html": "<p>\r\n" + WRONG.replace("\n", "\r\n"),
            "end.html": WRONG + WRONG.rstrip("\n"), 'qu"ote.html': WRONG, " space.html": WRONG, "\u00e9.html": WRONG, "t\ta\\b.html": WRONG,
        }
        for name, text in texts.items():
            self.write(name, text)
        status, out, _ = self.run_on("--diff", ".")
        self.assertEqual(status, 1)
        for command in (["patch", "-s", "-p0"], ["git", "apply", "-p0"]):
            for name, text in texts.items():
                self.write(name, text)
            ran = subprocess.run(command, input=out.encode(), cwd=self.room, capture_output=True)
            self.assertEqual((ran.returncode, ran.stderr), (0, b""), command)
            for name, text in texts.items():
                with open(os.path.join(self.room, name), "rb") as file:
                    self.assertEqual(file.read().decode(), text.replace("a b", "a%20b"), (command, name))


if __name__ == "__main__":
    unittest.main()
