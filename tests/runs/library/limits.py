"""Tests of what urlcheck.documents can't read or write, of hostile documents, and of an end without the extension module.
The package is on PYTHONPATH."""

import errno
import gzip
import importlib.util
import json
import os
import resource
import shutil
import signal
import subprocess
import sys
import time
import unittest
from unittest import mock

import urlcheck
from room import PROGRAM, TOP, Texts
from urlcheck._documents import apart, limits
from urlcheck._streams import REASONS, reason_of

PART = apart.Taken(documents=1, links=1, lines=bytearray(b"x" * 300_000))

LATIN = "; if it is Latin-1: iconv -f ISO-8859-1 -t UTF-8 makes it UTF-8, and - reads what that writes"
"""What is said of a document that isn't UTF-8 and names no encoding."""

MEMORY_OF_LINKS = 120_000
"""How much memory, in KiB, the program has for 100,000 links, a report on which has 54 MB as SARIF."""


class Limits(Texts):
    def test_unread(self):
        self.write("a.html", "<a href=x>")
        self.write("utf16.html", "<a href=x>".encode("utf-16"))
        self.write("broken.xml", "<urlset>\n<loc>http://h/</loc><b></urlset>")
        self.write("a.txt", "x")
        status, out, said = self.run_on("--list", "missing.html", "missing", "", "utf16.html", "broken.xml", "a.txt", "a.html")
        self.assertEqual(status, 2)
        self.assertEqual(out, "broken.xml:2:6:http://h/\na.html:1:9:x\n")
        for word in ("missing.html: can't be read: there is no such file",
                     "missing: can't be read: there is no such file",
                     "urlcheck-documents: '': can't be read: there is no such file",
                     "utf16.html:1:1: this isn't UTF-8, and the document names UTF-16: iconv -f UTF-16 -t UTF-8 makes ",
                     "broken.xml:2:26: can't be read from here on: mismatched tag",
                     "a.txt: it has no known file extension"):
            self.assertIn(word, said)

    def test_what_is_not_utf8(self):
        """The place of the first byte that isn't, in each unit; nothing of the document is checked."""
        before = "<a href='x y'>\n\u65e5e\u0301\U0001f600\t".encode()
        for data, places in (
            (b"<p>caf\xe9", ("1:7",) * 4),
            (before + b"\xff", ("2:6", "2:12", "2:7", "2:9")),
            (b"\xef\xbb\xbf" + before + b"\xf0\x9f\x98z", ("2:6", "2:12", "2:7", "2:9")),
            (b"\xef\xbb\xbf\xe9\n<a href='x y'>\xff", ("1:1",) * 4),
            (b"a\r\n\xed\xa0\x80", ("2:1",) * 4),
            (b"a\n\xc3", ("2:1",) * 4),
        ):
            self.write("a.html", data)
            for unit, place in zip(("code-points", "bytes", "utf16", "screen"), places):
                with self.subTest(data=data, unit=unit):
                    wanted = "urlcheck-documents: {}:" + place + ": this isn't UTF-8" + LATIN + "\n"
                    for words in (["--list", "a.html"], ["a.html"], ["--type", "xml", "a.html"]):
                        found = self.run_on("-q", "--columns", unit, *words)
                        self.assertEqual(found, (2, "", wanted.format("a.html")))
                    found = self.run_on("--list", "-q", "--columns", unit, "--type", "html", "-", stdin=data)
                    self.assertEqual(found, (2, "", wanted.format("-")))
        self.write("b.html", "<a href=x>")
        counts = "urlcheck-documents: 1 document, 1 link, 0 ignored\n"
        wanted = "urlcheck-documents: a.html:2:1: this isn't UTF-8" + LATIN + "\n" + counts
        self.assertEqual(self.run_on("--list", "a.html", "b.html"), (2, "b.html:1:9:x\n", wanted))

    def test_what_github_shows(self):
        """A document that isn't read to its end has an annotation after the annotations of its links, and a line as in all formats."""
        self.write("a,b.html", "<a href='x y'>")
        self.write("broken.xml", "<urlset>\n<loc>http://h/ a</loc><b></urlset>")
        self.write("c.html", b"<a href='x y'>\n\xff")
        os.mkdir(os.path.join(self.room, "100%"))
        at = ["::error file=a%2Cb.html,line=1,col=11,title=code-point::U+0020 SPACE is not allowed in a URL",
              "::error file=missing.html,title=not-read::can't be read: there is no such file",
              "::error file=broken.xml,line=2,col=15,title=code-point::U+0020 SPACE is not allowed in a URL",
              "::error file=broken.xml,line=2,col=28,title=not-read::can't be read from here on: mismatched tag",
              "::error file=c.html,line=2,col=1,title=not-read::this isn't UTF-8" + LATIN,
              "::error file=100%25,title=not-read::has no document: no name in this folder ends in .html, "]
        status, out, said = self.run_on("-q", "--format", "github", "a,b.html", "missing.html", "broken.xml",
                                        "c.html", "100%")
        lines = out.splitlines()
        self.assertEqual((status, len(lines), lines[:-1]), (2, len(at), at[:-1]))
        self.assertEqual(lines[-1][:len(at[-1])], at[-1])
        self.assertEqual(said.count("\n"), 4)
        self.assertIn("urlcheck-documents: broken.xml:2:28: can't be read from here on: mismatched tag\n", said)
        # (a name with a line's end is one annotation)
        found = self.run_on("-q", "--format", "github", "x\ny.html")
        self.assertEqual(found[1], "::error file=x%0Ay.html,title=not-read::can't be read: there is no such file\n")
        found = self.run_on("-q", "--format", "github", "-")
        self.assertEqual(found[1], "::error file=-,title=not-read::it has no name that says its kind: give --type html, "
                         "xml, markdown or another kind\n")
        # The other formats have no line for it.
        for form in ("gnu", "caret", "json"):
            self.assertEqual(self.run_on("-q", "--format", form, "missing.html")[:2], (2, ""))

    def test_the_encoding_that_a_document_names(self):
        """It is said where the document isn't UTF-8, with what makes it so: the place is in what iconv writes."""
        remedy = ", and the document names {0}: iconv -f {0} -t UTF-8 makes it UTF-8, and - reads what that writes"
        for text, place, encoding in (
            ("<?xml version='1.0' encoding='ISO-8859-1'?>\n<urlset><loc>\xe9 x</loc></urlset>", "2:14", "ISO-8859-1"),
            ("<!DOCTYPE html>\n<meta charset=windows-1252>\xe9", "2:28", "windows-1252"),
            ("<META http-equiv='Content-Type' content='text/html; charset=iso-8859-15'>\n\xe9", "2:1", "iso-8859-15"),
            ("<meta charset='utf-8'>\xe9", "1:23", None),
            ("<p>\xe9</p><meta name=charset>", "1:4", None),
            ("<!--" + " " * 1000 + "--><meta charset=latin1>\xe9", "1:1029", None),
            ("<meta charset='\x1b[31m'>\xe9", "1:23", None),
        ):
            wanted = ":{}: this isn't UTF-8{}\n".format(place, remedy.format(encoding) if encoding else LATIN)
            with self.subTest(text):
                self.write("a.html", text.encode("latin-1"))
                self.assertEqual(self.run_on("--list", "-q", "a.html"), (2, "", "urlcheck-documents: a.html" + wanted))
        self.write("a.html", "<a href='x y'>".encode("utf-16-be").join((b"\xfe\xff", b"")))
        self.assertIn("a.html:1:1: this isn't UTF-8" + remedy.format("UTF-16"), self.run_on("--list", "-q", "a.html")[2])
        # (of a FILE of --ignore there is no such word)
        self.assertEqual(self.run_on("--list", "-q", "--ignore", "a.html", "b.html"),
                         (2, "", "urlcheck-documents: a.html:1:1: this isn't UTF-8\n"))
        # What iconv writes is read, whatever it says of itself.
        latin = "<?xml version='1.0' encoding='ISO-8859-1'?>\n<urlset><loc>http://h/\xe9 x</loc></urlset>".encode()
        self.assertEqual(self.run_on("-q", "--type", "xml", "-", stdin=latin)[1].split(": error")[0], "-:2:24")

    def test_what_is_no_document(self):
        """What is compressed is named as such, and so is a URL: both look like a document to a new user."""
        packed = gzip.compress(b"<urlset><loc>http://h/ a</loc></urlset>")
        self.write("a.xml", packed)
        wanted = "is compressed: gzip -dc unpacks it, and - reads what that writes\n"
        self.assertEqual(self.run_on("--list", "--quiet", "a.xml"), (2, "", "urlcheck-documents: a.xml: " + wanted))
        status, out, said = self.run_on("--list", "--quiet", "--type", "xml", "-", stdin=packed)
        self.assertEqual((status, out, said), (2, "", "urlcheck-documents: standard input: " + wanted))
        self.write("a.html.gz", packed)
        self.assertEqual(self.run_on("--quiet", "a.html.gz"), (2, "", "urlcheck-documents: a.html.gz: " + wanted))
        wanted = "urlcheck-documents: {}: can't be read: there is no such file{}\n"
        for name, more in (("https://h/a", ", and no URL is fetched"), ("file://h/a.html", ", and no URL is fetched"),
                           ("http:a.html", ""), ("h/a.html", "")):
            self.assertEqual(self.run_on("--list", "--quiet", name), (2, "", wanted.format(name, more)))

    def test_reasons(self):
        """Why a file can't be read or written, in the words of `urlcheck`."""
        self.write("a.html", "<a href=x>")
        self.write("wrong", b"a\xff")
        for words, wanted in (
            (["a.html/b.html"], "a.html/b.html: can't be read: a part of its path is no folder"),
            (["--ignore", ".", "a.html"], ".: can't be read: it is a folder"),
            (["--ignore", "missing", "a.html"], "missing: can't be read: there is no such file"),
            (["--ignore", "wrong", "a.html"], "wrong:1:2: this isn't UTF-8"),
        ):
            status, _, said = self.run_on("--quiet", *words)
            self.assertEqual((status, said), (2, "urlcheck-documents: {}\n".format(wanted)))
        for number, reason in ((errno.EACCES, "permission denied"), (errno.EPERM, "permission denied"),
                               (errno.EIO, os.strerror(errno.EIO)), (errno.EFBIG, "the file may not get larger")):
            self.assertEqual(reason_of(OSError(number, os.strerror(number))), reason)
        with open(os.path.join(TOP, "docs", "ERRORS.md"), encoding="utf-8") as page:
            text = page.read()
        for reason in REASONS.values():
            self.assertIn("`: {}`".format(reason), text)

    def test_names(self):
        self.write("a\nb.html", "<a href='x y'>")
        status, out, said = self.run_on("--list", "a\nb.html")
        self.assertEqual((status, out), (2, ""))
        self.assertIn("a\ufffdb.html: its name has a control", said)
        self.assertIn("a\ufffdb.html:1:11: error: ", self.run_on("a\nb.html")[1])

    def test_names_with_a_place(self):
        """A name that a located line would cut elsewhere: it is checked, and not written."""
        for name in ("a:1:2:b.html", "a:1:2.html", ":3:4:.html", "C:\\b.html", "a:1b:2:.html"):
            with self.subTest(name):
                self.write(name, "<a href='x y'>")
                is_written = name in ("a:1:2.html", "C:\\b.html", "a:1b:2:.html")
                status, out, said = self.run_on("--list", name)
                self.assertEqual((status, out), (0, name + ":1:10:x y\n") if is_written else (2, ""))
                self.assertEqual("what a located line would read" in said, not is_written)
                self.assertIn(name + ":1:11: error: ", self.run_on(name)[1])
        self.write("a.html:7", "<a href='x y'>")
        self.assertEqual(self.run_on("--list", "--type", "html", "a.html:7")[:2], (2, ""))

    def copied(self, module):
        """A copy of the package, with these bytes as its extension module or with none."""
        folder = os.path.join(self.room, "copy")
        shutil.rmtree(folder, ignore_errors=True)
        own = os.path.dirname(urlcheck.__file__)
        shutil.copytree(own, os.path.join(folder, "urlcheck"), ignore=shutil.ignore_patterns("_native*", "__pycache__"))
        file = os.path.join(folder, "urlcheck", "_native.abi3.so")
        if module is not None:
            with open(file, "wb") as out:
                out.write(module)
        return folder, file

    def test_no_module(self):
        """If no extension module fits: a sentence on standard error and status 2, and of an import an error with it."""
        self.write("urlcheck-documents", "from urlcheck.documents import main\nmain()\n")
        self.write("other.py", "import urlcheck\n")
        remedy = "; the wheel of a release has it, and 'tools/build-library DIR' makes it in a checkout\n"
        for module, why in ((None, "No module named 'urlcheck._native'"), (b"no module", "{}: file too short")):
            folder, file = self.copied(module)
            given = dict(os.environ, PYTHONPATH=folder)
            wanted = "the module urlcheck._native can't be loaded: " + why.format(file) + remedy
            runs = [(["urlcheck-documents"], 2), (["-c", "import urlcheck"], 1), (["-m", "other"], 1)]
            if hasattr(sys, "orig_argv"):
                runs += [(["-m", "urlcheck.documents", "a.html"], 2), (["-m", "urlcheck.documents"], 2), (["-m", "urlcheck"], 2)]
            for words, status in runs:
                with self.subTest(module=module, words=words):
                    ran = subprocess.run([sys.executable, *words], cwd=self.room, env=given, capture_output=True)
                    self.assertEqual((ran.returncode, ran.stdout), (status, b""))
                    *before, last = ran.stderr.decode().splitlines(True)
                    self.assertEqual(last, ("urlcheck-documents: " if status == 2 else "ImportError: ") + wanted)
                    self.assertEqual(before == [], status == 2, ran.stderr)
            for shut in ("2>&-", "2>/dev/full"):
                with self.subTest(module=module, shut=shut):
                    line = '"{}" urlcheck-documents a.html {}'.format(sys.executable, shut)
                    ran = subprocess.run(["bash", "-c", line], cwd=self.room, env=given, capture_output=True)
                    self.assertEqual((ran.returncode, ran.stdout, ran.stderr), (2, b"", b""))

    def test_full_output(self):
        self.write("a.html", "<a href=x>")
        for words in (["--list", "a.html"], ["--help"], ["-V"]):
            with open("/dev/full", "wb") as full:
                ran = subprocess.run([*PROGRAM, *words], cwd=self.room, stdout=full, stderr=subprocess.PIPE)
            self.assertEqual(ran.returncode, 3)
            self.assertIn(b"urlcheck-documents: standard output: can't be written: no space is left\n", ran.stderr)

    def test_a_closed_pipe(self):
        """If a reader of the report ends before it, the status says so, and no message does."""
        self.write("a.html", "<a href='x y'>\n" * 20_000)
        for words in ("--list a.html", "a.html", "--format sarif a.html"):
            line = '"{}" -m urlcheck.documents {} | head -c 1 >/dev/null; echo "${{PIPESTATUS[0]}}"'
            ran = subprocess.run(["bash", "-c", line.format(sys.executable, words)], cwd=self.room, capture_output=True)
            self.assertEqual((ran.stdout, ran.stderr), (b"3\n", b""), words)

    def test_closed_files(self):
        """If one of the three files was closed before the start: a status of the page, and no traceback."""
        self.write("a.html", "<a href='x y'>")
        for closed, words, wanted in (
            ("0", "--type html -", 2), ("1", "--list a.html", 3), ("1", "--help", 3), ("1", "a.html", 3),
            ("2", "a.html", 1), ("12", "a.html", 3), ("012", "--type html -", 2), ("02", "--list a.html", 0),
        ):
            with self.subTest(closed=closed, words=words):
                shut = "".join(" {}>&-".format(number) for number in closed)
                line = '"{}" -m urlcheck.documents {}{}'.format(sys.executable, words, shut)
                ran = subprocess.run(["bash", "-c", line], cwd=self.room, capture_output=True, timeout=60)
                self.assertEqual(ran.returncode, wanted, ran.stderr)
                self.assertNotIn(b"Traceback", ran.stderr)
        with open("/dev/full", "wb") as full:
            ran = subprocess.run([*PROGRAM, "a.html"], cwd=self.room, stderr=full, stdout=subprocess.PIPE)
        self.assertEqual((ran.returncode, ran.stdout.count(b"\n")), (1, 1))

    def test_a_terminal(self):
        """What drives a terminal isn't written to one, and to all else it is."""
        self.write("a.html", "<a href='x\x1b[31m\u202ey\tz\u00e9'>")
        terminal, end = os.openpty()
        subprocess.run([*PROGRAM, "--list", "a.html"], cwd=self.room, stdout=end, stderr=subprocess.DEVNULL)
        self.assertEqual(os.read(terminal, 1000).decode(), "a.html:1:10:x\ufffd[31m\ufffdy\tz\u00e9\r\n")
        os.close(end)
        os.close(terminal)
        self.assertEqual(self.run_on("--list", "a.html")[1], "a.html:1:10:x\x1b[31m\u202ey\tz\u00e9\n")

    def test_less_memory_than_is_taken(self):
        """A limit of the caller's that is lower than the program's own stays."""
        self.write("a.html", "<a href=x>")
        for limit in ("-v", "-Sv"):
            line = 'ulimit {} 400000; "{}" -m urlcheck.documents --list a.html'.format(limit, sys.executable)
            ran = subprocess.run(["bash", "-c", line], cwd=self.room, capture_output=True)
            self.assertEqual((ran.returncode, ran.stdout), (0, b"a.html:1:9:x\n"), ran.stderr)

    @unittest.skipUnless(importlib.util.find_spec("markdown_it"), "markdown-it-py isn't installed")
    def test_memory_of_markdown(self):
        """A document that takes all memory is reported, and the next one is read."""
        self.write("a.md", "[a](<b c>)\n\n" * 600_000)
        self.write("b.html", "<a href='x y'>")
        status, out, said = self.run_on("a.md", "b.html")
        self.assertEqual((status, out.count("\n")), (2, 1))
        wanted = "^urlcheck-documents: a.md: (needs more than 480 MiB of memory|takes more than 60 seconds)"
        self.assertRegex(said, wanted)
        self.assertNotIn("Traceback", said)

    def taken(self, parts, pause=0):
        """The lines and the faults of what is taken of parts, by limits of one second and a reader that pauses."""
        lines, faults = b"", []
        with mock.patch.object(limits, "MOST_SECONDS", 1):
            for taken in apart.apart(parts):
                lines += taken.lines
                faults += [taken.fault] * (taken.fault is not None)
                time.sleep(pause)
        return lines, faults

    def test_parts(self):
        """What a document has given before it takes too long or too much memory is taken, in whole parts."""
        def endless():
            limits.has_come()
            yield PART
            while True:
                pass

        def without_memory():
            yield PART
            yield PART
            raise MemoryError

        def failing():
            yield PART
            raise ValueError("x")

        def waiting():
            time.sleep(100)
            yield PART

        def busy():
            while True:
                pass
            yield PART

        rest = ", and isn't reported to its end"
        for parts, count, fault in (
            (endless, 1, "takes more than 1 seconds of processor time" + rest),
            (without_memory, 2, "needs more than 480 MiB of memory" + rest),
            (failing, 1, "its reader failed: ValueError('x')"),
            (waiting, 0, "takes more than 1 seconds to read"),
            (lambda: iter([PART] * 5), 5, None),
            (lambda: iter([]), 0, None),
        ):
            with self.subTest(fault):
                faults = [] if fault is None else [apart.Told(fault)]
                self.assertEqual(self.taken(parts), (PART.lines * count, faults))
        _, (fault,) = self.taken(busy)
        self.assertRegex(fault.after(), "^: takes more than 1 seconds (of processor time )?to read$")

    def test_documents_of_one_process(self):
        """What ends a process is reported of the document that did it, and the others are read: the report on each is as
        for it by itself."""
        def good():
            limits.has_come()
            yield PART

        def endless():
            limits.has_come()
            yield PART
            while True:
                pass

        def silent():
            limits.has_come()
            while True:
                pass
            yield PART

        def waiting():
            time.sleep(100)
            yield PART

        def without_memory():
            yield PART
            yield PART
            raise MemoryError

        def failing():
            yield PART
            raise ValueError("x")

        def killed():
            os.kill(os.getpid(), signal.SIGKILL)
            yield PART

        def left():
            yield PART
            os._exit(0)

        rest = ", and isn't reported to its end"
        slow, memory = "takes more than 1 seconds", "needs more than 480 MiB of memory"
        said = {
            good: (1, None), endless: (1, slow + " of processor time" + rest),
            silent: (0, slow + " of processor time to read"), waiting: (0, slow + " to read"),
            without_memory: (2, memory + rest), failing: (1, "its reader failed: ValueError('x')"),
            killed: (0, "lost its process to SIGKILL"), left: (1, "lost its process to status 0" + rest),
        }
        bad = [it for it in said if it is not good]
        with mock.patch.object(limits, "MOST_SECONDS", 1):
            between = [it for each in bad for it in (good, each)] + [good]
            for documents in (between, bad, bad[::-1], [killed] * 3, [good] * 100):
                taking = apart.Apart(documents)
                for number, document in enumerate(documents):
                    parts = list(taking.taken())
                    faults = [it.fault.reason for it in parts if it.fault is not None]
                    count, fault = said[document]
                    with self.subTest(number=number, document=document.__name__):
                        # (their lines are alike, and what compares long ones on a failure takes minutes)
                        length = sum(len(it.lines) for it in parts)
                        self.assertEqual((length, faults), (len(PART.lines) * count, [] if fault is None else [fault]))
                taking.end()
        with self.assertRaises(ChildProcessError):
            os.wait()

    def test_a_process_ends_that_grew(self):
        """Documents are read in one process until they have taken much memory; a part is given once, even if its
        document is read again."""
        kept = []

        def numbered(length, is_killed=False):
            def parts():
                kept.append(b"x" * length)
                yield apart.Taken(documents=1, links=1, lines=bytearray(b"%d " % os.getpid()))
                if is_killed and len(kept) > 1:
                    os.kill(os.getpid(), signal.SIGKILL)
                yield apart.Taken(lines=bytearray(b"end"))
            return parts

        large = 2 * apart.MOST_GROWN
        taking = apart.Apart([numbered(9), numbered(9), numbered(large), numbered(9), numbered(9, True), numbered(9)])
        given = [b"".join(it.lines for it in taking.taken()).split() for _ in range(6)]
        taking.end()
        self.assertEqual({len(it) for it in given}, {2})
        processes = [int(it[0]) for it in given]
        self.assertEqual(len(set(processes[:3])), 1)
        self.assertNotEqual(processes[3], processes[2])
        self.assertEqual(processes[4], processes[3])
        self.assertNotEqual(processes[5], processes[4])

    def test_a_folder_that_kills(self):
        """A folder with documents that end their processes, by any number of processes at once."""
        for number in range(6):
            self.write("d/{}c.html".format(number), "<a href='x {}'>".format(number))
        self.write("d/0a.html", "x" * (30 << 20) + "\U0001f600")
        os.mkfifo(os.path.join(self.room, "1a.html"))
        self.write("d/2a.html", "<a href='&'>" * 2_000_000)
        self.write("d/3a.html", b"<a href='x y'>\n\xff")
        self.write("d/4a.xml", "<urlset>\n<loc>http://h/ a</loc><b></urlset>")
        self.write("d/5a.html", "<a href='&'>" * 2_000_000)
        said = "urlcheck-documents: d/{}\n"
        faults = [said.format(it) for it in (
            "0a.html: needs more than 160 MiB of memory to read",
            "2a.html: takes more than 2 seconds of processor time to read", "3a.html:2:1: this isn't UTF-8" + LATIN,
            "4a.xml:2:28: can't be read from here on: mismatched tag",
            "5a.html: takes more than 2 seconds of processor time to read",
        )] + ["urlcheck-documents: 1a.html: takes more than 2 seconds to read\n"]
        faults += ["urlcheck-documents: 7 documents, 7 links, 7 refused, 0 ignored\n"]
        places = ["{}c.html:1:11".format(number) for number in range(6)]
        places[4:4] = ["4a.xml:2:15"]
        run = "from urlcheck import documents; from urlcheck._documents import limits; "
        run += "limits.MOST_SECONDS = 2; limits.MOST_MEMORY = 160 << 20; "
        run += "import sys; sys.argv[1:] = ['--jobs', sys.argv[1], 'd', '1a.html']; documents.main()"
        for jobs in ("1", "2", "4"):
            ran = subprocess.run([sys.executable, "-c", run, jobs], cwd=self.room, capture_output=True)
            found = [it.partition(": error")[0] for it in ran.stdout.decode().splitlines()]
            given = ran.returncode, found, ran.stderr.decode()
            self.assertEqual(given, (2, ["d/" + it for it in places], "".join(faults)), jobs)

    def test_processes_that_begin_anew(self):
        """If the system copies no process, several documents are read by one all the same, and reported alike."""
        for number in range(90):
            self.write("d/{:02}.html".format(number), "<a href='{} y'>\n".format(number) * (number % 7))
        self.write("d/05.html", b"<a href='x y'>\xff")
        self.write("d/06.xml", "<urlset><loc>http://h/ a</loc>")
        wanted = self.run_on("d")
        self.assertEqual((wanted[0], wanted[1].count("\n")), (2, sum(it % 7 for it in range(90)) - 5 + 1))
        run = "from urlcheck import documents; from urlcheck._documents import apart; begun = []; known = apart.started; "
        run += "apart.started = lambda module: begun.append(1) or known(module); "
        run += "sys.argv[1:] = ['--jobs', '{}', 'd']\ntry: documents.main()\nfinally: print(len(begun))"
        for jobs in (1, 3):
            ran = self.without_fork(run.format(jobs))
            self.assertEqual((ran.returncode, ran.stderr.decode()), (2, wanted[2]))
            out, _, count = ran.stdout.decode().rstrip().rpartition("\n")
            self.assertEqual((out + "\n", int(count) < 5), (wanted[1], True))

    def test_a_slow_reader(self):
        """A report that is read slowly takes no processor time."""
        def parts():
            limits.has_come()
            return iter([PART] * 6)

        self.assertEqual(self.taken(parts, pause=0.4), (PART.lines * 6, []))

    def without_fork(self, program, **given):
        """A run of Python as where the system copies no process, and has no signals for time."""
        program = "import os, signal, sys, time; del os.fork, signal.setitimer; " + program
        return subprocess.run([sys.executable, "-c", program], cwd=self.room, capture_output=True, **given)

    def test_waiting_without_signals(self):
        """A process for which a document's bytes don't come is ended, and not one for which they have come."""
        begins = "from urlcheck._documents import limits; limits.MOST_SECONDS = 0.5; limits.limit_waiting(); "
        self.assertEqual(self.without_fork(begins + "time.sleep(60)").returncode, limits.LATE)
        self.assertEqual(self.without_fork(begins + "limits.has_come(); time.sleep(1)").returncode, 0)
        with mock.patch.object(limits, "MOST_SECONDS", 7):
            self.assertEqual(limits.ended_by(limits.LATE), "takes more than 7 seconds")

    def test_input_without_fork(self):
        """Standard input is handed to a process that begins again, even if it comes late, or not at all."""
        run = "from urlcheck import documents; from urlcheck._documents import limits; limits.MOST_SECONDS = 2; "
        run += "sys.argv[1:] = ['--list', '-q', '--type', 'html', '-']; documents.main()"
        for text, links in (("<a href='x y'>" * 30_000, 30_000), ("", 0)):
            ran = self.without_fork(run, input=text.encode())
            self.assertEqual((ran.returncode, ran.stdout.count(b"\n"), ran.stderr), (0, links, b""))
        reader, writer = os.pipe()
        with os.fdopen(reader, "rb") as never, os.fdopen(writer, "wb"):
            ran = self.without_fork(run, stdin=never)
        said = b"urlcheck-documents: standard input: takes more than 2 seconds to read\n"
        self.assertEqual((ran.returncode, ran.stdout, ran.stderr), (2, b"", said))

    def test_modules_of_strangers(self):
        """No process of the package takes a module of the current folder, which may be a stranger's."""
        for name in ("urlcheck/__init__.py", "urlcheck/_editors/checking.py", "urlcheck/_documents/apart.py", "pickle.py", "queue.py"):
            self.write(name, "import os\nos.open('taken', os.O_CREAT)\n")
        self.write("a.html", "<a href='x y'>")
        folder = os.path.dirname(os.path.dirname(urlcheck.__file__))
        first = "sys.path.remove(''); sys.path.append({!r}); ".format(folder)
        checks = first + "from urlcheck._editors import checking as it; from urlcheck._documents.configuration import NONE; "
        checks += "asked = it.Asked('a.md', '[a](b c)', 'markdown', 'utf-16', NONE); "
        checks += "print(len(it.Checking().check(asked, lambda: False).remarks))"
        reads = first + "from urlcheck import documents; sys.argv[1:] = ['--list', '-q', 'a.html']; "
        reads += "documents.main()"
        for program in (checks, reads):
            ran = self.without_fork(program)
            self.assertEqual((ran.returncode, ran.stderr), (0, b""))
        self.assertFalse(os.path.exists(os.path.join(self.room, "taken")))

    def test_many_refused_links(self):
        """A report is written part by part, so that a long one takes no more memory than a short one."""
        self.write("a.html", "<a href='a b'>\n" * 100_000)
        line = 'ulimit -v {}; "{}" -m urlcheck.documents --format sarif a.html'
        line = line.format(MEMORY_OF_LINKS, sys.executable)
        ran = subprocess.run(["bash", "-c", line], cwd=self.room, capture_output=True)
        self.assertEqual(ran.stderr, b"urlcheck-documents: 1 document, 100000 links, 100000 refused, 0 ignored\n")
        self.assertEqual(ran.returncode, 1)
        (run,) = json.loads(ran.stdout.decode())["runs"]
        self.assertEqual(len(run["results"]), 100_000)
        self.assertEqual(run["results"][-1]["locations"][0]["physicalLocation"]["region"]["startLine"], 100_000)
        self.assertEqual(run["invocations"], [{"executionSuccessful": True}])

    def test_hostile(self):
        entities = "".join('<!ENTITY a{} "{}">'.format(at, "&a{};".format(at - 1) * 10) for at in range(1, 10))
        documents = {
            "nested.html": ("<div>" * 1_000_000 + "<a href='x y'>", 1),
            "quoted.html": ("<a href='" + "x" * (31 << 20), 0),
            "unended.html": ("<a " * (10 << 20), 0),
            "attributes.html": ("<a " * (10 << 20) + ">", 0),
            "less.html": ("<" * (31 << 20), 0),
            "scripts.html": ("<script><!--" * (2 << 20), 0),
            "comments.html": ("<!--" * (7 << 20), 0),
            "candidates.html": ("<img srcset='a " + "b (c) " * (1 << 20) + "'>", 1),
            "references.html": ("<a href='" + "&amp;" * (2 << 20) + " x'>", 1),
            "sections.html": ("<![" * (9 << 20) + "><a href='a b'>", 1),
            "big.html": ("x" * (33 << 20), 2),
            "nul.html": ("<a href='a\0b'>", 1),
            "bomb.xml": ('<!DOCTYPE l [<!ENTITY a0 "a">' + entities + "]><l><loc>http://h/&a9;</loc></l>", 2),
            "deep.xml": ("<a>" * 1_000_000, 2),
        }
        for name, (text, wanted) in documents.items():
            with self.subTest(name):
                self.write(name, text)
                status, _, said = self.run_on(name)
                self.assertEqual(status, wanted, said)
                self.assertNotIn("Traceback", said)
        self.assertLess(resource.getrusage(resource.RUSAGE_CHILDREN).ru_maxrss, 500 * 1024)


if __name__ == "__main__":
    unittest.main()
