"""Tests of what is chosen of a report: rules, known faults, numbers, a file, colours, progress. The package is on PYTHONPATH."""

import os
import pty
import re
import subprocess
import sys
import time
import unittest

from room import PROGRAM, Room, Texts

NO_USE = "--list checks nothing, so that --{} has no use"
"""What is said of an option beside --list."""

PAGE = '<a href="http://h/a b">\n<a href="http://h/%zz^">\n<a href="http://a_b/">\n<a href="http://h/a b">\n'


class Choices(Texts):
    def setUp(self):
        super().setUp()
        self.write("page.html", PAGE)

    def test_rules(self):
        both = [("1:20", "code-point"), ("4:20", "code-point")]
        for words, places in (
            (["--select", "code-point"], [both[0], ("2:23", "code-point"), both[1]]),
            (["--select", "percent,host-domain"], [("2:19", "percent"), ("3:10", "host-domain")]),
            (["--select", "percent", "--select", "host-domain"], [("2:19", "percent"), ("3:10", "host-domain")]),
            (["--ignore", "code-point"], [("2:19", "percent"), ("3:10", "host-domain")]),
            (["--ignore", "percent, host-domain"], [both[0], ("2:23", "code-point"), both[1]]),
            (["--select", "code-point", "--ignore", "code-point"], []),
            (["--select", "port-range"], []),
        ):
            with self.subTest(words):
                # (the first violation of each link whose rule is reported)
                found = self.run_on(*words, "page.html")[1]
                found = re.findall(r"^.*?:(\d+:\d+): error: .* \[(.*)\]$", found, re.M)
                self.assertEqual([rule for _, rule in found], [rule for _, rule in places])
                self.assertEqual([at.split(":")[0] for at, _ in found], [at.split(":")[0] for at, _ in places])
        status, _, said = self.run_on("--select", "code-pont", "page.html")
        self.assertEqual((status, said), (2, "urlcheck-documents: no rule is named 'code-pont'; the nearest is code-point\n"))
        status, _, said = self.run_on("--ignore", "code-pont", "page.html")
        wanted = "urlcheck-documents: code-pont: can't be read: there is no such file; the nearest rule is code-point\n"
        self.assertEqual((status, said), (2, wanted))
        self.assertEqual(self.run_on("--select", "Percent", "page.html")[1].count("\n"), 1)

    def test_rules_of_a_project(self):
        self.write(".urlcheck.toml", 'select = ["percent", "host-domain"]\nignore-rules = ["percent"]\n')
        status, out, _ = self.run_on("page.html")
        self.assertEqual((status, re.findall(r"\[(.*)\]$", out, re.M)), (1, ["host-domain"]))
        self.assertEqual(self.run_on("--no-config", "page.html")[1].count("\n"), 4)
        self.write(".urlcheck.toml", 'select = ["host-domains"]\n')
        status, _, said = self.run_on("page.html")
        self.assertEqual(status, 2)
        self.assertTrue(said.endswith(".urlcheck.toml: no rule is named 'host-domains'; the nearest is host-domain\n"), said)

    def test_known_faults(self):
        status, out, _ = self.run_on("--write-baseline", "known", "page.html")
        self.assertEqual((status, out.count("\n")), (0, 4))
        # a line on top moves none, whatever the name is written like
        self.write("page.html", "<p>\n\n" + PAGE)
        for name in ("page.html", "./page.html"):
            status, out, said = self.run_on("--baseline", "known", name)
            self.assertEqual((status, out), (0, ""))
            self.assertEqual(said, "urlcheck-documents: 1 document, 4 links, 0 refused, 0 ignored, 4 known\n")
        # a third link that is equal to two that are known is new
        self.write("page.html", PAGE + '<a href="http://h/a b">\n<a href="c d">')
        status, out, _ = self.run_on("--baseline", "known", "page.html")
        self.assertEqual((status, re.findall(r"^page.html:(\d+)", out, re.M)), (1, ["5", "6"]))
        self.write("page.html", PAGE.partition("\n")[2])
        status, out, said = self.run_on("--baseline", "known", "page.html")
        self.assertEqual((status, out), (0, ""))
        self.assertIn("urlcheck-documents: 1 fault of the baseline are gone\n".replace("are", "is"), said)
        for name, why in (("page.html", "isn't a baseline: --write-baseline writes one"),
                          ("none", "can't be read: there is no such file")):
            status, _, said = self.run_on("--baseline", name, "page.html")
            self.assertEqual((status, said), (2, "urlcheck-documents: {}: {}\n".format(name, why)))

    def test_statistics(self):
        status, out, said = self.run_on("--statistics", "page.html")
        counts = re.findall(r"^ *(\d+)  (\S+)", out, re.M)
        self.assertEqual((status, counts), (1, [("2", "code-point"), ("1", "host-domain"), ("1", "percent"), ("2", "http://h/a")]))
        self.assertIn("\n\n      2  http://h/a b\n", out)
        self.assertIn("4 refused", said)

    def test_status_and_file(self):
        whole = self.run_on("page.html")[1]
        self.assertEqual(self.run_on("--exit-zero", "page.html")[:2], (0, whole))
        self.assertEqual(self.run_on("--exit-zero", "missing.html")[0], 2)
        self.assertEqual(self.run_on("--output", "report", "page.html")[:2], (1, ""))
        with open(os.path.join(self.room, "report"), encoding="utf-8") as file:
            self.assertEqual(file.read(), whole)
        for name, why in (("/dev/full", "no space is left"), ("no/report", "there is no such file")):
            status, _, said = self.run_on("--output", name, "page.html")
            self.assertEqual((status, said.splitlines()[-1]), (3, "urlcheck-documents: {}: can't be written: {}".format(name, why)))

    def test_words(self):
        for words, said in (
            (["--list", "--statistics", "page.html"], NO_USE.format("statistics")),
            (["--list", "--select", "percent", "page.html"], NO_USE.format("select")),
            (["--list", "--baseline", "x", "page.html"], NO_USE.format("baseline")),
            (["--list", "--exit-zero", "page.html"], NO_USE.format("exit-zero")),
            (["--list", "--check", "page.html"], NO_USE.format("check")),
            (["--statistics", "--format", "json", "page.html"], "--statistics prints counts, so that --format has no use"),
            (["--cache", "page.html"], "there is no option --cache; each run reads all, and needs no cache"),
        ):
            status, out, err = self.run_on(*words)
            self.assertEqual((status, out, err.splitlines()[-1]), (2, "", "urlcheck-documents: " + said))

    def at_terminal(self, *words, **environment):
        """What a run writes and says to a terminal of 80 columns."""
        main, other = pty.openpty()
        environ = {**os.environ, "TERM": "xterm", "COLUMNS": "80", **environment}
        run = subprocess.Popen([*PROGRAM, *words], cwd=self.room, stdin=other, stdout=other, stderr=other, env=environ)
        os.close(other)
        seen = b""
        while True:
            try:
                data = os.read(main, 4096)
            except OSError:
                break
            if not data:
                break
            seen += data
        os.close(main)
        return run.wait(), seen.replace(b"\r\n", b"\n").decode()

    def test_colours(self):
        plain = self.run_on("-q", "--format", "caret", "page.html")[1]
        for environment, words, is_coloured in (
            ({}, [], True),
            ({"NO_COLOR": "1"}, [], False),
            ({"NO_COLOR": ""}, [], True),
            ({"TERM": "dumb"}, [], False),
            ({"INSIDE_EMACS": "28.2,compile"}, [], False),
            ({"NO_COLOR": "1"}, ["--color", "always"], True),
            ({}, ["--color", "never"], False),
            ({}, ["--format", "json"], False),
        ):
            with self.subTest(environment=environment, words=words):
                words = ["-q", "--format", "caret", *words, "page.html"]
                seen = self.at_terminal(*words, **environment)[1]
                self.assertEqual("\x1b[" in seen, is_coloured)
                if "json" not in words:
                    self.assertEqual(re.sub("\x1b\\[[0-9;]*m", "", seen), plain)
        painted = subprocess.run([*PROGRAM, "-q", "page.html"], cwd=self.room, capture_output=True,
                                 env={**os.environ, "FORCE_COLOR": "1", "NO_COLOR": ""}, check=False).stdout
        self.assertIn(b"\x1b[1;31merror:\x1b[0m", painted)
        # a link that looks like a line of a report has no colours, and none of its own
        self.write("page.html", '<a href="x:1:1: error: y [z]"><a href="\x1b[31m">')
        seen = self.at_terminal("-q", "--format", "caret", "page.html")[1]
        self.assertIn("\nx:1:1: error: y [z]\n", seen)
        self.assertNotIn("\x1b[31m", seen)
        # a difference isn't a report
        self.assertNotIn("\x1b[", self.at_terminal("-q", "--color", "always", "--diff", "page.html")[1])

    def test_colours_of_names(self):
        name = "a: error: b.html"
        self.write(name, '<a href="http://h/a b">\n<a href="https://https//h/">')
        first = ("\x1b[1ma: error: b.html:1:20:\x1b[0m \x1b[1;31merror:\x1b[0m U+0020 SPACE is not allowed in a URL "
                 "\x1b[2m[code-point]\x1b[0m\n")
        second = ("\x1b[1ma: error: b.html:2:24:\x1b[0m \x1b[1;31merror:\x1b[0m the path begins with //; this has two schemes: "
                  "write one of them \x1b[2m[first-segment-empty]\x1b[0m\n")
        marked = ("http://h/a b\n\x1b[1;31m          ^\x1b[0m\n\x1b[36mhelp:\x1b[0m write http://h/a%20b\n",
                  "https://https//h/\n\x1b[1;31m              ^\x1b[0m\n")
        for form, wanted in (("gnu", first + second), ("caret", first + marked[0] + second + marked[1])):
            self.assertEqual(self.run_on("-q", "--color", "always", "--format", form, name), (1, wanted, ""))
        # programs read a name that isn't UTF-8 as it is, and people see U+FFFD
        self.write(b"\xff.html", '<a href="http://h/a b">')
        for words, shown in (([], b"\xff.html"), (["--color", "always"], "\x1b[1m\ufffd.html".encode())):
            self.assertEqual(Room.run_on(self, "-q", *words, b"\xff.html")[1].split(b":1:20:")[0], shown)

    def test_progress(self):
        os.mkfifo(os.path.join(self.room, "slow.html"))
        words = ["page.html", "slow.html"]
        writer = subprocess.Popen([sys.executable, "-c", "import time; f = open('slow.html', 'w'); time.sleep(4); f.write('<a href=x>')"],
                                  cwd=self.room)
        seen = self.at_terminal(*words)[1]
        writer.wait()
        self.assertRegex(seen, "\r\x1b\\[2K1 of 2 documents, 4 refused: slow.html")
        self.assertTrue(seen.endswith("\r\x1b[2Kurlcheck-documents: 2 documents, 5 links, 4 refused, 0 ignored\n"), seen[-300:])
        began = time.monotonic()
        self.assertNotIn("of 1 documents", self.at_terminal("page.html")[1])
        self.assertLess(time.monotonic() - began, 30)


if __name__ == "__main__":
    unittest.main()
