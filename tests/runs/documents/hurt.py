"""Tests of runs that can't write, that are ended, or during which others write: no document is broken, nothing is
left, and messages are short. The package is on PYTHONPATH. What takes root is left out without it."""

import os
import random
import shutil
import signal
import stat
import subprocess
import sys
import tempfile
import time
import unittest

from rooms import COMMAND, MOST_SECONDS, held, make, run, unfit

SEED = 20261130
BAD = '<a href="http://h/a b">x</a>\n'
GOOD = '<a href="http://h/a%20b">x</a>\n'
LONG = BAD * 700
NOBODY = "setpriv --reuid=65534 --regid=65534 --clear-groups "
AS_NOBODY = "nobody() { " + NOBODY + "'{}' -m urlcheck.documents \"$@\"; }}; ".format(sys.executable)
"""What defines the program as another user runs it."""

KILLS = 20


def can_be_nobody():
    """Whether another user may run the program."""
    if os.getuid() or not shutil.which("setpriv"):
        return False
    return (
        subprocess.run([*NOBODY.split(), *COMMAND, "--version"], cwd="/", capture_output=True, check=False).returncode
        == 0
    )


def can_mount():
    """Whether a small file system may be had."""
    words = ["unshare", "-m", "mount", "-t", "tmpfs", "-o", "size=64k", "tmpfs", "/mnt"]
    return (
        shutil.which("unshare") is not None and subprocess.run(words, capture_output=True, check=False).returncode == 0
    )


class Hurt(unittest.TestCase):
    def setUp(self):
        room = tempfile.TemporaryDirectory()
        self.addCleanup(room.cleanup)
        self.room = room.name
        os.chmod(self.room, 0o755)

    def ends(self, line, status, said=(), **after):
        """A line ends with a status, says each of these, and leaves the files so."""
        ran = run(self.room, line)
        self.assertEqual(ran.status, status, ran)
        self.assertEqual(unfit(ran.err), [], ran.err)
        for it in said:
            self.assertIn(it, ran.err)
        return ran

    def holds(self, files):
        """The folder has these files, and no other."""
        now = held(self.room)
        self.assertEqual(sorted(now), sorted(files))
        for name, text in files.items():
            self.assertEqual(now[name], text.encode(), name)

    # ---- what can't be written

    @unittest.skipUnless(can_mount(), "no file system may be mounted")
    def test_a_full_disk(self):
        make(self.room, {"page.html": LONG, "d/.keep": ""})
        line = "mount -t tmpfs -o size=36k tmpfs d; cp page.html d/; ud --fix d; s=$?; ls -A d; cmp page.html d/page.html || exit 9; exit $s"
        python = "ud() {{ '{}' -m urlcheck.documents \"$@\"; }}; ".format(sys.executable)
        ran = self.ends(
            "unshare -m bash -c '{}{}'".format(python.replace("'", ""), line), 2, ("d/page.html", "no space")
        )
        self.assertEqual([it for it in ran.out.split("\n") if ".html:" not in it], ["page.html", ""])

    def test_a_file_that_may_not_get_larger(self):
        for words in ("--fix", "--write-baseline k.txt", "--output r.txt"):
            with self.subTest(words):
                make(self.room, {"page.html": LONG})
                ran = self.ends(
                    "ulimit -f 8; ud {} page.html >/dev/null".format(words), 2 if words == "--fix" else 3, ("larger",)
                )
                self.assertNotIn("Traceback", ran.err)
                self.holds({"page.html": LONG})

    def test_full_output(self):
        make(self.room, {"page.html": LONG})
        self.ends("ud page.html >/dev/full", 3, ("standard output",))
        self.ends("ud --list page.html >/dev/full", 3, ("standard output",))
        self.ends("ud --output /dev/full page.html", 3, ("/dev/full",))
        self.assertTrue(stat.S_ISCHR(os.stat("/dev/full").st_mode))

    def test_what_is_written_stays_what_it_is(self):
        """A pipe, and a device that takes all, aren't replaced by a file."""
        make(self.room, {"page.html": BAD})
        self.ends(
            "mkfifo p; (cat p >said &) ; ud --output p page.html; s=$?; sleep 0.2; [ -p p ] && grep -q code-point said || exit 9; exit $s",
            1,
        )
        if not os.getuid():
            self.ends("mknod n c 1 3 || exit 1; ud --output n page.html; s=$?; [ -c n ] || exit 9; exit $s", 1)
            self.ends("ud --write-baseline n page.html >/dev/null; s=$?; [ -c n ] || exit 9; exit $s", 0)

    def test_a_link_that_is_written_into_stays_one(self):
        make(self.room, {"page.html": BAD, "r.txt": "before"})
        self.ends(
            "ln -s r.txt l; ud --output l page.html; s=$?; [ -L l ] && grep -q code-point r.txt || exit 9; exit $s", 1
        )

    @unittest.skipUnless(can_be_nobody(), "another user can't run it")
    def test_another_user(self):
        make(self.room, {"d/page.html": BAD, "page.html": BAD})
        self.ends(AS_NOBODY + "nobody --fix d", 2, ("d/page.html: can't be written: permission denied",))
        self.ends(AS_NOBODY + "chmod 666 d/page.html; nobody --fix d", 2, ("d/page.html", "permission denied"))
        self.ends(AS_NOBODY + "chmod 777 d; chmod 444 d/page.html; nobody --fix d", 2, ("permission denied",))
        self.ends(
            AS_NOBODY
            + "chmod 777 d; nobody --output d/r.txt d/page.html; s=$?; chmod 755 d; nobody --output d/r.txt page.html || exit $s",
            1,
        )
        self.ends(AS_NOBODY + "nobody --write-baseline k.txt page.html", 3, ("k.txt", "permission denied"))

    @unittest.skipUnless(can_be_nobody(), "another user can't run it")
    def test_a_configuration_above_that_may_not_be_read(self):
        make(self.room, {"a/.urlcheck.toml": "", "a/b/page.html": BAD})
        ran = self.ends(
            AS_NOBODY + "chmod 600 a/.urlcheck.toml; cd a/b; nobody --type html - <page.html", 2, (".urlcheck.toml",)
        )
        self.assertEqual(ran.out, "")
        os.chmod(os.path.join(self.room, "a"), 0o711)
        os.remove(os.path.join(self.room, "a", ".urlcheck.toml"))
        self.ends(AS_NOBODY + "cd a/b; nobody --type html - <page.html", 1)

    def test_a_link_out_of_the_folder(self):
        make(self.room, {"out.html": BAD, "d/page.html": BAD})
        self.ends("ln -s ../out.html d/l.html; ud --fix d", 2, ("d/l.html",))
        self.assertEqual(held(self.room)["out.html"].decode(), BAD)

    def test_hard_links(self):
        """Both names have the fixed text, or the file is left and named."""
        make(self.room, {"d/page.html": BAD})
        ran = run(self.room, "ln d/page.html other.html; ud --fix d")
        now = held(self.room)
        if now["d/page.html"] != now["other.html"]:
            self.assertEqual(now["d/page.html"].decode(), GOOD)
        self.assertEqual(unfit(ran.err), [])

    # ---- what is ended

    def test_kills(self):
        # (a shell starts what runs in its background with this signal ignored, and so would all that this starts)
        self.addCleanup(signal.signal, signal.SIGINT, signal.signal(signal.SIGINT, signal.default_int_handler))
        chooser = random.Random(SEED)
        names = ["d/{}.html".format(number) for number in range(24)]
        for number in range(KILLS):
            make(self.room, {name: LONG for name in names})
            began = subprocess.Popen(
                [*COMMAND, "-q", "--fix", "d"],
                cwd=self.room,
                stdout=subprocess.DEVNULL,
                stderr=subprocess.DEVNULL,
                start_new_session=True,
            )
            time.sleep(chooser.uniform(0.05, 1.2))
            (os.killpg if number % 2 else os.kill)(began.pid, signal.SIGKILL if number % 3 else signal.SIGINT)
            began.wait(MOST_SECONDS)
            now = held(self.room)
            for name in names:
                self.assertIn(now[name].decode(), (LONG, LONG.replace("a b", "a%20b")), name)
        # a later run does what is left, and what was left behind, once it is old, is named
        for name in held(self.room):
            if name not in names:
                os.utime(os.path.join(self.room, name), (0, 0))
        ran = run(self.room, "ud --fix d")
        self.assertEqual(ran.status, 0, ran)
        for name, data in held(self.room).items():
            if name in names:
                self.assertEqual(data.decode(), LONG.replace("a b", "a%20b"))
            else:
                self.assertIn(os.path.basename(name), ran.err)

    # ---- what others do meanwhile

    def test_two_at_once(self):
        names = ["d/{}.html".format(number) for number in range(24)]
        for _ in range(3):
            make(self.room, {name: LONG for name in names})
            both = [
                subprocess.Popen(
                    [*COMMAND, "--fix", "d"], cwd=self.room, stdout=subprocess.PIPE, stderr=subprocess.PIPE
                )
                for _ in range(2)
            ]
            for it in both:
                said = it.communicate(timeout=MOST_SECONDS)[1].decode()
                self.assertIn(it.returncode, (0, 2), said)
                self.assertEqual(unfit(said), [])
                if it.returncode:
                    self.assertIn("meanwhile", said)
            self.holds({name: LONG.replace("a b", "a%20b") for name in names})

    def test_lines_that_are_appended(self):
        """None is lost while the file is fixed again and again."""
        make(self.room, {"page.html": LONG})
        path = os.path.join(self.room, "page.html")
        began = subprocess.Popen(
            [*COMMAND, "-q", "--fix", "page.html"], cwd=self.room, stdout=subprocess.DEVNULL, stderr=subprocess.DEVNULL
        )
        count = 0
        while began.poll() is None:
            with open(path, "a", encoding="utf-8") as file:
                file.write("line {}\n".format(count))
            count += 1
            time.sleep(0.002)
        with open(path, encoding="utf-8") as file:
            lines = [it for it in file.read().split("\n") if it.startswith("line ")]
        self.assertEqual(lines, ["line {}".format(it) for it in range(count)])


if __name__ == "__main__":
    unittest.main()
