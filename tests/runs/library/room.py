"""A folder of its own for each test of urlcheck.documents, and runs of that program in it. The package is on PYTHONPATH."""

import os
import re
import subprocess
import sys
import tempfile
import unittest

TOP = os.path.join(os.path.dirname(os.path.abspath(__file__)), "..", "..", "..")
PROGRAM = [sys.executable, "-m", "urlcheck.documents"]
if os.environ.get("WITHOUT_FORK"):
    # As where the system copies no process, and has no signals for time: Windows is such a one.
    BEGINS = "import os, signal, sys; del os.fork, signal.setitimer; from urlcheck.documents import main; main()"
    PROGRAM = [sys.executable, "-c", BEGINS]


class Room(unittest.TestCase):
    """A folder, and runs in it."""

    def setUp(self):
        room = tempfile.TemporaryDirectory()
        self.addCleanup(room.cleanup)
        self.room = room.name

    def write(self, name, text):
        """A document of this text or of these bytes, in the folders that its name says."""
        path = os.path.join(os.fsencode(self.room), os.fsencode(name))
        os.makedirs(os.path.dirname(path), exist_ok=True)
        with open(path, "wb") as file:
            file.write(text if isinstance(text, bytes) else text.encode())

    def run_on(self, *words, program=PROGRAM, stdin=b""):
        """The status, what was written, and what was said on standard error."""
        ran = subprocess.run([*program, *words], cwd=self.room, input=stdin, capture_output=True)
        return ran.returncode, ran.stdout, ran.stderr


class Texts(Room):
    """The same with texts, and what is looked for in them."""

    def run_on(self, *words, stdin=b""):
        """The same as texts."""
        status, out, err = super().run_on(*words, stdin=stdin)
        return status, out.decode(), err.decode()

    def finds(self, name, text, links):
        self.write(name, text)
        status, out, _ = self.run_on("--list", name)
        self.assertEqual(out, "".join(name + ":" + line + "\n" for line in links.splitlines()))
        self.assertEqual(status, 0)

    def checks(self, name, places, *words):
        """The program names these places, each with its rule."""
        status, out, _ = self.run_on(*words, name)
        found = re.findall(r"^.*?:(\d+:\d+): error: .* \[(.*)\]$", out, re.M)
        self.assertEqual(found, places)
        self.assertEqual(len(found), out.count("\n"))
        self.assertEqual(status, 1 if places else 0)
