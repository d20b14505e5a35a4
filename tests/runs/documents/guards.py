"""Tests of what keeps a document whole while another program writes it: that program writes when the new text is on
the disk, just before it takes the old one's place. The package is on PYTHONPATH."""

import os
import signal
import stat
import tempfile
import unittest
from unittest import mock

from urlcheck._fixes.fixing import digest_of
from urlcheck._fixes.writing import Unwritten, replace

OLD, NEW, OTHER = b"old text\n", b"new text\n", b"of another"
SAME_SIZE = b"OLD TEXT\n"


class Guards(unittest.TestCase):
    def setUp(self):
        room = tempfile.TemporaryDirectory()
        self.addCleanup(room.cleanup)
        self.room = room.name
        self.path = os.path.join(self.room, "page.html")
        self.write(OLD)

    def write(self, data):
        with open(self.path, "wb") as file:
            file.write(data)

    def read(self):
        with open(self.path, "rb") as file:
            return file.read()

    def with_time_of(self, before):
        """Gives the file the times that it had."""
        os.utime(self.path, ns=(before.st_atime_ns, before.st_mtime_ns))

    def meanwhile(self, write):
        """Runs a function once the new text is on the disk, and sees that what it wrote stays and nothing else does."""
        with mock.patch("os.fsync", side_effect=lambda _: write()):
            with self.assertRaises(Unwritten):
                replace(self.path, digest_of(OLD), NEW)
        self.assertEqual(os.listdir(self.room), ["page.html"])

    def test_without_another(self):
        replace(self.path, digest_of(OLD), NEW)
        self.assertEqual(self.read(), NEW)
        self.assertEqual(os.listdir(self.room), ["page.html"])

    def test_another_text(self):
        """It was written after it was read, and before it is to be replaced."""
        self.write(OTHER)
        with self.assertRaises(Unwritten):
            replace(self.path, digest_of(OLD), NEW)
        self.assertEqual(self.read(), OTHER)

    def test_another_time(self):
        before = os.stat(self.path)

        def write():
            self.write(SAME_SIZE)
            os.utime(self.path, ns=(before.st_atime_ns, before.st_mtime_ns + 1))

        self.meanwhile(write)
        self.assertEqual(self.read(), SAME_SIZE)

    def test_another_size(self):
        before = os.stat(self.path)

        def write():
            self.write(OTHER)
            self.with_time_of(before)

        self.meanwhile(write)
        self.assertEqual(self.read(), OTHER)

    def test_another_file(self):
        before = os.stat(self.path)

        def write():
            os.rename(self.path, self.path + ".old")
            self.write(SAME_SIZE)
            self.with_time_of(before)
            os.remove(self.path + ".old")

        self.meanwhile(write)
        self.assertEqual(self.read(), SAME_SIZE)

    def test_a_file_that_is_gone(self):
        with mock.patch("os.fsync", side_effect=lambda _: os.remove(self.path)):
            with self.assertRaises((Unwritten, OSError)):
                replace(self.path, digest_of(OLD), NEW)
        self.assertEqual(os.listdir(self.room), [])

    def test_a_link_out_of_the_folder(self):
        inner = os.path.join(self.room, "inner")
        os.mkdir(inner)
        link = os.path.join(inner, "link.html")
        os.symlink("../page.html", link)
        with self.assertRaises(Unwritten):
            replace(link, digest_of(OLD), NEW, inner)
        self.assertEqual(self.read(), OLD)
        replace(link, digest_of(OLD), NEW)
        self.assertEqual((self.read(), os.path.islink(link)), (NEW, True))

    def test_nobody_reads_the_new_file_before_it_has_its_mode(self):
        os.chmod(self.path, 0o600)
        modes = []

        def look(_):
            modes.extend(os.stat(os.path.join(self.room, it)).st_mode for it in os.listdir(self.room))

        with mock.patch("os.fsync", side_effect=look):
            replace(self.path, digest_of(OLD), NEW)
        self.assertEqual([stat.S_IMODE(it) & 0o077 for it in modes], [0, 0])

    def test_a_signal_waits(self):
        """What would end the program does so once the file is replaced, so that nothing is left next to it."""
        got = []
        self.addCleanup(
            signal.signal, signal.SIGTERM, signal.signal(signal.SIGTERM, lambda *_: got.append(self.read()))
        )
        with mock.patch("os.fsync", side_effect=lambda _: os.kill(os.getpid(), signal.SIGTERM)):
            replace(self.path, digest_of(OLD), NEW)
        self.assertEqual((got, os.listdir(self.room)), ([NEW], ["page.html"]))


if __name__ == "__main__":
    unittest.main()
