#!/usr/bin/env python3
"""What builds expect of a machine and of crates: processors and memory as a control group allows them, which crate comes first, and a
time that is left and never grows. The numbers are worked out by hand."""

import io
import os
import pathlib
import sys
import tempfile
import unittest

sys.dont_write_bytecode = True
sys.path.insert(0, str(pathlib.Path(__file__).resolve().parents[3] / "tools"))

import machine
import progress
import schedule

# b rests on a, c on nothing.
NEEDS = {"a": [], "b": ["a"], "c": []}
SECONDS = {"a": "10", "b": "20", "c": "25"}


class InRoom(unittest.TestCase):
    """A test in a folder of its own."""

    def setUp(self):
        room = tempfile.TemporaryDirectory()
        self.addCleanup(room.cleanup)
        self.addCleanup(os.chdir, os.getcwd())
        os.chdir(room.name)

    def write(self, files):
        for name, text in files.items():
            path = pathlib.Path(name)
            path.parent.mkdir(parents=True, exist_ok=True)
            path.write_text(text, "utf-8")


class Machine(InRoom):
    """Processors and memory."""

    def free(self):
        return machine.free_memory(".", "meminfo")

    def test_second_version_of_groups(self):
        self.write({"meminfo": "MemFree: 1 kB\nMemAvailable:    8000000 kB\n"})
        self.write({"memory.max": "3000000000\n", "memory.stat": "anon 400000000\nfile 9\n", "cpu.max": "150000 100000\n"})
        self.assertEqual(self.free(), 2_600_000_000)
        self.assertEqual(machine.processors("."), 1)

    def test_first_version_of_groups(self):
        self.write({"meminfo": "MemAvailable: 8000000 kB\n", "memory/memory.limit_in_bytes": "4000000000\n"})
        self.write({"memory/memory.stat": "rss 5\ntotal_rss 1500000000\n"})
        self.write({"cpu/cpu.cfs_quota_us": "40000\n", "cpu/cpu.cfs_period_us": "100000\n"})
        self.assertEqual(self.free(), 2_500_000_000)
        self.assertEqual(machine.processors("."), 1)

    def test_no_limits(self):
        self.write({"meminfo": "MemAvailable: 1000 kB\n", "memory.max": "max\n", "memory.stat": "anon 7\n", "cpu.max": "max 100000\n"})
        self.write({"cpu/cpu.cfs_quota_us": "-1\n", "cpu/cpu.cfs_period_us": "100000\n"})
        self.assertEqual(self.free(), 1_024_000)
        self.assertEqual(machine.processors("."), len(os.sched_getaffinity(0)))

    def test_a_group_that_holds_more_than_its_limit(self):
        self.write({"meminfo": "MemAvailable: 1000 kB\n", "memory.max": "5\n", "memory.stat": "anon 7\n"})
        self.assertEqual(self.free(), 0)


class Order(InRoom):
    """Which crate comes when, and how long that takes."""

    def setUp(self):
        super().setUp()
        self.write({f"crates/{it}/out/seconds": text for it, text in SECONDS.items()})
        self.write({f"crates/{it}/src/lib.rt": "fn one() {}\n" for it in SECONDS})

    def test_longest_chain_first(self):
        it = schedule.Schedule(NEEDS, ["a", "b", "c"], 1)
        self.assertEqual(it.seconds_left(0.0), 55.0)
        self.assertEqual(it.beginning(0.0), {"a": 1})
        it.end("a", 20.0)
        # (all takes twice as long as was expected)
        self.assertEqual(it.seconds_left(20.0), 90.0)
        self.assertEqual(it.beginning(20.0), {"c": 1})
        self.assertEqual(it.seconds_left(30.0), 80.0)

    def test_side_by_side(self):
        it = schedule.Schedule(NEEDS, ["a", "b", "c"], 2)
        self.assertEqual(it.seconds_left(0.0), 30.0)
        self.assertEqual(it.beginning(0.0), {"a": 1, "c": 1})
        self.assertEqual(it.beginning(1.0), {})
        it.end("a", 10.0)
        self.assertEqual(it.beginning(10.0), {"b": 1})
        it.end("c", 25.0)
        self.assertEqual(it.seconds_left(25.0), 5.0)

    def test_crates_that_were_never_built(self):
        text = "#[derive(Clone, Copy)]\nstruct S;\npub fn one() {}\n    pub(crate) const fn two() {}\n"
        self.write({"crates/new/src/lib.rt": text, "crates/urlcheck/src/main.rt": "fn main() {}\n"})
        self.assertEqual(schedule.seconds_of("new"), 12 + 2 * 3)
        self.assertEqual(schedule.seconds_of("urlcheck"), 12 + 2 + 100)

    def test_time_left_never_grows(self):
        it = schedule.Schedule(NEEDS, ["a", "b", "c"], 1)
        line = progress.Progress(it, io.StringIO())
        said = []
        self.addCleanup(setattr, progress.time, "monotonic", progress.time.monotonic)
        for now, step in ((5, "begin"), (10, "end a"), (12, "begin"), (200, "end c"), (201, "begin"), (360, "wait"), (1000, "wait")):
            progress.time.monotonic = lambda now=now: now
            if step == "begin":
                it.beginning(now)
            elif step != "wait":
                it.end(step[4:], now)
            said.append(line.line().partition("proved")[2])
        self.assertEqual(said[0], "")
        # (a took half of what was expected; c took 188 s for 25, by which b takes 110 s and more)
        self.assertEqual(said[1:3], [", less than a minute left"] * 2)
        self.assertEqual(said[3:5], ["", ""])
        self.assertEqual(said[6], ", less than a minute left")


if __name__ == "__main__":
    unittest.main()
