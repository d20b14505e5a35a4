"""How far a build of the crates is: the crates that are built and the functions that are proved of all, and the time that is likely left.

At a terminal that is one line, which is written again each second; elsewhere it is a line each half minute. The time never
grows: while it would, the line has none.
"""

from __future__ import annotations

import contextlib
import math
import os
import re
import sys
import threading
import time
from collections.abc import Iterator
from typing import IO, TYPE_CHECKING

if TYPE_CHECKING:
    from schedule import Schedule

# A function in a source, and what is derived there, of which most is a function that is proved too.
FUNCTION = re.compile(rb"^[ \t]*(?:pub(?:\([^)]*\))? )?(?:const )?(?:unsafe )?(?:extern \"C\" )?fn \w", re.MULTILINE)
DERIVED = re.compile(rb"\bderive\(([^)]*)\)")
WITHOUT_CODE = {b"Copy", b"Eq"}

# The seconds between two lines: at a terminal, and elsewhere.
AT_TERMINAL, ELSEWHERE = 1.0, 30.0


def functions_of(crate: str) -> int:
    """About how many functions of a crate have to be proved."""
    count = 0
    for folder, _, files in os.walk(f"crates/{crate}/src"):
        for name in files:
            # (an editor may have a link there that leads nowhere)
            if name.endswith(".rt") and os.path.isfile(f"{folder}/{name}"):
                with open(f"{folder}/{name}", "rb") as file:
                    text = file.read()
                derived = (it.strip() for found in DERIVED.findall(text) for it in found.split(b","))
                count += len(FUNCTION.findall(text)) + sum(it not in WITHOUT_CODE for it in derived)
    return max(count, 1)


def minutes(seconds: float) -> str:
    """A time in words."""
    whole = int(seconds)
    return f"{whole // 60} min {whole % 60:02} s" if whole >= 60 else f"{whole} s"


def about(seconds: float) -> str:
    """About how long that is, in words."""
    return f"about {math.ceil(seconds / 60)} min" if seconds > 60 else "less than a minute"


class Progress:
    """A line about what is built and proved so far, by the schedule of the build."""

    def __init__(self, schedule: Schedule, output: IO[str] = sys.stderr) -> None:
        self._schedule, self._output = schedule, output
        self._functions = {crate: functions_of(crate) for crate in schedule.seconds}
        self._least = math.inf
        self._lock = threading.Lock()
        self._is_terminal = output.isatty()
        self._shown = 0

    def count(self) -> str:
        """How many crates are built of all."""
        return f"{len(self._schedule.built)} of {len(self._functions)}"

    def say(self, line: str) -> None:
        """Writes a line of its own."""
        with self._lock:
            self._clear()
            print(line, file=self._output, flush=True)

    @contextlib.contextmanager
    def shown(self) -> Iterator[None]:
        """The time in which the line is shown."""
        ended = threading.Event()
        shower = threading.Thread(target=self._show, args=(ended,), daemon=True)
        shower.start()
        try:
            yield
        finally:
            ended.set()
            shower.join()
            with self._lock:
                self._clear()

    def line(self) -> str:
        """How far the build is."""
        proved = sum(self._functions[it] for it in list(self._schedule.built))
        return (
            f"urlcheck: {self.count()} crates built, {proved} of about {sum(self._functions.values())} functions "
            f"proved{self._left()}"
        )

    def _left(self) -> str:
        """The time that is left, in words, once a crate has shown the pace, and unless it is longer than one that was said."""
        left = self._schedule.seconds_left(time.monotonic())
        if math.ceil(left / 60) > self._least or not self._schedule.built:
            return ""
        self._least = math.ceil(left / 60)
        return f", {about(left)} left"

    def _show(self, ended: threading.Event) -> None:
        """Writes the line again and again, until the build has ended."""
        while not ended.wait(AT_TERMINAL if self._is_terminal else ELSEWHERE):
            line = self.line()
            with self._lock:
                self._clear()
                if self._is_terminal:
                    print(line, end="", file=self._output, flush=True)
                    self._shown = len(line)
                else:
                    print(line, file=self._output, flush=True)

    def _clear(self) -> None:
        """Takes the line off the terminal."""
        if self._shown:
            print(f"\r{' ' * self._shown}\r", end="", file=self._output, flush=True)
            self._shown = 0
