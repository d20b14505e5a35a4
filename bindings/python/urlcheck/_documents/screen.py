"""The outputs of a run: its report, its words, and how far it is, in the last line of a terminal."""

import os
import shutil
import signal
import sys
import time
from typing import Any, Optional

from .._fixes.writing import Output
from .._streams import named, tell, write

_EACH = 0.2
"""After how many seconds the line is written again."""

_FIRST = 1.0
"""After how many seconds it is written first, since a short run needs none."""

_LONG = 2.0
"""After how many seconds of one document its name is shown."""

_ERASE = "\r\x1b[2K"


class Screen:
    """Standard output or the file in its place, and standard error. If that is a terminal, its last line says how many
    documents were read of all, and how many of their links are refused; if the system has no signal for time, it is
    written whenever a document ends."""

    def __init__(self, file: Optional[Output], is_coloured: bool, total: int, is_quiet: bool) -> None:
        self._file = file
        self._is_coloured = is_coloured
        is_terminal = sys.stderr is not None and sys.stderr.isatty() and os.environ.get("TERM") != "dumb"
        self._is_shown = is_terminal and not is_quiet
        self._total = total
        self._read = self._refused = 0
        self._name = ""
        self._next = time.monotonic() + _FIRST
        self._since = time.monotonic()
        self._is_written = False
        if self._is_shown:
            self._on_time_from(_FIRST)

    def at(self, read: int, refused: int, name: str) -> None:
        """Says how many documents were read, how many links refused, and which document is read now."""
        self._read, self._refused, self._name = read, refused, name
        self._since = time.monotonic()
        if self._is_shown and sys.platform == "win32":
            self._say()

    def write(self, lines: bytes) -> None:
        """Writes lines of the report. Raises ``Unwritable``."""
        if lines and self._file is not None:
            self._file.write(lines)
        elif lines:
            self._hide()
            write(lines, self._is_coloured)

    def tell(self, line: str) -> None:
        """Says a line on standard error."""
        self._hide()
        tell(line)

    def end(self) -> None:
        """Takes the line of the run away for good, and the signal that writes it."""
        if self._is_shown:
            self._on_time_from(0)
        self._is_shown = False
        self._hide()

    def _hide(self) -> None:
        """Takes the line away, before anything else is written to the terminal."""
        if self._is_written:
            self._is_written = False
            _show(_ERASE)

    def _on_time_from(self, first: float) -> None:
        """Has the line written after this many seconds, and from then on again and again; never, if 0."""
        if sys.platform != "win32" and hasattr(signal, "setitimer"):
            signal.signal(signal.SIGALRM, self._say)
            signal.siginterrupt(signal.SIGALRM, False)
            signal.setitimer(signal.ITIMER_REAL, first, _EACH)

    def _say(self, *_: Any) -> None:
        """Writes the line, unless it was written just before, as a signal may come right after a document's end."""
        now = time.monotonic()
        if not self._is_shown or now < self._next:
            return
        self._next = now + _EACH / 2
        line = "{} of {} documents, {} refused".format(self._read, self._total, self._refused)
        if now - self._since >= _LONG:
            line += ": " + named(self._name)
        self._is_written = True
        _show(_ERASE + line[: shutil.get_terminal_size().columns - 1])


def _show(text: str) -> None:
    """Writes to the terminal past Python's stream, in which a signal may find another line half written."""
    try:
        os.write(2, text.encode("utf-8", "replace"))
    except OSError:
        # (what can't be shown is left out)
        pass
