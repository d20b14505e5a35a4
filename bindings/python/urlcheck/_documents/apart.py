"""What documents give, taken in processes of their own."""

import os
import pickle
import subprocess
import sys
from collections import Counter
from dataclasses import dataclass, field
from typing import BinaryIO, Callable
from typing import Counter as Counts
from typing import Iterator, List, NamedTuple, Optional, Sequence, Tuple

from .._fixes.fixing import Fixed
from .._reports.baseline import Known
from .._reports.finding import Told, lines_on
from .._reports.names import Name
from .._reports.report import Reported
from .._streams import reason_of, write_nowhere
from . import limits
from .started import hand_on, started


class Counted(NamedTuple):
    """A fault of a document, as it is counted, or kept as one that is known."""

    rule: str
    text: str
    known: Known


@dataclass
class Taken:
    """What a part of a document gives. All that is only in the first part is about the whole document."""

    documents: int = 0
    """1 in the first part of a document that is read."""
    links: int = 0
    refused: int = 0
    ignored: int = 0
    first: Optional[Tuple[Name, Reported]] = None
    """The first link in the report, with its document: its text depends on whether others come before it."""
    lines: bytearray = field(default_factory=bytearray)
    """What the report says about its other links."""
    counted: List[Counted] = field(default_factory=list)
    """Its faults, if they are counted."""
    known: List[str] = field(default_factory=list)
    """The fingerprints of its faults that are known, and not reported."""
    fixed: Optional[Fixed] = None
    """The document with other texts in place of links, to which the other fields then refer; only in the first part."""
    unsafe: int = 0
    """How many more links would be fixed if unsafe fixes were written too; only in the first part."""
    left: Counts[str] = field(default_factory=Counter)
    """How many wrong links aren't fixed, if they are to be, by why."""
    fault: Optional[Told] = None
    """Why it wasn't read to its end, if it wasn't."""
    lost: int = 0
    """How many parts of it weren't read, each of which a warning tells."""
    warnings: Tuple[Told, ...] = ()
    """What is said about its comments, and about parts that weren't read."""
    notes: Tuple[str, ...] = ()
    """What its reader passed over."""

    def add(self, line: str = "") -> None:
        """Adds a link that is listed in this line, or is valid."""
        self.links += 1
        self.lines += line.encode("utf-8", "surrogateescape")

    def add_refused(self, format: str, is_coloured: bool, name: Name, found: Reported) -> None:
        """Adds a refused link of the document of that name, with what a report of this format says about it."""
        self.links += 1
        self.refused += 1
        if self.first is None:
            self.first = name, found
        else:
            self.lines += lines_on(format, is_coloured, name, found, False)

    def add_ignored(self) -> None:
        """Adds a link that is left out."""
        self.links += 1
        self.ignored += 1

    def add_known(self, fingerprint: str) -> None:
        """Adds a link whose fault is known."""
        self.links += 1
        self.known.append(fingerprint)

    def is_full(self) -> bool:
        """Whether it has as much as a part is to have."""
        return len(self.lines) >= _ENOUGH or len(self.counted) + len(self.known) >= _MOST_COUNTED


_ENOUGH = 256 * 1024
"""How many bytes the lines of a part have, before the next one begins."""

MOST_GROWN = 64 * 1024 * 1024
"""How many bytes of memory documents may have taken, before another process takes those after them."""

_MOST_SHOWN = 80
"""How much is shown of what a reader fails with."""

_MOST_COUNTED = 4096
"""How many faults a part has that are counted or known, before the next one begins."""

Parts = Callable[[], Iterator[Taken]]
"""What takes a document part by part."""


def nothing(reason: str) -> Taken:
    """What a document gives that isn't read."""
    return Taken(fault=Told(reason))


class Apart:
    """Documents that are taken one after another in a process of their own, which begins at once. When memory runs
    short, Python may do anything, even go on without an end: so the process is ended from outside, and only the parts
    that it gave whole are taken. When a process ends, another one goes on: with the same document, unless that was its
    first or took too long. So the report on a document never depends on earlier ones."""

    def __init__(self, documents: Sequence[Parts], is_input: bool = False) -> None:
        self._documents = documents
        self._is_input = is_input
        self._next = 0
        self._begin()

    def _begin(self) -> None:
        """Begins a process for the documents that are left."""
        self._first = self._next
        self._child: Optional[_Child] = None
        left = self._documents[self._next :]
        if not left:
            return
        try:
            if sys.platform != "win32" and hasattr(os, "fork"):
                self._child = _Forked(left)
            else:
                self._child = _Started(left, self._is_input)
        except OSError as error:
            self._failed = nothing("can't be read: no process: {}".format(reason_of(error)))

    def taken(self) -> Iterator[Taken]:
        """What the next document gives, part by part."""
        given = 0
        while self._child is not None:
            for number, part in enumerate(_whole(self._child.pipe)):
                if part is None:
                    self._next += 1
                    return
                # (what was given before its process ended isn't given again)
                if number >= given:
                    given += 1
                    yield part
            status = self._child.end()
            if self._first == self._next or limits.is_of_time(status):
                yield _ended(status, given > 0)
                self._next += 1
                self._begin()
                return
            self._begin()
        self._next += 1
        yield self._failed
        self._begin()

    def end(self) -> None:
        """Ends the process, whose documents were all taken."""
        if self._child is not None:
            self._child.end()


def _ended(status: int, is_begun: bool) -> Taken:
    """What is said about a document whose process ended before its end."""
    reason = limits.ended_by(status)
    if is_begun:
        return nothing(reason + ", and isn't reported to its end")
    return nothing(reason + " to read" if limits.is_of_time(status) or status == limits.NO_MEMORY else reason)


def apart(parts: Parts) -> Iterator[Taken]:
    """What a document gives, taken in a process of its own."""
    taken = Apart([parts])
    yield from taken.taken()
    taken.end()


class _Child:
    """A process that takes documents."""

    def __init__(self, pipe: BinaryIO) -> None:
        self.pipe = pipe
        """What it gives."""

    def end(self) -> int:
        """How it ended. Nothing more is taken from it."""
        self.pipe.close()
        return self.status()

    def status(self) -> int:
        """How it ended, once it has: as a number below 0 if a signal ended it."""
        raise NotImplementedError


if sys.platform != "win32":

    class _Forked(_Child):
        """One that begins as a copy of this process."""

        def __init__(self, documents: Sequence[Parts]) -> None:
            reader, writer = os.pipe()
            try:
                self._number = os.fork()
            except OSError:
                os.close(reader)
                os.close(writer)
                raise
            if self._number == 0:
                os.close(reader)
                _give(documents, writer)
            os.close(writer)
            super().__init__(os.fdopen(reader, "rb"))

        def status(self) -> int:
            """How it ended: below 0 by a signal, as ``subprocess`` says it."""
            status = os.waitpid(self._number, 0)[1]
            return -os.WTERMSIG(status) if os.WIFSIGNALED(status) else os.WEXITSTATUS(status)


class _Started(_Child):
    """A process that begins again, on a system that can't copy one. It is told what to take, and gets standard input if
    that is the document."""

    def __init__(self, documents: Sequence[Parts], is_input: bool) -> None:
        self._process: "subprocess.Popen[bytes]" = started(__name__)
        asked, given = self._process.stdin, self._process.stdout
        assert asked is not None and given is not None
        super().__init__(given)  # type: ignore[arg-type]
        try:
            pickle.dump((documents, limits.MOST_SECONDS, sys.stdin is None), asked)
            asked.flush()
            if is_input and sys.stdin is not None:
                hand_on(asked)
            else:
                asked.close()
        except OSError:
            # (it has ended, and its status says why)
            pass

    def status(self) -> int:
        """How it ended."""
        return self._process.wait()


def serve() -> None:
    """What such a process does."""
    documents, limits.MOST_SECONDS, is_closed = pickle.load(sys.stdin.buffer)
    if is_closed:
        sys.stdin = None  # type: ignore[assignment]
    writer = os.dup(1)
    write_nowhere(1)
    limits.limit_memory()
    _give(documents, writer)


def _whole(pipe: BinaryIO) -> Iterator[Optional[Taken]]:
    """The parts that were written whole, and ``None`` at the end of each document."""
    while True:
        try:
            part: Optional[Taken] = pickle.load(pipe)
        except (EOFError, pickle.UnpicklingError):
            return
        yield part


def _give(documents: Sequence[Parts], writer: int) -> None:
    """Writes the parts of documents to this file, and ends the process: with 0 if all of them were written whole. Once
    they have taken much memory, the others are left to another process."""
    ended = limits.FAILED
    try:
        write_nowhere(2)
        most = limits.memory_taken() + MOST_GROWN
        with os.fdopen(writer, "wb") as pipe:
            for parts in documents:
                limits.limit_waiting()
                limits.limit_time(limits.MOST_SECONDS)
                for part in _sure(parts):
                    _put(part, pipe)
                limits.has_come()
                limits.limit_time(0)
                _put(None, pipe)
                if limits.memory_taken() > most:
                    break
        ended = 0
    except (MemoryError, SystemError):
        # (Python raises a SystemError too where an allocation failed)
        ended = limits.NO_MEMORY
    finally:
        os._exit(ended)


def _put(part: Optional[Taken], pipe: BinaryIO) -> None:
    """Writes a part, or that a document ends. (What isn't written out is lost if the next document ends the
    process.)"""
    pickle.dump(part, pipe)
    pipe.flush()


def _sure(parts: Parts) -> Iterator[Taken]:
    """The parts of a document, and if its reader fails that it did, so that the others are still checked."""
    try:
        yield from parts()
    except (MemoryError, SystemError):
        raise
    except Exception as error:
        yield nothing("its reader failed: {}".format(repr(error)[:_MOST_SHOWN]))
