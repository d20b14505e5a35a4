"""A document that is read and checked: its links, what is wrong with them, and what is written in their place."""

import errno
import os
import re
import stat
import sys
from collections import Counter
from typing import Counter as Counts
from typing import Iterator, List, Optional, Tuple

from .._fixes.edits import Edit
from .._fixes.fixing import CHANGING, IN_BOOK, UNREAD, UNSAFE, Fixing, fixed, more_texts, why_left
from .._readers.kinds import ARCHIVES, PACKAGES, is_like_html, is_list
from .._readers.reading import COMPRESSED, MOST_BYTES, Reading, Unread, found_in
from .._readers.source import Contents, Foreign, Link
from .._reports.baseline import Numbered
from .._reports.checker import Checker, Wrong
from .._reports.columns import Places
from .._reports.finding import Told
from .._reports.ignoring import Ignoring
from .._reports.names import Name, Unlisted
from .._reports.rules import ALL
from .._streams import closed, reason_of
from .apart import Counted, Taken, nothing
from .arguments import Command
from .configuration import Configuration
from .folders import Entry, is_device
from .limits import has_come

_URL = re.compile("[A-Za-z][A-Za-z0-9+.-]*://")
"""How a URL begins that isn't a name of a file."""

_COMMANDS = ("check", "lint")
"""The commands of ``urlcheck`` that check, which this program does without one."""

ENOUGH = 2 * 1024 * 1024
"""How much work a process is given, measured in bytes of HTML."""

_LEAST = 32 * 1024
"""How much work the smallest document is."""

_SLOWER = 8
"""How many times the work is of a document that a package reads."""


def located(name: Name, places: Places, link: Link) -> str:
    """The line that says where a link is. A line feed or a carriage return within it is written as a tab, which is
    refused just the same. Raises ``Unlisted``."""
    line, column = places.position(link.offset)
    return "{}:{}:{}:{}\n".format(name.in_list(), line, column, re.sub("[\r\n]", "\t", link.text))


def read_document(name: str) -> bytes:
    """The document's bytes, at most one more than it may have; for ``-`` the bytes of standard input. Raises ``Unread``."""
    try:
        if name == "-":
            # (there is none if it was closed before the start)
            if sys.stdin is None:
                raise closed()
            return sys.stdin.buffer.read(MOST_BYTES + 1)
        with open(name, "rb") as file:
            return file.read(MOST_BYTES + 1)
    except OSError as error:
        raise Unread("can't be read: {}{}".format(reason_of(error), _meant(name, error))) from None


def _meant(name: str, error: OSError) -> str:
    """What is said about a name that can't be read, if it was perhaps meant otherwise: as a URL, or as a command of
    ``urlcheck``."""
    if _URL.match(name):
        return ", and no URL is fetched"
    return "; links are checked without a command" if name in _COMMANDS and error.errno == errno.ENOENT else ""


class Document:
    """A document that is read: where it is, and what it is read and checked by."""

    def __init__(self, command: Command, entry: Entry, counts: Configuration, checker: Optional[Checker]) -> None:
        self._command = command
        self.entry = entry
        self.is_input = entry.path == "-"
        self.name = entry.name
        self.kind = command.kind or entry.kind
        self.counts = counts
        self._checker = checker
        """What checks its links, unless they are listed."""
        self._reading = Reading(bool(counts.gfm))

    def unfixed(self) -> "Document":
        """The same, as it is."""
        return Document(self._command._replace(fixing=None), self.entry, self.counts, self._checker)

    def work(self) -> int:
        """About how much work it is: enough for a process of its own if it isn't a file, and so can't be read twice."""
        try:
            found = os.stat(self.entry.path)
        except (OSError, ValueError):
            return ENOUGH if self.is_input else _LEAST
        if not stat.S_ISREG(found.st_mode):
            return ENOUGH
        return (_LEAST + found.st_size) * (_SLOWER if self.kind in PACKAGES else 1)

    def parts(self) -> Iterator[Taken]:
        """What the document gives, part by part."""
        try:
            for found, part in self._found():
                yield from self._parts_of(found, part)
        except (Unread, Unlisted) as reason:
            yield nothing(str(reason))
        except Foreign as foreign:
            before = foreign.before
            places = Places(before, self._command.unit)
            yield Taken(fault=Told(str(foreign), *places.position(len(before.text))))
        except RecursionError:
            yield nothing("is nested too deeply")

    def _parts_of(self, found: Contents, part: Taken) -> Iterator[Taken]:
        """What is found in a source, in parts that are small enough to be handed to another process."""
        places = Places(found.source, self._command.unit)
        ignoring = Ignoring(found.comments, self.counts.ignored)
        name = Name(self.name.file, found.inner)
        numbered = Numbered(name)
        for link in found.links:
            try:
                self._take(part, (name, places, link), ignoring, numbered)
            except Unlisted as reason:
                part.fault = Told(str(reason), inner=found.inner)
                break
            if part.is_full():
                yield part
                part = Taken()
        if found.broken is not None and part.fault is None:
            why = "can't be read from here on: " + found.broken.reason
            part.fault = Told(why, *places.position(found.broken.offset), found.inner)
        part.lost = len(found.lost)
        part.notes, part.warnings = tuple(found.notes), self._warnings(found, places, ignoring)
        yield part

    def _warnings(self, found: Contents, places: Places, ignoring: Ignoring) -> Tuple[Told, ...]:
        """What is said about comments, if links are checked, and about parts that couldn't be read."""
        is_all = self.counts.selected == ALL and found.broken is None and not found.lost
        remarks = ignoring.remarks(is_all) if self._checker is not None else ()
        lost = [(it.offset, "isn't read: " + it.what) for it in found.lost]
        said = sorted([*lost, *((it.offset, it.message) for it in remarks)])
        return tuple(Told("warning: " + what, *places.position(offset), found.inner) for offset, what in said)

    def _take(self, part: Taken, given: Tuple[Name, Places, Link], ignoring: Ignoring, numbered: Numbered) -> None:
        """Adds a link of the document of that name, and what is wrong with it, if something is. Raises
        ``Unlisted``."""
        name, places, link = given
        if self._checker is None:
            line = located(name, places, link)
            if ignoring.leaves_out(link):
                part.add_ignored()
            else:
                part.add(line)
            return
        wrong, is_left_out = ignoring.wrong(self._checker, link)
        if is_left_out:
            part.add_ignored()
        elif wrong is None:
            part.add()
        else:
            self._refuse(part, given, wrong, numbered)

    def _refuse(self, part: Taken, given: Tuple[Name, Places, Link], wrong: Wrong, numbered: Numbered) -> None:
        """Adds what is wrong with a link, unless it is known."""
        name, places, link = given
        known, repeat = numbered.next(wrong.rule, wrong.place, link.text)
        if known.fingerprint in self._command.known:
            part.add_known(known.fingerprint)
            return
        assert self._checker is not None
        found = self._checker.reported(places, link, wrong, repeat)
        part.add_refused(self._command.format, self._command.is_coloured, name, found)
        if self._command.is_counted():
            part.counted.append(Counted(wrong.rule, link.text, known))
        if self._command.fixing is not None and self.kind in ARCHIVES:
            part.left[IN_BOOK] += 1

    def _found(self) -> Iterator[Tuple[Contents, Taken]]:
        """What is found in the document, or in each one that it holds, and the part that each begins. If fixes are
        asked for, that is after its links are fixed; if they are only shown, as the links are."""
        data = self._read()
        assert self.kind is not None
        kind, fixing = self.kind, self._command.fixing
        if fixing is None or kind in ARCHIVES:
            for number, found in enumerate(found_in(data, kind, self._reading)):
                yield found, Taken(documents=int(number == 0))
            return
        found, *_ = found_in(data, kind, self._reading)
        edits, unsafe, left = self._edits(found, fixing)
        # (the limit is on what is read)
        reading = self._reading._replace(most=sys.maxsize)
        name = self.name if fixing.is_shown else None
        fix = fixed(data, found, edits, lambda new: next(found_in(new, kind, reading)), name)
        more = more_texts(edits, unsafe)
        if fix is not None:
            yield found if fixing.is_shown else fix[1], Taken(documents=1, fixed=fix[0], unsafe=more, left=left)
            return
        # (a document that can't be read to its end, or is read otherwise after its edits, is never written)
        if edits or found.broken is not None:
            why = CHANGING if found.broken is None else UNREAD
            left, more = Counter({why: len(edits)}) + left, 0
        yield found, Taken(documents=1, unsafe=more, left=left)

    def _edits(self, found: Contents, fixing: Fixing) -> Tuple[List[Edit], List[Edit], Counts[str]]:
        """What is written in place of wrong links, what would be besides if unsafe fixes were too, and why nothing is
        in place of how many others. Known faults stay as they are."""
        edits: List[Edit] = []
        unsafe: List[Edit] = []
        left: Counts[str] = Counter()
        assert self._checker is not None
        for link, wrong in self._refused_in(found):
            writing = self._checker.writing(link, wrong, found.source)
            why = why_left(link.text, wrong, writing, fixing.is_unsafe)
            if writing is not None and why in (None, UNSAFE):
                edit = Edit(writing.start, writing.end, writing.text, writing.mended.text)
                (edits if why is None else unsafe).append(edit)
            elif why is not None:
                left[why] += 1
        return edits, unsafe, left

    def _refused_in(self, found: Contents) -> Iterator[Tuple[Link, Wrong]]:
        """The links that are refused and aren't known, except those that a comment is about."""
        ignoring = Ignoring(found.comments, self.counts.ignored)
        numbered = Numbered(Name(self.name.file, found.inner))
        assert self._checker is not None
        for link in found.links:
            wrong, is_left_out = ignoring.wrong(self._checker, link)
            if wrong is None or is_left_out:
                continue
            known, _ = numbered.next(wrong.rule, wrong.place, link.text)
            if known.fingerprint not in self._command.known and not ignoring.is_about(link):
                yield link, wrong

    def _read(self) -> bytes:
        """The document's bytes. Raises ``Unread`` and ``Unlisted``."""
        path = self.entry.path
        if self.entry.reason is not None:
            raise Unread(self.entry.reason)
        if self.kind is None:
            if path != "-" and not os.path.exists(path):
                read_document(path)
            if path.endswith(".gz"):
                raise Unread(COMPRESSED)
            says = "it has no name that says its kind" if self.name.file == "-" else "it has no known file extension"
            if is_like_html(self.name.file):
                raise Unread(says + ": --type html reads it as a page of HTML")
            more = "; urlcheck lint checks a list of links" if is_list(path) else ""
            raise Unread(says + ": give --type html, xml, markdown or another kind" + more)
        if self._checker is None:
            self.name.in_list()
        if self._command.fixing is not None and is_device(path):
            raise Unread("isn't a regular file, and isn't fixed")
        data = read_document(path)
        has_come()
        return data
