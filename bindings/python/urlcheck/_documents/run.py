"""A run over documents: they are read and checked in processes of their own, some in each, and reported in their
order."""

import os
from collections import Counter, deque
from typing import Counter as Counted
from typing import Deque, Iterable, List, Optional, Set, Tuple

from .._fixes.fixing import Fixed, Fixing
from .._fixes.writing import Unwritten, replace
from .._readers.reading import prepare
from .._reports.baseline import Compared
from .._reports.finding import Report, Told, not_read
from .._reports.names import Name
from .._reports.statistics import Statistics
from .._streams import reason_of
from .apart import Apart, Parts, Taken, apart
from .arguments import Command
from .document import ENOUGH, Document
from .screen import Screen


class Counts:
    """What was seen of all documents."""

    def __init__(self) -> None:
        self.documents = 0
        self.links = 0
        self.refused = 0
        self.ignored = 0
        self.known = 0
        self.fixed = 0
        self.shown = 0
        self.unsafe = 0
        self.unread = 0
        self.left: Counted[str] = Counter()

    def add(self, taken: Taken) -> None:
        """Adds what a document gave."""
        self.documents += taken.documents
        self.links += taken.links
        self.refused += taken.refused
        self.ignored += taken.ignored
        self.known += len(taken.known)
        self.unsafe += taken.unsafe
        self.unread += taken.fault is not None
        self.left.update(taken.left)

    def status(self) -> int:
        """2 if a document wasn't read, otherwise 1 if a link is refused or would be written differently, otherwise
        0."""
        return 2 if self.unread else 1 if self.refused or self.shown else 0


class Run:
    """The documents read so far: what was asked for, and what was seen."""

    def __init__(self, command: Command, report: Report, screen: Screen) -> None:
        self._command = command
        self._report = report
        self._screen = screen
        self._noted: Set[str] = set()
        self._paths: Set[str] = set()
        self._waiting: List[Document] = []
        self._work = 0
        self._kinds: Set[Optional[str]] = set()
        self._begun: Deque[Tuple[List[Document], Apart]] = deque()
        self.counts = Counts()
        self.statistics = Statistics()
        self.compared = Compared(command.known)

    def take(self, document: Document) -> None:
        """Takes a document. It is read with others in one process, and those before it are reported once too many
        wait."""
        work = document.work()
        if self._work + work >= ENOUGH:
            self._begin()
        self._waiting.append(document)
        self._work += work
        if self._work >= ENOUGH:
            self._begin()

    def end(self) -> None:
        """Reports all documents that were taken."""
        self._begin()
        while self._begun:
            self._end_first()

    def _begin(self) -> None:
        """Begins to read the documents that wait."""
        if not self._waiting:
            return
        documents, self._waiting, self._work = self._waiting, [], 0
        for kind in {it.kind for it in documents} - self._kinds:
            self._kinds.add(kind)
            prepare(kind)
        parts: List[Parts] = [it.parts for it in documents]
        self._begun.append((documents, Apart(parts, documents[0].is_input)))
        while len(self._begun) >= self._command.jobs:
            self._end_first()

    def _end_first(self) -> None:
        """Reports the documents whose process was begun first."""
        documents, apart = self._begun.popleft()
        for document in documents:
            self._end(document, apart)
        apart.end()

    def _end(self, document: Document, apart: Apart) -> None:
        """Writes the located links of a document or what is wrong with them."""
        self._screen.at(self.counts.documents, self.counts.refused, str(document.name))
        is_whole, is_passed = True, self._command.is_checked
        for taken in self._fixed(document, apart):
            self.counts.add(taken)
            self._report.add(taken.first, bytes(taken.lines))
            self._count(taken)
            is_whole = is_whole and taken.fault is None and not taken.lost
            is_passed = is_passed and not taken.refused and taken.fault is None
            for note in taken.notes:
                self._note(document.name, note)
            for warning in taken.warnings if not self._command.is_quiet else ():
                self._tell(document, warning)
            if taken.fault is not None:
                name = Name(document.name.file, taken.fault.inner)
                self._report.tell(not_read(self._command.format, name, taken.fault))
                self._tell(document, taken.fault)
        if is_whole:
            self.compared.has_read(document.name, document.counts.selected)
        if is_passed:
            self._report.passed(document.name)

    def _tell(self, document: Document, told: Told) -> None:
        """Says something of a document, or a part of it, on standard error."""
        name = Name(document.name.file, told.inner)
        self._screen.tell((name.shown() if told.line is None else str(name)) + told.after())

    def _count(self, taken: Taken) -> None:
        """Counts the faults of a part, for the statistics and the baseline."""
        for fault in taken.counted:
            self.statistics.add(fault.rule, fault.text)
            self.compared.new.append(fault.known)
        self.compared.meet(taken.known)

    def _fixed(self, document: Document, given: Apart) -> Iterable[Taken]:
        """What a document gives, after what is fixed in it was written. Where that can't be it is read as it is."""
        fixing = self._command.fixing
        if fixing is None:
            return given.taken()
        held = list(given.taken())
        fix = held[0].fixed if held else None
        if fix is None:
            return held
        # (a file that has several names is written once)
        path = os.path.realpath(document.entry.path)
        is_new, is_whole = path not in self._paths, all(it.fault is None for it in held)
        self._paths.add(path)
        if is_new and is_whole and self._is_written(document, fix, fixing):
            return held
        return apart(document.unfixed().parts)

    def _is_written(self, document: Document, fix: Fixed, fixing: Fixing) -> bool:
        """Writes a document as it is fixed, or shows what would be written. If that isn't possible, it says so."""
        if fixing.is_shown:
            self._screen.write(fix.difference)
            self.counts.shown += fix.texts
            return True
        try:
            replace(document.entry.path, fix.digest, fix.data, document.entry.folder)
        except (OSError, Unwritten) as error:
            why = str(error) if isinstance(error, Unwritten) else "can't be written: " + reason_of(error)
            self._screen.tell("{}: {}".format(document.name.shown(), why))
            self.counts.unread += 1
            return False
        self.counts.fixed += fix.texts
        return True

    def _note(self, name: Name, note: str) -> None:
        """Says what a reader passed over, each once."""
        if not self._command.is_quiet and note not in self._noted:
            self._noted.add(note)
            self._screen.tell("{}: {}".format(name.shown(), note))
