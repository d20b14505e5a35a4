"""A process that checks the texts which an editor holds, with the limits that files have, and what starts it again if
it was ended."""

import functools
import gc
import os
import pickle
import queue
import signal
import subprocess
import sys
import threading
import time
from typing import IO, Any, Callable, Dict, FrozenSet, Iterator, List, NamedTuple, Optional, Tuple

from .. import MendKind, Profile
from .._documents.configuration import Configuration
from .._documents.limits import MOST_SECONDS, NO_MEMORY, ended_by, limit_memory, limit_time
from .._documents.started import started
from .._fixes.fixing import why_left
from .._readers import markdown_links, rst_links
from .._readers.reading import LIST, Reading, Unread, found_in
from .._readers.source import Contents, Foreign, Link, Source
from .._reports.checker import MOST_KEPT, Checker, Verdicts, Wrong
from .._reports.ignoring import Ignoring
from .._reports.rules import ALL
from .editing import LinePlaces
from .pieces import Pieces, Read, of_markdown, of_rst

Range = Tuple[Tuple[int, int], Tuple[int, int]]
"""From where to where something is: lines and units from 0."""

PATIENCE = 1.0
"""How many seconds a text is checked that has changed meanwhile, before the process is ended."""


class Asked(NamedTuple):
    """A text, and what it is checked by."""

    name: str
    """Which document it is."""
    text: str
    kind: str
    encoding: str
    counts: Configuration


class Kept:
    """What is kept from one text to the next."""

    def __init__(self) -> None:
        self._verdicts: Dict[Tuple[Optional[Profile], Optional[bool], FrozenSet[str]], Verdicts] = {}
        self._fixes: Dict[Tuple[Any, ...], Fix] = {}
        self._read: Tuple[str, str, bool] = ("", "", False)
        self._reading = Reading()

    def verdicts(self, asked: Asked) -> Verdicts:
        """What is known of links."""
        counts = asked.counts
        return self._verdicts.setdefault((counts.profile, counts.is_empty_taken, counts.selected), {})

    def reading(self, asked: Asked) -> Reading:
        """How a document is read. What the one that was checked last was read as is kept, until another one is."""
        is_gfm, is_mdx = bool(asked.counts.gfm), asked.kind == "mdx"
        if self._read != (asked.name, asked.kind, is_gfm):
            self._read = asked.name, asked.kind, is_gfm
            piece = functools.partial(markdown_links.links_of, is_gfm=is_gfm, is_mdx=is_mdx)
            whole = functools.partial(piece, inlines=markdown_links.Inlines())
            markdown: Read = whole
            if not is_mdx:
                # (an expression of MDX may have anything in it, empty lines too)
                markdown = Pieces(of_markdown, piece, whole).read
            rst = Pieces(of_rst, rst_links.links_of, rst_links.links_of)
            self._reading = Reading(is_gfm, markdown, rst.read)
        return self._reading

    def fix(self, asked: Asked, link: Link, wrong: Wrong, checker: Checker, source: Source) -> "Fix":
        """What may be written in place of a link of a source. What is written for equal links is sought once."""
        raw = source.text[link.offset : link.place(len(link.text))]
        key = raw, link.text, link.syntax, link.is_certain, link.base, wrong.mended, asked.counts.base
        fix = self._fixes.get(key)
        if fix is None:
            writing = checker.writing(link, wrong, source)
            is_wanted = writing is not None and why_left(link.text, wrong, writing, is_unsafe=False) is None
            fix = Fix(None if writing is None else writing.text, is_wanted)
            if len(self._fixes) >= MOST_KEPT:
                self._fixes.clear()
            self._fixes[key] = fix
        return fix


class Fix(NamedTuple):
    """What may be written in place of a link."""

    text: Optional[str]
    """What is to stand there; nothing if no text may."""
    is_wanted: bool
    """Whether it may be written unasked."""


class Mistake(NamedTuple):
    """What is wrong with a link of a text."""

    range: Range
    """From the wrong place to the link's end."""
    whole: Range
    """The link."""
    rule: str
    message: str
    mended: Optional[str] = None
    """What may be written in place of the whole link, and is offered."""
    kind: Optional[MendKind] = None
    named: Optional[str] = None
    """What isn't offered, because something else was likely meant."""
    is_fixed: bool = False
    """Whether it may be written unasked, as ``urlcheck-documents --fix`` writes it."""


class Remark(NamedTuple):
    """Something about the text itself."""

    range: Range
    message: str
    code: str
    """What kind of a remark it is: one of these three."""


NOTE = "note"
"""The code of what a reader passed over."""

NOT_READ = "not-read"
"""The code of why a text can't be read from there on."""

COMMENT = "comment"
"""The code of what is wrong with a comment."""


class Seen(NamedTuple):
    """What was seen in a text."""

    mistakes: List[Mistake]
    remarks: List[Remark]
    links: int = 0


START = ((0, 0), (0, 0))
"""The range of a diagnostic on a text as a whole."""

_MOST_SAID = 150
"""How many code points a diagnostic has of what failed."""


def unread(reason: str) -> Seen:
    """What is seen in a text that isn't read."""
    return Seen([], [Remark(START, reason, NOT_READ)])


def failed(error: BaseException) -> Seen:
    """What is seen in a text at which this program failed."""
    said = " ".join("{}: {}".format(type(error).__name__, error).split())
    shown = "".join(it if it.isprintable() else "\ufffd" for it in said[:_MOST_SAID])
    return unread("can't be checked: the program failed: " + shown)


def _seen_in(asked: Asked, kept: Kept) -> Seen:
    """What is wrong with a text."""
    seen = Seen([], [])
    links = 0
    try:
        for found in found_in(asked.text, asked.kind, kept.reading(asked)):
            checker = Checker(asked.counts, True, kept.verdicts(asked), asked.kind == LIST)
            places = LinePlaces(found.source.text, asked.encoding)
            links += len(found.links)
            ignoring = Ignoring(found.comments, asked.counts.ignored)
            seen.mistakes.extend(_mistakes_in(asked, found, checker, (places, kept), ignoring))
            seen.remarks.extend(_remarks_on(asked, found, places, ignoring))
    except (Unread, Foreign) as reason:
        seen.remarks.append(Remark(START, str(reason), NOT_READ))
    except RecursionError:
        seen.remarks.append(Remark(START, "is nested too deeply", NOT_READ))
    return seen._replace(links=links)


def _remarks_on(asked: Asked, found: Contents, places: LinePlaces, ignoring: Ignoring) -> Iterator[Remark]:
    """What is said about a text, once its links were looked at."""
    yield from (Remark(START, it, NOTE) for it in found.notes)
    for it in ignoring.remarks(asked.counts.selected == ALL and found.broken is None):
        at = places.position(it.offset)
        yield Remark((at, at), it.message, COMMENT)
    for lost in found.lost:
        at = places.position(lost.offset)
        yield Remark((at, at), "isn't read: " + lost.what, NOT_READ)
    if found.broken is not None:
        at = places.position(found.broken.offset)
        yield Remark((at, at), "can't be read from here on: " + found.broken.reason, NOT_READ)


def _mistakes_in(
    asked: Asked, found: Contents, checker: Checker, seen: Tuple[LinePlaces, Kept], ignoring: Ignoring
) -> Iterator[Mistake]:
    """The links that are wrong, except those that are meant as they are."""
    for link in found.links:
        wrong, is_left_out = ignoring.wrong(checker, link)
        if wrong is not None and not is_left_out:
            places, kept = seen
            is_offered = wrong.mended is not None and wrong.mended.is_offered
            fix = kept.fix(asked, link, wrong, checker, found.source) if is_offered else Fix(None, False)
            # (a link that a comment is about is left as it is, as by the command)
            yield _mistake(link, wrong, places, fix._replace(is_wanted=fix.is_wanted and not ignoring.is_about(link)))


def _mistake(link: Link, wrong: Wrong, places: LinePlaces, fix: Fix) -> Mistake:
    """A link that is wrong, with its places."""
    at, end = link.place(wrong.place), _end_of(link) if fix.text is None else link.place(len(link.text))
    whole = places.position(link.offset), places.position(max(end, link.offset))
    region = places.position(at), places.position(max(end, at + 1 if wrong.place < len(link.text) else at))
    named = wrong.mended.text if wrong.mended is not None and not wrong.mended.is_offered else None
    said = wrong.message if not link.within else "{}, in {}".format(wrong.message, link.within)
    kind = wrong.mended.kind if wrong.mended is not None else None
    return Mistake(region, whole, wrong.rule, said, fix.text, kind, named, fix.is_wanted)


def _end_of(link: Link) -> int:
    """Returns the end of a link in its source, or its beginning if the end isn't known."""
    if link.is_verbatim:
        return link.offset + len(link.text)
    return link.place(len(link.text) - 1) + 1 if link.pieces and link.text else link.offset


class Checking:
    """The process, as its parent has it."""

    def __init__(self) -> None:
        self._process: Optional["subprocess.Popen[bytes]"] = None

    def check(self, asked: Asked, is_superseded: Callable[[], bool]) -> Optional[Seen]:
        """What is wrong with a text, or nothing if it was superseded before that was known."""
        process = self.start()
        stdin, stdout = process.stdin, process.stdout
        assert stdin is not None and stdout is not None
        try:
            _send(stdin, asked)
        except OSError:
            return self._ended("ended")
        answers: "queue.Queue[Optional[Seen]]" = queue.Queue()
        threading.Thread(target=_answer, args=(stdout, answers), daemon=True).start()
        begun = time.monotonic()
        while True:
            try:
                seen = answers.get(timeout=0.1)
            except queue.Empty:
                if time.monotonic() - begun > PATIENCE and is_superseded():
                    self.end()
                    return None
                continue
            return self._ended(None) if seen is None else seen

    def start(self) -> "subprocess.Popen[bytes]":
        """The process, which is started if there is none, as before the first text, and again if it has ended."""
        if self._process is None or self._process.poll() is not None:
            self.end()
            self._process = started(__name__)
        return self._process

    def is_started(self) -> bool:
        """Whether there is a process."""
        return self._process is not None

    def _ended(self, why: Optional[str]) -> Seen:
        """What is said about a text whose process was ended."""
        process = self._process
        status = process.wait() if process is not None else 0
        self.end()
        return unread("can't be checked: " + (why or ended_by(status)))

    def end(self) -> None:
        """Ends the process, if there is one."""
        process, self._process = self._process, None
        if process is not None:
            process.kill()
            process.wait()
            for pipe in (process.stdin, process.stdout):
                if pipe is not None:
                    pipe.close()


def _send(pipe: IO[bytes], value: Any) -> None:
    """Sends a value."""
    pickle.dump(value, pipe, pickle.HIGHEST_PROTOCOL)
    pipe.flush()


def _answer(pipe: IO[bytes], answers: "queue.Queue[Optional[Seen]]") -> None:
    """Puts what the process answers, or nothing if it has ended."""
    try:
        answers.put(pickle.load(pipe))
    except (EOFError, OSError, ValueError, pickle.UnpicklingError):
        answers.put(None)


def serve() -> None:
    """Checks what its parent asks, until that is gone."""
    limit_memory()
    signal.signal(signal.SIGINT, signal.SIG_IGN)
    given, taken = sys.stdin.buffer, os.fdopen(os.dup(1), "wb")
    os.dup2(2, 1)
    kept = Kept()
    # (what is no longer needed is looked for while nothing is waited for)
    gc.disable()
    while True:
        try:
            asked: Asked = pickle.load(given)
        except (EOFError, pickle.UnpicklingError):
            return
        limit_time(MOST_SECONDS)
        try:
            seen = _seen_in(asked, kept)
        except (MemoryError, SystemError):
            # (if memory is short Python may do anything)
            os._exit(NO_MEMORY)
        except Exception as error:
            seen = failed(error)
        limit_time(0)
        _send(taken, seen)
        del asked, seen
        gc.collect()
