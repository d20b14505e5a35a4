"""What a report says of the links of documents, and of a document that isn't read."""

from types import TracebackType
from typing import Callable, Dict, NamedTuple, Optional, Tuple, Type

from .._streams import Unwritable
from .names import Name, readable
from .report import Reported, begin, end, passed, written

Writer = Callable[[bytes], None]


class Told(NamedTuple):
    """What is told of a document besides its links: why it wasn't read to its end, or what is wrong with a comment."""

    reason: str
    line: Optional[int] = None
    """The line where its reader stopped or the comment is, from 1, if it had begun."""
    column: Optional[int] = None
    """The column there, from 1."""
    inner: str = ""
    """The document within it that it is about, if it holds others."""

    def after(self) -> str:
        """What is said after the document's name."""
        return ": " + self.reason if self.line is None else ":{}:{}: {}".format(self.line, self.column, self.reason)


def lines_on(format: str, is_coloured: bool, name: Name, found: Reported, is_first: bool) -> bytes:
    """What is said about a refused link of the document of that name, which is the first one in the report or comes
    after others."""
    shown = name.in_report(format)
    file = readable(shown)
    # (programs read from the lines of gnu which file it is, whose name may have any bytes)
    before = shown if format == "gnu" and shown != file and not is_coloured else ""
    lines = before + written(format, is_coloured, found._replace(file="" if before else file), is_first)
    return lines.encode("utf-8", "surrogateescape")


_IN_MESSAGE = {"%": "%25", "\r": "%0D", "\n": "%0A"}
_IN_PROPERTY = {**_IN_MESSAGE, ":": "%3A", ",": "%2C"}


def not_read(format: str, name: Name, told: Told) -> str:
    """What is said about a document of that name that isn't read to its end: a workflow command of GitHub, which shows
    it at the first line of its file or where the reader stopped. No other format says that."""
    if format != "github":
        return ""
    place = "" if told.line is None else ",line={},col={}".format(told.line, told.column)
    file, reason = _escaped(readable(name.in_report(format)), _IN_PROPERTY), _escaped(told.reason, _IN_MESSAGE)
    return "::error file={}{},title=not-read::{}\n".format(file, place, reason)


def _escaped(text: str, escapes: Dict[str, str]) -> str:
    """A text with what stands for each code point that isn't allowed as it is."""
    return "".join(escapes.get(point, point) for point in text)


class Report:
    """A report that is written document by document. It begins and ends as a context does, so that it is whole in its
    format whatever happens meanwhile."""

    def __init__(self, format: str, is_coloured: bool, unit: str, write: Writer) -> None:
        self._format = format
        self._is_coloured = is_coloured
        self._unit = unit
        self._write = write
        self._is_first = True
        self.is_whole = False
        """Whether each document was read to its end."""

    def __enter__(self) -> "Report":
        self._write(begin(self._format, self._unit).encode("utf-8"))
        return self

    def __exit__(
        self, kind: Optional[Type[BaseException]], error: Optional[BaseException], trace: Optional[TracebackType]
    ) -> None:
        if not isinstance(error, Unwritable):
            self._write(end(self._format, self.is_whole and error is None).encode("utf-8"))

    def add(self, first: Optional[Tuple[Name, Reported]], rest: bytes) -> None:
        """Writes the reports on links: on the first of them, if there is one, and then the rest."""
        if first is not None:
            self._write(lines_on(self._format, self._is_coloured, *first, self._is_first))
            self._is_first = False
        self._write(rest)

    def tell(self, lines: str) -> None:
        """Writes the report on a document."""
        self._write(lines.encode("utf-8"))

    def passed(self, name: Name) -> None:
        """Writes the report on a document in which nothing is wrong."""
        self._write(passed(self._format, readable(name.in_report(self._format))).encode("utf-8"))
