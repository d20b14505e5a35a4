"""The text of a document, and the links that are found in it."""

import bisect
import codecs
import enum
import re
import sys
from dataclasses import dataclass, field
from typing import Callable, Iterator, List, Match, NamedTuple, Optional, Pattern, Set, Tuple

from .slots import AS_IT_IS, Slot, Syntax

SPACES = " \t\n\f\r"
"""What HTML and XML allow around a URL: ASCII whitespace."""

_WORD = re.compile("[^" + SPACES + "]+")


class NamedBase:
    """A base that a document names. Each one is equal only to itself."""

    __slots__ = ("text", "around")

    def __init__(self, text: str, around: "Optional[NamedBase]" = None) -> None:
        self.text = text
        self.around = around
        """The base that the document names around it, which its text is relative to."""


class Asks(enum.Enum):
    """What the format of a document asks of a link."""

    REFERENCE = "reference"
    """A URL string or a reference, which may be empty."""
    SOME = "some"
    """One that isn't empty."""
    ABSOLUTE = "absolute"
    """A URL string with a scheme."""
    ANOTHER = "another"
    """Something that isn't a link as it is written, though its author meant one."""


class Comment(NamedTuple):
    """A comment of a document that is for this program."""

    text: str
    """What it says, without the spaces around it."""
    offset: int
    """The place in the source at which its text begins, in code points from 0."""
    line_feeds: int = 0
    """How many line feeds it has."""


class Link(NamedTuple):
    """A link of a document."""

    text: str
    """The link, without the spaces around it, and with character references read."""
    offset: int
    """The place in the source at which it begins, in code points from 0."""
    is_verbatim: bool
    """Whether it is in the source as it is, so that a place within it is one of the source."""
    base: Optional[NamedBase] = None
    """What the document says that it is relative to."""
    pieces: "Pieces" = ()
    """The pieces of a link that isn't verbatim, if they are known."""
    asks: Asks = Asks.REFERENCE
    """What its format requires of it."""
    within: str = ""
    """Its place in more detail, such as a cell of a notebook and its line."""
    comments: Tuple[Comment, ...] = ()
    """The comments that are about it."""
    syntax: Syntax = AS_IT_IS
    """How it is written in the source."""
    is_certain: bool = True
    """Whether it is surely a link, and not a text that only looks like one."""

    def slot(self, source: "Source") -> Optional[Slot]:
        """Its place in its source, if another text can be written there: if readers see it in what is
        written from its beginning to its end."""
        if not (self.is_verbatim or self.pieces):
            return None
        end = self.place(len(self.text))
        raw = source.text[self.offset : end]
        return Slot(self.offset, end, raw, self.syntax, self.is_certain) if self.syntax.read(raw) == self.text else None

    def place(self, at: int) -> int:
        """Returns the source's place for a place of the link, or the link's beginning if that isn't known."""
        if self.is_verbatim:
            return self.offset + at
        return _place(self.pieces, at) if self.pieces else self.offset


Pieces = Tuple[Tuple[int, int], ...]
"""The places of a text in its source if it isn't written there as it is read: for each piece of it, where it begins in the
text and in the source. The first begins at 0."""


def _place(pieces: Pieces, at: int) -> int:
    """Where a place of a text is in the source."""
    begin, offset = pieces[bisect.bisect_right(pieces, (at, sys.maxsize)) - 1]
    return offset + at - begin


class Written(NamedTuple):
    """Where a value is in the source."""

    offset: int
    is_verbatim: bool
    pieces: Pieces = ()
    syntax: Syntax = AS_IT_IS
    """How it is written there."""

    def place(self, at: int) -> int:
        """Returns the source's place for a place of the value, or the value's beginning if that isn't known."""
        if self.is_verbatim:
            return self.offset + at
        return _place(self.pieces, at) if self.pieces else self.offset

    def link(self, text: str, at: int = 0, base: Optional[NamedBase] = None) -> Link:
        """The link that begins at a place of the value."""
        offset = self.place(at)
        if self.is_verbatim or not self.pieces:
            return Link(text, offset, self.is_verbatim, base, syntax=self.syntax)
        first = bisect.bisect_right(self.pieces, (at, sys.maxsize))
        last = bisect.bisect_right(self.pieces, (at + len(text), sys.maxsize))
        inner = tuple((begin - at, place) for begin, place in self.pieces[first:last])
        return Link(text, offset, False, base, ((0, offset), *inner), syntax=self.syntax)

    def stripped(self, value: str, base: Optional[NamedBase] = None) -> Link:
        """The link of the whole value, without the spaces around it."""
        return self.link(value.strip(SPACES), len(value) - len(value.lstrip(SPACES)), base)


MOST_MOVED = 4_000
"""How many code points a link may have for its pieces to be kept when it is moved."""


def moved(link: Link, source: "Source", place_of: Callable[[int], int], outer: Syntax = AS_IT_IS) -> Link:
    """A link of a text that was read out of a source, where it is written in a syntax, with its places there:
    ``place_of`` gives the source's place for a place of the text."""
    begins = list(link.pieces) or [(0, link.offset)]
    offset = place_of(link.offset)
    link = link._replace(offset=offset, syntax=link.syntax.within(outer))
    if link.is_verbatim and source.text.startswith(link.text, offset):
        return link
    if not link.is_verbatim and not link.pieces:
        return link
    pieces: List[Tuple[int, int]] = []
    ends = [begin for begin, _ in begins[1:]] + [min(len(link.text), MOST_MOVED) + 1]
    for (begin, place), end in zip(begins, ends):
        for at in range(begin, max(end, begin + 1)):
            found = place_of(place + at - begin)
            if not pieces or found != _place(tuple(pieces[-1:]), at):
                pieces.append((at, found))
    return link._replace(is_verbatim=False, pieces=tuple(pieces))


MOST_REFERENCES = 10_000
"""How many character references a value may have whose places are kept."""


def read(
    raw: str, offset: int, reference: "Pattern[str]", text_of: "Callable[[Match[str]], str]", syntax: Syntax = AS_IT_IS
) -> Tuple[str, Written]:
    """A value as it is in the source, with its references read, and where its code points are."""
    texts: List[str] = []
    pieces, most = [(0, offset)], 2 * MOST_REFERENCES + 1
    length = last = 0
    for found in reference.finditer(raw):
        text = text_of(found)
        texts += raw[last : found.start()], text
        at = length + found.start() - last
        length, last = at + len(text), found.end()
        if len(pieces) <= most:
            pieces += (at, offset + found.start()), (length, offset + last)
    value = "".join(texts) + raw[last:]
    if value == raw:
        return value, Written(offset, True, (), syntax)
    return value, Written(offset, False, tuple(pieces) if len(pieces) <= most else (), syntax)


def point_of(number: int) -> str:
    """The code point of a number; U+FFFD if that isn't one, or one of a surrogate."""
    return chr(number) if 0 < number < 0xD800 or 0xDFFF < number < 0x110000 else "\ufffd"


_SURROGATE = re.compile("[\ud800-\udfff]")


def text_of(text: str) -> str:
    """A text with U+FFFD for each surrogate, which no document can have."""
    return text if text.isascii() else _SURROGATE.sub("\ufffd", text)


class Lost(NamedTuple):
    """A part of a document that its reader can't read, so that links in it aren't found."""

    offset: int
    """The place in the source at which it begins, in code points from 0."""
    what: str
    """What it is, or why."""


class Broken(ValueError):
    """Why a reader stopped before a document's end, and where, in code points from 0; what was found before is."""

    def __init__(self, offset: int, reason: str) -> None:
        super().__init__(offset, reason)
        self.offset = offset
        self.reason = reason


@dataclass
class Contents:
    """What its reader finds in a text."""

    source: "Source"
    links: List[Link] = field(default_factory=list)
    comments: List[Comment] = field(default_factory=list)
    """The comments about the links."""
    broken: Optional[Broken] = None
    """Why the reader stopped before the text's end, if it did."""
    notes: Set[str] = field(default_factory=set)
    """What the reader passed over."""
    lost: List[Lost] = field(default_factory=list)
    """The parts that it couldn't read."""
    inner: str = ""
    """The name of the document within the one that holds it, after a ``/``."""

    def add(self, inner: "Contents", base: Optional[NamedBase]) -> None:
        """Takes what is in a text of another syntax within this one, against a base unless that text names one."""
        self.links += [link._replace(base=link.base or base) for link in inner.links]
        self.notes |= inner.notes
        self.lost += inner.lost


class Source:
    """The text of a document, which finds the line and the column of a place in it."""

    def __init__(self, text: str) -> None:
        self.text = text
        self._starts: List[int] = [0]
        at = text.find("\n")
        while at >= 0:
            self._starts.append(at + 1)
            at = text.find("\n", at + 1)

    def position(self, offset: int) -> Tuple[int, int]:
        """The line and the column of a place, both from 1; a column is one of code points."""
        line = bisect.bisect_right(self._starts, offset)
        return line, offset - self._starts[line - 1] + 1

    def offset(self, line: int, column: int) -> int:
        """The place of a line from 1 and a column from 0."""
        return self._starts[line - 1] + column

    def line(self, number: int) -> str:
        """A line from 1, without its line feed; empty after the last."""
        if number > len(self._starts):
            return ""
        start = self._starts[number - 1]
        end = self._starts[number] - 1 if number < len(self._starts) else len(self.text)
        return self.text[start:end]


class Foreign(ValueError):
    """That a text isn't UTF-8 after its longest beginning that is, and what makes it so, if that is known."""

    def __init__(self, before: Source, remedy: str = "") -> None:
        super().__init__("this isn't UTF-8" + remedy)
        self.before = before


_REMEDY = ": iconv -f {0} -t UTF-8 makes it UTF-8, and - reads what that writes"

_ENCODING = re.compile(
    rb"""\A<\?xml[^>]*?\sencoding\s*=\s*["']([\w.:-]{1,40})["']|"""
    rb"""<meta\s[^>]*?\bcharset\s*=\s*["']?([\w.:-]{1,40})["'\s/>;]""",
    re.IGNORECASE,
)
"""What names the encoding of a document of XML or HTML."""

_MOST_BEFORE_ENCODING = 1024
"""How many bytes of a document may be up to the end of what names its encoding, as in the HTML Standard."""


def encoding_of(data: bytes) -> Optional[str]:
    """The encoding that a document names, if that isn't UTF-8."""
    if data.startswith((codecs.BOM_UTF16_LE, codecs.BOM_UTF16_BE)):
        return "UTF-16"
    found = _ENCODING.search(data[:_MOST_BEFORE_ENCODING])
    name = (found[1] or found[2]).decode("ascii") if found else ""
    return name if name.lower() not in ("", "utf-8", "utf8") else None


def remedy_of(data: bytes) -> str:
    """What makes a document UTF-8 that isn't: by the encoding that it names, or if it may be Latin-1."""
    name = encoding_of(data)
    said = ", and the document names " + name if name else "; if it is Latin-1"
    return said + _REMEDY.format(name or "ISO-8859-1")


def without_mark(data: bytes) -> bytes:
    """The bytes after a byte order mark, which isn't a part of the first line."""
    return data[len(codecs.BOM_UTF8) :] if data.startswith(codecs.BOM_UTF8) else data


def decoded(data: bytes) -> Source:
    """The text of these bytes, without a byte order mark at its start. Raises ``Foreign``."""
    data = without_mark(data)
    try:
        return Source(data.decode("utf-8"))
    except UnicodeDecodeError as error:
        raise Foreign(Source(data[: error.start].decode("utf-8"))) from None


_NO_BASE = re.compile("(?:data|javascript):", re.IGNORECASE)
"""How the text of a ``base`` begins that says nothing."""


def base_of(text: str) -> NamedBase:
    """What a ``base`` of a page names, as the HTML Standard has it in section 4.2.3: one whose scheme is ``data`` or
    ``javascript`` says nothing, and no further one counts."""
    return NamedBase("" if _NO_BASE.match(text) else text)


def words_of(value: str) -> Iterator[Tuple[str, int]]:
    """The words of a value that spaces separate, each with where it begins in the value."""
    for found in _WORD.finditer(value):
        yield found.group(), found.start()
