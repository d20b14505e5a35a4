"""Where the text of a link is in the source of a document whose reader says only the block that has it."""

import re
from typing import Callable, Dict, Iterator, List, Optional, Set, Tuple

from .slots import Syntax
from .source import Link, Source, moved

MOST_WRITTEN = 2_000
"""How many code points a link may have that is searched for in another spelling than its own."""

_OF_URL = frozenset("/?#%&=~+-_")
"""What isn't a letter or a digit, and can still be part of a link."""


class Literals:
    """Finds the links of documents in their sources, each occurrence once."""

    def __init__(self) -> None:
        self._sources: Dict[str, Optional[Source]] = {}
        self._used: Dict[Tuple[str, str], Set[int]] = {}

    def source(self, path: str) -> Optional[Source]:
        """The text of a file, if it is one that can be read."""
        if path not in self._sources:
            try:
                with open(path, encoding="utf-8-sig", newline="") as file:
                    self._sources[path] = Source(file.read())
            except (OSError, ValueError):
                self._sources[path] = None
        return self._sources[path]

    def put(self, path: str, source: Source) -> None:
        """Gives the text of a file that isn't to be read."""
        self._sources[path] = source

    def find(self, path: str, line: int, text: str, markup: str = "") -> Optional[Tuple[Link, bool]]:
        """Finds this text in the source: the first unused occurrence from the line on, then an earlier unused one, then
        a used one. Also says whether the occurrence was unused. If its reader says in which markup it is written, it
        is searched for only within that, and then with the spaces that its author wrote within a line."""
        source = self.source(path)
        if source is None or not text:
            return None
        used = self._used.setdefault((path, text), set())
        given: Optional[Link] = None
        for (begin, end), is_marked in _spans(source.text, _start(source, line), text, markup):
            if given is None or begin not in used:
                given = _link(source, text, begin, end, is_marked)
            if begin not in used:
                used.add(begin)
                return given, True
        return None if given is None else (given, False)

    def block(self, path: str, line: int, text: str) -> Optional[Callable[[int], int]]:
        """Returns a function from a place in these lines to its place in the source, where they may be indented. Each
        occurrence is used once, as for a link."""
        source = self.source(path)
        if source is None or not text.strip():
            return None
        used = self._used.setdefault((path, text), set())
        whole = source.text
        for begin, _ in _around(whole, _start(source, line), lambda *it: _markups(whole, text, *it)):
            if begin not in used:
                used.add(begin)
                return _places(source, text, begin)
        return None

    def moved(self, path: str, link: Link, place_of: Callable[[int], int]) -> Link:
        """A link of such lines with its places in their source, for a link that isn't searched for again."""
        source = self.source(path)
        assert source is not None
        found = moved(link, source, place_of)
        self._used.setdefault((path, link.text), set()).add(found.offset)
        return found


Span = Tuple[int, int]
"""Where a text begins and where it ends in a source."""


def _start(source: Source, line: int) -> int:
    """Returns the beginning of a line, or of the first or last one if there is no such line."""
    return source.offset(min(max(line, 1), source.position(len(source.text))[0]), 0)


def _around(text: str, start: int, ways: Callable[[int, int], Iterator[Span]]) -> Iterator[Span]:
    """What is found from a place on, and then what is before it."""
    yield from ways(start, len(text))
    yield from ways(0, start)


def _spans(text: str, start: int, link: str, markup: str) -> Iterator[Tuple[Span, bool]]:
    """Finds a link within its markup, if that is there, otherwise anywhere; also says whether it is within the markup."""
    is_there = False
    if markup not in ("", link):
        for begin, end in _around(text, start, lambda *it: _markups(text, markup, *it)):
            # (what is after a backquote is a literal)
            if text[max(begin - 1, 0) : begin] != "`":
                is_there = True
                span = _within(text, link, begin, end)
                if span is not None:
                    yield span, True
    if not is_there:
        for ways in (_plain, _written):
            yield from ((span, False) for span in _around(text, start, lambda *it: ways(text, link, *it)))


def _markups(text: str, markup: str, begin: int, end: int) -> Iterator[Span]:
    """Finds lines of markup, which may have another indentation."""
    lines = [it.strip() for it in markup.strip().split("\n")]
    # (a tab within a line is read as spaces)
    first = re.compile("[ \t]+".join(map(re.escape, lines[0].split())) if "\t" in text else re.escape(lines[0]))
    found = first.search(text, begin, end)
    while found is not None:
        last = _end_of(text, found.end(), lines[1:])
        if last is not None:
            yield found.start(), last
        found = first.search(text, found.start() + 1, end)


_BREAK = re.compile("[ \t]*\r?\n[ \t]*")
"""The end of a line, and the indentation of the next one."""


def _end_of(text: str, at: int, lines: List[str]) -> Optional[int]:
    """Returns the end of these lines, if they follow there."""
    for line in lines:
        found = _BREAK.match(text, at)
        if found is None or not text.startswith(line, found.end()):
            return None
        at = found.end() + len(line) if line else found.end()
    return at


def _within(text: str, link: str, begin: int, end: int) -> Optional[Span]:
    """Finds a link within its markup: in the angle brackets at its end, or at its end."""
    end = begin + len(text[begin:end].rstrip())
    if text[max(end - 4, begin) : end].rstrip("_").endswith(">`"):
        begin = text.rfind("<", begin, end) + 1
        if text.startswith(link, begin):
            return begin, begin + len(link)
    elif text.endswith(link, begin, end):
        return end - len(link), end
    spans = list(_written(text, link, begin, end))
    return spans[-1] if spans else None


def _places(source: Source, text: str, begin: int) -> Callable[[int], int]:
    """Returns a function from a place in lines that begin there to its place in the source."""
    lines = Source(text)
    first = lines.position(len(text) - len(text.lstrip()))[0]
    line = source.position(begin)[0] - first

    def place_of(at: int) -> int:
        number, column = lines.position(at)
        inner, other = lines.line(number), source.line(line + number)
        start = begin - source.offset(line + first, 0) if number == first else len(other) - len(other.lstrip())
        shift = start - len(inner) + len(inner.lstrip())
        return min(source.offset(line + number, max(shift + column - 1, 0)), len(source.text))

    return place_of


def _link(source: Source, text: str, begin: int, end: int, is_marked: bool) -> Link:
    """The link between two places, in pieces if it is written there in another way. Within its markup it is what its
    author wrote, with the spaces in its lines, and not what a reader makes of it."""
    written = source.text[begin:end]
    if is_marked and written != text:
        text = re.sub(r"\\(.)", r"\1", _BREAK.sub("", written))
    if written == text:
        return Link(text, begin, True, syntax=_SYNTAX)
    pieces: List[Tuple[int, int]] = []
    place = begin
    for number, point in enumerate(text):
        found = source.text.find(point, place, end)
        if found < 0:
            break
        if found != place or not pieces:
            pieces.append((number, found))
        place = found + 1
    return Link(text, begin, False, None, (*pieces, (len(text), end)), syntax=_SYNTAX)


_SPACE = re.compile(r"\\(.)|\s", re.DOTALL)
"""What docutils takes away in a link: spaces, and a backslash before what then stays."""

_SYNTAX = Syntax(lambda raw: _SPACE.sub(lambda found: found[1] or "", raw), lambda text, _: text)
"""That of a link as docutils reads it. (A space that it takes away is its author's, who didn't mean the link without
it, so that none is written there.)"""


def _plain(text: str, link: str, begin: int, end: int) -> Iterator[Span]:
    """Finds a link as it is, which is neither part of a longer one nor a literal."""
    at = text.find(link, begin, end)
    while at >= 0:
        after = at + len(link)
        before = text[at - 1 : at] if at else ""
        is_longer = before == "`" or _goes_on(before)
        if not (is_longer or (link[-1:].isalnum() and _goes_on(text[after : after + 1]))):
            yield at, after
        at = text.find(link, at + 1, end)


def _goes_on(point: str) -> bool:
    """Whether a URL could go on with this code point, or have it before its start."""
    return point.isalnum() or point in _OF_URL if point else False


def _written(text: str, link: str, begin: int, end: int) -> Iterator[Span]:
    """Finds a link that is written with backslashes, or with spaces and line breaks that its reader removes."""
    if len(link) <= MOST_WRITTEN:
        # (nothing optional is next to spaces, which could be shared out in many ways)
        parts = [_BETWEEN.join(map(re.escape, it)) for it in link.split()]
        for found in re.compile(_SPACES.join(parts)).finditer(text, begin, end):
            yield found.span()


_BETWEEN = r"(?:\s+|\\(?!\\))?"
"""What may be between two code points of a link."""

_SPACES = r"\\?\s+(?:\\\s+)*"
"""What stands for spaces of a link."""
