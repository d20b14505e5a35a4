"""A text of Markdown or of reStructuredText that is read again and again, in pieces: what was read of one is kept until it
changes."""

import re
from typing import Callable, Dict, Iterator, List, Tuple

from .._readers.front_matter import front_matter_of
from .._readers.source import Contents, Link, Source

Piece = Tuple[int, str]
"""A piece of a text, and where it begins there."""

Read = Callable[[Source], Contents]
"""What reads a text."""

LEAST = 2_000
"""How many code points a piece has at least, unless a title of reStructuredText comes after it."""

_CUT = re.compile(r"\n[ \t\r]*\n(?=\S)")
"""The end of a block in which no other is nested: before a line that isn't indented, after an empty one."""


class Pieces:
    """What the pieces of a text were read as. A piece is read by itself only if that gives what its reader finds in the
    whole."""

    def __init__(self, cut: Callable[[str], List[Piece]], read: Read, read_whole: Read) -> None:
        self._cut = cut
        self._read = read
        self._read_whole = read_whole
        self._kept: Dict[str, Contents] = {}

    def read(self, source: Source) -> Contents:
        """What is in a text."""
        pieces = self._cut(source.text)
        read: Dict[str, Contents] = {}
        for _, text in pieces:
            found = read.get(text) or self._kept.get(text)
            read[text] = found if found is not None else self._read(Source(text))
        self._kept = read
        # (what a piece can't say by itself is said of the whole)
        if len(pieces) < 2 or any(it.broken is not None or it.lost for it in read.values()):
            return self._read_whole(source)
        whole = Contents(source)
        for start, text in pieces:
            whole.links += [_moved(it, start) for it in read[text].links]
            whole.comments += [it._replace(offset=it.offset + start) for it in read[text].comments]
            whole.notes |= read[text].notes
        return whole


def _moved(link: Link, by: int) -> Link:
    """A link so many code points further on."""
    return link._replace(offset=link.offset + by, pieces=tuple((begin, place + by) for begin, place in link.pieces))


# ---- of Markdown

_DEFINED = re.compile(r"\]:|^ {1,3}(?:```|~~~)", re.MULTILINE)
"""What may be a definition, which counts in the whole text, and what may be the end of code that is within a list."""

_OPENED = re.compile(
    r"^(?:(?P<fence>`{3,}|~{3,}).*$|(?= {0,3}<(?:(?:script|pre|style|textarea)\b|[?!])) {0,3}<(?P<html>\w+|!--|!\[CDATA\[|[?!]))",
    re.MULTILINE | re.IGNORECASE,
)
"""What begins code, or a block of HTML, either of which may have empty lines."""

_HTML_ENDS = {"!--": "-->", "?": "?>", "![cdata[": "]]>", "!": ">"}
"""How such blocks of HTML end; blocks of elements end with the end tag of one."""

_TAG_END = re.compile("</(?:script|pre|style|textarea)>", re.IGNORECASE)


def of_markdown(text: str) -> List[Piece]:
    """The pieces of a text of Markdown; none if it can't be cut."""
    if _DEFINED.search(text):
        return []
    front = front_matter_of(text)
    regions = list(_regions(text))[::-1]
    pieces, start = [], 0
    for found in _CUT.finditer(text, front[0] if front else 0):
        at = found.end()
        while regions and regions[-1][1] <= at:
            regions.pop()
        # (what begins front matter begins no piece, in which it would be that)
        may_begin = not text.startswith(("---", "+++"), at) and not (regions and regions[-1][0] < at)
        if at - start >= LEAST and may_begin:
            pieces.append((start, text[start:at]))
            start = at
    return [*pieces, (start, text[start:])]


def _regions(text: str) -> Iterator[Tuple[int, int]]:
    """Returns the beginning and the end of each block of code or HTML that may have empty lines."""
    begin = 0
    opened = _OPENED.search(text)
    while opened is not None:
        begin = opened.start()
        end = _end_of_fence(text, opened) if opened["fence"] else _end_of_html(text, opened)
        yield begin, end
        opened = _OPENED.search(text, max(end, opened.end()))


def _end_of_fence(text: str, opened: "re.Match[str]") -> int:
    """Where code ends. What is in a block of HTML, or has a backtick after its own, may be no code, so then nothing is
    cut any more."""
    fence = opened["fence"]
    above = text[text.rfind("\n\n", 0, opened.start()) + 1 : opened.start()]
    if "<" in above or (fence[0] == "`" and "`" in opened[0][len(fence) :]):
        return len(text)
    closed = re.compile(r"^{}+[ \t\r]*$".format(re.escape(fence)), re.MULTILINE).search(text, opened.end())
    return closed.end() if closed else len(text)


def _end_of_html(text: str, opened: "re.Match[str]") -> int:
    """Where a block of HTML ends."""
    end = _HTML_ENDS.get(opened["html"].lower())
    if end is not None:
        at = text.find(end, opened.end())
        return at + len(end) if at >= 0 else len(text)
    closed = _TAG_END.search(text, opened.end())
    return closed.end() if closed else len(text)


# ---- of reStructuredText

_MOST_OF_TITLE = 1_000
"""How many code points of a line are looked at."""

_ROLES = re.compile(r"^[ \t]*\.\.[ \t]+(?:default-role|role|target-notes)::", re.MULTILINE)
"""What changes how all that comes after it is read."""

_ADORNMENT = re.compile(r"([!-/:-@[-`{-~])\1*[ \t\r]*")
"""A line of the same sign again and again: below a title, or above it, or between paragraphs."""

_BORDER = re.compile(r"^=+(?: +=+)+[ \t\r]*$(?P<ends>\n[ \t\r]*$|\Z)?", re.MULTILINE)
"""A border of a simple table, whose rows may have empty lines between them, and whether an empty line is after it."""


def of_rst(text: str) -> List[Piece]:
    """The pieces of a text of reStructuredText; none if it can't be cut. A title begins a piece, since its level depends
    on the titles before it."""
    if _ROLES.search(text):
        return []
    tables = list(_tables(text))[::-1]
    pieces, start = [], 0
    styles = [_style_at(text, len(text) - len(text.lstrip()))]
    for found in _CUT.finditer(text):
        at = found.end()
        while tables and tables[-1][1] <= at:
            tables.pop()
        is_in_table = bool(tables) and tables[-1][0] < at
        is_title, may_begin = _line_at(text, at)
        if (is_title or at - start >= LEAST) and may_begin and not is_in_table and not _goes_on(text, found.start()):
            pieces.append((start, text[start:at]))
            start = at
        styles.append(_style_at(text, at) if is_title and not is_in_table else "")
    return [*pieces, (start, text[start:])] if _are_consistent(styles) else []


def _tables(text: str) -> Iterator[Tuple[int, int]]:
    """Returns the beginning and the end of each simple table."""
    begin = -1
    for border in _BORDER.finditer(text):
        if begin < 0:
            begin = border.start()
        elif border["ends"] is not None:
            yield begin, border.end()
            begin = -1
    if begin >= 0:
        yield begin, len(text)


def _line_at(text: str, at: int) -> Tuple[bool, bool]:
    """Whether the line that begins there is a title or the line above one, and whether a text may begin with it, which
    it may not with a line between paragraphs."""
    line, _, rest = text[at : at + 2 * _MOST_OF_TITLE].partition("\n")
    below = rest.partition("\n")[0]
    if _ADORNMENT.fullmatch(line):
        return below.strip() != "", below.strip() != ""
    return _ADORNMENT.fullmatch(below) is not None, True


def _style_at(text: str, at: int) -> str:
    """The sign of a title that begins there, twice if a line of it is above too; none if no title does."""
    line, _, rest = text[at : at + 2 * _MOST_OF_TITLE].partition("\n")
    below = rest.partition("\n")[0]
    if _ADORNMENT.fullmatch(line):
        return 2 * line[0] if below.strip() else ""
    return below[0] if line.strip() and _ADORNMENT.fullmatch(below) else ""


def _are_consistent(styles: List[str]) -> bool:
    """Whether no title is a level deeper than the one after the title before it, which docutils refuses: it says so only
    of titles that it reads together."""
    known: List[str] = []
    level = 0
    for style in filter(None, styles):
        if style not in known:
            if level < len(known):
                return False
            known.append(style)
        if known.index(style) > level:
            return False
        level = known.index(style) + 1
    return True


def _goes_on(text: str, before: int) -> bool:
    """Whether what comes after a place belongs to what is before it: to a paragraph that ends with ``::``, or to a title
    or a line between paragraphs."""
    while before > 0 and text[before - 1].isspace():
        before -= 1
    line = text[text.rfind("\n", 0, before) + 1 : before]
    return line.endswith("::") or _ADORNMENT.fullmatch(line) is not None
