"""Bare addresses in a text of GitHub's Markdown, as its specification finds them (GFM 0.29, section 6.9)."""

import bisect
import re
from typing import Iterator, List, Tuple

from .slots import Syntax
from .source import Link

_START = re.compile(r"(?:(?<![A-Za-z0-9])(?:https?|ftp)://|(?<![^\s*_~(])www\.(?=[^\s<]))", re.IGNORECASE)
_DOMAIN = re.compile(r"[\w-]+(?:\.[\w-]+)*")
_REST = re.compile(r"[^\s<]*")

_SCHEME = "http://"
"""What GitHub writes before an address that begins with ``www.``."""

_WITHOUT_SCHEME = Syntax(lambda raw: _SCHEME + raw, lambda text, _: text[len(_SCHEME) :])


def links_of(content: str, covered: List[Tuple[int, int]]) -> Iterator[Link]:
    """The bare addresses of a block's content. What is covered isn't plain text."""
    places = _merged(covered)
    for found in _START.finditer(content):
        text = content[found.start() : _end(content, found)]
        if text and not _meets(places, found.start(), found.start() + len(text)):
            if found[0][:4].lower() == "www.":
                pieces = (0, found.start()), (len(_SCHEME), found.start())
                yield Link(_SCHEME + text, found.start(), False, pieces=pieces, syntax=_WITHOUT_SCHEME)
            else:
                yield Link(text, found.start(), True)


def _end(content: str, found: "re.Match[str]") -> int:
    """Returns the end of the address that begins there, or its beginning if it isn't one."""
    at = found.start() if found[0][:4].lower() == "www." else found.end()
    domain = _DOMAIN.match(content, at)
    labels = domain[0].split(".") if domain else []
    if not domain or any("_" in it for it in labels[-2:]):
        return found.start()
    rest = _REST.match(content, domain.end())
    return found.start() + len(_trimmed(content[found.start() : rest.end() if rest else domain.end()]))


def _trimmed(text: str) -> str:
    """An address without the punctuation at its end, without parentheses that close none of its own, and without a
    character reference."""
    closing, end = text.count(")") - text.count("("), len(text)
    while end:
        last = text[end - 1]
        if last == ";":
            begin = text.rfind("&", 0, end)
            name = text[begin + 1 : end - 1]
            if begin < 0 or not (name.isascii() and name.isalnum()):
                break
            end = begin
        elif last in "?!.,:*_~'\"":
            end -= 1
        elif last == ")" and closing > 0:
            end, closing = end - 1, closing - 1
        else:
            break
    return text[:end]


Places = Tuple[List[int], List[int]]
"""The beginnings and the ends of places, in order and apart from one another."""


def _merged(covered: List[Tuple[int, int]]) -> Places:
    """The places of what is covered."""
    begins: List[int] = []
    ends: List[int] = []
    for begin, end in sorted(covered):
        if ends and begin <= ends[-1]:
            ends[-1] = max(ends[-1], end)
        else:
            begins.append(begin)
            ends.append(end)
    return begins, ends


def _meets(places: Places, begin: int, end: int) -> bool:
    """Whether a part of this range is covered."""
    begins, ends = places
    at = bisect.bisect_left(begins, end) - 1
    return at >= 0 and ends[at] > begin
