"""What looks like a link of Markdown and is text, since its destination has a space: ``[a](b c)`` and ``[a]: b c``."""

import bisect
import re
from typing import Dict, Iterator, NamedTuple, Optional


class Spaced(NamedTuple):
    """A destination with a space in a block's content."""

    begin: int
    text: str


_BEHIND_LABEL = re.compile(r"\]\((?P<rest>[^\]\n<>\"]*(?:\"[^\"\n]*\"[ \t]*\))?)")
"""What may be a label's end with a destination behind it: up to a ``]`` or the line's end, or to a title's end."""

_DEFINITION = re.compile(r"^ {0,3}\[(?!\^)(?:\\.|[^\[\]\\\n])+\]:[ \t]+(?P<to>[^ \t\n<>][^\n<>]*)$", re.MULTILINE)
"""A line that may be a definition."""

_TITLE = re.compile(r"[ \t](?:\"[^\"]*\"|'[^']*')$")
_SIZE = re.compile(r"[ \t]=[0-9]*%?x[0-9]*%?$")
"""How some programs have the size of a picture behind its destination."""

_MATH = re.compile(r"\$\$[^$]*\$\$|\$(?![\s$])[^$\n]*(?<!\s)\$")
_PARENTHESIS = re.compile(r"[()]")
_OTHER = re.compile("[\"`]")
"""What no destination has."""

_LIKE_LINK = re.compile(r"(?:[A-Za-z][A-Za-z0-9+.-]*://|\.{0,2}/)|.*\.[A-Za-z][A-Za-z0-9]{0,4}(?:[?#]\S*)?$")
"""What a definition's destination is like; anything else behind a colon is likely a remark."""


def destinations_in(content: str) -> Dict[int, Spaced]:
    """The destinations with a space behind what may be a label, by the place of the label's ``]``."""
    found: Dict[int, Spaced] = {}
    if "](" not in content:
        return found
    math = [it.span() for it in _MATH.finditer(content)] if "$" in content else []
    begins = [begin for begin, _ in math]
    for label in _BEHIND_LABEL.finditer(content):
        end = _end_of(label["rest"])
        spaced = None if end is None else _spaced(label["rest"][:end], label.start("rest"))
        at = bisect.bisect_right(begins, label.start()) - 1
        if spaced and not (at >= 0 and label.start() < math[at][1]):
            found[label.start()] = spaced
    return found


def definitions_in(content: str) -> Iterator[Spaced]:
    """The destinations with a space in lines that look like definitions."""
    for line in _DEFINITION.finditer(content) if "]:" in content else ():
        spaced = _spaced(line["to"], line.start("to"))
        if spaced and _LIKE_LINK.match(spaced.text):
            yield spaced


def _end_of(rest: str) -> Optional[int]:
    """Where the parenthesis is that ends a destination."""
    depth = 0
    for found in _PARENTHESIS.finditer(rest):
        depth += 1 if found[0] == "(" else -1
        if depth < 0:
            return found.start()
    return None


def _spaced(inside: str, at: int) -> Optional[Spaced]:
    """The destination of what is between parentheses or behind a colon there, if it has a space and nothing else that
    ends it."""
    title = _TITLE.search(inside)
    to = inside[: title.start()] if title else inside
    text = to.strip(" \t")
    if not re.search("[ \t]", text) or _OTHER.search(text) or _SIZE.search(text) or _is_titled(text):
        return None
    return Spaced(at + to.index(text[0]), text)


def _is_titled(text: str) -> bool:
    """Whether a destination has no space but before a title in parentheses."""
    before, _, title = text.partition(" (")
    return title.endswith(")") and not re.search("[ \t]", before.rstrip(" \t"))
