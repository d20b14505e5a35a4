"""The links of a style sheet: each ``url()``, the strings of ``image-set()`` and the name after ``@import``, by the
package ``tinycss2``."""

import re
from itertools import dropwhile
from typing import Any, Dict, Iterator, List, Match, Optional

from .comments import comments_of
from .slots import Syntax, as_before
from .source import Contents, Link, Lost, Source, point_of, read

_END = re.compile("\r\n|[\r\n\f]")
"""What ends a line of CSS."""

NEEDED = re.compile(r"url\(|@import|image-set\(", re.IGNORECASE)
"""What a style sheet has that has a link."""

MISSING = "styles aren't read, which needs the package tinycss2: pip install tinycss2, or Debian's python3-tinycss2"
"""What is said about HTML whose styles have links, if nothing here can read them."""

_OF_STRINGS = ("url", "src", "image-set", "-webkit-image-set")
"""The functions whose strings are links."""

_ESCAPE = re.compile(r"\\(?:([0-9A-Fa-f]{1,6})(?:\r\n|[ \t\n\r\f])?|\r\n|[\n\r\f]|(.))", re.DOTALL)
"""What stands for a code point, or for nothing at a line's end."""

_SPACES = re.compile("[ \t\n\r\f]*")

_RAW: Dict[str, "re.Pattern[str]"] = {
    "": re.compile(r"(?:\\[^\n\r\f]|[^\\\"'() \t\n\r\f])*", re.DOTALL),
    '"': re.compile(r"(?:\\(?:\r\n|.)|[^\\\"\n\r\f])*", re.DOTALL),
    "'": re.compile(r"(?:\\(?:\r\n|.)|[^\\'\n\r\f])*", re.DOTALL),
}
"""What is written in a url() without quotes, and in a string by its quote."""

_BAD = re.compile(r"(?:\\[^\n\r\f]|[^\\)\n\r\f])*(?=\))")
"""What is written in a url() that isn't one, in its line."""


def links_of(source: Source, is_sheet: bool = True) -> Contents:
    """What is in a style sheet, or in declarations as the attribute ``style`` has them. Raises ``ImportError`` if
    ``tinycss2`` isn't installed."""
    import tinycss2

    starts = [0] + [it.end() for it in _END.finditer(source.text)]
    nodes = tinycss2.parse_component_value_list(source.text)
    found = Contents(source)
    for node in _within(nodes):
        _take(node, starts, found)
    for number, node in enumerate(nodes) if is_sheet else ():
        if node.type == "at-keyword" and node.lower_value == "import":
            behind = nodes[number + 1 : number + 9]
            after = next(dropwhile(lambda it: it.type in ("whitespace", "comment"), behind), None)
            if after is not None and after.type == "string":
                found.links.append(_string(source, _place(source, after, starts)))
    found.links.sort(key=lambda link: link.offset)
    return found


def _place(source: Source, node: Any, starts: List[int]) -> int:
    """Where a node begins."""
    line, column = int(node.source_line), int(node.source_column)
    return min(starts[min(line, len(starts)) - 1] + column - 1, len(source.text))


def _take(node: Any, starts: List[int], found: Contents) -> None:
    """Takes the links of a node."""
    source, at = found.source, _place(found.source, node, starts)
    if node.type == "comment":
        found.comments.extend(comments_of(node.value, at + 2))
    elif node.type == "url":
        found.links.append(_link(source, source.text.find("(", at) + 1, _RAW[""], _URL))
    elif node.type == "function" and node.lower_name in _OF_STRINGS:
        strings = [it for it in node.arguments if it.type == "string"]
        if len(strings) > 1 and node.lower_name in ("url", "src"):
            # (as a template's quotation marks within others leave it)
            found.lost.append(Lost(at, "a url() with several strings"))
        else:
            found.links.extend(_string(source, _place(source, it, starts)) for it in strings)
    elif node.type == "error" and node.kind == "bad-url":
        begin = source.text.find("(", at) + 1
        if _BAD.match(source.text, begin):
            found.links.append(_link(source, begin, _BAD, _BAD_URL)._replace(is_certain=False))
        else:
            found.lost.append(Lost(at, "a url() that doesn't end in its line"))
    elif node.type == "error" and node.kind == "bad-string":
        found.lost.append(Lost(at, "a string that doesn't end in its line"))


def _within(nodes: List[Any]) -> Iterator[Any]:
    """These nodes and those within them, in their order."""
    waiting = list(reversed(nodes))
    while waiting:
        node = waiting.pop()
        yield node
        for part in ("arguments", "content"):
            waiting += reversed(getattr(node, part, None) or ())


def _string(source: Source, at: int) -> Link:
    """The link of a string whose quote is there."""
    return _link(source, at + 1, _RAW[source.text[at]], _STRING)


def _link(source: Source, at: int, form: "re.Pattern[str]", syntax: Syntax) -> Link:
    """A link that is written in this form there, after spaces."""
    spaces = _SPACES.match(source.text, at)
    at = spaces.end() if spaces else at
    raw = form.match(source.text, at)
    value, written = read(raw[0] if raw else "", at, _ESCAPE, _escaped, syntax)
    return written.stripped(value)


def _escaped(found: Match[str]) -> str:
    """What an escape stands for."""
    return point_of(int(found[1], 16)) if found[1] else found[2] or ""


def _read(raw: str) -> Optional[str]:
    """What is read in a string or a url()."""
    return _ESCAPE.sub(_escaped, raw)


def _read_url(raw: str) -> Optional[str]:
    """What is read in a url() without quotes, if that isn't a bad one."""
    return _read(raw) if _RAW[""].fullmatch(raw) else None


def _write(text: str, raw: str) -> str:
    """A text as a string has it, between quotes that aren't known."""
    return as_before(text.replace("\\", "\\\\"), _ESCAPE.sub("", raw), "\"'\n", _escape)


def _write_url(text: str, _: str) -> str:
    """A text as a url() without quotes has it."""
    return re.sub(r"[\\\"'()\s]", lambda found: _escape(found[0]), text)


def _escape(point: str) -> str:
    """What stands for a code point."""
    return "\\" + point if point.isprintable() and point.isascii() and point != " " else "\\{:x} ".format(ord(point))


_STRING = Syntax(_read, _write)
"""That of a string, between its quotes."""

_URL = Syntax(_read_url, _write_url)
"""That of a url() without quotes."""

_BAD_URL = Syntax(_read, _write_url)
"""That of a url() without quotes that has a space or a quote, so that it isn't one."""
