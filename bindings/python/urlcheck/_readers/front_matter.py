"""The front matter of a Markdown document: YAML between ``---`` and ``---`` or ``...``, or TOML between ``+++``. Its
links are the values that begin with a scheme and ``//``."""

import re
from typing import List, Match, Optional, Tuple

from .slots import NOWHERE, Syntax, as_before
from .source import Link, Lost, Written, point_of, read

_URL = re.compile(r"[A-Za-z][A-Za-z0-9+.-]*://")
_ENDS = {"---": re.compile(r"(?:---|\.\.\.)[ \t]*\r?(?:\n|\Z)"), "+++": re.compile(r"\+\+\+[ \t]*\r?(?:\n|\Z)")}

_QUOTED = r"\"(?P<double>[^\"\\]*(?:\\.[^\"\\]*)*)\"|'(?P<single>[^']*(?:''[^']*)*)'"
"""A string of YAML. (A choice for each letter would take much memory for a long one.)"""

_KEY = re.compile(
    r"(?:\"(?:[^\"\\\n]|\\.)*\"|'[^'\n]*'|"
    r"(?:[^\s\"'#:\[\]{},&*!|>%@`-]|[:-](?=\S))(?:[^\s:]|:(?=\S)|[ \t]+(?![ \t#:]|\Z))*)[ \t]*:(?=[ \t]|$)"
)
_OF_MAPPING = re.compile(_KEY.pattern + r"|[ \t#\[\]{}\"'?]|-(?:[ \t]|$)|$")
"""How a line of a mapping begins: with a key, or with what may be before one or goes on with a value."""

_BEFORE = re.compile(r"[ \t]*(?:-[ \t]+)*(?:[&!][^\s]*[ \t]+)*")
"""What is before a key or a value: spaces, the marks of lists, a tag."""
_MARKS = re.compile(r"[ \t]*(?:[&!][^\s]*[ \t]+)*")

_BLOCK_SCALAR = re.compile(r"[|>][-+0-9]*[ \t]*(?:#.*)?$")
_WHOLE = re.compile(r"(?:" + _QUOTED + r")[ \t]*(?:#.*)?$", re.DOTALL)
_COMMENT = re.compile(r"[ \t]#.*")
_NO_VALUE = re.compile(r"[ \t]*(?:#.*)?$")
_PLAIN = re.compile(r"[^\s:]*(?::(?=\S)[^\s:]*)*")
_FLOW = re.compile(
    r"(?:" + _QUOTED + r")(?P<key>[ \t]*:)?|(?P<open>[\[{])|(?P<close>[\]}])|(?<=\s)#[^\n]*|"
    r"(?P<plain>[^\s,\[\]{}\"':][^\n,\[\]{}:]*(?::(?=[^\s,\[\]{}])[^\n,\[\]{}:]*)*)|(?P<unended>[\"'])",
    re.DOTALL,
)
_OF_LINE = r"\"(?P<double>[^\"\\\n]*(?:\\.[^\"\\\n]*)*)\"|'(?P<single>[^'\n]*)'"
"""A string of TOML within a line."""

_TOML = re.compile(
    r"\"\"\"(?:[^\\]|\\.)*?\"\"\"|'''.*?'''|(?:" + _OF_LINE + r")(?P<key>[ \t]*[=.])?|#[^\n]*|"
    r"^[ \t]*(?P<table>\[)[^\n]*|(?P<open>[\[{])|(?P<close>[\]}])|(?P<unended>[\"'])",
    re.DOTALL | re.MULTILINE,
)

_ESCAPE = re.compile(r"\\(?:x([0-9A-Fa-f]{2})|u([0-9A-Fa-f]{4})|U([0-9A-Fa-f]{8})|(.))", re.DOTALL)
_LETTERS = dict(zip("0abtnvfre\"/\\ N_LP\t", "\0\a\b\t\n\v\f\r\x1b\"/\\ \x85\xa0\u2028\u2029\t"))
_WRONG = "an escape that isn't one"
_UNENDED = "a string or a list that doesn't end"


def front_matter_of(text: str) -> Optional[Tuple[int, "FrontMatter"]]:
    """Returns the end of a text's front matter, and its values. A first line that begins a text, and no mapping of
    YAML, is a thematic break."""
    mark = text[:3]
    if mark not in _ENDS or text[3 : text.find("\n") + 1 or None].strip(" \t\r\n"):
        return None
    begin = at = text.find("\n") + 1 or len(text)
    while at < len(text) and not _ENDS[mark].match(text, at):
        at = text.find("\n", at) + 1 or len(text)
    end = _ENDS[mark].match(text, at)
    if end is None or end.start() == len(text):
        return None
    if mark == "---" and not _is_mapping(text[begin:at]):
        return None
    reader = FrontMatter(text, at)
    (reader.read_yaml if mark == "---" else reader.read_toml)(begin)
    return end.end(), reader


def _is_mapping(text: str) -> bool:
    """Whether a text is empty, or has a key at the beginning of a line or a brace, and nothing there that no mapping
    has."""
    lines = [line.rstrip("\r") for line in text.split("\n")]
    has_key = text.strip()[:1] in ("", "{") or any(_KEY.match(line) for line in lines)
    return has_key and all(_OF_MAPPING.match(line) for line in lines)


class FrontMatter:
    """Collects the links of values."""

    def __init__(self, text: str, end: int) -> None:
        self.links: List[Link] = []
        self.lost: List[Lost] = []
        self._text = text[:end]

    def read_toml(self, at: int) -> None:
        """Reads what is from there on, to the end."""
        depth = 0
        found = _TOML.search(self._text, at)
        while found is not None:
            at = found.end()
            if found["unended"]:
                self._lose(found.start())
                return
            if found["table"] and depth:
                # (it is a list in a list; a table's name is a key)
                at = found.end("table")
            depth += bool(found["open"] or (found["table"] and depth)) - bool(found["close"])
            if not found["key"]:
                self._take_quoted(found, _BASIC, _LITERAL)
            found = _TOML.search(self._text, at)

    def read_yaml(self, at: int) -> None:
        """Reads what is from there on, to the end."""
        is_awaited = True
        while at < len(self._text):
            line = self._text[at : self._line_end(at)]
            before = _BEFORE.match(line)
            begin = parent = before.end() if before else 0
            key = _KEY.match(line, begin)
            is_value = key or "-" in line[:begin]
            if not (is_value or is_awaited):
                # (it goes on with a text)
                at = self._next_line(at)
                continue
            if key:
                marks = _MARKS.match(line, key.end())
                begin = marks.end() if marks else key.end()
            elif before:
                # (what a list holds is within its mark)
                parent = line.rfind("-", 0, begin) if "-" in before[0] else len(line) - len(line.lstrip(" ")) - 1
            is_awaited = bool(_NO_VALUE.match(line, begin))
            at = self._read_value(at, begin, line, parent)

    def _lose(self, at: int) -> None:
        """Notes that nothing is read from there on."""
        self.lost.append(Lost(at, _UNENDED))

    def _line_end(self, at: int) -> int:
        """Returns the end of a line, without its line break."""
        end = self._text.find("\n", at)
        end = len(self._text) if end < 0 else end
        return end - self._text.endswith("\r", at, end)

    def _next_line(self, at: int) -> int:
        """Where the next line begins."""
        return self._text.find("\n", at) + 1 or len(self._text)

    def _read_value(self, at: int, begin: int, line: str, parent: int) -> int:
        """Reads the value that begins at a place of a line, within what begins in a column, and gives the line after
        it."""
        if _BLOCK_SCALAR.match(line, begin):
            return self._after_block(self._next_line(at), parent)
        if line[begin : begin + 1] in ("[", "{"):
            return self._read_flow(at + begin)
        if line[begin : begin + 1] in ('"', "'"):
            whole = _WHOLE.match(line, begin)
            if whole:
                self._take_quoted(whole, _DOUBLE, _SINGLE, at)
                return self._next_line(at)
            found = _FLOW.match(self._text, at + begin)
            if found is None or found["unended"]:
                self._lose(at + begin)
                return len(self._text)
            return self._next_line(found.end())
        if _URL.match(line, begin):
            self._take_plain(at, begin, line, parent)
        return self._next_line(at)

    def _after_block(self, at: int, parent: int) -> int:
        """Where the first line begins that isn't within a block of text."""
        while at < len(self._text):
            line = self._text[at : self._line_end(at)]
            if line.strip() and len(line) - len(line.lstrip(" ")) <= parent:
                return at
            at = self._next_line(at)
        return at

    def _read_flow(self, at: int) -> int:
        """Reads a list or a mapping in brackets, and gives the line after it."""
        depth = 0
        while True:
            found = _FLOW.search(self._text, at)
            if found is None or found["unended"]:
                self._lose(at)
                return len(self._text)
            at = found.end()
            depth += bool(found["open"]) - bool(found["close"])
            is_key = found["key"] or self._text[at : at + 1] == ":"
            if found["plain"] and _URL.match(found["plain"]) and not is_key:
                text = _COMMENT.sub("", found["plain"]).rstrip(" \t\r")
                syntax = _IN_BRACKETS if _PLAIN.fullmatch(text) else NOWHERE
                self.links.append(Link(text, found.start(), True, syntax=syntax))
            elif not is_key:
                self._take_quoted(found, _DOUBLE, _SINGLE)
            if depth <= 0:
                return self._next_line(at)

    def _take_plain(self, at: int, begin: int, line: str, parent: int) -> None:
        """Takes a value without quotes, unless the next line goes on with it: that is a text. One with a space is
        perhaps a text too."""
        after = self._next_line(at)
        following = self._text[after : self._line_end(after)]
        if following.strip() and len(following) - len(following.lstrip(" ")) > max(parent, 0):
            return
        text = _COMMENT.sub("", line[begin:]).rstrip(" \t")
        syntax = _VALUE if _PLAIN.fullmatch(text) else NOWHERE
        self.links.append(Link(text, at + begin, True, syntax=syntax))

    def _take_quoted(self, found: Match[str], double: Syntax, single: Syntax, at: int = 0) -> None:
        """Takes a value in quotes, which is in a line that begins there."""
        kind = "double" if found["double"] is not None else "single"
        raw = found[kind] or ""
        # (one over lines has spaces, and is likely a text)
        if _URL.match(raw) and "\n" not in raw:
            syntax = double if kind == "double" else single
            value = syntax.read(raw)
            if value is None:
                self.lost.append(Lost(at + found.start(kind), _WRONG))
            else:
                self.links.append(_written(raw, at + found.start(kind), syntax).link(value))


def _written(raw: str, offset: int, syntax: Syntax) -> Written:
    """Where a value in quotes is."""
    escape = _ESCAPE if syntax in (_DOUBLE, _BASIC) else _TWICE if syntax is _SINGLE else _NONE
    return read(raw, offset, escape, lambda found: _point(found) if escape is _ESCAPE else "'", syntax)[1]


_TWICE = re.compile("''")
_NONE = re.compile(r"(?!)")


def _point(found: Match[str]) -> str:
    """What an escape stands for."""
    number = found[1] or found[2] or found[3]
    return point_of(int(number, 16)) if number else _LETTERS.get(found[4], "\ufffd")


def _read_escapes(raw: str, letters: str) -> Optional[str]:
    """What is read between double quotes, if each escape is one of these letters or a number of a code point."""
    for found in _ESCAPE.finditer(raw):
        is_letter = found[4] is not None
        if found[4] not in letters if is_letter else _point(found) == "\ufffd":
            return None
    return _ESCAPE.sub(_point, raw)


def _write_escapes(text: str, raw: str) -> str:
    """A text as it is between double quotes."""
    plain = _ESCAPE.sub("", raw)
    return as_before(text.replace("\\", "\\\\"), plain, '"', _escape)


def _escape(point: str) -> str:
    """What stands for a code point."""
    return '\\"' if point == '"' else ("\\u{:04x}" if ord(point) < 0x10000 else "\\U{:08x}").format(ord(point))


_DOUBLE = Syntax(lambda raw: _read_escapes(raw, "".join(_LETTERS)), _write_escapes)
_BASIC = Syntax(lambda raw: _read_escapes(raw, 'btnfr"\\'), _write_escapes)
_SINGLE = Syntax(lambda raw: raw.replace("''", "'"), lambda text, _: text.replace("'", "''"))
_LITERAL = Syntax(lambda raw: None if "'" in raw else raw, lambda text, _: text)
_VALUE = Syntax(lambda raw: raw if _PLAIN.fullmatch(raw) else None, lambda text, _: text)
_IN_BRACKETS = Syntax(lambda raw: raw if _FLOW.fullmatch(raw) else None, lambda text, _: text)
