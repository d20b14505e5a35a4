"""Texts that an editor holds: lines and units from 0, as the Language Server Protocol counts them (3.17)."""

import bisect
import re
from typing import Any, Dict, List, Optional, Tuple

ENCODINGS: Dict[str, Tuple[str, int]] = {"utf-16": ("utf-16-le", 2), "utf-8": ("utf-8", 1), "utf-32": ("utf-32-le", 4)}
"""What the units of a line are, each as a codec, and how many of its bytes a unit has."""

_LINE_END = re.compile("\r\n|\r|\n")
_LINES = re.compile("[^\r\n]*(?:\r\n|\r|\n)|[^\r\n]+")

Place = Dict[str, int]
"""A place as the protocol has it: ``line`` and ``character``."""


def lines_of(text: str) -> List[str]:
    """The lines of a text with their ends: LF, CR LF and CR end one. The last has no end, and may be empty."""
    lines = _LINES.findall(text)
    if not lines or lines[-1][-1] in "\r\n":
        lines.append("")
    return lines


class Text:
    """An open text, line by line, so that a change costs no more than the lines that it changes."""

    def __init__(self, text: str, encoding: str) -> None:
        self._codec, self._size = ENCODINGS[encoding]
        self._lines = lines_of(text)

    def whole(self) -> str:
        """All of it."""
        return "".join(self._lines)

    def change(self, changes: List[Dict[str, Any]]) -> None:
        """Takes these changes, each of the whole or of a range of what the one before it gave. Raises ``LookupError``,
        ``TypeError`` or ``ValueError`` for a change that isn't well formed."""
        for change in changes:
            written = change["text"]
            if not isinstance(written, str):
                raise TypeError("a text is a string")
            if change.get("range") is None:
                self._lines = lines_of(written)
            else:
                self._replace(change["range"]["start"], change["range"]["end"], written)

    def _replace(self, start: Place, end: Place, written: str) -> None:
        """Writes a text in place of a range."""
        first, before = self._at(start)
        last, after = self._at(end)
        if (last, after) < (first, before):
            last, after = first, before
        text = self._lines[first][:before] + written + self._lines[last][after:]
        # (a line feed after a carriage return belongs to its line)
        if first > 0 and text[:1] == "\n" and self._lines[first - 1].endswith("\r"):
            first -= 1
            text = self._lines[first] + text
        if text[-1:] == "\r" and last + 1 < len(self._lines) and self._lines[last + 1].startswith("\n"):
            last += 1
            text += self._lines[last]
        replaced = lines_of(text)
        if last + 1 < len(self._lines):
            if replaced[-1] == "":
                replaced.pop()
            elif replaced[-1][-1] not in "\r\n":
                # (the end of its last line was replaced, so that the next one goes on with it)
                last += 1
                replaced = replaced[:-1] + lines_of(replaced[-1] + self._lines[last])
                if last + 1 < len(self._lines) and replaced[-1] == "":
                    replaced.pop()
        self._lines[first : last + 1] = replaced

    def _at(self, place: Place) -> Tuple[int, int]:
        """A place as a line and code points. A place after a line's end is its end, and one after the text is the
        text's end."""
        line, units = int(place["line"]), int(place["character"])
        if line < 0 or units < 0:
            raise ValueError("a place isn't negative")
        if line >= len(self._lines):
            return len(self._lines) - 1, len(self._lines[-1])
        written = self._lines[line].rstrip("\r\n")
        if written.isascii():
            return line, min(units, len(written))
        before = written.encode(self._codec, "surrogatepass")[: self._size * units]
        return line, len(before.decode(self._codec, "ignore"))


class LinePlaces:
    """Finds the line and the unit of a place of a text, both from 0. For the line that it was asked for last it keeps
    how far it has counted."""

    def __init__(self, text: str, encoding: str) -> None:
        self._text = text
        self._codec, self._size = ENCODINGS[encoding]
        self._is_counted = encoding == "utf-32" or text.isascii()
        self._starts = [0] + [found.end() for found in _LINE_END.finditer(text)]
        self._last: Tuple[int, int, int] = (-1, 0, 0)

    def position(self, offset: int) -> Tuple[int, int]:
        """The line and the unit of a place."""
        line = bisect.bisect_right(self._starts, offset) - 1
        start = self._starts[line]
        if self._is_counted:
            return line, offset - start
        known, at, units = self._last
        if known != line or at > offset:
            at, units = start, 0
        units += len(self._text[at:offset].encode(self._codec, "surrogatepass")) // self._size
        self._last = line, offset, units
        return line, units


def encoding_for(offered: Any, columns: Optional[str]) -> str:
    """Which units a client counts: the first of those that it offers, UTF-16 if it offers none, or those that its user
    says it counts."""
    if columns in ("bytes", "utf-8"):
        return "utf-8"
    if columns in ENCODINGS:
        return str(columns)
    known = [it for it in offered or () if isinstance(it, str) and it in ENCODINGS] if isinstance(offered, list) else []
    return known[0] if known else "utf-16"
