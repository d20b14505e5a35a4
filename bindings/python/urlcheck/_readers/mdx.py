"""What of MDX is code and no Markdown: imports and exports, and what is between braces, also in place of an attribute's
value; and its tags, between which there is Markdown."""

import bisect
import re
from typing import Dict, Iterable, List, NamedTuple, Optional, Tuple

from .comments import comments_of
from .source import Comment, Lost

FILLER = "\ufdd0"
"""What stands for each code point of code; no text has it, since it isn't a character."""

_TEXT = re.compile(
    r"\\.|\][(:][ \t]*<[^<>\n]*>|(?P<ticks>`+)|(?P<tag></?(?=[A-Za-z_$>]))|(?P<brace>\{)|(?P<line>\n)", re.DOTALL
)
_TAG = re.compile(r"\"[^\"]*\"|'[^']*'|(?P<brace>\{)|(?P<end>>)")
_FENCE = re.compile(r"(?:[ \t]|>|[-*+][ \t]|[0-9]+[.)][ \t])*(?P<fence>`{3,}(?=[^`\n]*$)|~{3,})", re.MULTILINE)
_MODULE = re.compile(r"(?:import|export)\b(?=[ \t{*\"'])")
_CODE = re.compile(
    r"\"(?:[^\"\\\n]|\\.)*\"|'(?:[^'\\\n]|\\.)*'|(?<!:)//[^\n]*|/\*.*?\*/|(?P<ticks>`)|"
    r"(?P<open>[\[({])|(?P<close>[\])}])|(?P<blank>\n[ \t\r]*(?=\n))",
    re.DOTALL,
)
_TEMPLATE = re.compile(r"\\.|(?P<open>\$\{)|(?P<ticks>`)", re.DOTALL)
_NOTE = re.compile(r"\{\s*/\*(?P<text>.*?)\*/\s*\}", re.DOTALL)
_OF_LINE = re.compile("[^\r\n]")
_BLANK = re.compile(r"\n[ \t\r]*(?=\n)")


class Masked(NamedTuple):
    """A text whose code is filled up, so that everything else keeps its place."""

    text: str
    """The text without its tags too."""
    tags: str
    """Only the tags."""
    comments: List[Comment]
    """Those within braces."""
    lost: Tuple[Lost, ...]


def masked(text: str, begin: int) -> Masked:
    """A text of MDX, which begins there after its front matter, with fillers in place of its code."""
    masking = _Masking(text)
    masking.read(begin)
    without = _filled(text, masking.spans, FILLER)
    between = zip([0, *(end for _, end in masking.tags)], [*(start for start, _ in masking.tags), len(text)])
    tags = _filled(without, between, " ")
    return Masked(_filled(without, masking.tags, FILLER), tags, masking.comments, tuple(masking.lost))


def _filled(text: str, spans: Iterable[Tuple[int, int]], filler: str) -> str:
    """A text with fillers in place of these parts of its lines."""
    pieces: List[str] = []
    at = 0
    for start, end in spans:
        pieces += text[at:start], _OF_LINE.sub(filler, text[start:end])
        at = end
    return "".join(pieces) + text[at:]


class _Masking:
    """Finds the code of a text, each part of it once."""

    def __init__(self, text: str) -> None:
        self.spans: List[Tuple[int, int]] = []
        self.tags: List[Tuple[int, int]] = []
        self.comments: List[Comment] = []
        self.lost: List[Lost] = []
        self._text = text
        self._blanks = [it.start() for it in _BLANK.finditer(text)]
        self._ticks: Dict[int, List[int]] = {}
        for run in re.finditer("`+", text):
            self._ticks.setdefault(len(run[0]), []).append(run.start())

    def read(self, at: int) -> None:
        """Reads text from there on."""
        at = self._begin_line(at, True)
        while True:
            found = _TEXT.search(self._text, at)
            if found is None:
                return
            at = found.end()
            if found["line"]:
                at = self._begin_line(at, not self._text[self._text.rfind("\n", 0, at - 1) + 1 : at - 1].strip())
            elif found["ticks"]:
                at = self._after_code(found.start(), len(found["ticks"]))
            elif found["tag"]:
                at = self._after_tag(at)
                self.tags.append((found.start(), at))
            elif found["brace"]:
                at = self._after_braces(found.start())

    def _begin_line(self, at: int, is_after_blank: bool) -> int:
        """Returns the place where text goes on at the beginning of a line: after a block of code, if one begins there."""
        fence = _FENCE.match(self._text, at)
        if fence:
            mark = fence["fence"]
            closing = re.compile(r"^[ \t>]*{0}{{{1},}}[ \t\r]*$".format(mark[0], len(mark)), re.MULTILINE)
            end = closing.search(self._text, fence.end())
            return end.end() if end else len(self._text)
        while is_after_blank and _MODULE.match(self._text, at):
            end_of_module = self._after_module(at)
            self.spans.append((at, end_of_module))
            at = end_of_module
            line = _BLANK.match(self._text, at)
            at = line.end() + 1 if line else at
        return at

    def _after_code(self, at: int, length: int) -> int:
        """Where a span of code ends that begins with so many backquotes there; within its paragraph."""
        runs = self._ticks[length] if length in self._ticks else []
        after = bisect.bisect_right(runs, at)
        blank = bisect.bisect_left(self._blanks, at)
        stop = self._blanks[blank] if blank < len(self._blanks) else len(self._text)
        return runs[after] + length if after < len(runs) and runs[after] < stop else at + length

    def _after_tag(self, at: int) -> int:
        """Where a tag ends whose name begins there."""
        found = _TAG.search(self._text, at)
        while found is not None and not found["end"]:
            at = self._after_braces(found.start()) if found["brace"] else found.end()
            found = _TAG.search(self._text, at)
        if found is None:
            self.lost.append(Lost(at, "a tag that doesn't end"))
        return found.end() if found else len(self._text)

    def _after_braces(self, at: int) -> int:
        """Returns the end of the braces that begin there, with code between them."""
        end = self._after(at, False)
        if end is None:
            self.lost.append(Lost(at, "braces that don't end"))
            end = len(self._text)
        note = _NOTE.match(self._text, at, end)
        if note:
            self.comments += comments_of(note["text"], note.start("text"))
        self.spans.append((at, end))
        return end

    def _after_module(self, at: int) -> int:
        """Where imports and exports end: at an empty line that isn't between braces."""
        end = self._after(at, True)
        return len(self._text) if end is None else end

    def _after(self, at: int, is_module: bool) -> Optional[int]:
        """Returns the end of the code that begins there: its last bracket or, for a module's code, an empty line."""
        opened: List[str] = []
        while True:
            form = _TEMPLATE if opened and opened[-1] == "`" else _CODE
            found = form.search(self._text, at)
            if found is None:
                return None
            at = found.end()
            if found["ticks"]:
                opened.pop() if form is _TEMPLATE else opened.append("`")
            elif found["open"]:
                opened.append("{")
            elif form is _CODE and found["close"]:
                if opened:
                    opened.pop()
                if not opened and not is_module:
                    return at
            elif form is _CODE and found["blank"] and is_module and not opened:
                return found.start()
