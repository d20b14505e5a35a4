"""Edits of a document: texts in place of others, and what they write otherwise, as a unified diff."""

import codecs
import re
from typing import Iterable, Iterator, List, NamedTuple, Sequence

from .._readers.source import Source
from .._reports.names import Name

class Edit(NamedTuple):
    """A text in place of a link, which is between two places of its source, in code points from 0."""

    start: int
    end: int
    text: str
    read: str = ""
    """What is read there then: another text, if the document has it with escapes."""


def in_order(edits: Iterable[Edit]) -> List[Edit]:
    """The edits in their order. One of equal edits is kept, and the first of several that overlap."""
    kept: List[Edit] = []
    for edit in sorted(set(edits)):
        if not kept or edit.start >= kept[-1].end:
            kept.append(edit)
    return kept


def edited(text: str, edits: Sequence[Edit]) -> str:
    """A text after these edits, which are in order."""
    return "".join(_pieces(text, edits))


def _pieces(text: str, edits: Sequence[Edit]) -> Iterator[str]:
    """The text between the edits, and their own, in order."""
    at = 0
    for edit in edits:
        yield text[at : edit.start]
        yield edit.text
        at = edit.end
    yield text[at:]


def encoded(text: str, data: bytes) -> bytes:
    """The bytes of a text, with a byte order mark if these bytes have one."""
    mark = codecs.BOM_UTF8 if data.startswith(codecs.BOM_UTF8) else b""
    return mark + text.encode("utf-8")


_CONTEXT = 3
"""How many lines are shown before those that differ, and after them."""

_LINE = re.compile("[^\n]*\n|[^\n]+")

_NO_END = "\n\\ No newline at end of file\n"
"""What is shown after a last line that no line feed ends."""


class _Change(NamedTuple):
    """Lines that differ: those from ``first`` up to ``end``, from 0, and what stands for them afterwards."""

    first: int
    end: int
    written: List[str]

    def added(self) -> int:
        """How many lines more there are after it."""
        return len(self.written) - (self.end - self.first)


def difference(name: Name, source: Source, edits: Sequence[Edit], has_mark: bool = False) -> str:
    """What these edits, which are in order, change in the document of that name; empty if they change nothing. Its
    first line begins with a byte order mark if it has one, which no edit counts."""
    if has_mark:
        source = Source("\ufeff" + source.text)
        edits = [Edit(edit.start + 1, edit.end + 1, edit.text) for edit in edits]
    lines = _LINE.findall(source.text)
    groups = _groups(list(_changes(source, lines, edits)))
    added, hunks = 0, ""
    for group in groups:
        hunks += _hunk(lines, group, added)
        added += sum(change.added() for change in group)
    return "--- {0}\n+++ {0}\n{1}".format(name.in_difference(), hunks) if hunks else ""


def _changes(source: Source, lines: List[str], edits: Sequence[Edit]) -> Iterator[_Change]:
    """The lines that differ; those that touch are one change."""
    held: List[Edit] = []
    end = 0
    for edit in edits:
        first = source.position(edit.start)[0] - 1
        if held and first > end:
            yield _change(source, lines, held, end)
            held = []
        held.append(edit)
        end = source.position(max(edit.start, edit.end - 1))[0]
    if held:
        yield _change(source, lines, held, end)


def _change(source: Source, lines: List[str], edits: Sequence[Edit], end: int) -> _Change:
    """The lines that some edits change, and what they become. The edits count from the first of these lines."""
    first = source.position(edits[0].start)[0] - 1
    start = source.offset(first + 1, 0)
    moved = [Edit(edit.start - start, edit.end - start, edit.text) for edit in edits]
    return _Change(first, end, _LINE.findall(edited("".join(lines[first:end]), moved)))


def _groups(changes: List[_Change]) -> List[List[_Change]]:
    """The changes by hunks: those are together whose context would meet."""
    groups: List[List[_Change]] = []
    for change in changes:
        if groups and change.first - groups[-1][-1].end <= 2 * _CONTEXT:
            groups[-1].append(change)
        else:
            groups.append([change])
    return groups


def _hunk(lines: List[str], changes: List[_Change], added: int) -> str:
    """A hunk, before which this many lines were added."""
    first, last = max(changes[0].first - _CONTEXT, 0), min(changes[-1].end + _CONTEXT, len(lines))
    shown, at = "", first
    for change in changes:
        shown += _shown(" ", lines[at : change.first])
        shown += _shown("-", lines[change.first : change.end]) + _shown("+", change.written)
        at = change.end
    shown += _shown(" ", lines[at:last])
    count = last - first
    new = count + sum(change.added() for change in changes)
    return "@@ -{},{} +{},{} @@\n{}".format(first + 1, count, first + 1 + added, new, shown)


def _shown(mark: str, lines: List[str]) -> str:
    """Lines as a hunk has them, after their mark."""
    return "".join(mark + (line if line.endswith("\n") else line + _NO_END) for line in lines)
