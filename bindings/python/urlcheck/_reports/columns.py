"""Lines and columns of the places in a document, with columns in a unit, as ``urlcheck lint --columns`` counts."""

from typing import List, Tuple

from .._library import native
from .._readers.source import Source
from .report import UNITS

_STEP = 256
"""How many code points are between two places of a line whose columns are kept."""


class Places:
    """Finds the line and the column of a place in a source, columns in a unit. For the line that it was asked for last
    it keeps what was counted, so that all places of a line are found in one pass over it."""

    def __init__(self, source: Source, unit: str) -> None:
        self.source = source
        self._unit = UNITS.index(unit)
        self._start = -1
        self._columns: List[int] = []

    def position(self, offset: int) -> Tuple[int, int]:
        """The line and the column of a place, both from 1."""
        line, points = self.source.position(offset)
        start = offset - points + 1
        if start != self._start:
            self._start, self._columns = start, [1]
        steps = (offset - start) // _STEP
        while len(self._columns) <= steps:
            at = start + (len(self._columns) - 1) * _STEP
            self._columns.append(self._after(self._columns[-1], at, at + _STEP))
        return line, self._after(self._columns[steps], start + steps * _STEP, offset)

    def _after(self, column: int, start: int, end: int) -> int:
        """The column after a part of the text that begins in a column."""
        text = self.source.text[start:end]
        return native.column(text, self._unit, column, len(text))
