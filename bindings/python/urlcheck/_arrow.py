"""Columns of Arrow, read and handed out by its C data interface and the PyCapsule interface over it."""

import sys
from typing import Any, List, Optional, Sequence, Tuple

from ._library import native

_WAYS = ("__arrow_c_array__", "__arrow_c_stream__", "_export_to_c")


def is_arrow(texts: object) -> bool:
    """Whether an object hands out arrays of Arrow. (Older versions of pyarrow do it by a method of their own.)"""
    return any(hasattr(texts, way) for way in _WAYS) or hasattr(texts, "chunks") and hasattr(texts, "type")


class Column:
    """An answer as an array of Arrow, which other libraries take by ``__arrow_c_array__``, as
    ``pyarrow.array(column)``. A layout is a format string of Arrow's C data interface: ``b`` truths, ``c`` bytes, ``l``
    numbers of 64 bits, ``U`` texts with offsets of 64 bits. native/arrow.c hands out these and no others."""

    def __init__(self, layout: str, length: int, missing: int, buffers: Tuple[Any, ...], names: Any = None) -> None:
        self._column = (layout, length, missing, buffers, names)

    def __len__(self) -> int:
        return self._column[1]

    def __arrow_c_array__(self, requested_schema: object = None) -> Tuple[object, object]:
        """The capsules of the array's schema and of the array. Nothing is copied; another schema isn't made."""
        return native.export(self._column)

    @classmethod
    def truths(cls, verdicts: bytearray, missing: int) -> "Column":
        """Whether each text is valid, by the verdicts, of which 0 means valid; missing where the verdict says so."""
        present, count = native.bits(verdicts, missing, False)
        return cls("b", len(verdicts), count, (present if count else None, native.bits(verdicts, 0, True)[0]))

    @classmethod
    def names(cls, numbers: bytearray, names: Sequence[Optional[str]]) -> "Column":
        """Names by numbers from 1, as indexes into a dictionary; missing where the number is 0."""
        present, count = native.bits(numbers, 0, False)
        indexes = numbers.translate(bytes([0, *range(255)]))
        data, offsets = bytearray(), [0]
        for name in names:
            data += (name or "").encode()
            offsets.append(len(data))
        starts = b"".join(offset.to_bytes(8, sys.byteorder) for offset in offsets)
        words = ("U", len(names), 0, (None, starts, bytes(data)), None)
        return cls("c", len(numbers), count, (present if count else None, indexes), words)

    @classmethod
    def numbers(cls, numbers: bytearray, marks: bytearray) -> "Column":
        """Numbers of 64 bits, missing where the mark is 0."""
        present, count = native.bits(marks, 0, False)
        return cls("l", len(marks), count, (present if count else None, numbers))

    @classmethod
    def texts(cls, data: bytes, offsets: bytearray, marks: bytearray) -> "Column":
        """Texts in one buffer, by the offsets between them; missing where the mark is 0."""
        present, count = native.bits(marks, 0, False)
        return cls("U", len(marks), count, (present if count else None, offsets, data))

    def like(self, texts: object) -> Any:
        """The column as an array of pyarrow, if the texts are one, otherwise as it is."""
        return Column.joined([self], texts)

    @staticmethod
    def joined(columns: List["Column"], texts: object) -> Any:
        """The columns as what these texts are: of another library than pyarrow in one piece."""
        pyarrow: Any = sys.modules.get("pyarrow")
        if pyarrow is None or not isinstance(texts, (pyarrow.Array, pyarrow.ChunkedArray)):
            (column,) = columns
            return column
        made = [_imported(pyarrow, column) for column in columns]
        return made[0] if len(made) == 1 and not hasattr(texts, "chunks") else pyarrow.chunked_array(made)

    @staticmethod
    def chunks(texts: Any) -> List[Tuple[object, object]]:
        """The pieces in which texts are, one at least, each as the capsules of a schema and an array. Texts in a
        dictionary, or by views, are asked for in one buffer. (What hands them out may not do that.)"""
        if not hasattr(texts, "__arrow_c_array__") and not hasattr(texts, "__arrow_c_stream__"):
            raise TypeError("an array that has __arrow_c_array__ is wanted, as pyarrow 14 and later give")
        chunks = _handed(texts, None)
        is_plain = native.layout(chunks[0][0]) not in _SCATTERED
        return chunks if is_plain else _handed(texts, _no_texts()[0])


_SCATTERED = frozenset(("vu", *("{} {}".format(index, text) for index in "cCsSiIlL" for text in ("u", "U", "vu"))))
"""The layouts of texts that aren't in one buffer: by views, and by indexes into a dictionary."""


def _no_texts() -> Tuple[object, object]:
    """The capsules of the schema and of an array of no texts."""
    return Column.texts(b"", bytearray(8), bytearray()).__arrow_c_array__()


def _handed(texts: Any, wanted: Optional[object]) -> List[Tuple[object, object]]:
    """The pieces as they are handed out, or as this schema if it is wanted. If there are none, an empty one, so that
    type, base and profile are asked as they are with one."""
    if hasattr(texts, "__arrow_c_array__"):
        return [texts.__arrow_c_array__(wanted)]
    schema, arrays = native.arrays_of(texts.__arrow_c_stream__(wanted))
    return [(schema, array) for array in arrays or [_no_texts()[1]]]


def _imported(pyarrow: Any, column: Column) -> Any:
    """The column as an array of pyarrow. (Before version 14 it takes addresses.)"""
    if hasattr(pyarrow.Array, "_import_from_c_capsule"):
        return pyarrow.Array._import_from_c_capsule(*column.__arrow_c_array__())
    raise TypeError("pyarrow 14 or later is wanted")
