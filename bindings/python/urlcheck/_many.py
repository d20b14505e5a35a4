"""Many texts in a call: lists, columns of numpy and pandas, and arrays of Arrow, each answered by columns of its own
kind.

numpy, pandas and pyarrow are imported only when what came in is theirs.
"""

import re
import sys
from array import array as Numbers
from typing import Any, Iterable, List, NamedTuple, Optional, Tuple

from . import COLUMN_RULES, AnyBase, AnyProfile, Base, MendKind
from ._arrow import Column, is_arrow
from ._library import native

_MISSING = 255
"""The verdict of a missing text, as native.h has it."""

_KINDS = [it.value for it in MendKind]
"""The kinds of mended texts, in the order of their numbers from 1."""


class Findings(NamedTuple):
    """The findings on many texts, in columns. If a text is missing, so are its answers."""

    valid: Any
    """Whether the text is valid."""
    rule: Any
    """The rule that it violates first; missing if it is valid."""
    place: Any
    """The place of that, in code points from 0; missing if it is valid."""


class Mendings(NamedTuple):
    """Valid texts in place of many, a column each."""

    text: Any
    """The text itself if it is valid, otherwise one made of it by local edits, or missing if they give none."""
    kind: Any
    """How it differs from a refused text: ``same``, ``escaped`` or ``changed``, as ``MendKind`` says."""


def check_many(texts: Iterable[Optional[str]], base: AnyBase = None, profile: AnyProfile = None) -> Findings:
    """What ``check`` finds of each text: whether it is valid, and the rule and the place of its first violation.

    The texts are a list or another iterable, a numpy array of objects, a pandas Series, or an Arrow array of strings,
    which isn't copied. Columns of the same kind are given: lists; arrays of numpy, where a place is -1 and a rule
    ``None`` for a valid text; Series with the same index; arrays of Arrow. ``None``, NaN and ``pandas.NA`` are missing
    texts. Other threads run while texts are checked.

    Raises what ``check`` raises, ``TypeError`` for a table, and ``ValueError`` for an Arrow array that is broken.
    """
    found: Findings = _kind_of(texts).check(texts, base, profile)
    return found


def is_valid_many(texts: Iterable[Optional[str]], base: AnyBase = None, profile: AnyProfile = None) -> Any:
    """Whether each text is valid, as a column of the kind that came in: see ``check_many``. It takes the least time."""
    return _kind_of(texts).is_valid(texts, base, profile)


def resolve_many(texts: Iterable[Optional[str]], base: AnyBase = None, profile: AnyProfile = None) -> Any:
    """The text of the URL of each text, as ``resolve`` gives it, missing if a text is refused: see ``check_many``."""
    return _kind_of(texts).write(texts, base, profile, False)[0]


def mend_many(texts: Iterable[Optional[str]], base: AnyBase = None, profile: AnyProfile = None) -> Mendings:
    """A valid text in place of each one, and how it differs from it, as ``mend`` gives them: see ``check_many``."""
    return Mendings(*_kind_of(texts).write(texts, base, profile, True))


def _missing() -> Tuple[Any, ...]:
    """What stands for a missing text, also in pandas if that was imported."""
    return None, getattr(sys.modules.get("pandas"), "NA", None)


class _Lists:
    """Lists, and what else is iterated over. Each kind of column has these calls, which the functions above make."""

    def listed(self, texts: Any) -> List[Any]:
        """The texts as a list, which is what the module reads."""
        if isinstance(texts, (str, bytes)):
            raise TypeError("texts are wanted, not one {}".format(type(texts).__name__))
        return texts if type(texts) is list else list(texts)

    def found(self, texts: Any, base: AnyBase, profile: AnyProfile, is_all: bool) -> Tuple[bytearray, ...]:
        """The verdicts of the texts, and of all the rules and the places too."""
        return native.check_texts(self.listed(texts), _missing(), base, profile, is_all)

    def truths(self, texts: Any, verdicts: bytearray) -> Any:
        """Whether each text is valid. (A table takes less time than a comparison each.)"""
        return list(map(_TRUTHS.__getitem__, verdicts))

    def check(self, texts: Any, base: AnyBase, profile: AnyProfile) -> Findings:
        """What ``check_many`` gives."""
        verdicts, rules, places = self.found(texts, base, profile, True)
        numbers = memoryview(places).cast("q").tolist()
        return Findings(
            self.truths(texts, verdicts),
            list(map(COLUMN_RULES.__getitem__, rules)),
            [place if place >= 0 else None for place in numbers] if any(rules) else [None] * len(rules),
        )

    def is_valid(self, texts: Any, base: AnyBase, profile: AnyProfile) -> Any:
        """What ``is_valid_many`` gives."""
        return self.truths(texts, self.found(texts, base, profile, False)[0])

    def write(self, texts: Any, base: AnyBase, profile: AnyProfile, mends: bool) -> Tuple[Any, Any]:
        """What ``mend_many`` gives, or the texts of URLs."""
        return native.write_texts(self.listed(texts), _missing(), base, profile, mends)


_TRUTHS: List[Optional[bool]] = [True] + [False] * (_MISSING - 1) + [None]
"""Whether a text is valid, by its verdict: 0 means that it is."""


class _Arrays(_Lists):
    """Arrays of numpy, whose texts are objects."""

    def listed(self, texts: Any) -> List[Any]:
        """The texts of an array of one dimension."""
        if texts.ndim != 1:
            raise ValueError("an array of one dimension is wanted, not of {}".format(texts.ndim))
        if texts.dtype.kind not in "OUT":
            raise TypeError("an array of texts is wanted, not of {}".format(texts.dtype))
        listed: List[Any] = texts.tolist()
        return listed

    def truths(self, texts: Any, verdicts: bytearray) -> Any:
        """Whether each text is valid: an array of objects only when a text is missing, which a truth can't say."""
        import numpy

        numbers = numpy.frombuffer(verdicts, numpy.uint8)
        if _MISSING not in verdicts:
            return numbers == 0
        truths = (numbers == 0).astype(object)
        truths[numbers == _MISSING] = None
        return truths

    def check(self, texts: Any, base: AnyBase, profile: AnyProfile) -> Findings:
        import numpy

        verdicts, rules, places = self.found(texts, base, profile, True)
        names = numpy.array(COLUMN_RULES, object)[numpy.frombuffer(rules, numpy.uint8)]
        return Findings(self.truths(texts, verdicts), names, numpy.frombuffer(places, numpy.int64))

    def write(self, texts: Any, base: AnyBase, profile: AnyProfile, mends: bool) -> Tuple[Any, Any]:
        return _objects(super().write(texts, base, profile, mends))


def _objects(columns: Tuple[List[Any], List[Any]]) -> Tuple[Any, Any]:
    """Two lists as arrays of objects."""
    import numpy

    made = [numpy.empty(len(column), object) for column in columns]
    for array, column in zip(made, columns):
        array[:] = column
    return made[0], made[1]


class _Series(_Lists):
    """Columns of pandas, with their index. Texts that are held by Arrow are read where they are."""

    def listed(self, texts: Any) -> List[Any]:
        listed: List[Any] = texts.tolist()
        return listed

    def found(self, texts: Any, base: AnyBase, profile: AnyProfile, is_all: bool) -> Tuple[bytearray, ...]:
        array = _arrow_of(texts)
        if array is None:
            return super().found(texts, base, profile, is_all)
        return _Arrow().found(array, base, profile, is_all)

    def truths(self, texts: Any, verdicts: bytearray) -> Any:
        """Whether each text is valid, in a column that knows missing values."""
        import numpy
        import pandas

        numbers = numpy.frombuffer(verdicts, numpy.uint8)
        column = pandas.arrays.BooleanArray(numbers == 0, numbers == _MISSING)
        return pandas.Series(column, index=texts.index, name=texts.name)

    def check(self, texts: Any, base: AnyBase, profile: AnyProfile) -> Findings:
        import numpy
        import pandas

        verdicts, rules, places = self.found(texts, base, profile, True)
        numbers = numpy.frombuffer(rules, numpy.uint8)
        # (a category counts from 0, and -1 is missing, where a rule counts from 1)
        names = pandas.Categorical.from_codes(numbers.astype(numpy.int8) - 1, categories=list(COLUMN_RULES[1:]))
        columns = (names, pandas.arrays.IntegerArray(numpy.frombuffer(places, numpy.int64), numbers == 0))
        made = (pandas.Series(column, index=texts.index, name=texts.name) for column in columns)
        return Findings(self.truths(texts, verdicts), *made)

    def write(self, texts: Any, base: AnyBase, profile: AnyProfile, mends: bool) -> Tuple[Any, Any]:
        import pandas

        array = _arrow_of(texts)
        if array is not None:
            written, kinds = _Arrow().write(array, base, profile, mends)
            kinds = kinds.to_pylist()
        else:
            written, kinds = _objects(super().write(texts, base, profile, mends))
        columns = (pandas.array(written, _written_type(texts.dtype)), pandas.Categorical(kinds, _KINDS))
        made = [pandas.Series(column, index=texts.index, name=texts.name) for column in columns]
        return made[0], made[1]


def _arrow_of(texts: Any) -> Any:
    """The array of Arrow in which a Series has its texts, or ``None``."""
    import pandas

    is_string = isinstance(texts.dtype, pandas.StringDtype) and texts.dtype.storage.startswith("pyarrow")
    return texts.array.__arrow_array__() if is_string or _held_by(texts.dtype) is not None else None


def _held_by(dtype: Any) -> Any:
    """The type of Arrow that a type of pandas is, if it is one. (Before version 1.5 there are none.)"""
    import pandas

    return dtype.pyarrow_dtype if isinstance(dtype, getattr(pandas, "ArrowDtype", ())) else None


_OF_TEXTS = re.compile(r"(?P<scattered>dictionary<values=|(?=string_view))?(?:large_)?string\b")
"""The name of a type of texts of Arrow, and whether they are in a dictionary or by views."""


def is_of_texts(dtype: Any) -> bool:
    """Whether a column of this type of pandas may hold texts."""
    import pandas

    if isinstance(dtype, pandas.CategoricalDtype):
        return is_of_texts(dtype.categories.dtype)
    held = _held_by(dtype)
    if held is None:
        return dtype == object or isinstance(dtype, pandas.StringDtype)
    return _OF_TEXTS.match(str(held)) is not None


def _written_type(dtype: Any) -> Any:
    """The type of a column of new texts in place of the texts of a column of this type. It is another one if that has room
    only for the texts that it has."""
    import pandas

    found = _OF_TEXTS.match(str(_held_by(dtype)))
    if found and found["scattered"] is not None:
        import pyarrow

        return pandas.ArrowDtype(pyarrow.large_string())
    return object if isinstance(dtype, pandas.CategoricalDtype) else dtype


class _Arrow(_Lists):
    """Arrays of Arrow, by its C data interface: one piece, or several of which the answers are joined."""

    def found(self, texts: Any, base: AnyBase, profile: AnyProfile, is_all: bool) -> Tuple[bytearray, ...]:
        chunks, base = Column.chunks(texts), _prepared(base, profile)
        parts = [native.check_arrow(schema, array, base, profile, is_all) for schema, array in chunks]
        return parts[0] if len(parts) == 1 else tuple(bytearray().join(columns) for columns in zip(*parts))

    def truths(self, texts: Any, verdicts: bytearray) -> Any:
        return Column.truths(verdicts, _MISSING).like(texts)

    def check(self, texts: Any, base: AnyBase, profile: AnyProfile) -> Findings:
        verdicts, rules, places = self.found(texts, base, profile, True)
        names = Column.names(rules, COLUMN_RULES[1:]).like(texts)
        return Findings(self.truths(texts, verdicts), names, Column.numbers(places, rules).like(texts))

    def write(self, texts: Any, base: AnyBase, profile: AnyProfile, mends: bool) -> Tuple[Any, Any]:
        chunks, base = Column.chunks(texts), _prepared(base, profile)
        parts = [native.write_arrow(schema, array, base, profile, mends) for schema, array in chunks]
        if not hasattr(texts, "chunks"):
            parts = [_whole(parts)]
        made = [Column.texts(*part) for part in parts]
        kinds = [Column.names(_lowered(marks), _KINDS) for _, _, marks in parts]
        return Column.joined(made, texts), Column.joined(kinds, texts)


def _prepared(base: AnyBase, profile: AnyProfile) -> AnyBase:
    """A base that is checked once for all pieces."""
    return Base(base, profile) if isinstance(base, str) else base


def _whole(parts: List[Tuple[bytes, bytearray, bytearray]]) -> Tuple[bytes, bytearray, bytearray]:
    """One column of several: the texts, where each begins and the last one ends, and their marks."""
    if len(parts) == 1:
        return parts[0]
    starts = Numbers("q", [0])
    for _, offsets, _ in parts:
        own, before = Numbers("q", bytes(offsets)), starts[-1]
        starts.extend(before + offset for offset in own[1:])
    data, marks = b"".join(it[0] for it in parts), bytearray().join(it[2] for it in parts)
    return data, bytearray(starts.tobytes()), marks


def _lowered(marks: bytearray) -> bytearray:
    """The kinds of mended texts by their marks, 0 where there is none. (A mark is 1 for a text that was valid, and 1
    more than its kind for a mended one.)"""
    return marks.translate(bytes([0, 0, 1, 2, 3]) + bytes(251))


def _kind_of(texts: Any) -> Any:
    """How texts are read and answered, by what they are. Raises ``TypeError`` for a table of pandas, which would be read
    as the names of its columns."""
    if _is_instance(texts, "pandas", "DataFrame"):
        raise TypeError("a column of texts is wanted, not a DataFrame: name one, as frame[{!r}]".format("url"))
    if _is_instance(texts, "pandas", "Series"):
        return _Series()
    if _is_instance(texts, "numpy", "ndarray"):
        return _Arrays()
    return _Arrow() if is_arrow(texts) else _Lists()


def _is_instance(texts: Any, module: str, name: str) -> bool:
    """Whether texts are of a class of a module, which isn't imported for that."""
    return isinstance(texts, getattr(sys.modules.get(module), name, ()))
