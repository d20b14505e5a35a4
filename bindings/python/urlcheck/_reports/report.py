"""Reports on texts that are refused, as ``urlcheck lint`` writes them: what is written is the library's."""

from typing import Dict, Iterable, Iterator, NamedTuple, Optional, Tuple, Union

from .. import RULES, AnyBase, AnyProfile, BaseRefused, Mended, MendKind, Refused, Violation, sentence
from .._library import native


def _named(name: str, names: Tuple[str, ...], noun: str) -> int:
    """The number of a name. Raises ``ValueError`` if no number has it."""
    if name not in names:
        raise ValueError("no {} is named '{}': there are {}".format(noun, name, ", ".join(names)))
    return names.index(name)


_ADDRESS, _REQUIRES, _SECTION, _BASE, _EXAMPLE, _MENDED, _FORMAT, _UNIT = range(2, 10)
"""The numbers of the library's fixed texts."""


def _all_names(what: int, number: int = 0) -> Iterator[str]:
    """The names of all formats or units, from the first number on, until there is none."""
    while native.text(what, number):
        yield native.text(what, number)
        number += 1


FORMATS: Tuple[str, ...] = tuple(_all_names(_FORMAT))
"""The names of the formats, as ``urlcheck lint --format`` takes them."""

UNITS: Tuple[str, ...] = tuple(_all_names(_UNIT))
"""The names of what columns count, as ``urlcheck lint --columns`` takes them."""

WORDINGS = ("options", "arguments", "sql", "none")
"""How a sentence names a profile: ``--profile wide``, ``profile='wide'``, ``profile 'wide'``, or not at all."""

_NUMBERS: Dict[str, int] = {name: number for number, name in enumerate(RULES, 1)}
_KINDS: Dict[MendKind, int] = {kind: number for number, kind in enumerate(MendKind, 1)}
_WHOLE, _UNREAD = range(2)


class Region(NamedTuple):
    """Where a text is in its file: lines and columns from 1."""

    line: int
    column: int
    last_line: int
    end_column: int
    """The column after its last code point, in the last line."""


class Diagnostic(NamedTuple):
    """What is wrong with a text that is in a file."""

    file: str
    """The name of the file."""
    line: int
    """The line of the wrong place, from 1."""
    column: int
    """The column of the wrong place, from 1."""
    text: str
    rule: str
    place: int
    """The wrong place in the text, in code points from 0."""
    profile: AnyProfile = None
    """By which the text is checked."""
    mended: Optional[Mended] = None
    """What to write in place of the text; a format that doesn't say it leaves it out."""
    region: Optional[Region] = None
    """The place of the text, if that may be written there as it is; without it SARIF has no fix, and rdjson no
    suggestion."""
    end: Optional[int] = None
    """The column at which what is wrong ends; without it the one after the code point at the place, in the line of
    that."""
    repeat: int = 0
    """How many diagnostics before it in the file have the same rule, place and text, if the caller counts them: GitLab's
    fingerprints of equal ones differ by that."""
    base: AnyBase = None
    """Against which the text is checked."""


class Explanation(NamedTuple):
    """What a rule requires, and an example under the standard profile."""

    rule: str
    sentence: str
    """What is wrong at the place of a refusal."""
    requires: str
    section: str
    """The section of the URL Standard, and what it calls that."""
    url: str
    """Where that is."""
    base: Optional[str]
    """The base that the example is read against, or ``None`` if it is read alone."""
    example: str
    """A text that is refused by the rule."""
    place: int
    """The place of that refusal, in code points from 0."""
    mended: str
    """A valid text that its author may have meant."""


_MOST = 2**32 - 1
"""The largest line or column."""


def _numbered(*numbers: int) -> None:
    """Raises ``ValueError`` if one of these isn't a line or column."""
    if not all(1 <= number <= _MOST for number in numbers):
        raise ValueError("a line or a column isn't from 1 to {}".format(_MOST))


def _placed(text: str, place: int) -> int:
    """The place, if the text has it or ends there; otherwise a number that isn't a place."""
    return place if 0 <= place <= len(text) else -1


def message(
    text: str,
    found: Union[Refused, Violation, BaseRefused],
    profile: AnyProfile = None,
    wording: str = "arguments",
    base: AnyBase = None,
) -> str:
    """What is wrong with a text, as its refusal or one of its violations says by this profile, alone or against this base:
    a sentence without its end, which names the code point. Of a ``BaseRefused`` the text is the base.

    ``wording`` is one of ``options`` (``--profile wide``), ``arguments`` (``profile='wide'``), ``sql`` and ``none``:
    how the sentence names another profile that accepts the text, if it does. Raises ``ValueError`` for another one and
    where the place is after the text's end, and what ``check`` raises of a text, a base and a profile.
    """
    return placed_message(text, found, profile, wording, base)[0]


def placed_message(
    text: str, found: Union[Refused, Violation, BaseRefused], profile: AnyProfile, wording: str, base: AnyBase
) -> Tuple[str, int]:
    """The same, and the place of the code point that it names."""
    if not isinstance(text, str):
        raise TypeError("a text is a str, not {}".format(type(text).__name__))
    words = _named(wording, WORDINGS, "wording")
    return native.message(text, base, profile, words, _NUMBERS[found.rule], _placed(text, found.place))


def explain(rule: str) -> Explanation:
    """What a rule requires, and an example. Raises ``KeyError`` if no rule has the name."""
    number = _NUMBERS[rule]
    requires, section = native.text(_REQUIRES, number), native.text(_SECTION, number)
    base, example, mended = (native.text(what, number) for what in (_BASE, _EXAMPLE, _MENDED))
    place = native.example_place(number)
    return Explanation(rule, sentence(rule), requires, section, address_of(rule), base or None, example, place, mended)


def address_of(rule: str) -> str:
    """Where a rule is in the URL Standard. Raises ``KeyError`` if no rule has the name."""
    return native.text(_ADDRESS, _NUMBERS[rule])


def column(text: str, place: int, unit: str = "code-points", start: int = 1) -> int:
    """The column of a place of a text, which is counted in code points, where the text begins in the column ``start``
    of its line. ``unit`` is one of ``UNITS``. Raises ``ValueError`` for another name, where the place is after the
    text's end, and where ``start`` isn't from 1 to 4294967295."""
    _numbered(start)
    return native.column(text, _named(unit, UNITS, "column unit"), start, _placed(text, place))


def report(
    diagnostics: Iterable[Diagnostic],
    format: str = "gnu",
    columns: Optional[str] = None,
    is_whole: bool = True,
    wording: str = "arguments",
) -> Iterator[str]:
    """A report on these, as ``urlcheck lint --located`` writes it, text by text: its beginning, the text on each,
    and its end.

    ``format`` is one of ``FORMATS``, and ``columns``, one of ``UNITS``, says what the columns count: without it the
    first of them for which the format has a word, code points as a rule. ``is_whole`` is false where a file couldn't be
    read to its end. ``wording`` is as in ``message``. Raises ``ValueError`` for another name, for a unit for which
    the format has no word, and at the text on a diagnostic whose place, line, column or region isn't one.
    """
    unit = own_unit(format) if columns is None else columns
    if not takes_unit(format, unit):
        raise ValueError("{} doesn't support the column unit {}".format(format, unit))
    _named(wording, WORDINGS, "wording")
    return _report_on(diagnostics, format, unit, is_whole, wording)


def _report_on(
    diagnostics: Iterable[Diagnostic], format: str, unit: str, is_whole: bool, wording: str
) -> Iterator[str]:
    """The pieces of a report."""
    yield begin(format, unit)
    is_first = True
    for it in diagnostics:
        yield written(format, False, _reported(it, unit, wording), is_first)
        is_first = False
    yield end(format, is_whole)


def takes_unit(format: str, unit: str) -> bool:
    """Whether a format has a word for the unit."""
    return native.takes_unit(_named(format, FORMATS, "format"), _named(unit, UNITS, "column unit"))


def own_unit(format: str) -> str:
    """The unit of a format's columns if nothing else is said."""
    return next(unit for unit in UNITS if takes_unit(format, unit))


def shows_mended(format: str) -> bool:
    """Whether a format says what to write in place of a text."""
    return native.shows_mended(_named(format, FORMATS, "format"))


def begin(format: str, unit: str) -> str:
    """What a report begins with."""
    return native.report_begin(_named(format, FORMATS, "format"), _named(unit, UNITS, "column unit"))


def end(format: str, is_whole: bool) -> str:
    """What a report ends with, by whether each file was read to its end."""
    return native.report_end(_named(format, FORMATS, "format"), _WHOLE if is_whole else _UNREAD)


def passed(format: str, file: str) -> str:
    """What is said about a file in which nothing is wrong: in JUnit a suite whose test passes, and nothing in other
    formats."""
    number = _named(format, FORMATS, "format")
    return native.file_begin(number, file) + native.file_end(number) if format == "junit" else ""


class Reported(NamedTuple):
    """A diagnostic as the library writes it."""

    file: str
    rule: str
    """The name of a rule: one of ``RULES``, or of the caller's own."""
    address: str
    """Where one can read about the rule."""
    message: str
    within: str
    """Its place in the file in more detail, or nothing."""
    text: str
    region: Region
    """Where what is wrong is."""
    place: int
    named: int
    """The place of the code point that the message names."""
    mended: Optional[Mended]
    fixed: Optional[Region]
    """The place of the text, if another one may be written there."""
    repeat: int
    """How many diagnostics before it in the file have the same rule, place and text."""


def _reported(it: Diagnostic, unit: str, wording: str) -> Reported:
    """A diagnostic, with what the library says about it. Raises ``ValueError`` if one of its numbers is wrong."""
    _numbered(it.line, it.column, *(() if it.end is None else (it.end,)))
    wrong = it.text[it.place : it.place + 1]
    end = native.column(wrong, UNITS.index(unit), it.column, len(wrong)) if it.end is None else it.end
    said, named = placed_message(it.text, Violation(it.rule, it.place), it.profile, wording, it.base)
    region = Region(it.line, it.column, it.line, end)
    if it.region is not None:
        _numbered(*it.region)
        if it.region[2:] < it.region[:2]:
            raise ValueError("a region ends before it begins")
    fixed = None if it.mended is None else it.region
    address = address_of(it.rule)
    return Reported(it.file, it.rule, address, said, "", it.text, region, it.place, named, it.mended, fixed, it.repeat)


def written(format: str, is_coloured: bool, it: Reported, is_first: bool) -> str:
    """What is said about a diagnostic: whole lines, in colours if they are asked for and the format has some. If it comes
    after another one, it begins with what goes between the two."""
    number = _named(format, FORMATS, "format")
    text, kind, offered = "", 0, 0
    if it.mended is not None:
        text, kind, offered = it.mended.text, _KINDS[it.mended.kind], int(it.mended.is_offered)
    strings = it.file, it.rule, it.address, it.message, it.within, it.text, text
    places = _placed(it.text, it.place), it.named
    numbers = *it.region, *(it.fixed or _NOWHERE), *places, it.repeat, kind, offered
    said = native.diagnostic(number, is_coloured, is_first, strings, numbers)
    return native.file_begin(number, it.file) + said + native.file_end(number)


_NOWHERE = (0, 0, 0, 0)
