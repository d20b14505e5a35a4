"""Whether a text is a valid URL string (WHATWG URL Standard, sections 3.4 and 4.3), alone or against a base.

>>> import urlcheck
>>> answer = urlcheck.check("https://example.com/a?q")
>>> answer.host, answer.path, answer.query
('example.com', '/a', 'q')
>>> answer = urlcheck.check("http://h/a b")
>>> bool(answer), answer, urlcheck.sentence(answer.rule)
(False, Refused(rule='code-point', place=10), 'this code point is not allowed in a URL')
>>> urlcheck.resolve("../x", "http://h/a/b")
'http://h/x'
>>> urlcheck.mend("http://h/a b")
Mended(text='http://h/a%20b', kind=<MendKind.SAME: 'same'>, is_offered=True)

A text without a scheme is valid only against a base: ``check("../x", "http://h/a/b")``. The functions keep no state
and may be called from any thread.
"""

import enum
from dataclasses import dataclass
from typing import Any, Iterable, Iterator, List, Literal, Optional, Tuple, Union

from ._library import native

__all__ = [
    "Base", "BaseRefused", "Diagnostic", "Explanation", "FORMATS", "Findings", "MendKind", "Mended", "Mendings",
    "Profile", "RULES", "Refused", "Region", "UNITS", "Valid", "Violation", "__version__", "check", "check_each",
    "check_many", "column", "explain", "is_valid", "is_valid_many", "mend", "mend_many", "message", "report",
    "resolve", "resolve_many", "sentence", "version", "violations",
]


class Profile(enum.IntEnum):
    """Which texts are valid. Each profile accepts whatever the one before it accepts.

    ``STANDARD`` accepts the URL Standard's valid URL strings; ``WIDE`` also ``_`` and hyphens anywhere in
    domains, and any segments after an authority; ``PARSER`` each text that the URL Standard's parser accepts without a
    validation error, and no other.
    """

    STANDARD = 0
    WIDE = 1
    PARSER = 2


AnyProfile = Union[Profile, Literal["standard", "wide", "parser"], None]
"""A profile or its name. None is the base's profile, and without one the standard profile."""


@dataclass(frozen=True)
class Valid:
    """A valid URL string, which is true. Its parts are slices of the text without their delimiters, or ``None`` if the
    text lacks the part."""

    scheme: Optional[str]
    host: Optional[str]
    port: Optional[str]
    path: str
    query: Optional[str]
    fragment: Optional[str]

    def __bool__(self) -> Literal[True]:
        return True


@dataclass(frozen=True)
class Refused:
    """A text that violates ``rule`` at ``place``, counted in code points from 0: its first violation. It is false.
    ``sentence(rule)`` says what is wrong there."""

    rule: str
    place: int

    def __bool__(self) -> Literal[False]:
        return False


class MendKind(str, enum.Enum):
    """How a mended text differs from the refused one. Each is a ``str`` too, so that JSON has it.

    ``SAME``: a second parser reads both as the same URL. ``ESCAPED``: it doesn't, but only some code points were
    percent-encoded. ``CHANGED``: neither, so check that the text is what was meant.
    """

    SAME = "same"
    ESCAPED = "escaped"
    CHANGED = "changed"


@dataclass(frozen=True)
class Mended:
    """A valid URL string in place of a refused text."""

    text: str
    kind: MendKind
    is_offered: bool = True
    """Whether reports offer it, because nothing shows that the text's author meant something else."""


@dataclass(frozen=True)
class Violation:
    """A rule that a text violates at a place, counted in code points from 0; ``sentence(rule)`` says what is wrong."""

    rule: str
    place: int


class BaseRefused(ValueError):
    """The base violates ``rule`` at ``place``; the text wasn't checked."""

    def __init__(self, rule: str, place: int) -> None:
        super().__init__(rule, place)
        self.rule = rule
        self.place = place

    def __str__(self) -> str:
        return told_of_base(self, sentence(self.rule))


def told_of_base(refused: BaseRefused, why: str) -> str:
    """What is said of a base that is refused for this. (It is checked by itself, so that it needs a scheme.)"""
    why = "it has no scheme" if refused.rule == "no-scheme" else why
    return "the base is refused at place {}: {} [{}]".format(refused.place, why, refused.rule)


class Base:
    """A base that is checked once, for many texts: the functions accept it in place of the base's text.

    It never changes, and two bases are equal if their texts and profiles are. A text is checked against a base under the
    base's profile; a call with another profile raises ``ValueError``. Raises ``BaseRefused`` if the base isn't valid, and
    otherwise what ``check`` raises about a text.
    """

    __slots__ = ("text", "profile", "_data", "_held")
    text: str
    profile: Profile
    _data: bytes
    _held: bytes

    def __init__(self, text: str, profile: AnyProfile = None) -> None:
        if not isinstance(text, str):
            raise TypeError("a base is a str, not {}".format(type(text).__name__))
        for name, value in zip(self.__slots__, (text, *native.prepare(text, profile))):
            object.__setattr__(self, name, value)

    def _stay(self, *_: object) -> None:
        """Refuses what would change it."""
        raise AttributeError("a Base doesn't change: make another one")

    __setattr__ = __delattr__ = _stay

    def __reduce__(self) -> Tuple[Any, Tuple[str, Profile]]:
        return Base, (self.text, self.profile)

    def __repr__(self) -> str:
        return "Base({!r}, Profile.{})".format(self.text, self.profile.name)

    def __eq__(self, other: object) -> bool:
        if not isinstance(other, Base):
            return NotImplemented
        return (self.text, self.profile) == (other.text, other.profile)

    def __hash__(self) -> int:
        return hash((self.text, self.profile))


AnyBase = Union[str, Base, None]


check = native.check
violations = native.violations
is_valid = native.is_valid
resolve = native.resolve
mend = native.mend


def check_each(
    texts: Iterable[str], base: AnyBase = None, profile: AnyProfile = None
) -> Iterator[Union[Valid, Refused]]:
    """The answers of ``check`` for these texts, one by one as you ask for them. A base is checked once.

    Raises what ``check`` raises, for the base and the profile at the first answer.
    """
    if isinstance(texts, (str, bytes)):
        raise TypeError("texts are wanted, not one {}".format(type(texts).__name__))
    return _answers(iter(texts), base, profile)


def sentence(rule: str) -> str:
    """What is wrong at the place of a refusal by this rule. Raises ``KeyError`` if no rule has the name."""
    return _SENTENCES[rule]


def version() -> str:
    """The version of the library."""
    number = native.version()
    return "{}.{}.{}".format(number // 10000, number // 100 % 100, number % 100)


def __dir__() -> List[str]:
    """The names that the package has for its callers."""
    return sorted(__all__)


def _answers(texts: Iterator[str], base: AnyBase, profile: AnyProfile) -> Iterator[Union[Valid, Refused]]:
    """The answers on the texts, against a base that is checked at the first of them."""
    for text in texts:
        if isinstance(base, str):
            base = Base(base, profile)
        yield check(text, base, profile)


def _profile(given: object) -> Profile:
    """The profile of a number, or of a name, as ``wide``; the standard one of None."""
    if given is None:
        return Profile.STANDARD
    if isinstance(given, bool) or not isinstance(given, (int, str)):
        raise TypeError("a profile is a urlcheck.Profile or its name, not {}".format(type(given).__name__))
    for profile in Profile:
        if given in (profile.value, profile.name.lower()):
            return profile
    names = ", ".join("{} ({})".format(it.name.lower(), it.value) for it in Profile)
    what = "name" if isinstance(given, str) else "number"
    raise ValueError("no profile has the {} {}: there are {}".format(what, given, names))


RULES: Tuple[str, ...] = tuple(native.text(0, rule) for rule in range(1, 15))
"""The names of the rules, in the order of their numbers."""

COLUMN_RULES: Tuple[Optional[str], ...] = (None, *RULES, "no-utf8")
"""What a column of rules has for each number: the last stands for bytes that aren't UTF-8, as an Arrow array may hold."""

_SENTENCES = {name: native.text(1, rule) for rule, name in enumerate(RULES, 1)}

native.use(
    (Valid, Refused, Mended, Violation, Base, BaseRefused, _profile),
    tuple(Profile),
    (None, *MendKind),
    (None, *(kind.value for kind in MendKind)),
    COLUMN_RULES,
)

__version__ = version()

from ._many import Findings, Mendings, check_many, is_valid_many, mend_many, resolve_many  # noqa: E402
from ._reports.report import FORMATS, UNITS, Diagnostic, Explanation, Region  # noqa: E402
from ._reports.report import column, explain, message, report  # noqa: E402
