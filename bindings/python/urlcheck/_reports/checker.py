"""What is wrong with the links of documents."""

import re
from dataclasses import replace
from typing import Dict, FrozenSet, List, NamedTuple, Optional, Tuple, Union

from .. import Base, BaseRefused, Mended, Refused, Region, Violation
from .. import check, mend, resolve, violations
from .._documents.configuration import Configuration
from .._readers.source import Asks, Link, NamedBase, Source
from .columns import Places
from .report import Reported, placed_message
from .rules import OF_ASKS, OF_FORMATS, address_of

SOMEWHERE = "https://example.com/"
"""What a reference is checked against if neither the document nor the caller names a base."""

MOST_MENDED = 65_536
"""How many bytes a link may have for which a text is sought to write in its place."""

MOST_KEPT = 50_000
"""How many verdicts are kept, for links that are met again."""

_HEAD = re.compile("[^:]*:(?://[^/?#]*)?")
"""The beginning of a URL's text: its scheme and, if it has one, its host."""

_SPACE = re.compile("[ \t]")

_SCHEME = re.compile("[A-Za-z][A-Za-z0-9+.-]*:")
"""The beginning of a text that is relative to nothing."""

_RELATIVE = re.compile(r"(?:https?|wss?|ftp|file):(?![/\\]{2})", re.IGNORECASE)
"""The beginning of a text that is relative to a base of its own scheme, and to no other."""


class Wrong(NamedTuple):
    """What is wrong with a text, wherever it is."""

    rule: str
    place: int
    named: int
    """The place of the code point that the message names."""
    message: str
    mended: Optional[Mended]


class Writing(NamedTuple):
    """What may be written in place of a link in its document."""

    start: int
    """The first place of the link there, in code points from 0; ``end`` is after its last."""
    end: int
    text: str
    """What is to stand there."""
    mended: Mended
    """What is read there then."""
    is_certain: bool
    """Whether it is surely a link, and the same one wherever the document is. Otherwise it is written only if that is
    asked for."""


Verdicts = Dict[Tuple[str, Optional[str], Asks, FrozenSet[str]], Optional[Wrong]]
"""What is wrong with texts, if something is, by what they are checked against, what their formats ask, and the rules
that don't count."""

_NONE: FrozenSet[str] = frozenset()


class Checker:
    """Checks links against the base of their document, by the configuration that counts for it."""

    def __init__(
        self,
        counts: Configuration,
        has_mended: bool,
        verdicts: Optional[Verdicts] = None,
        is_of_lists: bool = False,
        wording: str = "arguments",
    ) -> None:
        self._is_base_known = counts.base is not None
        self._profile = counts.profile
        # (the lines of a list have no base but the caller's)
        is_alone = is_of_lists and not self._is_base_known
        self._outer = None if is_alone else Base(counts.base or SOMEWHERE, self._profile)
        self._has_mended = has_mended
        self._is_empty_taken = bool(counts.is_empty_taken)
        self._selected = counts.selected
        self._wording = wording
        self._bases: Dict[NamedBase, Base] = {}
        self._verdicts: Verdicts = {} if verdicts is None else verdicts

    def _base(self, named: Optional[NamedBase]) -> Optional[Base]:
        """What a link is checked against: each base that its document names is read against the one around it, and the
        outermost against the caller's. One that isn't valid is passed over."""
        inner: List[NamedBase] = []
        while named is not None and named not in self._bases:
            inner.append(named)
            named = named.around
        base = self._outer if named is None else self._bases[named]
        for named in reversed(inner):
            found = resolve(named.text, base, self._profile)
            base = self._held(found, base) if isinstance(found, str) else base
            if base is not None:
                self._bases[named] = base
        return base

    def _held(self, text: str, around: Optional[Base]) -> Optional[Base]:
        """A base by the text of its URL. If the path isn't opaque, it is replaced by /: a verdict needs no more. So
        bases within bases don't grow, and a path that no profile takes, such as in http://h//a by
        http://h/x/..//a, isn't one."""
        head = _HEAD.match(text)
        if head and ("/" in head[0] or text.startswith("/", head.end())):
            text = head[0] + "/"
        try:
            return Base(text, self._profile)
        except BaseRefused:
            return around

    def reported(self, places: Places, link: Link, wrong: Wrong, repeat: int) -> Reported:
        """What is wrong with a link, with its places in a document whose name isn't set."""
        line, column = places.position(link.place(wrong.place))
        writing = self.writing(link, wrong, places.source)
        return Reported(
            file="",
            rule=wrong.rule,
            address=address_of(wrong.rule),
            message=wrong.message,
            within=link.within,
            text=link.text,
            region=Region(line, column, line, end_of(places, link, wrong.place)),
            place=wrong.place,
            named=wrong.named,
            mended=writing and replace(writing.mended, text=writing.text),
            fixed=writing and Region(*places.position(writing.start), *places.position(writing.end)),
            repeat=repeat,
        )

    def writing(self, link: Link, wrong: Wrong, source: Source) -> Optional[Writing]:
        """What may be written in place of a link of a source, if readers would see the mended text there."""
        slot = link.slot(source) if wrong.mended is not None else None
        text = slot.write(wrong.mended.text) if slot is not None and wrong.mended is not None else None
        if slot is None or text is None or wrong.mended is None:
            return None
        return Writing(slot.start, slot.end, text, wrong.mended, slot.is_certain and not self._is_relative(link))

    def _is_relative(self, link: Link) -> bool:
        """Whether a link with a scheme is relative to a base that isn't known, as ``http:/x`` is."""
        if self._is_base_known or not _RELATIVE.match(re.sub("[\t\n\r]", "", link.text)):
            return False
        named = link.base
        while named is not None and not _SCHEME.match(named.text):
            named = named.around
        return named is None

    def wrong(self, link: Link, without: FrozenSet[str] = _NONE) -> Optional[Wrong]:
        """What is wrong with a link, if something is, but for what violates these rules."""
        base = self._base(link.base)
        key = link.text, None if base is None else base.text, link.asks, without
        if key in self._verdicts:
            return self._verdicts[key]
        if len(self._verdicts) >= MOST_KEPT:
            self._verdicts.clear()
        found = self._verdicts[key] = self._checked(link.text, link.asks, base, self._selected - without)
        return found

    def _checked(self, text: str, asks: Asks, base: Optional[Base], selected: FrozenSet[str]) -> Optional[Wrong]:
        """What is wrong with a text by what it has to be. Formats ask more than the URL Standard, and have rules of
        their own."""
        is_text = asks is Asks.ANOTHER and not self._shows_another(text, base)
        if is_text or (asks is Asks.SOME and not text and not self._is_empty_taken):
            rule = OF_FORMATS[OF_ASKS[asks]]
            if rule.name not in selected:
                return None
            space = _SPACE.search(text)
            mended = self._mended(text, base) if space else None
            place = space.start() if space else 0
            return Wrong(rule.name, place, place, rule.sentence, mended)
        if asks is Asks.ABSOLUTE:
            if not text and self._is_empty_taken:
                return None
            base = None
        answer = check(text, base, self._profile)
        if answer:
            return None
        fault = self._reported(text, base, answer, selected)
        if fault is None:
            return None
        said, named = placed_message(text, fault, self._profile, self._wording, base)
        return Wrong(fault.rule, fault.place, named, said, self._mended(text, base))

    def _reported(
        self, text: str, base: Optional[Base], refused: Refused, selected: FrozenSet[str]
    ) -> Union[Refused, Violation, None]:
        """The first fault of a refused text whose rule is one that is reported."""
        if refused.rule in selected:
            return refused
        found = violations(text, base, self._profile)
        return next((it for it in found if it.rule in selected), None)

    def _shows_another(self, text: str, base: Optional[Base]) -> bool:
        """Whether a text shows that its author meant something else than what it is mended to, as a template does."""
        answer = mend(text, base, self._profile)
        return isinstance(answer, Mended) and not answer.is_offered

    def _mended(self, text: str, base: Optional[Base]) -> Optional[Mended]:
        """What to write in place of a refused link, if that is wanted and there is such a text."""
        if not self._has_mended or len(text.encode("utf-8")) > MOST_MENDED:
            return None
        answer = mend(text, base, self._profile)
        return answer if isinstance(answer, Mended) else None


def end_of(places: Places, link: Link, place: int) -> int:
    """The column after the code point at a place of a link, which is in the line of that place; the column of the place
    if there is no code point, as at the end of the link."""
    line, column = places.position(link.place(place))
    if place >= len(link.text):
        return column
    last_line, end = places.position(link.place(place + 1))
    return end if last_line == line and end >= column else column + 1
