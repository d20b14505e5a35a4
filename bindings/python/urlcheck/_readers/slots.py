"""The place of a link in its document, and how a text is written there: in an attribute, in a string, in angle
brackets. Each reader has the syntaxes that it reads."""

from typing import Callable, NamedTuple, Optional


class Syntax(NamedTuple):
    """How texts are written at a place of a document."""

    read: Callable[[str], Optional[str]]
    """What readers see of what is written there, or nothing if it doesn't end there or isn't read."""
    write: Callable[[str, str], str]
    """What stands there for a text in place of what was written there before, whose escapes it keeps to."""

    def within(self, outer: "Syntax") -> "Syntax":
        """This syntax, in a text that is itself written in another one, as CSS is in an attribute."""
        if outer is AS_IT_IS:
            return self

        def read(raw: str) -> Optional[str]:
            text = outer.read(raw)
            return None if text is None else self.read(text)

        def write(text: str, raw: str) -> str:
            return outer.write(self.write(text, outer.read(raw) or ""), raw)

        return Syntax(read, write)


AS_IT_IS = Syntax(lambda raw: raw, lambda text, _: text)
"""That of a text that is read as it is written."""

NOWHERE = Syntax(lambda _: None, lambda text, _: text)
"""That of a text in whose place no other is written."""


class Slot(NamedTuple):
    """The place of a link in its source, from place to place in code points from 0, and how it is written."""

    start: int
    end: int
    raw: str
    """What is written there."""
    syntax: Syntax
    is_certain: bool
    """Whether that is surely a link, and not a text that only looks like one."""

    def write(self, text: str) -> Optional[str]:
        """What stands there for a text, or nothing if it would be read as another."""
        raw = self.syntax.write(text, self.raw)
        return raw if self.syntax.read(raw) == text else None


def as_before(text: str, raw: str, points: str, escaped: Callable[[str], str]) -> str:
    """A text in which each of these code points is escaped that isn't as it is in what was written before, and what is
    beyond ASCII if nothing there was."""
    wanted = set(points) - set(raw)
    is_plain = not raw.isascii()
    return "".join(escaped(it) if it in wanted or not (is_plain or it.isascii()) else it for it in text)
