"""What each rule requires, and where to read about it: the rules of the URL Standard, and the rules of the formats of
documents, which apply only to links in documents. Which of them are reported."""

import difflib
from typing import Dict, FrozenSet, Iterable, NamedTuple, Optional

from .. import RULES, MendKind, explain
from .._readers.source import Asks
from . import report


class Rule(NamedTuple):
    """A rule."""

    name: str
    sentence: str
    """What is wrong at the place of a violation."""
    requires: str
    """What it requires, in a sentence."""
    url: str
    """Where that is."""


EMPTY = "empty"
NO_LINK = "no-link"

OF_FORMATS: Dict[str, Rule] = {
    EMPTY: Rule(
        EMPTY,
        "this link is empty, which its format forbids here",
        "A link of an image, a script, a frame, a form's address or a link element isn't empty.",
        "https://html.spec.whatwg.org/multipage/urls-and-fetching.html"
        "#valid-non-empty-url-potentially-surrounded-by-spaces",
    ),
    NO_LINK: Rule(
        NO_LINK,
        "Markdown reads this as text, because its address has a space: write %20",
        "A destination of Markdown has no space, unless < and > enclose it: it is percent-encoded as %20.",
        "https://spec.commonmark.org/0.31.2/#link-destination",
    ),
}
"""The rules of formats, by their names."""

OF_ASKS = {Asks.SOME: EMPTY, Asks.ANOTHER: NO_LINK}
"""The rule of what a format requires, if it is one of these."""


def rule_of(name: str) -> Rule:
    """The rule of that name. Raises ``KeyError`` if there is none."""
    if name in OF_FORMATS:
        return OF_FORMATS[name]
    explained = explain(name)
    return Rule(name, explained.sentence, explained.requires, explained.url)


def address_of(name: str) -> str:
    """Where one can read about a rule. Raises ``KeyError`` if none has that name."""
    return OF_FORMATS[name].url if name in OF_FORMATS else report.address_of(name)


NAMES = (*RULES, *OF_FORMATS)
"""The names of all rules."""

ALL = frozenset(NAMES)

TITLES = {
    MendKind.SAME: "Write {} (the same URL)",
    MendKind.ESCAPED: "Percent-encode: {}",
    MendKind.CHANGED: "Write {} (perhaps another URL)",
}
"""What an editor calls the writing of a mended text, by its kind."""


class NoRule(ValueError):
    """A name that isn't a rule's."""

    def __init__(self, name: str) -> None:
        near = nearest(name, 0.6)
        super().__init__("no rule is named '{}'{}".format(name, "; the nearest is " + near if near else ""))


def nearest(name: str, least: float = 0.8) -> Optional[str]:
    """The rule whose name is near to another one by at least this much of 1, if one is."""
    near = difflib.get_close_matches(name.strip().lower(), NAMES, 1, least)
    return near[0] if near else None


def rules_of(words: Iterable[str]) -> FrozenSet[str]:
    """The rules that these words name, each one or several with commas between. Raises ``NoRule``."""
    names = [name.strip().lower() for word in words for name in word.split(",")]
    for name in names:
        if name not in NAMES:
            raise NoRule(name)
    return frozenset(names)


def are_rules(word: str) -> bool:
    """Whether a word names rules, with commas between."""
    return all(name.strip().lower() in NAMES for name in word.split(","))
