"""How often each rule is violated in documents, and which wrong links are there more than once."""

from collections import Counter
from typing import Counter as Counts
from typing import Iterator

from .._streams import named
from .rules import rule_of

_MOST_LINKS = 100_000
"""How many different links are counted; of any more only the rules count."""

_MOST_SHOWN = 50
"""How many of the links that are there more than once are shown."""


class Statistics:
    """The counts of a run."""

    def __init__(self) -> None:
        self._rules: Counts[str] = Counter()
        self._links: Counts[str] = Counter()

    def add(self, rule: str, text: str) -> None:
        """Counts a wrong link."""
        self._rules[rule] += 1
        if text in self._links or len(self._links) < _MOST_LINKS:
            self._links[text] += 1

    def said(self) -> str:
        """The counts, the greatest first: a line a rule, and then a line a link that is there more than once."""
        return "".join(line + "\n" for line in self._lines())

    def _lines(self) -> Iterator[str]:
        """The lines of the counts. A tab in a link would be read as the end of a column."""
        for rule, count in sorted(self._rules.items(), key=lambda it: (-it[1], it[0])):
            yield "{:>7}  {:<19}  {}".format(count, rule, rule_of(rule).sentence)
        often = [it for it in self._links.items() if it[1] > 1]
        if often:
            yield ""
        for text, count in sorted(often, key=lambda it: (-it[1], it[0]))[:_MOST_SHOWN]:
            yield "{:>7}  {}".format(count, named(text).replace("\t", "\ufffd"))
        if len(often) > _MOST_SHOWN:
            yield "{:>7}  further links that are there more than once".format(len(often) - _MOST_SHOWN)
