"""A baseline: the known faults of a project, so that only new ones are reported.

Each fault has a fingerprint of its document's name, its rule, its place in the link, the link, and which of those that
are equal in these it is in its document. It holds no line, so that it stays what it is where lines are added or taken
away.
"""

import hashlib
import os
from collections import Counter
from typing import Counter as Counts
from typing import Dict, FrozenSet, Iterable, Iterator, List, NamedTuple, Optional, Set, Tuple

from .._streams import named
from .names import Name
from .rules import NAMES

_FIRST = "# urlcheck baseline 1: faults that are known, one a line"
"""What a baseline begins with."""

_DIGITS = 32
"""How many hex digits a fingerprint has."""


class NoBaseline(Exception):
    """Why a file isn't a baseline."""


class Known(NamedTuple):
    """A fault of a baseline."""

    fingerprint: str
    said: str
    """What tells a reader which one it is: the document's name, the rule and the link."""


class Numbered:
    """Counts the faults of a document that are equal but for their lines."""

    def __init__(self, name: Name) -> None:
        self._name = name.in_baseline()
        self._seen: Counts[Tuple[str, int, str]] = Counter()

    def next(self, rule: str, place: int, text: str) -> Tuple[Known, int]:
        """The next fault, and how many equal ones were before it."""
        self._seen[rule, place, text] += 1
        count = self._seen[rule, place, text]
        parts = self._name, rule, str(place), str(count), text
        sum_of = hashlib.sha256("\0".join(parts).encode("utf-8", "surrogateescape"))
        said = named("{} {} {}".format(self._name, rule, text)).replace("\t", "\ufffd")
        return Known(sum_of.hexdigest()[:_DIGITS], said), count - 1


def read(name: str) -> Dict[str, str]:
    """The faults of a baseline: what tells which, by the fingerprint. Raises ``OSError`` and ``NoBaseline``."""
    with open(name, encoding="utf-8", errors="surrogateescape") as file:
        lines = file.read().split("\n")
    if lines[0] != _FIRST:
        raise NoBaseline("isn't a baseline: --write-baseline writes one")
    found: Dict[str, str] = {}
    for number, line in enumerate(lines[1:], 2):
        fingerprint, _, said = line.partition(" ")
        if line and (len(fingerprint) != _DIGITS or set(fingerprint) - set("0123456789abcdef")):
            raise NoBaseline("line {} isn't a fingerprint and a fault".format(number))
        if line:
            found[fingerprint] = said
    return found


def written(faults: Iterable[Known]) -> bytes:
    """A baseline of these faults."""
    lines = sorted("{} {}".format(*it) for it in faults)
    return ("\n".join([_FIRST, *lines]) + "\n").encode("utf-8", "surrogateescape")


class Compared:
    """What a run has seen of the faults of a baseline, and of others."""

    def __init__(self, known: Dict[str, str]) -> None:
        self._known = known
        self._met: Set[str] = set()
        self._whole: Dict[str, FrozenSet[str]] = {}
        self._folders: List[str] = []
        self.new: List[Known] = []
        """The faults that it hasn't, if they are counted."""

    def meet(self, fingerprints: Iterable[str]) -> None:
        """Takes known faults that are there."""
        self._met.update(fingerprints)

    def has_read(self, name: Name, selected: FrozenSet[str]) -> None:
        """Takes that a document was read to its end, and which rules were reported of it."""
        if self._known:
            self._whole[name.in_baseline()] = selected

    def has_walked(self, folder: Name) -> None:
        """Takes that all documents of a folder were found."""
        self._folders.append(folder.in_baseline())

    def kept(self) -> List[Known]:
        """The known faults that are there, or may be: nothing says so of a document that wasn't read to its end."""
        return [Known(*it) for it in self._known.items() if it[0] in self._met or not self._is_gone(it[1])]

    def _is_gone(self, said: str) -> bool:
        """Whether a fault that wasn't met would have been, by what tells which one it is."""
        places = [(name, rule, _there(name)) for name, rule in _documents_of(said)]
        for _, rule, file in places:
            if file is not None:
                return file in self._whole and rule in self._whole[file]
        return any(_is_below(name, folder) for name, *_ in places[:1] for folder in self._folders)


def _documents_of(said: str) -> Iterator[Tuple[str, str]]:
    """The names that the document of a fault may have, and its rule then: a name may have a space, and so a rule."""
    words = said.split(" ")
    for at, word in enumerate(words):
        if word in NAMES and at:
            yield " ".join(words[:at]), word


def _there(name: str) -> Optional[str]:
    """The file that a document is, or is in if that is a book, if it is there."""
    file = name
    while file and not os.path.lexists(file):
        file = os.path.dirname(file)
    return None if os.path.isdir(file or ".") else file


def _is_below(name: str, folder: str) -> bool:
    """Whether a document is in a folder, by their names in a baseline."""
    if folder == ".":
        return not os.path.isabs(name) and name.partition("/")[0] != ".."
    return name.startswith(folder.rstrip("/") + "/")
