"""What comments and patterns leave out of what is wrong with the links of a document, and the warnings about the
comments."""

import re
from typing import Dict, FrozenSet, Iterator, List, NamedTuple, Optional, Sequence, Set, Tuple

from .._readers.source import Comment, Link
from .checker import Checker, Wrong
from .rules import NAMES, NoRule, rules_of

_FORM = re.compile(r"urlcheck:\s*ignore(?P<file>-file)?\s*(?:\[(?P<rules>[^\]]*)\])?")
"""What a comment says: that links are meant as they are, or that violations of these rules are; on its line, or in the
file."""

_FORMS = "there are 'urlcheck: ignore', 'urlcheck: ignore[RULES]' and 'urlcheck: ignore-file'"

_MOST_SHOWN = 60
"""How many code points are shown of a comment that isn't understood."""


class Remark(NamedTuple):
    """Something about a comment."""

    offset: int
    """Where it begins in the source."""
    message: str


class _Meant(NamedTuple):
    """What a comment says."""

    is_of_file: bool
    rules: FrozenSet[str]
    """The rules whose violations are meant; all rules if it names none."""
    is_of_links: bool
    """Whether it names no rules, so that a link isn't looked at."""


class _Group:
    """The comments about the links of a line, or of the file, taken together."""

    def __init__(self, comments: Sequence[Tuple[Comment, _Meant]]) -> None:
        self.comments = comments
        self.rules: FrozenSet[str] = frozenset().union(*(meant.rules for _, meant in comments))
        self.is_of_links = any(meant.is_of_links for _, meant in comments)
        self.needed: Set[str] = set()
        """The rules that a link violates."""


class Ignoring:
    """The comments of a document, and the patterns of links that are left out. What comments say is put together once for
    each line and for the file."""

    def __init__(self, comments: Sequence[Comment], patterns: Sequence["re.Pattern[str]"] = ()) -> None:
        self._patterns = patterns
        self._meant: Dict[Comment, _Meant] = {}
        self._remarks: List[Remark] = []
        for comment in comments:
            self._take(comment)
        self._of_file = _Group([it for it in self._meant.items() if it[1].is_of_file])
        # (by the identity of what all links of a line share, which is kept next to its group)
        self._of_lines: Dict[int, Tuple[Sequence[Comment], _Group]] = {}

    def _take(self, comment: Comment) -> None:
        """Takes what a comment says, or why it isn't understood."""
        found = _FORM.fullmatch(comment.text)
        if found is None:
            shown = " ".join(comment.text.split())[:_MOST_SHOWN]
            self._remarks.append(Remark(comment.offset, "'{}' isn't understood; {}".format(shown, _FORMS)))
            return
        try:
            rules = frozenset(NAMES) if found["rules"] is None else rules_of([found["rules"]])
            self._meant[comment] = _Meant(found["file"] is not None, rules, found["rules"] is None)
        except NoRule as no_rule:
            self._remarks.append(Remark(comment.offset, "'{}': {}".format(comment.text, no_rule)))

    def _about(self, link: Link) -> List[_Group]:
        """The groups of comments about a link, if it has some that are understood."""
        if not self._meant:
            return []
        about = link.comments
        if about and id(about) not in self._of_lines:
            nearer = [(it, self._meant[it]) for it in about if it in self._meant and not self._meant[it].is_of_file]
            self._of_lines[id(about)] = about, _Group(nearer)
        groups = [self._of_lines[id(about)][1], self._of_file] if about else [self._of_file]
        return [it for it in groups if it.comments]

    def is_about(self, link: Link) -> bool:
        """Whether a comment is about a link."""
        return bool(self._about(link))

    def leaves_out(self, link: Link) -> bool:
        """Whether a link is left out, whatever is wrong with it."""
        is_of_links = any(it.is_of_links for it in self._about(link))
        return is_of_links or any(it.search(link.text) for it in self._patterns)

    def wrong(self, checker: Checker, link: Link) -> Tuple[Optional[Wrong], bool]:
        """What is wrong with a link but for what comments leave out, and whether the link is left out."""
        found = checker.wrong(link)
        about = self._about(link)
        left, without = found, set()
        while left is not None and any(left.rule in it.rules for it in about):
            for group in about:
                group.needed.add(left.rule)
            without.add(left.rule)
            left = checker.wrong(link, frozenset(without))
        return left, self.leaves_out(link) or (found is not None and left is None)

    def remarks(self, is_all: bool) -> Iterator[Remark]:
        """What is said about the comments, after all links were looked at: which ones aren't understood, and if
        everything is reported also which ones aren't needed."""
        yield from self._remarks
        groups = [self._of_file, *(it for _, it in self._of_lines.values())]
        needed = {it for group in groups for it, meant in group.comments if meant.rules & group.needed}
        for comment, meant in self._meant.items() if is_all else ():
            if comment not in needed:
                which = "no link of the document" if meant.is_of_file else "no link that it is about"
                what = "is refused" if meant.is_of_links else "is refused by that"
                yield Remark(comment.offset, "'{}' isn't needed: {} {}".format(comment.text, which, what))
