"""Comments of documents that say which links are meant as they are."""

import re
from typing import Dict, List, Sequence, Set, Tuple

from .source import Comment, Link, Source

_OURS = re.compile(r"\s*urlcheck(?:\s*:|[\s_-]+(?:ignore|disable|noqa|skip)\b)", re.IGNORECASE)
"""How a comment begins that is for this program, or was to be."""


_NOTHING = " \t\r>"
"""What a line has that counts as empty: spaces, and what quotes an empty line in Markdown."""


def comments_of(text: str, offset: int) -> Tuple[Comment, ...]:
    """The comment of this text, which begins there in the source, if it is one for this program."""
    return (Comment(text.strip(), offset, text.count("\n")),) if _OURS.match(text) else ()


def covered(source: Source, links: List[Link], comments: Sequence[Comment]) -> List[Link]:
    """These links of a source, each with the comments that are about it: those on the line where it begins, or on the
    line before, if no link is on the comment's own line. Empty lines don't count."""
    if not comments:
        return links
    lines = [source.position(link.offset)[0] for link in links]
    about: Dict[int, List[Comment]] = {}
    for line, comment in _lines_of(source, set(lines), comments):
        about.setdefault(line, []).append(comment)
    # (all links of a line share what is about them)
    shared = {line: tuple(those) for line, those in about.items()}
    return [link._replace(comments=shared[line]) if line in shared else link for link, line in zip(links, lines)]


def _lines_of(source: Source, linked: Set[int], comments: Sequence[Comment]) -> List[Tuple[int, Comment]]:
    """The lines that each comment is about, of a source whose links begin on those lines."""
    found = []
    after: Dict[int, int] = {}
    for comment in comments:
        first = source.position(comment.offset)[0]
        last = first + comment.line_feeds
        own = [line for line in range(first, last + 1) if line in linked]
        if not own and last not in after:
            after[last] = _line_after(source, last)
        found += [(line, comment) for line in own or [after[last]]]
    return found


def _line_after(source: Source, line: int) -> int:
    """The next line that isn't empty, or the one after the last."""
    last = source.position(len(source.text))[0]
    line += 1
    while line <= last and not source.line(line).strip(_NOTHING):
        line += 1
    return line
