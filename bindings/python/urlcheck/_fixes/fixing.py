"""The fixes of a document: which texts are written in place of its refused links, and the document that this
gives."""

import bisect
import codecs
import hashlib
import re
from typing import Callable, Iterable, List, NamedTuple, Optional, Sequence, Tuple

from .. import MendKind
from .._readers.source import Contents
from .._reports.checker import Writing, Wrong
from .._reports.names import Name
from .edits import Edit, difference, edited, encoded, in_order

_HOST = re.compile(r"(?:[A-Za-z][A-Za-z0-9+.-]*:[/\\]*|[/\\]{2,})(?:[^/\\?#@]*@)?([^/\\?#:]*)")
"""What a text with a host begins with, as parsers read it; its group is the host."""

_NUMBERS = re.compile(r"(?:0[xX][0-9A-Fa-f]*|[0-9]+)(?:\.(?:0[xX][0-9A-Fa-f]*|[0-9]+))*\.?")
"""A host that parsers read as the numbers of an IPv4 address, octal ones and those in hex among them."""

_PASSED_OVER = str.maketrans("", "", "\t\n\r")
"""What parsers take out of a text."""


Read = Callable[[bytes], Contents]
"""What finds the links of a document."""


class Fixing(NamedTuple):
    """Which texts are written in place of links, and where."""

    is_unsafe: bool
    """Whether those are too that may be other URLs."""
    is_shown: bool
    """Whether nothing is written, and the difference is shown."""


class Fixed(NamedTuple):
    """A document in which texts are written in place of links."""

    digest: bytes
    """What tells the document's bytes, as they were read, from others."""
    data: bytes
    difference: bytes
    """What is written otherwise, as a unified diff; empty when that isn't wanted."""
    texts: int
    """How many texts are written."""


UNSAFE = "perhaps another URL"
"""Why a text isn't written that would be if unsafe fixes were."""

IN_BOOK = "in a book"
CHANGING = "next to a link that would change"
UNREAD = "in a document that can't be read to its end"
_NOT_OFFERED = "with nothing offered"
_TEMPLATE = "a template"
_NUMBERED = "with a host of numbers"
_ESCAPED = "with escapes of its document"


def why_left(text: str, wrong: Wrong, writing: Optional[Writing], is_unsafe: bool) -> Optional[str]:
    """Why what may be written in place of a wrong link isn't without asking its author, or nothing if it is: it is
    offered, and it is the same URL or the same text percent-encoded, of what surely is a link; that, but for the offer,
    doesn't count if ``is_unsafe``. For a host that is read as numbers it never is, since these may be read differently
    than they look."""
    if wrong.mended is None or not wrong.mended.is_offered:
        # (that it looks like a template is said only in the message)
        return _TEMPLATE if "; this looks like a template:" in wrong.message else _NOT_OFFERED
    host = _HOST.match(text.translate(_PASSED_OVER))
    if host and _NUMBERS.fullmatch(host[1]):
        return _NUMBERED
    if writing is None:
        return _ESCAPED
    is_safe = writing.is_certain and wrong.mended.kind is not MendKind.CHANGED
    return None if is_unsafe or is_safe else UNSAFE


def more_texts(edits: Sequence[Edit], others: Sequence[Edit]) -> int:
    """How many more texts are written with both of these than with only the first."""
    return len(in_order([*edits, *others])) - len(in_order(edits))


def digest_of(data: bytes) -> bytes:
    """What tells bytes from others."""
    return hashlib.sha256(data).digest()


def are_read_alike(before: Contents, after: Contents, edits: Sequence[Edit]) -> bool:
    """Whether the links that are read after these edits are those before them, but for the texts that were written."""
    written = {edit.start: edit.read for edit in edits}
    ends, shifts = _shifts(edits)
    wanted: List[Tuple[int, str]] = []
    for link in before.links:
        slot = link.slot(before.source) if link.offset in written else None
        text = link.text if slot is None else written[link.offset]
        wanted.append((link.offset + shifts[bisect.bisect_right(ends, link.offset)], text))
    return sorted(wanted) == sorted((link.offset, link.text) for link in after.links)


def _shifts(edits: Sequence[Edit]) -> Tuple[List[int], List[int]]:
    """Returns the end of each edit, and by how much everything after it has moved."""
    shifts = [0]
    for edit in edits:
        shifts.append(shifts[-1] + len(edit.text) - (edit.end - edit.start))
    return [edit.end for edit in edits], shifts


def fixed(
    data: bytes, found: Contents, texts: Iterable[Edit], read: Read, name: Optional[Name]
) -> Optional[Tuple[Fixed, Contents]]:
    """The document of these bytes, in which these links were found, after edits, and what is found in it then. There is
    none without edits, if a reader stopped, or if the links found then aren't the earlier ones with the texts of the
    edits. If it has a name, the difference is wanted."""
    edits = in_order(texts)
    if not edits or found.broken is not None:
        return None
    new = encoded(edited(found.source.text, edits), data)
    after = read(new)
    if after.broken is not None or not are_read_alike(found, after, edits):
        return None
    shown = "" if name is None else difference(name, found.source, edits, data.startswith(codecs.BOM_UTF8))
    return Fixed(digest_of(data), new, shown.encode("utf-8", "surrogateescape"), len(edits)), after
