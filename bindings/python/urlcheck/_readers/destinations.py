"""How destinations of Markdown are written, by the package ``markdown-it-py``: without brackets, between ``<`` and
``>``, and with a space, so that they aren't destinations."""

import re
from typing import Optional

from .slots import Syntax
from .source import Asks, Link, read
from .spaced_links import Spaced

ESCAPE = re.compile(r"\\[!-/:-@\[-`{-~]|&[a-z#][a-z0-9]{1,31};", re.IGNORECASE)
"""What stands for a code point in a destination."""


def unescaped(found: "re.Match[str]") -> str:
    """What an escape or a reference stands for."""
    from markdown_it.common.utils import unescapeAll

    return str(unescapeAll(found[0]))


def _read_destination(written: str) -> Optional[str]:
    """What is read as a destination, if all of it is one."""
    from markdown_it import helpers

    found = helpers.parseLinkDestination(written, 0, len(written))
    return found.str if found.ok and found.pos == len(written) else None


def _write_destination(text: str, raw: str) -> str:
    """A text as a destination: with references where that had some, or where it would be read as one."""
    escaped = re.sub(r"[\\<>]", r"\\\g<0>", text)
    if any(ESCAPE.sub(unescaped, it) != it for it in (raw, text)):
        escaped = escaped.replace("&", "&amp;")
    return escaped if _read_destination(escaped) == text else re.sub("[()]", r"\\\g<0>", escaped)


DESTINATION = Syntax(_read_destination, _write_destination)
"""That of a destination."""

BRACKETED = Syntax(lambda raw: _read_destination("<{}>".format(raw)), _write_destination)
"""That of a destination between ``<`` and ``>``."""

_SPACE = re.compile("[ \t]")

_SPACED = Syntax(
    lambda raw: ESCAPE.sub(unescaped, raw) if _SPACE.search(raw) else _read_destination(raw), _write_destination
)
"""That of a destination that has a space, so that it isn't one, and then of one that has none."""


def spaced_link(spaced: Spaced) -> Link:
    """What looks like a link in a block's content."""
    value, written = read(spaced.text, spaced.begin, ESCAPE, unescaped, _SPACED)
    return written.link(value)._replace(asks=Asks.ANOTHER, is_certain=False)
