"""How texts are written in XML: in elements and in attributes."""

import re
from typing import Optional

from .slots import Syntax, as_before

MARKUP = re.compile("[&<]")
"""What isn't read as it is where references are read."""

_KNOWN_REFERENCE = re.compile("&(?:#(?P<digits>[0-9]{1,7})|#x(?P<hex>[0-9A-Fa-f]{1,6})|(?P<name>lt|gt|amp|quot|apos));")
_NAMED = {"lt": "<", "gt": ">", "amp": "&", "quot": '"', "apos": "'"}


def _read(raw: str) -> Optional[str]:
    """What a parser reads in a text with no markup but references; nothing if it has other markup."""
    if MARKUP.search(_KNOWN_REFERENCE.sub("", raw)):
        return None
    return _KNOWN_REFERENCE.sub(_referred, raw.replace("\r\n", "\n"))


def _referred(found: "re.Match[str]") -> str:
    """What a reference stands for."""
    if found["name"]:
        return _NAMED[found["name"]]
    number = int(found["digits"]) if found["digits"] else int(found["hex"], 16)
    return chr(number) if number <= 0x10FFFF else ""


def _write(text: str, raw: str) -> str:
    """A text as XML has it."""
    text = text.replace("&", "&amp;").replace("<", "&lt;")
    return as_before(text, raw, "\"'>", lambda point: "&#{};".format(ord(point)))


TEXT = Syntax(_read, _write)
"""That of an element's text."""

ATTRIBUTE = Syntax(lambda raw: _read(re.sub("\r\n|[\t\n\r]", " ", raw)), _write)
"""That of an attribute's value."""
