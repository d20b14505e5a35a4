"""The names of documents, as each kind of output has them: only here is one joined or escaped."""

import os
import re
from typing import NamedTuple

from .._streams import named

_HERE = re.compile(r"\A(?:\./+)+(?=.)")
"""What comes before the name of a file of the current folder, if that is written."""

_CONTROL = re.compile("[\x00-\x1f\x7f-\x9f]")
"""What no located line can hold in the name of its file."""

_PLACE = re.compile(":[0-9]+:[0-9]+:")
"""What ends the name of the file in a located line."""

_ESCAPED = re.compile(r'[\x00-\x1f\x7f"\\]')
"""What stands as ``\\`` and three octal digits in a name between quotes, as ``patch`` and ``git apply`` read it."""


class Unlisted(Exception):
    """Why no located line can hold a name."""


def readable(name: str) -> str:
    """A name as a text: U+FFFD stands for what isn't UTF-8."""
    return name.encode("utf-8", "surrogateescape").decode("utf-8", "replace")


class Name(NamedTuple):
    """The name of a document, with a surrogate for each byte that isn't UTF-8."""

    file: str
    """The name of its file, as it was given or found, or ``-``."""
    inner: str = ""
    """The name of the document in it, if it holds others."""

    def __str__(self) -> str:
        return self.file + "/" + self.inner if self.inner else self.file

    def shown(self) -> str:
        """As people read it."""
        return "standard input" if self == ("-", "") else named(str(self)) or "''"

    def in_report(self, format: str) -> str:
        """As a report has it: programs compare it with the names of files, which have no ``./`` before them."""
        if format == "gnu":
            # (in a line no control may be as it is)
            return named(str(self))
        return str(self) if format == "caret" else _HERE.sub("", str(self))

    def in_list(self) -> str:
        """As a located line begins with it. Raises ``Unlisted``."""
        name = str(self)
        if _CONTROL.search(name):
            raise Unlisted("its name has a control, which no located line can hold")
        place = _PLACE.search(name + ":1:1:")
        if place is not None and place.start() != len(name):
            raise Unlisted("its name has what a located line would read as its line and column")
        return name

    def in_baseline(self) -> str:
        """The name as a baseline has it: the same for each way to write it."""
        return os.path.normpath(str(self)).replace(os.sep, "/")

    def in_difference(self) -> str:
        """As the head of a difference has it, from the current folder on."""
        name = os.path.normpath(str(self))
        if os.path.isabs(name):
            below = os.path.relpath(name)
            name = name if below.startswith(os.pardir) else below
        name = name.replace(os.sep, "/")
        if _ESCAPED.search(name) or name.startswith(" "):
            return '"{}"'.format(_ESCAPED.sub(lambda it: "\\{:03o}".format(ord(it[0])), name))
        # (a tab ends a name with a space)
        return name + "\t" if " " in name else name
