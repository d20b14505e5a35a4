"""The colours of reports at a terminal."""

import os
from typing import Any

WHENS = ("auto", "always", "never")
"""When a report has colours."""

COLOURED = ("gnu", "caret")
"""The formats that people read, which may have colours."""


def are_wanted(when: str, stream: Any) -> bool:
    """Whether what is written to this stream has colours. ``NO_COLOR`` and ``FORCE_COLOR`` of the environment count if
    they aren't empty, as no-color.org and force-color.org say. Emacs finds places only in plain text."""
    if when != "auto":
        return when == "always"
    if os.environ.get("NO_COLOR"):
        return False
    if os.environ.get("FORCE_COLOR"):
        return True
    if os.environ.get("TERM") == "dumb" or os.environ.get("INSIDE_EMACS"):
        return False
    return stream is not None and stream.isatty()
