"""What the program writes to standard output and says on standard error, and why a file can't be read or written."""

import errno
import io
import os
import re
import sys

REASONS = {
    errno.ENOENT: "there is no such file",
    errno.EISDIR: "it is a folder",
    errno.ENOTDIR: "a part of its path is no folder",
    errno.EACCES: "permission denied",
    errno.EPERM: "permission denied",
    errno.ELOOP: "its symbolic links lead in a circle",
    errno.ENAMETOOLONG: "its name is too long",
    errno.EBUSY: "it is in use",
    errno.ETIMEDOUT: "the system took too long",
    errno.ESTALE: "it is no longer on its server",
    errno.ENOSPC: "no space is left",
    errno.EDQUOT: "the quota is used up",
    errno.EFBIG: "the file may not get larger",
}
"""Why a file can't be read or written, as ``urlcheck`` says it; any other reason is said in the system's words."""


_DRIVES = re.compile("[\x00-\x08\x0b-\x1f\x7f-\x9f\u061c\u200e\u200f\u2028-\u202e\u2066-\u2069]")
"""What drives a terminal: controls but the tab and the line feed, and what ends a line or turns a text's direction."""


class Unwritable(Exception):
    """Why a report, or what else was asked for, can't be written, in the words that are printed; none if its reader has
    ended."""

    @classmethod
    def by(cls, name: str, error: OSError) -> "Unwritable":
        """That something of that name can't be, for the system's reason."""
        return cls("" if is_closed_pipe(error) else "{}: can't be written: {}".format(name, reason_of(error)))


def named(name: str) -> str:
    """A name as lines show it: U+FFFD stands for a control but the tab, and for what turns its direction."""
    return _DRIVES.sub("\ufffd", name).replace("\n", "\ufffd")


_MOST_SHOWN = 120
"""How many code points are shown of a link, which may have a whole picture in it."""


def shown(link: str) -> str:
    """A link as a build's warning shows it: of a long one the beginning, and how long it is."""
    return named(link if len(link) <= _MOST_SHOWN else "{}.. ({} code points)".format(link[:_MOST_SHOWN], len(link)))


def reason_of(error: OSError) -> str:
    """Why the system couldn't do what was asked of it."""
    return REASONS.get(error.errno or 0) or str(error.strerror or error)


def as_utf8() -> None:
    """On Windows standard error has UTF-8 too, with lines that end as elsewhere."""
    if sys.platform == "win32" and isinstance(sys.stderr, io.TextIOWrapper):
        sys.stderr.reconfigure(encoding="utf-8", errors="backslashreplace", newline="\n")


def is_closed_pipe(error: OSError) -> bool:
    """Whether the reader of the output has ended. (Windows has no error of its own for that.)"""
    return isinstance(error, BrokenPipeError) or sys.platform == "win32" and error.errno == errno.EINVAL


def closed() -> OSError:
    """What is raised if a stream was closed before the start."""
    return OSError(errno.EBADF, os.strerror(errno.EBADF))


def line_of(words: str) -> str:
    """A line of standard error, after the program's name. U+FFFD stands for what drives a terminal."""
    return "urlcheck-documents: " + named(words).replace("\t", "\ufffd") + "\n"


def tell(words: str) -> None:
    """Writes a line to standard error, after the program's name."""
    say(line_of(words))


def say(lines: str) -> None:
    """Writes lines to standard error, in one piece, since others may write there at the same time. If that takes
    nothing, only the status says what happened."""
    try:
        if sys.stderr is not None:
            sys.stderr.write(lines)
    except OSError:
        write_nowhere(2)


def stop(line: str) -> int:
    """Says why nothing is read, and gives the status of that."""
    tell(line)
    return 2


_OUTPUT = "standard output"


def write(lines: bytes, is_coloured: bool = False) -> None:
    """Writes whole lines, as they are; to a terminal what drives it is shown as U+FFFD, but for colours, in which the
    library has written nothing else that does. Raises ``Unwritable``."""
    if not lines:
        return
    # (there is none if it was closed before the start)
    if sys.stdout is None:
        raise Unwritable.by(_OUTPUT, closed())
    if sys.stdout.isatty() and not is_coloured:
        lines = _DRIVES.sub("\ufffd", lines.decode("utf-8", "surrogateescape")).encode("utf-8", "surrogateescape")
    try:
        sys.stdout.buffer.write(lines)
        if sys.stdout.isatty():
            sys.stdout.buffer.flush()
    except OSError as error:
        raise Unwritable.by(_OUTPUT, error) from None


def flush() -> None:
    """Writes out what was written. Raises ``Unwritable``."""
    try:
        if sys.stdout is not None:
            sys.stdout.buffer.flush()
    except OSError as error:
        raise Unwritable.by(_OUTPUT, error) from None


def write_nowhere(number: int) -> None:
    """What is left to be written to this file goes nowhere, so that Python's own end says nothing of it."""
    os.dup2(os.open(os.devnull, os.O_WRONLY), number)
