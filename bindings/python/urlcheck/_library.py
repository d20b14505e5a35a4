"""The library, called by the extension module ``_native``, and the error if Python has no module that fits."""

import os
import sys

PROGRAM = "urlcheck-documents"
"""The program over this package."""


def _is_asked_for() -> bool:
    """Whether Python loads the package to run the program: by its name, or by ``-m``, where it loads the package before
    the module. (Before 3.10 Python doesn't tell that.)"""
    if sys.argv[:1] == ["-m"]:
        words = getattr(sys, "orig_argv", [])
        return any(pair in zip(words, words[1:]) for pair in (("-m", "urlcheck"), ("-m", "urlcheck.documents")))
    # (on Windows it has an ending)
    return [os.path.basename(word).partition(".")[0] for word in sys.argv[:1]] == [PROGRAM]


def _unloaded(why: str) -> BaseException:
    """What is raised if no module fits: an ``ImportError``, and for the program an end with status 2, once its standard
    error says why."""
    said = (
        "the module urlcheck._native {}; the wheel of a release has it, and 'tools/build-library DIR' makes it in a "
        "checkout"
    ).format(why)
    if not _is_asked_for():
        return ImportError(said)
    # (there is no standard error where it was closed before the start, and it may take nothing)
    try:
        if sys.stderr is not None:
            print("{}: {}".format(PROGRAM, said), file=sys.stderr, flush=True)
    except OSError:
        os.dup2(os.open(os.devnull, os.O_WRONLY), 2)
    return SystemExit(2)


try:
    import urlcheck._native as native
except ImportError as error:
    raise _unloaded("can't be loaded: {}".format(error)) from None

__all__ = ["native"]
