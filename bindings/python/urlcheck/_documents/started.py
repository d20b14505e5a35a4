"""Processes run by Python's own program, which find the package in the same place as their parent."""

import os
import subprocess
import sys
import threading
from typing import IO, Any

_BEGINS = "import sys; sys.path[:] = sys.argv[2:]; __import__('importlib').import_module(sys.argv[1]).serve()"
"""What such a process runs: ``serve`` of a module."""


def started(module: str) -> "subprocess.Popen[bytes]":
    """A process that runs ``serve`` of a module of the package. It looks for modules in the same places as this one,
    and so not in the current folder, which may be a stranger's."""
    words = [sys.executable, "-I", *["-B"] * sys.dont_write_bytecode, "-c", _BEGINS, module]
    words += [os.path.abspath(it) for it in sys.path]
    return subprocess.Popen(words, stdin=subprocess.PIPE, stdout=subprocess.PIPE, stderr=subprocess.DEVNULL)


def hand_on(to: IO[bytes]) -> None:
    """Hands on what comes from standard input, until that or its reader ends."""
    given: Any = sys.stdin.buffer
    threading.Thread(target=_hand_on, args=(given.raw, to), daemon=True).start()


def _hand_on(given: Any, to: IO[bytes]) -> None:
    """Hands on, in a thread of its own, so that what the process answers is read meanwhile."""
    try:
        while True:
            data = given.read(65536)
            if not data:
                break
            to.write(data)
        to.close()
    except (OSError, ValueError):
        # (its reader has ended)
        pass
