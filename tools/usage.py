"""What a script says of itself, and how it ends: its help where that is asked for, how it is called where it is called otherwise,
and a line about what keeps it from its work."""

import os
import signal
import sys
from typing import Callable, List, Optional

# The status where something keeps a script from its work.
BAD_END = 70


class Stopped(Exception):
    """What keeps a script from its work, in words."""


def answered(help_text: str, words: List[str], are_right: bool) -> Optional[int]:
    """Prints the help where the words ask for it, or its first words, up to a colon, where the words aren't right.
    Returns the status to end with, or None where there is work to do.
    """
    if words[:1] in (["-h"], ["--help"]):
        print(help_text.strip())
        return 0
    if are_right:
        return None
    print("usage: " + help_text.strip().partition(":")[0], file=sys.stderr)
    return 2


def run(main: Callable[[], int]) -> None:
    """Runs a script, and ends with the status that it returns, or says in a line what keeps it from its work."""
    for ending in signal.SIGTERM, signal.SIGHUP:
        # (nohup has it ignored)
        if signal.getsignal(ending) == signal.SIG_DFL:
            signal.signal(ending, lambda number, _: sys.exit(128 + number))
    try:
        sys.exit(main())
    except KeyboardInterrupt:
        # (a shell that called it sees by this that it ends too)
        signal.signal(signal.SIGINT, signal.SIG_DFL)
        os.kill(os.getpid(), signal.SIGINT)
    except Stopped as why:
        print(f"urlcheck: {why}", file=sys.stderr)
    except OSError as error:
        what = f"{error.filename}: {error.strerror}" if error.filename else error
        print(f"urlcheck: {what}", file=sys.stderr)
    sys.exit(BAD_END)
