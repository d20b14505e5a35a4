"""The first answer: what the program answers when `rt try` runs it without any proof, while it is proved and built."""

import contextlib
import os
import re
import signal
import subprocess
import tempfile
import threading

from machine import processors

# The words that a call begins with which needs no file and no standard input.
TAKEN = {"check", "explain", "help", "--help", "-h", "--version", "-V"}

# What `rt try` takes, in bytes.
MEMORY = 1_800_000_000

# What `rt try` says last of a program that has ended.
ENDED = re.compile(rb"^run=ended status=(\d+) ", re.MULTILINE)


def look(child, said, log, say):
    """Waits for the answer, and says it."""
    child.wait()
    said.seek(0)
    log.seek(0)
    if ended := ENDED.search(log.read()):
        for line in said.read().decode("utf-8", "replace").splitlines():
            say(f"urlcheck: not proved yet: {line}")
        say(f"urlcheck: not proved yet: status {ended[1].decode()}. Ctrl-C ends the build; the next call goes on with it")


@contextlib.contextmanager
def beside(words, say):
    """The time in which the answer to these words is looked for, if it can be, and said."""
    if not words or words[0] not in TAKEN:
        yield
        return
    say("urlcheck: an answer without proofs comes first, in one to two minutes")
    # (with few processors the build goes first)
    command = ["nice", "-n", "0" if processors() > 3 else "5", "rt", "try", "--", *words]
    with tempfile.TemporaryFile() as said, tempfile.TemporaryFile() as log:
        child = subprocess.Popen(
            command, cwd="crates/urlcheck", stdin=subprocess.DEVNULL, stdout=said, stderr=log, start_new_session=True
        )
        looker = threading.Thread(target=look, args=(child, said, log, say), daemon=True)
        looker.start()
        try:
            yield
        finally:
            with contextlib.suppress(ProcessLookupError):
                os.killpg(child.pid, signal.SIGKILL)
            looker.join()
