"""What the runs of documents share: folders with files in them, lines of bash over ``urlcheck-documents`` in such a
folder, and what is asked of all that it says. The package is on PYTHONPATH."""

import importlib.util
import os
import re
import signal
import subprocess
import sys
from typing import Dict, List, Mapping, NamedTuple, Sequence, Tuple, Union

HERE = os.path.dirname(os.path.abspath(__file__))
TOP = os.path.dirname(os.path.dirname(os.path.dirname(HERE)))
COMMAND = (sys.executable, "-m", "urlcheck.documents")

MOST_SECONDS = 120
"""How long a line may take by the clock, on a machine that does much else."""

MOST_COLUMNS = 160
"""How long a line on standard error may be: two lines of 80 columns."""

_SHELL = """set -uo pipefail
ud() {{ {} -m urlcheck.documents "$@"; }}
python() {{ {} "$@"; }}
"""
"""What comes before a line: ``ud`` is the program."""

_CONTROL = re.compile("[\x00-\x08\x0b-\x1f\x7f-\x9f\u200e\u200f\u202a-\u202e\u2066-\u2069]")

Data = Union[str, bytes]


class Ran(NamedTuple):
    """How a line ended, and what it wrote."""

    status: int
    out: str
    err: str


def are_there(modules: Sequence[str]) -> bool:
    """Whether these modules of Python are installed."""
    return all(map(importlib.util.find_spec, modules))


def as_bytes(data: Data) -> bytes:
    """A file's bytes."""
    return data.encode("utf-8", "surrogateescape") if isinstance(data, str) else data


def make(room: str, files: Mapping[str, Data]) -> None:
    """Makes these files in a folder, with the folders that their names have."""
    for name, data in files.items():
        path = os.path.join(room, name)
        os.makedirs(os.path.dirname(path), exist_ok=True)
        with open(path, "wb") as file:
            file.write(as_bytes(data))


def held(room: str) -> Dict[str, bytes]:
    """The bytes of each file below a folder, by its name there; links and what isn't a file are passed over."""
    found = {}
    for folder, _, names in os.walk(room):
        for name in names:
            path = os.path.join(folder, name)
            if os.path.isfile(path) and not os.path.islink(path):
                with open(path, "rb") as file:
                    found[os.path.relpath(path, room)] = file.read()
    return found


def run(room: str, line: str, more: Mapping[str, str] = {}) -> Ran:
    """Runs a line of bash in a folder, with these variables besides. Raises ``subprocess.TimeoutExpired``, and then nothing of
    it still runs."""
    python = "'{}'".format(sys.executable)
    environment = {**os.environ, "PYTHONDONTWRITEBYTECODE": "1", "TOP": TOP, **more}
    began = subprocess.Popen(
        ["bash", "-c", _SHELL.format(python, python) + line],
        cwd=room,
        env=environment,
        stdin=subprocess.DEVNULL,
        stdout=subprocess.PIPE,
        stderr=subprocess.PIPE,
        start_new_session=True,
    )
    try:
        said = began.communicate(timeout=MOST_SECONDS)
    except subprocess.TimeoutExpired:
        os.killpg(began.pid, signal.SIGKILL)
        began.communicate()
        raise
    out, err = (it.decode("utf-8", "surrogateescape") for it in said)
    # (what the room is called says nothing of how long a message is)
    return Ran(began.returncode, out, err.replace(os.path.realpath(room) + "/", "").replace(room + "/", ""))


def unfit(err: str) -> List[str]:
    """What is wrong with the form of what was said on standard error, whatever it says."""
    found = ["a traceback"] * ("Traceback (most recent call last)" in err)
    found += ["a control character"] * bool(_CONTROL.search(err))
    return found + ["a line of {} columns".format(len(line)) for line in err.splitlines() if len(line) > MOST_COLUMNS]


def places(out: str) -> List[Tuple[str, int, int, str]]:
    """The file, the line, the column and the rule of each line of a report of the format ``gnu``."""
    found = re.findall(r"^(.*?):(\d+):(\d+): error: .* \[([a-z0-9-]+)\]$", out, re.MULTILINE)
    return [(name, int(line), int(column), rule) for name, line, column, rule in found]


def end(part: str, failed: Sequence[str], passed: str) -> None:
    """Says what failed and ends with status 1, or says what passed."""
    for it in failed:
        print("FAILED: {}: {}".format(part, it))
    if failed:
        sys.exit(1)
    print("documents: {}: {}".format(part, passed))
