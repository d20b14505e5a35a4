"""Commands as people give them, each with its right end: its status, what it says, and what the files hold then.
cases.py [TEXT] runs those whose names have TEXT. PROGRAM is the program ``urlcheck``; the package is on PYTHONPATH."""

import importlib
import os
import re
import shutil
import subprocess
import sys
import tempfile
from concurrent.futures import ThreadPoolExecutor
from typing import List, Mapping, NamedTuple, Optional, Tuple

from rooms import Data, are_there, as_bytes, end, held, make, run, unfit

TOPICS = ("kept", "fixes", "templates", "typical", "ended")
"""The modules that have cases."""


class Case(NamedTuple):
    """A line of bash over some files, and its right end."""

    name: str
    files: Mapping[str, Data]
    line: str
    """In it ``ud`` is urlcheck-documents, and ``$PROGRAM`` urlcheck."""
    status: Optional[int]
    """``None`` if nothing is said of it."""
    out: Tuple[str, ...] = ()
    """Regular expressions that standard output has, each at some line; after ``!`` those that it doesn't have."""
    err: Tuple[str, ...] = ()
    """The same of standard error."""
    after: Mapping[str, Optional[Data]] = {}
    """What files hold then, ``None`` where that isn't said. Each other file that was made is as it was."""
    modules: Tuple[str, ...] = ()
    """The modules of Python without which it isn't run."""
    tools: Tuple[str, ...] = ()
    """The same of programs."""


def _unlike(what: str, text: str, wanted: Tuple[str, ...]) -> List[str]:
    """Which of these regular expressions a text should have and hasn't, or the other way round."""
    found = []
    for it in wanted:
        seen = re.search(it[1:] if it.startswith("!") else it, text, re.MULTILINE)
        if it.startswith("!") and seen is not None:
            found.append(
                "{} has {!r}".format(what, text[text.rfind("\n", 0, seen.start()) + 1 :].partition("\n")[0][:200])
            )
        elif not it.startswith("!") and seen is None:
            found.append("{} lacks {!r}: {!r}".format(what, it, text[-300:]))
    return found


def _rewritten(case: Case, room: str) -> List[str]:
    """Which files don't hold what they should."""
    now, wanted = held(room), {**case.files, **case.after}
    found = ["{} was left".format(name) for name in now if re.search(r"\.urlcheck-[^/]*$", name) and name not in wanted]
    for name, data in wanted.items():
        if data is not None and now.get(name) != as_bytes(data):
            found.append("{} holds {!r}".format(name, now.get(name, b"nothing")[:200]))
    return found


def faults_of(case: Case) -> List[str]:
    """What is wrong with the end of a case."""
    with tempfile.TemporaryDirectory() as room:
        make(room, case.files)
        try:
            ran = run(room, case.line)
        except subprocess.TimeoutExpired:
            return ["it doesn't end"]
        found = unfit(ran.err)
        if case.status is not None and ran.status != case.status:
            found.append("status {}, not {}: {!r}".format(ran.status, case.status, (ran.out + ran.err)[-300:]))
        found += _unlike("standard output", ran.out, case.out) + _unlike("standard error", ran.err, case.err)
        return found + _rewritten(case, room)


def is_left_out(case: Case) -> bool:
    """Whether something isn't there without which a case isn't run."""
    return not are_there(case.modules) or not all(map(shutil.which, case.tools))


def main() -> None:
    """Runs the cases, and says how many ended as they should."""
    cases = [
        it
        for topic in TOPICS
        for it in importlib.import_module(topic).CASES
        if not sys.argv[1:] or sys.argv[1] in it.name
    ]
    names = [it.name for it in cases]
    twice = sorted({it for it in names if names.count(it) > 1})
    tried = [it for it in cases if not is_left_out(it)]
    with ThreadPoolExecutor(os.cpu_count()) as pool:
        faults = list(pool.map(faults_of, tried))
    failed = ["{}: {}".format(case.name, "; ".join(it)) for case, it in zip(tried, faults) if it]
    failed += ["two cases are named {}".format(it) for it in twice] + ["no case has that name"] * (not tried)
    left = len(cases) - len(tried)
    if left:
        print("documents: {} commands left out, since a package or a program of theirs isn't installed".format(left))
    end("commands", failed, "each of {} ended as it should".format(len(tried)))


if __name__ == "__main__":
    main()
