"""Runs the tests of the page in each browser that is installed, and then on spoiled copies, each of which has to be
found.

    each_browser.py FOLDER LIMITED CASES PROGRAM

FOLDER is what tools/build-page has made, LIMITED the same with a module whose memory hardly grows, and CASES what
answers.py has written. Words of the environment: BROWSERS names those that are asked for, otherwise all three are; ONLY is
the name of the one test to be run; and with ALL everything is tried in each, otherwise all tests in Chromium, a sample in
the others, and some of the spoiled copies.
"""

from __future__ import annotations

import os
import signal
import sys
import time
import traceback
import unittest
from types import TracebackType
from typing import Optional, Type, Union

import spoiled
import test_lists
import test_looks
import test_texts
from driver import ENGINES, Engine
from session import Given, PageCase, Session

Error = Union[tuple[Type[BaseException], BaseException, TracebackType], tuple[None, None, None]]
CASES: tuple[type[PageCase], ...] = (test_texts.Texts, test_lists.Lists, test_looks.Looks)
# A test that fails says so many characters.
LONGEST = 1200


def tests_of(session: Session, only: str | None) -> list[PageCase]:
    """The tests in the browser of a session, or the test of this name."""
    found: list[PageCase] = []
    for case in CASES:
        here = type(case.__name__, (case,), {"session": session})
        names = unittest.defaultTestLoader.getTestCaseNames(here)
        found += [here(name) for name in names if only is None or name == "test_" + only]
    return found


def title(test: unittest.TestCase) -> str:
    return test.id().rpartition(".test_")[2].replace("_", " ")


class Lines(unittest.TestResult):
    """Tells each test in a line, once it has ended."""

    def __init__(self, name: str) -> None:
        super().__init__()
        self.name = name
        self.started = 0.0

    def startTest(self, test: unittest.TestCase) -> None:
        super().startTest(test)
        self.started = time.monotonic()

    def addSuccess(self, test: unittest.TestCase) -> None:
        told = test.told if isinstance(test, PageCase) else ""
        seconds = time.monotonic() - self.started
        print("browser: {}: {}: {} ({:.1f} s)".format(self.name, title(test), told, seconds), flush=True)

    def addFailure(self, test: unittest.TestCase, err: Error) -> None:
        super().addFailure(test, err)
        self._tell(test, str(err[1]))

    def addError(self, test: unittest.TestCase, err: Error) -> None:
        super().addError(test, err)
        self._tell(test, "".join(traceback.format_exception(*err))[-LONGEST:] if err[0] else "")

    def _tell(self, test: unittest.TestCase, said: str) -> None:
        print("FAILED: {}: {}: {}".format(self.name, title(test), said[:LONGEST]), flush=True)


def finds(session: Session, it: spoiled.Spoiled, name: str) -> bool:
    """Whether the test that has to find a spoiled copy does, and says why."""
    copy = os.path.join(session.room, name)
    it.made(session.given.folder, copy)
    session.show(name, copy)
    result = unittest.TestResult()
    unittest.TestSuite(tests_of(session, it.test)).run(result)
    said = [text for _, text in result.failures]
    if any(it.says in text for text in said):
        return True
    others = said + [text for _, text in result.errors]
    print("FAILED: {}: {} isn't found: {}".format(session.engine.name, it.what, "".join(others)[-LONGEST:]), flush=True)
    return False


def run(engine: Engine, given: Given, only: Optional[str]) -> int:
    """How many tests fail in a browser, or spoiled copies aren't found."""
    with Session(engine, given) as session:
        share = "all" if given.is_whole else "a sample (ALL=1 tries all)"
        print("browser: {}, version {}: {}".format(engine.name, session.version(), share), flush=True)
        result = Lines(engine.name)
        tests = tests_of(session, only)
        unittest.TestSuite(tests).run(result)
        copies = [it for it in spoiled.ALL if it.is_always_tried or os.environ.get("ALL") or only]
        copies = [it for it in copies if only in (None, it.test)]
        missed = sum(not finds(session, it, "copy-{}".format(at)) for at, it in enumerate(copies))
    failed = len(result.failures) + len(result.errors)
    told = "browser: {}: {} of {} tests passed, and {} of {} spoiled copies were found"
    print(told.format(engine.name, result.testsRun - failed, len(tests), len(copies) - missed, len(copies)), flush=True)
    return failed + missed + (not tests)


def stop(number: int, frame: object) -> None:
    """Ends the tests, so that no browser stays."""
    raise KeyboardInterrupt


def main() -> None:
    signal.signal(signal.SIGTERM, stop)
    folder, limited, cases, program = (os.path.abspath(it) for it in sys.argv[1:5])
    names = os.environ.get("BROWSERS", "").split() or list(ENGINES)
    unknown = [name for name in names if name not in ENGINES]
    if unknown:
        sys.exit("FAILED: no browser is called {}; there are {}".format(", ".join(unknown), ", ".join(ENGINES)))
    wrong = ran = 0
    for name in names:
        engine = ENGINES[name]
        if not engine.is_installed():
            left_out = "browser: the page in {} is left out, since {} isn't installed"
            print(left_out.format(name, engine.packages), flush=True)
            continue
        is_whole = name == "chromium" or bool(os.environ.get("ALL"))
        wrong += run(engine, Given(folder, limited, cases, program, is_whole), os.environ.get("ONLY"))
        ran += 1
    print("browser: the page in {} browsers, and {} left out".format(ran, len(names) - ran))
    sys.exit(1 if wrong else 0)


if __name__ == "__main__":
    main()
