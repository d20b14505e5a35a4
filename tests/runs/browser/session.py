"""What the tests of the page share in one browser: the browser, the served folders, and the program."""

from __future__ import annotations

import contextlib
import os
import re
import shutil
import subprocess
import tempfile
import unittest
from dataclasses import dataclass
from typing import ClassVar

from driver import LONGEST_SCRIPT, Engine, served
from page import Page
from selenium.webdriver.remote.webdriver import WebDriver

HERE = os.path.dirname(os.path.abspath(__file__))
TOP = os.path.dirname(os.path.dirname(os.path.dirname(HERE)))
# What a sentence of the program says of an option of the command line, which the page doesn't have.
OPTION = re.compile(r"; --profile \w+ allows it|, or use --profile \w+|, or give the address of its page \(--base\)")
# The last resort that it names, and what the page says in its place.
BASE, ADDRESS = "; give the address of its page (--base)", "; write the whole address"
# What is first in the head of the page.
FIRST = '<meta charset="utf-8">'


def without_options(report: str) -> str:
    """What the program writes, without the options of the command line that its sentences name."""
    return OPTION.sub("", report).replace(BASE, ADDRESS)


@dataclass(frozen=True)
class Given:
    """What tools/build-page has made, the same with a module whose memory hardly grows, what answers.py wrote, the
    program, and whether all is tried or a sample."""

    folder: str
    limited: str
    cases: str
    program: str
    is_whole: bool


@dataclass(frozen=True)
class Ended:
    """How the program ended."""

    status: int
    out: str
    error: str


class Session(contextlib.ExitStack):
    """A browser with the page, for as long as the session is entered."""

    def __init__(self, engine: Engine, given: Given) -> None:
        super().__init__()
        self.engine = engine
        self.given = given
        self.is_whole = given.is_whole
        self.room = self.enter_context(tempfile.TemporaryDirectory())
        os.symlink(given.cases, os.path.join(self.room, "cases.json"))
        self.folders = {"runs": HERE, "room": self.room}
        self.address = served(self.folders)
        self._browsers: dict[bool, WebDriver] = {}
        self.show("app", given.folder)

    def show(self, name: str, folder: str) -> None:
        """Gives the tests another page, under a name that had none before: a browser may keep what it has loaded."""
        self.folders[name] = folder
        self._watch(self._copy("watched-" + name, folder))
        limited = self._copy("limited-" + name, folder)
        shutil.copy(os.path.join(self.given.limited, "urlcheck.wasm"), limited)
        self.name = name

    def _copy(self, name: str, folder: str) -> str:
        self.folders[name] = os.path.join(self.room, name)
        return str(shutil.copytree(folder, self.folders[name]))

    def _watch(self, folder: str) -> None:
        """Has the page of a folder note what goes wrong in it."""
        shutil.copy(os.path.join(HERE, "watch.js"), folder)
        path = os.path.join(folder, "index.html")
        with open(path, encoding="utf-8") as file:
            page = file.read()
        with open(path, "w", encoding="utf-8") as out:
            out.write(page.replace(FIRST, FIRST + '<script src="watch.js"></script>', 1))

    def browser(self, dark: bool = False) -> WebDriver:
        """The browser in light colours, or another in dark ones."""
        if dark not in self._browsers:
            browser = self.enter_context(self.engine.started(dark))
            browser.set_script_timeout(LONGEST_SCRIPT)
            self._browsers[dark] = browser
        return self._browsers[dark]

    def version(self) -> str:
        return str(self.browser().capabilities["browserVersion"])

    def page(self, dark: bool = False) -> Page:
        return Page(self.browser(dark), self.address + self.name + "/")

    def other_page(self, kind: str) -> Page:
        """The page with little memory, which is `limited`, or the `watched` one, which notes what goes wrong in it."""
        return Page(self.browser(), self.address + kind + "-" + self.name + "/")


class PageCase(unittest.TestCase):
    """Tests of the page in the browser of a session. Each says in `told` what it has tried."""

    session: ClassVar[Session]

    def setUp(self) -> None:
        self.page = self.session.page()
        self.told = ""

    def write(self, name: str, text: str) -> str:
        """Writes a file that the server has under /room/."""
        path = os.path.join(self.session.room, name)
        with open(path, "w", encoding="utf-8") as out:
            out.write(text)
        return path

    def program(self, *words: str) -> Ended:
        """What the program says, in the folder of the written files."""
        ended = subprocess.run(
            [self.session.given.program, *words], cwd=self.session.room, capture_output=True, check=False, timeout=300
        )
        return Ended(ended.returncode, ended.stdout.decode(), ended.stderr.decode())
