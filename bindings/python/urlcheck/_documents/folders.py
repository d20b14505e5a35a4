"""The documents that names and folders stand for, each with the configuration that counts for it, and what of folders
is left out or has no reader."""

import glob
import os
import re
import stat
import sys
import time
from collections import Counter
from typing import Counter as Counts
from typing import Dict, Iterator, List, NamedTuple, Optional, Tuple

from .._fixes.writing import AFTER, BEFORE
from .._readers.kinds import PACKAGES, end_of
from .._reports.names import Name
from .._streams import reason_of
from .configuration import Configuration, Excluded, Project
from .git import NoGit, files_of

_COUNTED = frozenset(("css",))
"""Kinds whose documents in a folder are only counted, not reported, if their package isn't installed."""

_MOST_NAMED = 8
"""How many ends of names the last line tells apart."""

_OLD = 60
"""After how many seconds a file that was to take another one's place is left over."""


class Entry(NamedTuple):
    """A document, or what is named and gives none."""

    path: str
    name: Name
    kind: Optional[str]
    """The kind that its name says, or the configuration."""
    config: Configuration
    folder: Optional[str] = None
    """The folder in which it was found, if it wasn't named itself."""
    reason: Optional[str] = None
    """Why it gives no document, if that is known."""


class Passed:
    """What was passed over in folders."""

    def __init__(self) -> None:
        self.ends: Counts[str] = Counter()
        """The files that no reader takes, by how their names end."""
        self.folders = 0
        """The folders that are left out unasked."""
        self.left: List[str] = []
        """The files that were to take another one's place, in a run that was killed."""

    def said(self) -> str:
        """What the last line says of it, after a semicolon."""
        said = ""
        if self.ends:
            ends = sorted(self.ends.items(), key=lambda it: (-it[1], it[0]))
            named = ["{} {}".format(count, end) for end, count in ends[:_MOST_NAMED]]
            rest = sum(count for _, count in ends[_MOST_NAMED:])
            said += "; not read: " + ", ".join(named + ["{} of other kinds".format(rest)] * (rest > 0))
        if self.folders:
            said += "; left out: {} folder{}".format(self.folders, "" if self.folders == 1 else "s")
        return said

    def kind_of(self, path: str, config: Configuration, is_file: bool) -> Optional[str]:
        """The kind of a document of that path, if it is one; a file that isn't is counted."""
        name = os.path.basename(path)
        kind = config.kind_of(name)
        if kind is not None and (kind not in _COUNTED or PACKAGES[kind].is_there()):
            if is_file or not is_device(path):
                return kind
        if name.startswith(BEFORE) and name.endswith(AFTER) and _is_old(path):
            self.left.append(path)
        # (a name such as Makefile has no end, nor has one such as .profile)
        end = "." + end_of(name) if "." in name.lstrip(".") else "without an end"
        self.ends[end] += 1
        return None


def is_device(path: str) -> bool:
    """Whether a path leads to something that has no bytes of its own, such as a FIFO."""
    try:
        mode = os.stat(path).st_mode
    except OSError:
        return False
    return not stat.S_ISREG(mode) and not stat.S_ISDIR(mode)


def _is_old(path: str) -> bool:
    """Whether a file was written long ago."""
    try:
        return time.time() - os.lstat(path).st_mtime > _OLD
    except OSError:
        return False


def with_slashes(name: str) -> str:
    """A name with ``/``, as reports have it; Windows has ``\\`` too. What of it isn't UTF-16 becomes U+FFFD."""
    if sys.platform != "win32":
        return name
    return name.replace("\\", "/").encode("utf-16-le", "surrogatepass").decode("utf-16-le", "replace")


def meant(word: str) -> List[str]:
    """The files that a word means. On Windows no shell reads ``*`` and ``?`` in it as a pattern: that is done here."""
    if sys.platform != "win32" or not re.search("[*?]", word):
        return [word]
    return sorted(glob.glob(word.replace("[", "[[]"))) or [word]


class Documents:
    """Finds documents."""

    def __init__(self, project: Project, excluded: Tuple[Excluded, ...], is_by_git: bool) -> None:
        self._project = project
        self._excluded = excluded
        self._is_by_git = is_by_git
        self.passed = Passed()
        self.walked: List[Name] = []
        """The folders of which all documents were found."""

    def of(self, path: str, stdin_name: Optional[str] = None) -> Iterator[Entry]:
        """The documents that a name stands for: itself, or those within a folder whose names' ends say a kind, in
        order, but for what is left out; then a folder of them that can't be read, and one that has no document in it.
        Raises ``Misconfigured``."""
        if path == "-" or not os.path.isdir(path):
            # (a text of standard input may have the name of the file that an editor holds)
            name = with_slashes(path if path != "-" or stdin_name is None else stdin_name)
            folder = os.getcwd() if name == "-" else os.path.dirname(os.path.abspath(name))
            config = self._project.configuration_of(folder)
            yield Entry(path, Name(name), config.kind_of(name), config)
            return
        within = _Within(path, self._project, self._excluded)
        closed: List[Tuple[str, str]] = []
        count = 0
        for file, config, is_file in (self._by_git if self._is_by_git else self._walked)(within, closed):
            kind = self.passed.kind_of(file, config, is_file)
            if kind is not None:
                count += 1
                yield Entry(file, Name(with_slashes(file)), kind, config, path)
        if not closed:
            self.walked.append(Name(with_slashes(path)))
        if not closed and not count:
            closed.append((path, _none(not within.config.excluded + self._excluded)))
        for it, reason in closed:
            yield Entry(it, Name(with_slashes(it)), None, within.config, None, reason)

    def _walked(self, within: "_Within", closed: List[Tuple[str, str]]) -> Iterator[Tuple[str, Configuration, bool]]:
        """The files in a folder and in its subfolders, except for hidden folders and the folders of packages for
        JavaScript; and whether each has bytes of its own."""
        waiting = [within.name]
        while waiting:
            folder = waiting.pop()
            below = with_slashes(folder[len(within.name) :]).strip("/")
            try:
                with os.scandir(folder) as scanned:
                    found = sorted(scanned, key=lambda it: it.name)
            except OSError as error:
                closed.append((folder, "can't be read: {}".format(reason_of(error))))
                continue
            config = within.config_of(below)
            for it in found:
                if not it.is_dir() and not within.leaves_out(below, it.name, False):
                    yield it.path, config, it.is_file()
            waiting += reversed([it.path for it in found if it.is_dir() and self._is_walked(within, below, it)])

    def _is_walked(self, within: "_Within", below: str, found: "os.DirEntry[str]") -> bool:
        """Whether a folder within another one is walked."""
        if within.leaves_out(below, found.name, True):
            return False
        if found.name.startswith(".") or found.name == "node_modules":
            self.passed.folders += 1
            return False
        return not found.is_symlink()

    def _by_git(self, within: "_Within", closed: List[Tuple[str, str]]) -> Iterator[Tuple[str, Configuration, bool]]:
        """The files in a folder and those within it that Git tracks, or doesn't ignore."""
        try:
            paths = files_of(within.name)
        except NoGit as no_git:
            closed.append((within.name, str(no_git)))
            return
        for path in paths:
            parts = path.split("/")
            belows = ["/".join(parts[:at]) for at in range(len(parts))]
            is_out = any(within.leaves_out(belows[at], it, at < len(parts) - 1) for at, it in enumerate(parts))
            # (what is tracked may be gone, or be a link to a folder or a repository of its own)
            file = os.path.join(within.name, *parts)
            if not is_out and os.path.isfile(file):
                yield file, within.config_of(belows[-1]), True


class _Within:
    """What counts within a folder that is named: the configurations, and the patterns of what is left out."""

    def __init__(self, name: str, project: Project, excluded: Tuple[Excluded, ...]) -> None:
        self.name = name
        self._path = os.path.abspath(name)
        self._project = project
        self.config = project.configuration_of(self._path)
        """The configuration of the folder itself."""
        whole = excluded + self.config.excluded
        self._found: Dict[str, Tuple[Configuration, Tuple[Tuple[str, Excluded], ...]]] = {
            "": (self.config, tuple(("", it) for it in whole))
        }

    def _at(self, below: str) -> Tuple[Configuration, Tuple[Tuple[str, Excluded], ...]]:
        """The configuration of the folder at a path below it, and the patterns, each with the folder from which on its
        paths count. A configuration within it adds its own."""
        if below not in self._found:
            above, patterns = self._at(below.rpartition("/")[0])
            config = self._project.configuration_of(os.path.join(self._path, *below.split("/")))
            if config is not above:
                patterns += tuple((below + "/", it) for it in config.excluded)
            self._found[below] = config, patterns
        return self._found[below]

    def config_of(self, below: str) -> Configuration:
        """The configuration of the folder at a path below it. Raises ``Misconfigured``."""
        return self._at(below)[0]

    def leaves_out(self, below: str, name: str, is_folder: bool) -> bool:
        """Whether a pattern has the name of a file or a folder in the folder at the path ``below``, or its path."""
        return any(it.has(below[len(start) :], name, is_folder) for start, it in self._at(below)[1])


def _none(is_all: bool) -> str:
    """Why a folder gives no document, of which nothing is left out if ``is_all``."""
    taken = "no name in this folder" if is_all else "no name in this folder that isn't excluded"
    return "has no document: {} ends in .html, .md, .xml or another end of --help".format(taken)
