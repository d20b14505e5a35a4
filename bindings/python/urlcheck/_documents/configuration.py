"""The configuration of a project: ``.urlcheck.toml``, or ``[tool.urlcheck]`` of ``pyproject.toml``, in the folder of a
document or in the nearest one above it that has one."""

import difflib
import errno
import fnmatch
import importlib
import os
import re
import stat
from typing import Any, Callable, Dict, FrozenSet, List, NamedTuple, Optional, Set, Tuple

from .. import Base, BaseRefused, Profile, message, told_of_base
from .._readers.kinds import KINDS, kind_of
from .._reports.rules import ALL, rules_of
from .._streams import reason_of

OWN = ".urlcheck.toml"
PROJECT = "pyproject.toml"
_TABLE = re.compile(rb"""^[ \t]*[\w. \t"'\[]*\burlcheck[ \t"']*[\].=]""", re.MULTILINE)
"""What a project's file has that has a configuration, for a Python that can't read it."""

READER = "the package tomli: pip install tomli, or Debian's python3-tomli"
"""The module that reads it, for a Python older than 3.11."""


class Misconfigured(Exception):
    """What is wrong with a configuration, after its file or what else it is of."""


class Excluded(NamedTuple):
    """What is left out of a folder: all that a pattern matches."""

    pattern: "re.Pattern[str]"
    is_of_folders: bool
    """Whether the pattern ended with ``/``, so that it matches only folders."""

    @classmethod
    def by(cls, pattern: str) -> "Excluded":
        """What a pattern of the shell leaves out, in which ``*`` and ``?`` stand for ``/`` too."""
        return cls(re.compile(fnmatch.translate(pattern.rstrip("/"))), pattern.endswith("/"))

    def has(self, below: str, name: str, is_folder: bool) -> bool:
        """Whether a file or a folder of that name is left out, which is in the folder at the path ``below``."""
        if self.is_of_folders and not is_folder:
            return False
        return any(self.pattern.match(it) for it in (name, below + "/" + name if below else name))


class Configuration(NamedTuple):
    """What a project's file says, or a command, a build or an editor, or what counts by two of them; what isn't said is
    ``None``, or empty."""

    file: str = ""
    """The file, or what else says it, for messages."""
    profile: Optional[Profile] = None
    base: Optional[str] = None
    """What a reference is checked against if its document names no base."""
    ignored: Tuple["re.Pattern[str]", ...] = ()
    """Which links are left out."""
    excluded: Tuple[Excluded, ...] = ()
    """Which files and folders are left out."""
    format: Optional[str] = None
    """The format of the report."""
    gfm: Optional[bool] = None
    """Whether Markdown is GitHub's."""
    is_empty_taken: Optional[bool] = None
    """Whether a link may be empty when its format forbids it."""
    select: Optional[FrozenSet[str]] = None
    """The only rules that are reported."""
    ignored_rules: FrozenSet[str] = frozenset()
    """The rules that aren't."""
    kinds: Dict[str, str] = {}
    """The kinds of documents by the endings of their names, for endings that say another kind or none."""

    @property
    def selected(self) -> FrozenSet[str]:
        """The rules that are reported."""
        return (ALL if self.select is None else self.select) - self.ignored_rules

    def kind_of(self, name: str) -> Optional[str]:
        """The kind of a document of that name: as it says, or as the name does."""
        found = [end for end in self.kinds if name.lower().endswith("." + end)]
        return self.kinds[max(found, key=len)] if found else kind_of(name)

    def over(self, project: "Configuration", wording: str = "arguments") -> "Configuration":
        """What documents are checked by: what this says, and where it says nothing what the project's file says. Links
        are ignored by both; but rules that this selects are so whatever the file says of rules. ``wording`` is as in
        ``message``. Raises ``Misconfigured`` if the base that counts isn't valid under the profile that counts."""
        profile = project.profile if self.profile is None else self.profile
        by = project if self.base is None else self
        if by.base is not None:
            _sure(by.base, profile, by.file, wording if by is self else "arguments")
        rules = project if self.select is None else self
        return self._replace(
            profile=profile,
            base=by.base,
            ignored=self.ignored + project.ignored,
            gfm=project.gfm if self.gfm is None else self.gfm,
            is_empty_taken=project.is_empty_taken if self.is_empty_taken is None else self.is_empty_taken,
            select=rules.select,
            ignored_rules=rules.ignored_rules | self.ignored_rules,
        )


NONE = Configuration()


def _sure(base: str, profile: Optional[Profile], by: str, wording: str) -> None:
    """Raises ``Misconfigured`` if nothing can be checked against this base, which is named by a file or what else."""
    try:
        Base(base, profile)
        return
    except UnicodeEncodeError:
        said = "the base isn't UTF-8"
    except BaseRefused as refused:
        said = told_of_base(refused, message(base, refused, profile, wording))
    raise Misconfigured("{}: {}".format(by, said) if by else said)


def own_configuration(folder: str) -> Optional[Configuration]:
    """The configuration whose file is in this folder, if one is. Raises ``Misconfigured``."""
    for name in (OWN, PROJECT):
        file = os.path.join(folder, name)
        table = _table(file, name)
        if table is not None:
            return _read(file, table)
    return None


class Project:
    """The configurations of one run, one build or one editor. Each file is read once, unless none is to be."""

    def __init__(self, is_configured: bool = True) -> None:
        self._is_configured = is_configured
        self._found: Dict[str, Configuration] = {}

    def configuration_of(self, folder: str) -> Configuration:
        """The configuration of the documents in a folder, whose path is a whole one. Raises ``Misconfigured``."""
        if not self._is_configured:
            return NONE
        below: List[str] = []
        while folder not in self._found:
            own = own_configuration(folder)
            above = os.path.dirname(folder)
            if own is not None or above == folder:
                self._found[folder] = own or NONE
                break
            below.append(folder)
            folder = above
        found = self._found[folder]
        self._found.update(dict.fromkeys(below, found))
        return found

    def files(self) -> Set[str]:
        """The files of the configurations that were asked for."""
        return {it.file for it in self._found.values() if it.file}


_ABSENT = (errno.ENOENT, errno.ENOTDIR, errno.ENAMETOOLONG, errno.ELOOP)
"""Why a file can't be opened that isn't there."""


def _data(file: str) -> Optional[bytes]:
    """The bytes of a file, if it is there. One in a folder that is closed to us isn't."""
    try:
        # (a FIFO would be waited for)
        with open(file, "rb", opener=lambda name, flags: os.open(name, flags | getattr(os, "O_NONBLOCK", 0))) as opened:
            if not stat.S_ISREG(os.fstat(opened.fileno()).st_mode):
                raise Misconfigured("{}: isn't a regular file".format(file))
            return opened.read()
    except ValueError:
        # (a path that an editor names may have U+0000, which none on the disk has)
        return None
    except OSError as error:
        if error.errno in _ABSENT or (error.errno == errno.EACCES and not os.path.lexists(file)):
            return None
        raise Misconfigured("{}: can't be read: {}".format(file, reason_of(error))) from None


def _table(file: str, name: str) -> Optional[Dict[str, Any]]:
    """The table of a configuration, if the file is there and has one."""
    data = _data(file)
    if data is None or (name == PROJECT and b"urlcheck" not in data):
        return None
    for module in ("tomllib", "tomli"):
        try:
            reader = importlib.import_module(module)
            break
        except ImportError:
            continue
    else:
        if name == PROJECT and not _TABLE.search(data):
            return None
        raise Misconfigured("{}: a configuration before Python 3.11 needs {}".format(file, READER))
    try:
        read: Dict[str, Any] = reader.loads(data.decode("utf-8"))
    except (UnicodeDecodeError, ValueError) as error:
        raise Misconfigured("{}: {}".format(file, error)) from None
    except RecursionError:
        raise Misconfigured("{}: is nested too deeply".format(file)) from None
    return read if name == OWN else _inner(file, read)


def _inner(file: str, read: Dict[str, Any]) -> Optional[Dict[str, Any]]:
    """The table ``tool.urlcheck``, if there is one."""
    found = read.get("tool", {}).get("urlcheck") if isinstance(read.get("tool", {}), dict) else None
    if found is not None and not isinstance(found, dict):
        raise Misconfigured("{}: tool.urlcheck isn't a table".format(file))
    return found


def _read(file: str, table: Dict[str, Any]) -> Configuration:
    """The configuration that a table has. Raises ``Misconfigured`` for an unknown key or a wrong value."""
    for key in table:
        if key not in _KEYS:
            raise Misconfigured("{}: there is no key {}{}".format(file, key, _meant(key)))
    said: Dict[str, Any] = {}
    for key, value in table.items():
        field, read = _KEYS[key]
        try:
            said[field] = read(key, value)
        except ValueError as wrong:
            raise Misconfigured("{}: {}".format(file, wrong)) from None
    return Configuration(file=file, **said)


def _meant(key: str) -> str:
    """What is said of a key that there isn't, if it is clear what was meant."""
    if key in ("tool", "urlcheck"):
        return "; here the keys come without [tool.urlcheck]"
    near = difflib.get_close_matches(key, list(_KEYS), 1)
    return "; the nearest is " + near[0] if near else ""


# What reads the value of each key raises ``ValueError`` with what is wrong with it.


def _text(key: str, value: Any) -> str:
    """A value that is a text."""
    if not isinstance(value, str):
        raise ValueError("{} is a text".format(key))
    return value


def _texts(key: str, value: Any) -> List[str]:
    """A value that is a list of texts."""
    if not isinstance(value, list) or not all(isinstance(it, str) for it in value):
        raise ValueError("{} is a list of texts".format(key))
    return value


def _flag(key: str, value: Any) -> bool:
    """A value that is true or false."""
    if not isinstance(value, bool):
        raise ValueError("{} is true or false".format(key))
    return value


def _profile(key: str, value: Any) -> Profile:
    """The profile of that name."""
    profiles = {it.name.lower(): it for it in Profile}
    if _text(key, value) not in profiles:
        raise ValueError("no profile is named '{}': there are {}".format(value, " ".join(profiles)))
    return profiles[value]


def _kinds(key: str, value: Any) -> Dict[str, str]:
    """The kinds of documents by the ends of their names."""
    if not isinstance(value, dict):
        raise ValueError("{} is a table of names' ends, each with its kind".format(key))
    for kind in value.values():
        if kind not in tuple(KINDS):
            raise ValueError("no kind is named '{}': there are {}".format(kind, " ".join(KINDS)))
    return {end.lstrip(".").lower(): kind for end, kind in value.items()}


def _pattern(text: str) -> "re.Pattern[str]":
    """A regular expression."""
    try:
        return re.compile(text)
    except re.error as error:
        raise ValueError("'{}' isn't a regular expression: {}".format(text, error)) from None


# (a key that isn't here is refused, since a misspelt one would silently do nothing)
_KEYS: Dict[str, Tuple[str, Callable[[str, Any], Any]]] = {
    "profile": ("profile", _profile),
    "base": ("base", _text),
    "ignore": ("ignored", lambda key, value: tuple(map(_pattern, _texts(key, value)))),
    "exclude": ("excluded", lambda key, value: tuple(map(Excluded.by, _texts(key, value)))),
    "format": ("format", _text),
    "gfm": ("gfm", _flag),
    "no-empty": ("is_empty_taken", _flag),
    "select": ("select", lambda key, value: rules_of(_texts(key, value))),
    "ignore-rules": ("ignored_rules", lambda key, value: rules_of(_texts(key, value))),
    "kinds": ("kinds", _kinds),
}
"""The keys of the table, each with its field and what reads its value."""
