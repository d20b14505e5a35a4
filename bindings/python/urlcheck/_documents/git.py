"""The files of a folder that Git tracks, or doesn't ignore. Nothing is run that the folder's own configuration names."""

import os
import subprocess
import sys
from typing import List

from .._streams import reason_of
from .limits import MOST_SECONDS, lift_memory

_SETTINGS = ("core.fsmonitor=false", "core.hooksPath=" + os.devnull, "protocol.allow=never")
"""What goes before the folder's configuration, which may be a stranger's: what would run a program."""

_ENVIRONMENT = {"GIT_OPTIONAL_LOCKS": "0", "GIT_NO_LAZY_FETCH": "1", "GIT_ALLOW_PROTOCOL": "none"}
"""What keeps Git from writing its index, and from fetching an object that isn't there."""


class NoGit(Exception):
    """Why Git doesn't say which files there are."""


def files_of(folder: str) -> List[str]:
    """The paths of the files below a folder, in order, with ``/`` between their parts. Raises ``NoGit``."""
    command = [_git(), "--no-pager", *(word for it in _SETTINGS for word in ("-c", it)), "-C", folder]
    command += ["ls-files", "-z", "--cached", "--others", "--exclude-standard"]
    try:
        ran = subprocess.run(
            command,
            stdin=subprocess.DEVNULL,
            stdout=subprocess.PIPE,
            stderr=subprocess.PIPE,
            env={**os.environ, **_ENVIRONMENT},
            timeout=MOST_SECONDS,
            check=False,
            # (what Git maps into its memory isn't limited as what documents take)
            preexec_fn=None if sys.platform == "win32" else lift_memory,
        )
    except OSError as error:
        raise NoGit("git can't be run: {}".format(reason_of(error))) from None
    except subprocess.TimeoutExpired:
        raise NoGit("git takes more than {} seconds to list it".format(MOST_SECONDS)) from None
    if ran.returncode != 0:
        said = ran.stderr.decode("utf-8", "replace").strip().splitlines()
        raise NoGit("git doesn't list it: {}".format(said[0] if said else "no reason is given"))
    return [os.fsdecode(path) for path in sorted(set(ran.stdout.split(b"\0")) - {b""})]


def _git() -> str:
    """The program Git. (Windows would take one in the current folder, which may be a stranger's.) Raises ``NoGit``."""
    if sys.platform != "win32":
        return "git"
    for folder in os.environ.get("PATH", "").split(os.pathsep):
        file = os.path.join(folder, "git.exe")
        if os.path.isabs(folder) and os.path.isfile(file):
            return file
    raise NoGit("git can't be run: there is no git.exe on the path")
