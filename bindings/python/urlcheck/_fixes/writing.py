"""Writing files in one step: a document in place of the one that was read, and a report in place of an older one."""

import contextlib
import errno
import os
import shutil
import signal
import stat
import sys
import tempfile
from typing import IO, Callable, Dict, Iterator, Optional

from .._streams import Unwritable
from .fixing import digest_of

BEFORE, AFTER = ".urlcheck-", ".tmp"
"""How the name of a new file begins and ends until it takes another one's place."""

_CHANGED = "was written by another program meanwhile, and isn't written"


class Unwritten(Exception):
    """Why a document isn't written, in the words that are printed."""


def opened(name: str, flags: int) -> int:
    """What ``open`` calls for a file that may be a FIFO, which would be waited for."""
    return os.open(name, flags | getattr(os, "O_NONBLOCK", 0))


def replace(name: str, digest: bytes, data: bytes, folder: Optional[str] = None) -> None:
    """Writes these bytes into the file of that name, as a new file that replaces it in one step, so that any other
    program finds one of the two whole. Its mode, ACL and extended attributes stay and, as far as the system allows it,
    its owner. A symbolic link is followed, and the file that it leads to is written. Raises ``OSError``; and
    ``Unwritten`` if the file's bytes no longer have the digest, if what it has besides can't stay, or if a link leads
    out of the folder, if one is given."""
    path = os.path.realpath(name)
    if folder is not None and not _is_within(os.path.realpath(folder), path):
        raise Unwritten("is a symbolic link out of the folder, and isn't written")
    with open(path, "rb", opener=opened) as file:
        held = os.fstat(file.fileno())
        if not stat.S_ISREG(held.st_mode):
            raise Unwritten("isn't a regular file, and isn't written")
        if digest_of(file.read()) != digest:
            raise Unwritten(_CHANGED)
    _permitted(path, held)
    _put(path, held, lambda file: file.write(data), lambda: _is_changed(path, held))


class Output:
    """A file that is written besides, such as a report. At its end it takes the place of what had its name, in one
    step; until then that stays as it is. What isn't a regular file, such as a device, is written as it is."""

    def __init__(self, name: str) -> None:
        """Raises ``Unwritable``."""
        self._name = name
        self._path = os.path.realpath(name)
        with self._named():
            self._held = held_of(name)
            if not os.path.basename(name) or (self._held is not None and not stat.S_ISREG(self._held.st_mode)):
                self._is_new = False
                self._file: IO[bytes] = open(name, "wb")
                return
            _permitted(self._path, self._held)
            self._is_new = True
            # (nothing of it is left, even if the program is killed)
            self._file = tempfile.TemporaryFile(dir=os.path.dirname(self._path))

    def write(self, data: bytes) -> None:
        """Writes bytes. Raises ``Unwritable``."""
        with self._named():
            self._file.write(data)

    def end(self) -> None:
        """Writes all of it to where its name says. Raises ``Unwritable``."""
        with self._named(), self._file:
            self._file.flush()
            if not self._is_new:
                return
            self._file.seek(0)
            _put(self._path, self._held, lambda file: shutil.copyfileobj(self._file, file), lambda: False)

    @contextlib.contextmanager
    def _named(self) -> Iterator[None]:
        """Has what goes wrong said with the file's name."""
        try:
            yield
        except Unwritten as unwritten:
            raise Unwritable("{}: {}".format(self._name, unwritten)) from None
        except OSError as error:
            raise Unwritable.by(self._name, error) from None


def held_of(name: str) -> Optional[os.stat_result]:
    """What the system says of a file, if it is there."""
    try:
        return os.stat(name)
    except (OSError, ValueError):
        return None


def _permitted(path: str, held: Optional[os.stat_result]) -> None:
    """Raises ``PermissionError`` for a file that may not be written: a new one could take its place all the same."""
    if held is not None and not os.access(path, os.W_OK):
        raise PermissionError(errno.EACCES, os.strerror(errno.EACCES))


def _put(
    path: str, held: Optional[os.stat_result], fill: Callable[[IO[bytes]], object], is_changed: Callable[[], bool]
) -> None:
    """Writes a new file and has it take the place of one that was held so, or of none. Nobody else may read it before.
    It is taken away if something goes wrong; what would end the program waits for that. Raises ``Unwritten`` if the
    old one is changed by then."""
    with _uninterrupted():
        number, new = tempfile.mkstemp(prefix=BEFORE, suffix=AFTER, dir=os.path.dirname(path))
        try:
            with os.fdopen(number, "wb") as file:
                fill(file)
                file.flush()
                os.fsync(file.fileno())
            if held is None:
                os.chmod(new, 0o666 & ~_mask())
            else:
                _as_before(new, path, held)
            if is_changed():
                raise Unwritten(_CHANGED)
            os.replace(new, path)
        except BaseException:
            os.unlink(new)
            raise


@contextlib.contextmanager
def _uninterrupted() -> Iterator[None]:
    """Has the signals wait that end the program."""
    if sys.platform == "win32":
        yield
        return
    before = signal.pthread_sigmask(signal.SIG_BLOCK, (signal.SIGINT, signal.SIGTERM, signal.SIGHUP))
    try:
        yield
    finally:
        signal.pthread_sigmask(signal.SIG_SETMASK, before)


def _mask() -> int:
    """Which permissions a new file doesn't have."""
    mask = os.umask(0o077)
    os.umask(mask)
    return mask


def _is_within(folder: str, path: str) -> bool:
    """Whether a path is below a folder."""
    try:
        return os.path.commonpath([folder, path]) == folder
    except ValueError:
        # (on Windows another drive)
        return False


def _as_before(new: str, path: str, held: os.stat_result) -> None:
    """Gives a new file the owner, the extended attributes, the ACL and the mode of the one that it replaces. Raises
    ``Unwritten``."""
    if hasattr(os, "chown"):
        try:
            os.chown(new, held.st_uid, held.st_gid)
        except OSError:
            # (only root may give files away)
            with contextlib.suppress(OSError):
                os.chown(new, -1, held.st_gid)
    if sys.platform == "linux":
        _take_attributes(new, path)
    # (the mode comes last: what is done before may change it)
    try:
        os.chmod(new, stat.S_IMODE(held.st_mode))
    except OSError:
        raise Unwritten("has a mode that can't be kept, and isn't written") from None


if sys.platform == "linux":

    def _take_attributes(new: str, path: str) -> None:
        """Gives a file the extended attributes of another one, of which one is its ACL. Raises ``Unwritten``."""
        own, wanted = _attributes(new), _attributes(path)
        for name in {*own, *wanted}:
            try:
                if name not in wanted:
                    os.removexattr(new, name)
                elif wanted[name] != own.get(name):
                    os.setxattr(new, name, wanted[name])
            except OSError:
                raise Unwritten("has {}, which can't be kept, and isn't written".format(_called(name))) from None

    def _attributes(path: str) -> Dict[str, bytes]:
        """The extended attributes of a file; none where the file system has none."""
        try:
            return {name: os.getxattr(path, name) for name in os.listxattr(path)}
        except OSError as error:
            if error.errno in (errno.ENOTSUP, errno.ENOSYS):
                return {}
            raise


def _called(attribute: str) -> str:
    """An extended attribute as people call it."""
    return "an ACL" if "_acl_" in attribute else "the extended attribute {}".format(attribute)


def _is_changed(path: str, held: os.stat_result) -> bool:
    """Whether the file was written since, or another one is there."""
    now = os.stat(path)
    seen = held.st_ino, held.st_size, held.st_mtime_ns
    return (now.st_ino, now.st_size, now.st_mtime_ns) != seen
