"""What a process may take: memory, processor time, and how long it may wait for a document's bytes."""

import os
import signal
import struct
import sys
import threading
import time
from typing import Any, List, Tuple

MOST_SECONDS = 60
"""How long a document's bytes may take to come, and how much processor time it may take."""

MOST_MEMORY = 480 * 1024 * 1024
"""How many bytes of memory the program may have."""

LATE = 124
"""The status of a process whose document's bytes didn't come, on a system that has no signal for that."""

FAILED = 1
"""The status of a process that failed otherwise."""

NO_MEMORY = 123
"""The status of a process that ran out of memory, and noticed it."""

_OUT_OF_QUOTA = 1816
"""The status by which Windows ends a process that takes more than its job permits: ``ERROR_NOT_ENOUGH_QUOTA``."""

_JOB_LIMITS = struct.Struct("<qqI4xQQI4xQII48xQQQQ")
"""Windows's ``JOBOBJECT_EXTENDED_LIMIT_INFORMATION``, of which only three words are set."""

_OF_TIME, _OF_MEMORY = 0x2, 0x100
"""Which of them count."""

_before: List[Tuple[int, int]] = []
"""What memory the program might have had before it was limited, on a system that says so."""

_waiting: List[threading.Timer] = []
"""What ends the process when it has waited too long, on a system that has no signal for that."""


def limit_memory() -> None:
    """A hostile document is to cost no more than this, and no more than the caller permits."""
    if sys.platform == "win32":
        _limit_job(0)
    else:
        import resource

        soft, hard = resource.getrlimit(resource.RLIMIT_AS)
        if soft == resource.RLIM_INFINITY or soft > MOST_MEMORY:
            _before.append((soft, hard))
            resource.setrlimit(resource.RLIMIT_AS, (MOST_MEMORY, hard))


def lift_memory() -> None:
    """From here on the process may take as much memory as the caller permits."""
    if sys.platform != "win32" and _before:
        import resource

        resource.setrlimit(resource.RLIMIT_AS, _before[0])


def limit_time(seconds: int) -> None:
    """From here on the process may take so much processor time; 0 lifts the limit."""
    if sys.platform == "win32":
        _limit_job(time.process_time() + seconds if seconds else 0)
    elif hasattr(signal, "setitimer"):
        signal.signal(signal.SIGPROF, signal.SIG_DFL)
        signal.setitimer(signal.ITIMER_PROF, seconds)


def limit_waiting() -> None:
    """From here on a document's bytes may take so long to come."""
    if sys.platform != "win32" and hasattr(signal, "setitimer"):
        signal.signal(signal.SIGALRM, signal.SIG_DFL)
        signal.setitimer(signal.ITIMER_REAL, MOST_SECONDS)
    else:
        _waiting.append(threading.Timer(MOST_SECONDS, os._exit, (LATE,)))
        _waiting[-1].daemon = True
        _waiting[-1].start()


def has_come() -> None:
    """Says that the document's bytes have come: from here on only processor time counts, so that neither other programs
    nor a slow reader of the report end the process."""
    if sys.platform != "win32" and hasattr(signal, "setitimer"):
        signal.setitimer(signal.ITIMER_REAL, 0)
    while _waiting:
        _waiting.pop().cancel()


def memory_taken() -> int:
    """How many bytes of memory the process has had at most, or 0 if the system doesn't say."""
    if sys.platform == "win32":
        return 0
    import resource

    taken = resource.getrusage(resource.RUSAGE_SELF).ru_maxrss
    return taken if sys.platform == "darwin" else taken * 1024


_LATE = (LATE, -getattr(signal, "SIGALRM", -LATE))
"""The statuses of processes for which a document's bytes didn't come."""

_SLOW = tuple(-getattr(signal, it, -_OUT_OF_QUOTA) for it in ("SIGPROF", "SIGXCPU"))
"""The statuses of processes that took too much processor time."""

_ENDS = {-it.value: it.name for it in signal.Signals}
"""The statuses of processes that a signal ended, as another process sends it or the system does."""


def is_of_time(status: int) -> bool:
    """Whether a process was ended for the time that a document took, by its status."""
    return status in _LATE + _SLOW


def ended_by(status: int) -> str:
    """Why a process was ended, by its status, which is below 0 for a signal."""
    if status in _LATE:
        return "takes more than {} seconds".format(MOST_SECONDS)
    if status in _SLOW:
        return "takes more than {} seconds of processor time".format(MOST_SECONDS)
    if status == NO_MEMORY:
        return "needs more than {} MiB of memory".format(MOST_MEMORY >> 20)
    return "lost its process to {}".format(_ENDS.get(status) or "status {}".format(status))


def job_limits(seconds: float) -> bytes:
    """What Windows is told about a job: how much memory each of its processes may have, and how much processor time,
    unless that is 0. It counts in units of 100 nanoseconds."""
    flags = _OF_MEMORY | (_OF_TIME if seconds else 0)
    return _JOB_LIMITS.pack(int(seconds * 10_000_000), 0, flags, 0, 0, 0, 0, 0, 0, MOST_MEMORY, 0, 0, 0)


if sys.platform == "win32":
    _jobs: List[Any] = []

    def _limit_job(seconds: float) -> None:
        """Limits the process, which is in a job of its own."""
        import ctypes

        kernel = ctypes.WinDLL("kernel32", use_last_error=True)
        kernel.CreateJobObjectW.restype = kernel.GetCurrentProcess.restype = ctypes.c_void_p
        is_new = not _jobs
        if is_new:
            _jobs.append(ctypes.c_void_p(kernel.CreateJobObjectW(None, None)))
        limits, kind = job_limits(seconds), 9
        if not kernel.SetInformationJobObject(_jobs[0], kind, limits, len(limits)):
            raise ctypes.WinError(ctypes.get_last_error())
        if is_new and not kernel.AssignProcessToJobObject(_jobs[0], ctypes.c_void_p(kernel.GetCurrentProcess())):
            raise ctypes.WinError(ctypes.get_last_error())
