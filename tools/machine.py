"""What this machine has for checks: processors and free memory, as far as the control group of this process allows it."""

import os
import re

# The limits of a control group, in its two versions: the file with the limit, that with what the limit is compared with, and how
# the number stands there. For memory that is what can't be given back, for processors the period of the quota.
MEMORY = [
    ("memory.max", "memory.stat", r"^anon (\d+)"),
    ("memory/memory.limit_in_bytes", "memory/memory.stat", r"^total_rss (\d+)"),
]
PROCESSORS = [
    ("cpu.max", "cpu.max", r"^\d+ (\d+)"),
    ("cpu/cpu.cfs_quota_us", "cpu/cpu.cfs_period_us", r"^(\d+)"),
]


def number_in(path, pattern):
    """The number in a file, or None where there is none, as where the limit is `max` or -1."""
    try:
        with open(path, encoding="ascii") as file:
            found = re.search(pattern, file.read(), re.MULTILINE)
    except OSError:
        return None
    return int(found[1]) if found else None


def limits(files, groups):
    """The limits that are set, each with the number that it is compared with."""
    found = [(number_in(f"{groups}/{limit}", r"^(\d+)"), number_in(f"{groups}/{other}", it)) for limit, other, it in files]
    return [(limit, other) for limit, other in found if limit is not None and other is not None]


def processors(groups="/sys/fs/cgroup"):
    """How many processors there are to use."""
    quotas = [max(1, quota // period) for quota, period in limits(PROCESSORS, groups) if period]
    return min([len(os.sched_getaffinity(0)), *quotas])


def free_memory(groups="/sys/fs/cgroup", meminfo="/proc/meminfo"):
    """How many bytes of memory are free."""
    free = (number_in(meminfo, r"^MemAvailable: *(\d+)") or 0) * 1024
    return min([free, *(max(0, limit - held) for limit, held in limits(MEMORY, groups))])


def lanes(each, beside=0):
    """How many checks may run side by side, if each takes this many bytes, and something else these: one a processor, as far as memory
    allows."""
    return max(1, min(processors(), (free_memory() - beside) // each))
