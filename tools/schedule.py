"""Which crates are built when: each once those below it are built, and the one with the longest chain of others above it first."""

import copy

from progress import functions_of

PROGRAM = "urlcheck"

# What part of a check more jobs don't share: three jobs took 104 s for 244 s of work, four 179 s for 532 s.
UNSHARED = 0.12


def seconds_of(name):
    """How long a crate's build takes one processor: what its last one took, or otherwise what its functions let expect."""
    try:
        with open(f"crates/{name}/out/seconds", encoding="ascii") as file:
            return float(file.read())
    except (OSError, ValueError):
        # (measured: 1 to 2.9 s a function, 12 s to read what a crate rests on, and 100 s for the code of the whole program)
        return 12 + 2 * functions_of(name) + 100 * (name == PROGRAM)


def duration(seconds, jobs):
    """How long it is until so many jobs have done what takes one processor these seconds."""
    return seconds * (UNSHARED + (1 - UNSHARED) / jobs)


class Schedule:
    """The crates that wait, those that are being built, each with its jobs and since when, and those that are built."""

    def __init__(self, needs, names, most):
        self.needs, self.most = needs, most
        self.left, self.running, self.built = list(names), {}, []
        self.seconds = {it: seconds_of(it) for it in names}
        # (how long those that are built took, and how long that was expected to be)
        self.took, self.expected = 0.0, 0.0
        self.chains = dict(self.seconds)
        for name in reversed(names):
            self.chains[name] += max((self.chains[it] for it in names if name in needs[it]), default=0)

    def beginning(self, now):
        """The crates whose build begins now, each with its number of jobs."""
        waited = {*self.left, *self.running}
        ready = sorted((it for it in self.left if waited.isdisjoint(self.needs[it])), key=lambda it: -self.chains[it])
        idle = self.most - sum(jobs for jobs, _ in self.running.values())
        # the crate that most others wait for gets half of the processors, and what the others leave it; each of them
        # takes one
        is_longest = not self.running or bool(ready) and self.chains[ready[0]] > max(self.chains[it] for it in self.running)
        begun = {}
        while ready and idle > 0:
            name = ready.pop(0)
            begun[name] = min(idle, max(1, self.most // 2, idle - len(ready))) if is_longest else 1
            is_longest = False
            idle -= begun[name]
            self.left.remove(name)
            self.running[name] = begun[name], now
        return begun

    def end(self, name, now):
        """Notes that a crate is built. Returns how long it took."""
        jobs, since = self.running.pop(name)
        self.built.append(name)
        self.took += now - since
        self.expected += duration(self.seconds[name], jobs)
        return now - since

    def seconds_left(self, now):
        """How long the rest is likely to take, at the pace of what is built so far."""
        pace = self.took / self.expected if self.built else 1.0
        rest = copy.copy(self)
        rest.left, rest.running = list(self.left), dict(self.running)
        # (what takes longer than expected may end at any time)
        ends = {it: max(5.0, pace * duration(self.seconds[it], jobs) - (now - since)) for it, (jobs, since) in rest.running.items()}
        clock = 0.0
        for it, jobs in rest.beginning(clock).items():
            ends[it] = pace * duration(self.seconds[it], jobs)
        while ends:
            name = min(ends, key=ends.get)
            clock = ends.pop(name)
            del rest.running[name]
            for it, jobs in rest.beginning(clock).items():
                ends[it] = clock + pace * duration(self.seconds[it], jobs)
        return clock
