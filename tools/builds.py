"""The builds of the crates: which crate rests on which, which libraries are built, and building them side by side.

It is called at the top of the repository, by tools/build-program and tools/build-crate.

A crate is built in one of two ways. Each proves it. The first way is for anyone who wants the program or a library: it
leaves of each library its statements, which is what the crates above it cite, so these don't load its proofs. The
second is for anyone who works on the crates: `rt` takes from their folders out/ what earlier checks kept, and keeps there
what it proves. It is taken where a check has kept anything.

A library is dated by when its build began, so that a source that is edited meanwhile is newer; and what is linked of libraries, by
when the builds of all of them began. What is built comes to its place once it is whole, and next to it is the version of the
toolchain that built it.
"""

import atexit
import contextlib
import fcntl
import functools
import os
import re
import shutil
import signal
import subprocess
import sys
import tempfile
import threading
import time
from concurrent.futures import FIRST_COMPLETED, ThreadPoolExecutor, wait

import first_answer
from machine import lanes
from progress import Progress, about, minutes
from schedule import PROGRAM, Schedule
from usage import Stopped

# The folders in which `rt` builds crates: no check looks below an out/.
BUILDS = f"crates/{PROGRAM}/out/builds"

# What a check of one crate takes at most, in bytes.
MEMORY = 2_400_000_000

# What `rattle build` ends with where it checked nothing, say since a library below is damaged or of another toolchain.
NO_VERDICT = 2

# The seconds of a build for which it is worth to look for a first answer.
WAITING = 180

# What makes a process the first of a group: from Python 3.11 on without a session, which would get processors apart from this one.
OF_ITS_OWN = {"process_group": 0} if sys.version_info >= (3, 11) else {"start_new_session": True}

# The processes that build, whether no other may begin, and the libraries that were removed here since they weren't fit.
RUNNING, IS_OVER, REMOVED = set(), threading.Event(), set()


def listed():
    """The crates of crates.txt, each with what it is, as `staticlib`, and all libraries that it uses."""
    crates = {}
    with open("crates.txt", encoding="utf-8") as file:
        for line in file:
            name, _, uses = line.partition("#")[0].partition(":")
            if name.strip():
                name, *kind = name.split()
                crates[name] = kind, uses.split()
    return crates


def needs_of_crates():
    """The crates of crates.txt, each with the ones that it rests on."""
    crates = listed()
    return {name: [it for it in uses if it in crates] for name, (_, uses) in crates.items()}


def below(needs, name):
    """The crate and all that it rests on, lowest first."""
    found = []
    for it in needs[name]:
        found += [lower for lower in below(needs, it) if lower not in found]
    return [*found, name]


@functools.cache
def say(line):
    """Writes a line on standard error, once."""
    print(f"urlcheck: {line}", file=sys.stderr, flush=True)


def now():
    """The time as a file has it, which may be some milliseconds earlier than the clock's."""
    return time.time_ns() - 20_000_000


def alone(names):
    """Waits until no other build and no `rt` works in these crates, and keeps them out until this process and all that it started
    have ended. Returns when that was, as the time of a file."""
    # (as `rt` does it, in the same order)
    for name in sorted(names):
        folder = os.open(f"crates/{name}", os.O_RDONLY)
        os.set_inheritable(folder, True)
        try:
            fcntl.flock(folder, fcntl.LOCK_EX | fcntl.LOCK_NB)
        except BlockingIOError:
            say(f"waiting for what works in crates/{name}")
            fcntl.flock(folder, fcntl.LOCK_EX)
        except OSError:
            # (some file systems have no locks)
            pass
    return now()


def rlib(name):
    """Returns the path of a crate's library, once it is proved and built."""
    return f"crates/{name}/out/rlib/{name}.rlib"


def made_of(name):
    """Returns the path of what is built of a crate: the program, or a library."""
    return f"crates/{name}/out/{name}" if name == PROGRAM else rlib(name)


def is_fresh(path, names):
    """Whether it is there, no other toolchain built it, and no source of these crates has changed since, nor a folder of them, as
    where one was removed."""
    sources = ["crates.txt"]
    for name in names:
        for part in ("src", "specs", "proofs"):
            for folder, _, files in os.walk(f"crates/{name}/{part}"):
                sources += [folder, *(f"{folder}/{it}" for it in files)]
    if not os.path.exists(path) or os.stat(path).st_mtime_ns < max(os.lstat(it).st_mtime_ns for it in sources):
        return False
    with contextlib.suppress(FileNotFoundError), open(f"{path}.toolchain", encoding="utf-8") as file:
        toolchain = file.read()
        if toolchain != version():
            say(f"what {toolchain} built is built anew by {version()}")
            return False
    return True


def are_built(needs, names):
    """Whether the library of each crate is there, and no source of it or of what it rests on is newer."""
    return all(is_fresh(rlib(it), below(needs, it)) for it in names)


def link(source, target):
    """A second name for a file, or a copy of it if the file system can't give one."""
    try:
        os.link(source, target)
    except OSError:
        shutil.copy2(source, target)


def apart(needs, name):
    """Makes a copy of the crate, and of what it rests on, in which it can be built next to others. Returns the crate's folder in it."""
    top = f"{BUILDS}/{name}"
    for it in below(needs, name):
        # (the folder of the builds lies in the program's own)
        without = shutil.ignore_patterns("builds") if it == PROGRAM else None
        shutil.copytree(f"crates/{it}", f"{top}/crates/{it}", ignore=without, copy_function=link)
    with open("crates.txt", encoding="utf-8") as file, open(f"{top}/crates.txt", "w", encoding="utf-8") as some:
        some.writelines(line for line in file if line.partition(":")[0].split(" ")[0] in below(needs, name))
    return f"{top}/crates/{name}"


def take(name):
    """Moves what was built to the crate itself."""
    to = f"crates/{name}/out"
    if name != PROGRAM:
        shutil.rmtree(to, ignore_errors=True)
    os.makedirs(to, exist_ok=True)
    made = f"{BUILDS}/{name}/crates/{name}/out"
    for it in os.listdir(made):
        old = f"{to}/{it}"
        if os.path.isdir(old):
            shutil.rmtree(old)
        os.replace(f"{made}/{it}", old)
    shutil.rmtree(f"{BUILDS}/{name}", ignore_errors=True)


def lacks_toolchain():
    """Whether there is no command `rt`, which standard error then says."""
    if shutil.which("rt"):
        return False
    say("the toolchain command rt is needed to build it")
    return True


def said_by_rt(word):
    """The line that `rt` says for a word."""
    ran = subprocess.run(["rt", word], stdin=subprocess.DEVNULL, stdout=subprocess.PIPE, text=True)
    if ran.returncode or not ran.stdout.strip():
        raise Stopped(f"the toolchain doesn't work: rt {word} ends with {ran.returncode}")
    return ran.stdout.strip()


@functools.cache
def kit():
    """The toolchain's folder."""
    return os.path.dirname(said_by_rt("doc"))


@functools.cache
def version():
    """The toolchain's version."""
    return said_by_rt("version")


def words_of(needs, name):
    """The words that tell `rattle build` what the crate consists of and rests on, as `rt` gives them."""
    kind, uses = listed()[name]
    at = {it: os.path.abspath(rlib(it)) for it in needs}
    root = "src/main.rt" if os.path.exists(f"crates/{name}/src/main.rt") else "src/lib.rt"
    words = ["--crate-name", name, root]
    words += ["--crate-type", "staticlib"] if kind == ["staticlib"] else []
    for it in ["std", *uses]:
        words += ["--extern", f"{it}={at.get(it, f'{kit()}/rlibs/{it}.rlib')}"]
    for folder in [f"{kit()}/rlibs", *(os.path.dirname(at[it]) for it in below(needs, name)[:-1])]:
        words += ["-L", f"dependency={folder}"]
    words += ["--antt-project", f"{kit()}/rattle/logic/antt-project.json", "--logic-built", f"{kit()}/logic_built"]
    return [*words, "--links", f"{name}="]


def ran(command, folder):
    """Runs a command in a crate's folder, by which it is built. Returns its status, what it said, and how long it took a processor."""
    with tempfile.TemporaryFile("w+", errors="replace") as said:
        if IS_OVER.is_set():
            raise Stopped("the build is over")
        # (it has the locks of this process too, and a group of its own, with all that it starts)
        child = subprocess.Popen(
            command, cwd=folder, stdin=subprocess.DEVNULL, stdout=said, stderr=subprocess.STDOUT, close_fds=False, **OF_ITS_OWN
        )
        RUNNING.add(child.pid)
        _, status, used = os.wait4(child.pid, 0)
        RUNNING.discard(child.pid)
        child.returncode = os.waitstatus_to_exitcode(status)
        said.seek(0)
        return child.returncode, said.read(), used.ru_utime + used.ru_stime


def put(made, path, began):
    """Moves what was made to its place, dated by this time, with the version of the toolchain next to it."""
    with open(f"{made}.toolchain", "w", encoding="utf-8") as file:
        file.write(version())
    os.utime(made, ns=(began, began))
    os.replace(f"{made}.toolchain", f"{path}.toolchain")
    os.replace(made, path)


@contextlib.contextmanager
def made_anew(path, began=None):
    """Gives where to make what is to be at this path. If it is there at the end, it comes to its place, dated by this time, or by when
    its making began."""
    folder = f"{path}.new"
    shutil.rmtree(folder, ignore_errors=True)
    os.makedirs(folder)
    began = began or os.stat(folder).st_mtime_ns
    made = os.path.abspath(f"{folder}/{os.path.basename(path)}")
    try:
        yield made
        if os.path.exists(made):
            put(made, path, began)
    finally:
        shutil.rmtree(folder, ignore_errors=True)


def build_statements(needs, name, jobs):
    """Proves a crate over the statements of those below it, and builds it. Returns the status, and what was said."""
    folder = f"crates/{name}"
    shutil.rmtree(f"{folder}/out/rlib", ignore_errors=True)
    with made_anew(made_of(name)) as made:
        command = [f"{kit()}/bin/rattle", "build", *words_of(needs, name)]
        if name == PROGRAM:
            command += ["--toolchain", f"{kit()}/toolchain", "-o", f"{made}.o"]
        else:
            command += ["--statements", "-o", made]
        status, said, seconds = ran([*command, "--jobs", str(jobs)], folder)
        if status == -signal.SIGKILL and jobs > 1:
            # (most likely for want of memory)
            status, said, seconds = ran([*command, "--jobs", "1"], folder)
        if status == 0 and name == PROGRAM:
            status, said, _ = ran(linking(made), folder)
    if status == 0:
        with open(f"{folder}/out/seconds", "w", encoding="ascii") as file:
            file.write(f"{seconds:.1f}\n")
    return status, said


def linking(made):
    """The command that links the program."""
    command = [f"{kit()}/bin/rattle-link", "--target", "x86_64-unknown-linux-gnu", "--toolchain", f"{kit()}/toolchain"]
    return [*command, "-o", made, f"{made}.o", f"{kit()}/c/libos_c.a", f"{kit()}/c/liblibc_c.a"]


def build_over_kept(needs, name, jobs):
    """Proves and builds a crate by `rt`, over what earlier checks kept. Returns the status, and what was said."""
    command = ["rt", "lib", "--jobs", str(jobs)]
    if name == PROGRAM:
        # (its check reads all that it links, with all proofs, which more jobs would each do again)
        command = ["rt", "run", "--jobs", "1", "--", "check", "urn:isbn:0451450523"]
    shutil.rmtree(f"{BUILDS}/{name}", ignore_errors=True)
    os.makedirs(f"{BUILDS}/{name}")
    began = os.stat(f"{BUILDS}/{name}").st_mtime_ns
    status, said, _ = ran(command, apart(needs, name))
    if status == 0:
        os.utime(f"{BUILDS}/{name}/{made_of(name)}", ns=(began, began))
        take(name)
    return status, said


def are_kept(names):
    """Whether a check has kept in any of these libraries what a later one takes."""
    kept = [f"crates/{it}/out/incremental" for it in names if it != PROGRAM]
    return any(os.path.isdir(it) and os.listdir(it) for it in kept)


def stale(needs, names):
    """The crates of these that have to be built, lowest first: what is built isn't fresh, or one below them is built."""
    found = []
    for name in names:
        if set(needs[name]) & set(found) or not is_fresh(made_of(name), below(needs, name)):
            found.append(name)
    return found


@atexit.register
def end_running():
    """Ends what still builds, and lets nothing else begin."""
    IS_OVER.set()
    groups = list(RUNNING)
    for how, seconds in (signal.SIGTERM, 1), (signal.SIGKILL, 0):
        for group in groups:
            with contextlib.suppress(ProcessLookupError):
                os.killpg(group, how)
        time.sleep(seconds if groups else 0)


def build_in_lanes(needs, names, way, words):
    """Builds the crates, each once those below it are built, and looks for a first answer to the words meanwhile. Returns of a crate
    that failed its name, the status, and what was said."""
    for it in names:
        folder = f"crates/{it}/out" if os.path.exists(f"crates/{it}/out") else f"crates/{it}"
        if not os.access(folder, os.W_OK):
            raise Stopped(f"{folder} can't be written, and a source is newer than what is built there")
    schedule = Schedule(needs, names, lanes(MEMORY, first_answer.MEMORY if words else 0))
    seconds = schedule.seconds_left(time.monotonic())
    say(f"crates to prove and build: {len(names)}, {schedule.most} side by side, in {about(seconds)}")
    progress = Progress(schedule)
    first = first_answer.beside(words if seconds > WAITING else [], progress.say)
    with progress.shown(), first, ThreadPoolExecutor(schedule.most) as pool:
        try:
            return failed_in(schedule, pool, way, progress)
        except BaseException:
            end_running()
            raise


def failed_in(schedule, pool, way, progress):
    """Builds the crates of a schedule. Returns of one that failed its name, the status, and what was said."""
    started, tasks = time.monotonic(), {}
    while schedule.left or schedule.running:
        for name, jobs in schedule.beginning(time.monotonic()).items():
            tasks[pool.submit(way, schedule.needs, name, jobs)] = name
        for task in wait(tasks, return_when=FIRST_COMPLETED).done:
            name = tasks.pop(task)
            status, said = task.result()
            if status:
                return name, status, said
            took = schedule.end(name, time.monotonic())
            so_far = f"{minutes(time.monotonic() - started)} so far"
            progress.say(f"urlcheck: {progress.count()}: {name} in {minutes(took)}, {so_far}")
    return None


def removes_unfit(said, names):
    """Removes the libraries of these crates that the toolchain says aren't as it built them. Returns whether one is removed."""
    unfit = {it for it in re.findall(r"/crates/(\w+)/out/rlib/", said) if it in names} - REMOVED
    for name in unfit:
        say(f"the library of {name} is damaged, or another toolchain's, and is built anew")
        shutil.rmtree(f"crates/{name}/out/rlib", ignore_errors=True)
    REMOVED.update(unfit)
    return bool(unfit)


def build_all(needs, names, keeps=False, words=()):
    """Builds these crates side by side, and keeps what later checks take, if that is asked for or they kept anything. What it is for are
    the words that the program is run with. Standard error says what failed."""
    keeps = keeps or are_kept(names)
    while True:
        some, way = (names, build_over_kept) if keeps else (stale(needs, names), build_statements)
        if not some:
            return
        try:
            failed = build_in_lanes(needs, some, way, words)
        finally:
            shutil.rmtree(BUILDS, ignore_errors=True)
        if not failed:
            return
        name, status, said = failed
        if status != NO_VERDICT or not removes_unfit(said, names):
            print(said, file=sys.stderr)
            raise Stopped(f"the crate {name} wasn't built")
