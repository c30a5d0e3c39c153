#!/usr/bin/env python3
"""Proves and builds a program of crates/ and the crates that it stands on, side by side.

    python3 launch/build.py NAME      NAME is artiq_sim, artiq_lab or artiq_trace

The launchers in bin/ run it where the program isn't built, or its code is newer. It ends with 0 once the program stands in
crates/NAME/out/. What it does is told on standard error.

Each crate is built by `rt lib`, and the program by `rt run`, which also runs it on what the crate has for that. rt locks
every crate that a crate stands on. So each build works in a lane: a copy of the crates, in the folder where git keeps its
state, with links to the libraries that are built. What a lane has proved stands in the checkout at once, and an interrupted
build goes on from there.

There are as many lanes as processors, and at most one for each 2 GB of free memory. Of the crates that can be built, the one
goes first behind which the longest chain of others waits, by the seconds in launch/times.txt. The time that is left is told
by these seconds too, and by what the crates built so far took beside them.
"""

import contextlib
import fcntl
import os
import pathlib
import re
import shutil
import signal
import subprocess
import sys
import tempfile
import time

ROOT = pathlib.Path(__file__).resolve().parent.parent
# What a check reads of a crate.
PARTS = ("src", "specs", "proofs")
# The memory that a lane is reckoned to take, and the seconds of a crate that times.txt doesn't name.
LANE_BYTES, USUAL_SECONDS = 2 << 30, 30.0
# The most processes that share the searches of one crate, where there are processors that no other crate wants.
MOST_JOBS = 4
# How rt ends where its check was killed.
KILLED = (-signal.SIGKILL, 128 + signal.SIGKILL, 256 - signal.SIGKILL)


class Failed(Exception):
    """A crate that isn't proved or built, with what to say of it."""


def say(name, text):
    """Tells on standard error what the build of a program does."""
    print(f"{name}: {text}", file=sys.stderr, flush=True)


def crates_needed(name):
    """Returns the crates that a program stands on and itself, each with those that it names, lower ones first."""
    needs = {}
    for line in (ROOT / "crates.txt").read_text().splitlines():
        head, colon, below = line.partition(":")
        if colon and not line.startswith("#"):
            needs[head.split()[0]] = below.split()
    order = {}

    def visit(crate):
        if crate not in order and crate in needs:
            for below in needs[crate]:
                visit(below)
            order[crate] = [it for it in needs[crate] if it in needs]

    visit(name)
    return order


def all_below(needs):
    """Returns all crates that each crate stands on, itself left out."""
    found = {}
    for crate, named in needs.items():
        found[crate] = set(named).union(*(found[it] for it in named))
    return found


def seconds_known(needs):
    """Returns how long each crate's proof takes, in seconds of one processor."""
    rows = (line.split() for line in (ROOT / "launch" / "times.txt").read_text().splitlines() if line[:1].isalpha())
    known = {crate: float(seconds) for crate, seconds in rows}
    return {crate: known.get(crate, USUAL_SECONDS) for crate in needs}


def chains(needs, seconds):
    """Returns, for each crate, the seconds of the longest chain of crates that begins with it and goes up."""
    above = {crate: [it for it in needs if crate in needs[it]] for crate in needs}
    found = {}
    for crate in reversed(needs):
        found[crate] = seconds[crate] + max((found[it] for it in above[crate]), default=0.0)
    return found


def number_in(path, pattern):
    """Returns the first number in a file of the system that follows the pattern, or None."""
    try:
        found = re.search(pattern, pathlib.Path(path).read_text(), re.M)
    except OSError:
        return None
    return int(found[1]) if found else None


def lanes_that_fit():
    """Returns how many crates can be built side by side: by processors, and by free memory, in the group's limits too."""
    processors = len(os.sched_getaffinity(0))
    quota, period = number_in("/sys/fs/cgroup/cpu.max", r"^(\d+) "), number_in("/sys/fs/cgroup/cpu.max", r" (\d+)")
    if quota and period:
        processors = min(processors, max(1, quota // period))
    free = [1024 * (number_in("/proc/meminfo", r"^MemAvailable:\s+(\d+)") or 0)]
    most, used = number_in("/sys/fs/cgroup/memory.max", r"^(\d+)"), number_in("/sys/fs/cgroup/memory.current", r"^(\d+)")
    if most and used:
        free.append(most - used)
    return max(1, min(processors, min(free) // LANE_BYTES))


def simulated(needs, seconds, behind, lanes, done=(), running=()):
    """Returns the seconds in which the crates that are left are built: `running` gives the seconds that each has still."""
    done, ends, clock = set(done), dict(running), 0.0
    while len(done) < len(needs):
        ready = [it for it in needs if it not in done and it not in ends and done.issuperset(needs[it])]
        for crate in sorted(ready, key=behind.get, reverse=True)[: max(0, lanes - len(ends))]:
            ends[crate] = clock + seconds[crate]
        crate = min(ends, key=ends.get)
        clock = max(clock, ends.pop(crate))
        done.add(crate)
    return clock


def newest(crate, parts=PARTS):
    """Returns the time of the newest file or folder of a crate's parts, in nanoseconds."""
    folders = (at for part in parts for at in os.walk(ROOT / "crates" / crate / part))
    return max((os.stat(os.path.join(at, it)).st_mtime_ns for at, _, files in folders for it in (*files, ".")), default=0)


def built(needs):
    """Returns the libraries that stand in the checkout and aren't older than their files and than those that they stand on.

    It only spares a look: rt itself goes by the sums of the files, and builds again what doesn't agree.
    """
    times, listed = {}, (ROOT / "crates.txt").stat().st_mtime_ns
    for crate, named in needs.items():
        stamp = ROOT / "crates" / crate / "out" / "rlib" / "stamp"
        if stamp.is_file() and all(it in times for it in named):
            time_built = stamp.stat().st_mtime_ns
            if time_built >= max([listed, newest(crate), *(times[it] for it in named)]):
                times[crate] = time_built
    return set(times)


@contextlib.contextmanager
def locked(folder, waits=lambda: None):
    """Holds the lock by which rt, and this, keep to one command in a folder; calls `waits` where another one holds it."""
    held = os.open(folder, os.O_RDONLY)
    try:
        try:
            fcntl.flock(held, fcntl.LOCK_EX | fcntl.LOCK_NB)
        except BlockingIOError:
            waits()
            fcntl.flock(held, fcntl.LOCK_EX)
        yield
    finally:
        os.close(held)


def link(one, other):
    """Gives a file of a library a second name: rt makes such files anew, and never writes into one that is there."""
    try:
        os.link(one, other)
    except OSError:
        shutil.copy2(one, other)


def replace(folder, to):
    """Puts a copy of a folder, by links, in the place of another."""
    room = to.with_name(f"{to.name}.new")
    shutil.rmtree(room, ignore_errors=True)
    shutil.copytree(folder, room, copy_function=link)
    shutil.rmtree(to, ignore_errors=True)
    room.rename(to)


class Lane:
    """A copy of the crates, in which one of them is built at a time."""

    def __init__(self, folder, source, needs):
        self.folder, self.log, self.linked = folder, folder / "log", set()
        for crate in needs:
            leave = shutil.ignore_patterns("out", "must-fail")
            shutil.copytree(source / "crates" / crate, folder / "crates" / crate, ignore=leave)
        for name in ("crates.txt", "HANDLES"):
            shutil.copy2(source / name, folder / name)

    def out(self, crate):
        """Returns the folder of what rt makes of a crate in this lane."""
        return self.folder / "crates" / crate / "out"

    def begin(self, crate, below, jobs):
        """Starts the build of a crate over the libraries that stand in the checkout, and returns its process."""
        for it in below - self.linked:
            self.out(it).mkdir(exist_ok=True)
            replace(ROOT / "crates" / it / "out" / "rlib", self.out(it) / "rlib")
        self.linked |= below
        self.out(crate).mkdir(exist_ok=True)
        folder, given, words = self.out(crate).parent, os.devnull, ["rt", "lib", "--jobs", str(jobs)]
        if is_program(crate):
            given, words = folder / "stdin", ["rt", "run", "--jobs", str(jobs), "--", *text_of(folder / "args").splitlines()]
        with open(given, "rb") as source, open(self.log, "wb") as log, open(self.folder / "written", "wb") as out:
            sink = out if is_program(crate) else log
            return subprocess.Popen(words, cwd=folder, stdin=source, stdout=sink, stderr=log)

    def end(self, crate, status, began):
        """Puts what was built into the checkout, with the time at which all began; raises Failed where it wasn't built."""
        if status != 0:
            lines = self.log.read_text(errors="replace").splitlines()
            print(*lines[-40:], sep="\n", file=sys.stderr)
            raise Failed(f"{crate} isn't proved: the last lines of what rt said stand above")
        out, to = self.out(crate), ROOT / "crates" / crate / "out"
        to.mkdir(exist_ok=True)
        if is_program(crate):
            if (self.folder / "written").read_text() != text_of(out.parent / "stdout"):
                raise Failed(f"{crate} is proved, but writes something else than its file stdout has")
            os.utime(out / crate, ns=(began, began))
            shutil.copy2(out / crate, to / f"{crate}.new")
            os.replace(to / f"{crate}.new", to / crate)
            return
        os.utime(out / "rlib" / "stamp", ns=(began, began))
        with locked(to.parent):
            replace(out / "rlib", to / "rlib")
        self.linked.add(crate)
        shutil.rmtree(out / "incremental", ignore_errors=True)


def is_program(crate):
    """Whether a crate is a program."""
    return (ROOT / "crates" / crate / "src" / "main.rt").is_file()


def text_of(path):
    """Returns what a file has, nothing where it isn't there."""
    return path.read_text() if path.is_file() else ""


@contextlib.contextmanager
def room_for_lanes():
    """Gives an empty folder for the lanes, on the checkout's disk where git has its folder there, and removes it at the end."""
    git = ROOT / ".git"
    if git.is_file():
        git = ROOT / git.read_text().partition("gitdir:")[2].strip()
    room = git / "lanes" if git.is_dir() else pathlib.Path(tempfile.mkdtemp(prefix="lanes-"))
    shutil.rmtree(room, ignore_errors=True)
    room.mkdir()
    try:
        yield room
    finally:
        shutil.rmtree(room, ignore_errors=True)


class Build:
    """The build of a program: which crates are done, and which are in work in which lane."""

    def __init__(self, name, room, needs):
        self.name, self.needs, self.below = name, needs, all_below(needs)
        self.began, self.start, self.room = time.time_ns(), time.monotonic(), room
        self.seconds = seconds_known(needs)
        self.behind = chains(needs, self.seconds)
        self.count = lanes_that_fit()
        self.done, self.running, self.idle = built(needs), {}, []
        # What the crates built here took, by the clock and by the table.
        self.took, self.reckoned = 0.0, 0.0

    def ready(self):
        """Returns the crates that can be built now, the one with the longest chain behind it first."""
        found = [it for it in self.needs if it not in self.done and it not in self.running and self.done.issuperset(self.needs[it])]
        return sorted(found, key=self.behind.get, reverse=True)

    def minutes_left(self):
        """Returns the minutes that are left by the table, and by what the crates took so far beside it."""
        pace = self.took / self.reckoned if self.reckoned else 1.0
        now = time.monotonic()
        running = {it: max(0.0, self.seconds[it] - (now - begun) / pace) for it, (_, _, begun, _) in self.running.items()}
        return round(simulated(self.needs, self.seconds, self.behind, self.count, self.done, running) * pace / 60)

    def new_lane(self):
        """Makes a further lane. All have the crates as they were when the first was made, whatever is edited meanwhile."""
        first = self.room / "0"
        return Lane(self.room / str(len(os.listdir(self.room))), first if first.exists() else ROOT, self.needs)

    def begin_ready(self):
        """Begins the crates that can be built, while there are lanes; processors that no crate wants share its searches."""
        ready = self.ready()
        for place, crate in enumerate(ready):
            free = self.count - sum(jobs for _, _, _, jobs in self.running.values())
            if free <= 0:
                return
            jobs = min(MOST_JOBS, max(1, free // (len(ready) - place)))
            lane = self.idle.pop() if self.idle else self.new_lane()
            self.running[crate] = lane, lane.begin(crate, self.below[crate], jobs), time.monotonic(), jobs

    def end_ended(self):
        """Notes the crates whose build ended, and tells of each."""
        for crate, (lane, process, begun, _) in list(self.running.items()):
            status = process.poll()
            if status is None:
                continue
            del self.running[crate]
            self.idle.append(lane)
            if status in KILLED and self.count > 1:
                self.count -= 1
                say(self.name, f"{crate} was killed, most likely for want of memory: once more, with {self.count} side by side")
                continue
            lane.end(crate, status, self.began)
            self.done.add(crate)
            self.took += time.monotonic() - begun
            self.reckoned += self.seconds[crate]
            left = self.minutes_left()
            say(self.name, f"{crate} is proved, {len(self.done)} of {len(self.needs)}; {left} minutes are left")

    def run(self):
        """Builds all that is left."""
        left = len(self.needs) - len(self.done)
        say(self.name, f"proves and builds {left} of {len(self.needs)} crates first, {self.count} side by side")
        say(self.name, f"this takes some {self.minutes_left()} minutes by launch/times.txt; once interrupted, it goes on from there")
        try:
            while len(self.done) < len(self.needs):
                self.begin_ready()
                time.sleep(0.1)
                self.end_ended()
        finally:
            for _, process, _, _ in self.running.values():
                process.terminate()
                process.wait()
        say(self.name, f"is built, after {round((time.monotonic() - self.start) / 60)} minutes")


def is_current(name, needs):
    """Whether the program is there and no file of its code is newer."""
    program = ROOT / "crates" / name / "out" / name
    if not program.is_file():
        return False
    times = [(ROOT / "crates.txt").stat().st_mtime_ns, *(newest(crate, ["src"]) for crate in needs)]
    return max(times) <= program.stat().st_mtime_ns


def ensure(name):
    """Builds a program of crates/ unless it is there and its code isn't newer, and writes where its code lies beside it."""
    needs = crates_needed(name)
    if name not in needs or not is_program(name):
        raise Failed("crates.txt has no such program")
    with locked(ROOT / "launch", lambda: say(name, "waits for another build in this checkout")):
        if not is_current(name, needs):
            if shutil.which("rt") is None:
                raise Failed("the command rt of the Rattle kit isn't there")
            with room_for_lanes() as room:
                Build(name, room, needs).run()
            if not is_current(name, needs):
                say(name, "its code was edited meanwhile: this is the program of the code before, and the next start builds it anew")
        folders = " ".join(f"crates/{it}/src" for it in needs)
        (ROOT / "crates" / name / "out" / f"{name}.code").write_text(f"code='{folders}'\n")


def main():
    if len(sys.argv) != 2:
        print(__doc__, file=sys.stderr)
        return 2
    name = sys.argv[1]
    signal.signal(signal.SIGTERM, lambda *_: sys.exit(143))
    signal.signal(signal.SIGHUP, lambda *_: sys.exit(129))
    try:
        ensure(name)
    except Failed as why:
        say(name, f"could not be built: {why}")
        return 1
    except KeyboardInterrupt:
        say(name, "interrupted: what is proved stays, and the next start goes on from there")
        return 130
    return 0


if __name__ == "__main__":
    sys.exit(main())
