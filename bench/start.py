#!/usr/bin/env python3
"""The start of a built program: by its launcher, and by a link to that, beside the program alone.

    python3 bench/start.py

Each round runs all three in turn. Printed are the least time of all rounds by the clock, and the median of the processor's,
in milliseconds; what each is above the program's own; and how often the program's own time by the clock it is. On a machine
that does other things besides, the processor's time tells more.
"""

import os
import statistics
import tempfile
import time

from timing import ROOT

ROUNDS = 300
PROGRAMS = (
    ("artiq_sim", ["sim"], "examples/pair_of_pulses.py"),
    ("artiq_lab", [], "examples/two_pipelines.json"),
    ("artiq_trace", [], "examples/pair_of_pulses.py"),
)


def milliseconds(argv, path):
    """The time of one run on a file, by the clock and of the processor."""
    silent = [(os.POSIX_SPAWN_OPEN, 0, path, os.O_RDONLY, 0), (os.POSIX_SPAWN_OPEN, 1, os.devnull, os.O_WRONLY, 0)]
    start = time.perf_counter()
    run = os.posix_spawn(argv[0], argv, os.environ, file_actions=silent)
    _, status, used = os.wait4(run, 0)
    if status != 0:
        raise SystemExit(f"{argv[0]} ended with status {os.waitstatus_to_exitcode(status)}")
    return (time.perf_counter() - start) * 1000, (used.ru_utime + used.ru_stime) * 1000


def show(name, words, path, folder):
    """Prints the times of one program, which its launcher builds first where it isn't built."""
    launcher, link = os.path.join(ROOT, "bin", name), os.path.join(folder, name)
    os.symlink(launcher, link)
    ways = {"alone": os.path.join(ROOT, "crates", name, "out", name), "launcher": launcher, "link": link}
    milliseconds([launcher, *words], path)
    found = {way: [] for way in ways}
    for _ in range(ROUNDS):
        for way, program in ways.items():
            found[way].append(milliseconds([program, *words], path))
    times = {way: (min(clock for clock, _ in runs), statistics.median(used for _, used in runs)) for way, runs in found.items()}
    alone = times["alone"]
    for way, (clock, used) in times.items():
        more = f"{clock:8.2f} {clock - alone[0]:7.2f} {used:10.2f} {used - alone[1]:7.2f} {clock / alone[0]:7.2f}"
        print(f"{name:10} {way:10} {more}")


def main():
    print(f"{'program':10} {'started':10} {'clock':>8} {'adds':>7} {'processor':>10} {'adds':>7} {'ratio':>7}")
    with tempfile.TemporaryDirectory() as folder:
        for name, words, path in PROGRAMS:
            show(name, words, os.path.join(ROOT, path), folder)


if __name__ == "__main__":
    main()
