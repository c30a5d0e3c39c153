#!/usr/bin/env python3
"""Times the reading of 1,024 to 4,096 edges one by one, and as many saves with a look-up of each name and each handle:
the time for one must not grow with their number. Needs crates/rtio_bench built (rt run in its folder)."""

import os
import subprocess
import sys

from timing import processor_time

ROOT = os.path.dirname(os.path.dirname(os.path.abspath(__file__)))
PROGRAM = os.path.join(ROOT, "crates", "rtio_bench", "out", "rtio_bench")
NUMBERS = (1024, 2048, 4096)
REPEATS = 200
TRIES = 20


def expected(edges, recordings):
    """What the program must print: edges begin in cycle 2, eight units apart, and a recording is as long as its number."""
    stamps = REPEATS * sum(8 * (number + 2) for number in range(edges))
    lengths = REPEATS * sum(range(recordings))
    found = f"{recordings} recordings found, lengths {lengths} by name and {lengths} by handle"
    return f"{edges} edges read, stamps {stamps}\n{found}\n".encode("ascii")


def best_time(edges, recordings):
    """The best processor time of some runs, in microseconds. Ends where the program prints something else."""
    best = float("inf")
    for _ in range(TRIES):
        start = processor_time()
        run = subprocess.run(
            [PROGRAM, str(edges), str(recordings), str(REPEATS)], stdout=subprocess.PIPE, check=True
        )
        best = min(best, processor_time() - start)
        if run.stdout != expected(edges, recordings):
            sys.exit(f"{PROGRAM}: {run.stdout!r}")
    return best * 1_000_000


def compare(name, start, times):
    """Prints the times for one, without that of a start, and how they grow from the smallest number on."""
    first = None
    for number, spent in zip(NUMBERS, times):
        repeat = (spent - start) / REPEATS
        one = repeat / number
        first = first or one
        print(f"{number:6} {name:10} {repeat / 1000:8.3f} ms {one * 1000:8.1f} ns for one {one / first:6.2f} times the first")


def main():
    if not os.path.exists(PROGRAM):
        sys.exit("build it first: cd crates/rtio_bench && rt run")
    start = best_time(0, 0)
    compare("edges", start, [best_time(number, 0) for number in NUMBERS])
    compare("recordings", start, [best_time(0, number) for number in NUMBERS])


if __name__ == "__main__":
    main()
