#!/usr/bin/env python3
"""Times the rounds of a link over which one event is sent, ten million cycles ahead: how many rounds a second. Then the command
`sat` beside `sim` on a generated kernel, whose 40,000 outputs go over the link in 1.4 million rounds. Needs
crates/satellite_bench built (rt run in its folder). Times are the best of some runs. Where valgrind is installed it counts the
host instructions of a round, and of one run of each command, which no other load disturbs."""

import os
import shutil
import subprocess
import sys

from instructions import instructions
from timing import PROGRAM, ROOT, SIM, best_times, processor_time

ROUNDS_PROGRAM = os.path.join(ROOT, "crates", "satellite_bench", "out", "satellite_bench")
CYCLES = 10_000_000
COUNTED = 100_000
TRIES = 5
NUMBER = 1


def best_rounds_time(cycles):
    """The best processor time of some runs, in seconds. Ends where the program prints something else."""
    best = float("inf")
    for _ in range(TRIES):
        start = processor_time()
        run = subprocess.run([ROUNDS_PROGRAM, str(8 * cycles)], stdout=subprocess.PIPE, check=True)
        best = min(best, processor_time() - start)
        if run.stdout != f"counter {cycles}\n".encode("ascii"):
            sys.exit(f"{ROUNDS_PROGRAM}: {run.stdout!r}")
    return best


def told(command, text):
    """The lines that a command writes of a text."""
    run = subprocess.run([PROGRAM, command], input=text, stdout=subprocess.PIPE, check=True)
    return run.stdout.decode("ascii").splitlines()


def count(kernel):
    """Prints the host instructions of a round, and those of `sat` beside `sim`, in millions."""
    many, one = (instructions([ROUNDS_PROGRAM, str(8 * cycles)]) for cycles in (COUNTED + 1, 1))
    print(f"{(many - one) / COUNTED:.1f} host instructions a round")
    sim, sat = (instructions([PROGRAM, command], kernel.decode("ascii")) / 1e6 for command in ("sim", "sat"))
    print(f"sim {sim:.1f} M, sat {sat:.1f} M, {sat / sim:.2f} times sim")


def main():
    if not os.path.exists(ROUNDS_PROGRAM):
        sys.exit("build it first: cd crates/satellite_bench && rt run")
    spent = best_rounds_time(CYCLES) - best_rounds_time(1)
    print(f"{CYCLES} rounds: {spent:.2f} s, {CYCLES / spent / 1e6:.1f} million a second")
    kernel = subprocess.run([*SIM[:1], "gen", "--number", str(NUMBER)], stdout=subprocess.PIPE, check=True).stdout
    report, lines = told("sim", kernel), told("sat", kernel)
    in_time = sum(1 for line in lines if line.startswith("sat ") and " lane " in line)
    if in_time != sum(1 for line in report if line.startswith("out ")) or lines[-1] != report[-1]:
        sys.exit(f"{in_time} events in time, {lines[-1]}, but {report[-1]} is expected")
    sim, sat = best_times(["sim", "sat"], kernel)
    print(f"{in_time} outputs: sim {sim:.1f} ms, sat {sat:.1f} ms, {sat / sim:.2f} times sim")
    if shutil.which("valgrind"):
        count(kernel)


if __name__ == "__main__":
    main()
