#!/usr/bin/env python3
"""Times outputs through a core, from the request to the trace: for one output the time must not grow with their number, and
two outputs must take as long 10 cycles apart as 100,000,000. Beside it stands a plain Rust loop that keeps the same events in a
vector and sorts it. Needs rustc, and crates/core_bench built (rt run in its folder)."""

import os
import subprocess
import sys
import tempfile

from timing import processor_time

ROOT = os.path.dirname(os.path.dirname(os.path.abspath(__file__)))
CORE = os.path.join(ROOT, "crates", "core_bench", "out", "core_bench")
NUMBERS = (25_000, 50_000, 100_000)
NEAR, FAR, FARTHEST = 10, 100_000_000, 499_999_999_999_999_999
REPEATS = 20
PAIRS = 20_000
TRIES = 10


def best_time(program, outputs, distance, rounds):
    """The best processor time of some runs, in seconds. Ends where the program prints something else."""
    counter = (outputs - 1) * distance + 1 if outputs else 0
    expected = f"{outputs} outputs put out, counter {counter}\n".encode("ascii")
    best = float("inf")
    for _ in range(TRIES):
        start = processor_time()
        run = subprocess.run([program, str(outputs), str(distance), str(rounds)], stdout=subprocess.PIPE, check=True)
        best = min(best, processor_time() - start)
        if run.stdout != expected:
            sys.exit(f"{program}: {run.stdout!r}")
    return best


def compare_numbers(loop):
    """Prints the time of one output, beside the loop's, for each number of them."""
    first = None
    for number in NUMBERS:
        core = (best_time(CORE, number, NEAR, REPEATS) - best_time(CORE, 0, NEAR, REPEATS)) / REPEATS / number
        plain = (best_time(loop, number, NEAR, REPEATS) - best_time(loop, 0, NEAR, REPEATS)) / REPEATS / number
        first = first or core
        print(
            f"{number:7} outputs: {core * 1e9:6.1f} ns for one, {core / first:5.2f} times the first,"
            f" {core / plain:5.1f} times the loop's {plain * 1e9:.1f} ns"
        )


def compare_distances():
    """Prints the time of a session of two outputs, near and far apart."""
    near = best_time(CORE, 2, NEAR, PAIRS) / PAIRS
    for distance in (NEAR, FAR, FARTHEST):
        spent = best_time(CORE, 2, distance, PAIRS) / PAIRS
        print(f"two outputs {distance} cycles apart: {spent * 1e6:6.2f} us a session, {spent / near:5.2f} times the nearest")


def main():
    if not os.path.exists(CORE):
        sys.exit("build it first: cd crates/core_bench && rt run")
    with tempfile.TemporaryDirectory() as folder:
        loop = os.path.join(folder, "outputs_loop")
        source = os.path.join(ROOT, "bench", "outputs_loop.rs")
        subprocess.run(["rustc", "-O", "-o", loop, source], check=True)
        compare_numbers(loop)
        compare_distances()


if __name__ == "__main__":
    main()
