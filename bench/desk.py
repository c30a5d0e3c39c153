"""Puts per second of the desk beside those of a plain Rust Mutex, at the same work in one run.

Both programs let eight threads put 10,000 numbers each, check that none is lost, and say so. The time is that of the
whole program. Needs rustc, and crates/desk_bench built (rt run in its folder).
"""

import os
import subprocess
import sys
import tempfile
import time

ROOT = os.path.dirname(os.path.dirname(os.path.abspath(__file__)))
DESK = os.path.join(ROOT, "crates", "desk_bench", "out", "desk_bench")
WHOLE = b"8 chairs put 10000 numbers each, and none is lost\n"
PUTS = 80_000
ROUNDS = 20


def run_time(program):
    """The time of one run, in seconds. Ends where a number is lost."""
    start = time.perf_counter()
    run = subprocess.run([program], stdout=subprocess.PIPE, check=True)
    spent = time.perf_counter() - start
    if run.stdout != WHOLE:
        sys.exit(f"{program}: {run.stdout!r}")
    return spent


def main():
    if not os.path.exists(DESK):
        sys.exit("build it first: cd crates/desk_bench && rt run")
    with tempfile.TemporaryDirectory() as folder:
        mutex = os.path.join(folder, "desk_mutex")
        source = os.path.join(ROOT, "bench", "desk_mutex.rs")
        subprocess.run(["rustc", "-O", "-o", mutex, source], check=True)
        desk_times, mutex_times = [], []
        for _ in range(ROUNDS):
            desk_times.append(run_time(DESK))
            mutex_times.append(run_time(mutex))
    for name, times in (("desk", desk_times), ("Mutex", mutex_times)):
        times.sort()
        best, middle = times[0], times[len(times) // 2]
        print(f"{name:6} {PUTS / best:12,.0f} puts/s at best {PUTS / middle:12,.0f} in the middle")
    print(f"desk / Mutex: {min(mutex_times) / min(desk_times):.2f} at best, {mutex_times[ROUNDS // 2] / desk_times[ROUNDS // 2]:.2f} in the middle")


if __name__ == "__main__":
    main()
