#!/usr/bin/env python3
"""Times the scheduler by its calls alone: one chair takes and reports each job of 64 runs in 4 pipelines, and kernels aren't
run. With more steps a run the history gets longer, and the time of a step, which is the call that takes it and the one that
reports it, must not. Beside it stands the scheduler of `simulated_scheduler` in python3, which takes the same jobs. Needs
crates/sched_bench built (rt run in its folder)."""

import json
import os
import subprocess
import sys
import tempfile
import time

from simulated_scheduler import Scheduler
from timing import processor_time

ROOT = os.path.dirname(os.path.dirname(os.path.abspath(__file__)))
PROGRAM = os.path.join(ROOT, "crates", "sched_bench", "out", "sched_bench")
RUNS, PIPELINES = 64, 4
LENGTHS = (4, 8, 12, 16)
KINDS = ({"kernel": "main", "args": []}, {"pause": True}, {"kernel": "main", "args": []}, {"check_termination": True})
ROUNDS = 200
PLAIN_ROUNDS = 2
TRIES = 5


def session(steps):
    """A session of 64 runs with this many steps each, of priorities that differ, all there at 0."""
    run = [KINDS[number % len(KINDS)] for number in range(steps)]
    submissions = [{"experiment": 0, "pipeline": rid % PIPELINES, "priority": rid % 5} for rid in range(RUNS)]
    return {
        "pipelines": [{}] * PIPELINES,
        "sources": ["def main():\n    pass\n"],
        "experiments": [{"source": 0, "prepare": [], "run": run, "analyze": []}],
        "arrivals": [{"at": 0, "submit": submission} for submission in submissions],
    }


def serve_plain(value):
    """Takes and reports each job in python: how many there were, and the clock."""
    scheduler = Scheduler(value)
    jobs = 0
    while True:
        kind, run = scheduler.next()
        if kind == "finished":
            return jobs, scheduler.clock
        jobs += 1
        if kind == "prepare":
            scheduler.prepared(run.rid)
        elif kind == "step":
            scheduler.step_done(run.rid)
        else:
            scheduler.analyzed(run.rid)


def program_time(path, expected, rounds):
    """The best processor time of some runs, in seconds. Ends where the program prints something else."""
    best = float("inf")
    for _ in range(TRIES):
        start = processor_time()
        run = subprocess.run([PROGRAM, str(rounds), path], stdout=subprocess.PIPE, check=True)
        best = min(best, processor_time() - start)
        if run.stdout.decode("ascii") != expected:
            sys.exit(f"{PROGRAM}: {run.stdout!r}, but {expected!r} is expected")
    return best


def plain_time(value):
    """The best processor time of the simulated scheduler, in seconds."""
    best = float("inf")
    for _ in range(PLAIN_ROUNDS):
        start = time.process_time()
        serve_plain(value)
        best = min(best, time.process_time() - start)
    return best


def times(steps):
    """The seconds in which the program and python3 serve the session once."""
    value = session(steps)
    jobs, clock = serve_plain(value)
    with tempfile.NamedTemporaryFile("w", suffix=".json") as file:
        json.dump(value, file)
        file.flush()
        expected = f"{file.name}: {RUNS} runs, {2 * jobs} entries, clock {clock}\n"
        spent = program_time(file.name, expected, ROUNDS + 1) - program_time(file.name, expected, 1)
    return spent / ROUNDS, plain_time(value), jobs


def main():
    if not os.path.exists(PROGRAM):
        sys.exit("build it first: cd crates/sched_bench && rt run")
    first = before = None
    for steps in LENGTHS:
        spent, plain, jobs = times(steps)
        line = f"{steps:2} steps a run, {2 * jobs} entries: {spent / jobs / 2 * 1e9:6.0f} ns a call, {plain / spent:4.1f} times as fast as python3"
        if before:
            each = (spent - before[1]) / (steps - before[0]) / RUNS
            first = first or each
            line += f"; a further step {each * 1e9:6.0f} ns, {each / first:4.2f} times the first"
        print(line)
        before = (steps, spent)


if __name__ == "__main__":
    main()
