#!/usr/bin/env python3
"""Times artiq_lab on a session of 64 runs in 4 pipelines with 1, 2 and 4 workers, each run a kernel that uses up its 20,000
units: 19,992 outputs and 8 turns of a loop. The reports must be the same but for the order of steps of different pipelines,
and the clocks there. Beside it stands `threads_laboratory` in python3, which serves the same session with as many threads,
and comes to the same report. Times are those of the clock on the wall, each the best of some runs. The memory is the
greatest resident set, and what an output takes is told beside a session of half the runs.

    python3 bench/laboratory.py [PROGRAM [ROUNDS]]

PROGRAM is the built artiq_lab, else crates/artiq_lab/out/artiq_lab. `--session WORKERS` writes the session alone.
"""

import json
import os
import sys
import tempfile
import time

ROOT = os.path.dirname(os.path.dirname(os.path.abspath(__file__)))
PROGRAM = os.path.join(ROOT, "crates", "artiq_lab", "out", "artiq_lab")
PLAIN = os.path.join(ROOT, "bench", "threads_laboratory.py")
RUNS, PIPELINES = 64, 4
TURNS, PULSES = 8, 1249
OUTPUTS = TURNS * (2 * PULSES + 1)
WORKERS = (1, 2, 4)


def kernel():
    """The text: each turn of its loop has 1,249 pulses and one output more."""
    lines = ["def main():", "    delay_mu(200000)", f"    for turn in range({TURNS}):"]
    for number in range(PULSES):
        lines += [f"        ttl{number % 16}.pulse_mu({8 + 8 * (number % 5)})", "        delay_mu(8)"]
    lines += ["        ttl0.off()", "        delay_mu(8)"]
    return "\n".join(lines) + "\n"


def session(workers, runs):
    """The session for so many workers."""
    return {
        "workers": workers,
        "pipelines": [{}] * PIPELINES,
        "sources": [kernel()],
        "experiments": [{"source": 0, "prepare": [], "run": [{"kernel": "main", "args": []}], "analyze": []}],
        "arrivals": [{"at": 0, "submit": {"experiment": 0, "pipeline": rid % PIPELINES}} for rid in range(runs)],
    }


def spawned(argv, text, report):
    """Runs a program on a file into another: its greatest resident set in bytes."""
    text.seek(0)
    files = [(os.POSIX_SPAWN_DUP2, text.fileno(), 0), (os.POSIX_SPAWN_DUP2, report.fileno(), 1)]
    process = os.posix_spawn(argv[0], argv, os.environ, file_actions=files)
    _, status, usage = os.wait4(process, 0)
    if status != 0:
        sys.exit(f"{argv[0]} ended with status {os.waitstatus_to_exitcode(status)}")
    return usage.ru_maxrss * 1024


def memory_of(program, workers, runs):
    """The greatest resident set of a session, in bytes. What this process holds itself counts too, so this is asked before it reads a report."""
    with tempfile.TemporaryFile() as text, open(os.devnull, "wb") as report:
        text.write(json.dumps(session(workers, runs)).encode("ascii"))
        return spawned([program], text, report)


def served(argv, workers, rounds):
    """The best time in seconds, and the report's lines."""
    best = float("inf")
    with tempfile.TemporaryFile() as text:
        text.write(json.dumps(session(workers, RUNS)).encode("ascii"))
        for _ in range(rounds):
            with tempfile.TemporaryFile() as report:
                start = time.perf_counter()
                spawned(argv, text, report)
                best = min(best, time.perf_counter() - start)
                report.seek(0)
                lines = report.read().decode("ascii").splitlines()
    return best, lines


def settled(lines):
    """The lines without what may differ: steps without their clocks, in the order of the runs."""
    steps = sorted(line.split(" ", 2)[2] for line in lines if line.startswith("step "))
    return steps + [line for line in lines if not line.startswith("step ")]


def compare(program, rounds, memory):
    """Prints a line for each number of workers."""
    report = first = plain_first = None
    for workers in WORKERS:
        spent, lines = served([program], workers, rounds)
        plain, plain_lines = served([sys.executable, PLAIN], workers, 1)
        report = report or settled(lines)
        for name, others in ((program, lines), (PLAIN, plain_lines)):
            if settled(others) != report:
                sys.exit(f"{name}, {workers} workers: another report")
        first, plain_first = first or spent, plain_first or plain
        print(
            f"{workers} workers {spent:7.3f} s, {first / spent:5.2f} times as fast as 1, {memory[workers] >> 20:5} MB;"
            f" python3 {plain:7.2f} s, {plain_first / plain:5.2f} times as fast as 1; {plain / spent:6.1f} times python3"
        )


def main():
    if len(sys.argv) == 3 and sys.argv[1] == "--session":
        json.dump(session(int(sys.argv[2]), RUNS), sys.stdout)
        return
    program = os.path.abspath(sys.argv[1]) if len(sys.argv) > 1 else PROGRAM
    rounds = int(sys.argv[2]) if len(sys.argv) > 2 else 5
    if not os.path.exists(program):
        sys.exit("build it first: bin/artiq_lab builds it")
    print(f"{RUNS} runs of {OUTPUTS} outputs in {PIPELINES} pipelines")
    memory = {workers: memory_of(program, workers, RUNS) for workers in WORKERS}
    half = memory_of(program, 1, RUNS // 2)
    compare(program, rounds, memory)
    print(f"memory: {(memory[1] - half) / (RUNS // 2 * OUTPUTS):.0f} B an output")


if __name__ == "__main__":
    main()
