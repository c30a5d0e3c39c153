#!/usr/bin/env python3
"""Times the reading of sessions of 256 KiB to 1 MiB beside json.loads of the same bytes. The program reads each JSON text
to a value and then to a session, so it does more; the time for a byte must not grow with the length. Needs
crates/session_bench built (rt run in its folder)."""

import json
import os
import subprocess
import sys
import tempfile
import time

from timing import processor_time

ROOT = os.path.dirname(os.path.dirname(os.path.abspath(__file__)))
PROGRAM = os.path.join(ROOT, "crates", "session_bench", "out", "session_bench")
LENGTHS = (256 * 1024, 512 * 1024, 1024 * 1024)
ROUNDS = 20
TRIES = 5


def session(length):
    """The bytes of a session of this length, and its value: edges, lists of numbers, kernels, and a comment up to the length."""
    part = length // 4
    edges = [[24 + number % 8, 100 * number, "rf"[number % 2]] for number in range(min(4096, part // 80))]
    kernel = "def main():\n" + "    ttl0.pulse_mu(100)\n" * (part // 24)
    numbers = [(number * 7919) % 10007 for number in range(512)]
    sets = max(1, part // 3100)
    steps = [[{"set": f"d{place}_{step}", "value": numbers} for step in range(16)] for place in range(sets // 16)]
    run = [{"kernel": "main", "args": []}]
    value = {
        "pipelines": [{"edges": edges}] * 4,
        "sources": [kernel],
        "experiments": [{"source": 0, "prepare": prepare, "run": run, "analyze": []} for prepare in steps],
        "arrivals": [{"at": 3 * number, "submit": {"experiment": 0, "pipeline": number % 4}} for number in range(64)],
    }
    value["sources"][0] += "#" * (length - len(json.dumps(value)))
    text = json.dumps(value).encode("ascii")
    if len(text) != length:
        sys.exit(f"a session of {len(text)} bytes in place of {length}")
    return text, value


def program_time(path, line, rounds):
    """The best processor time of some runs that read a file so many times, in seconds. Ends where another line comes."""
    best = float("inf")
    for _ in range(TRIES):
        start = processor_time()
        run = subprocess.run([PROGRAM, str(rounds), path], stdout=subprocess.PIPE, check=True)
        best = min(best, processor_time() - start)
        if run.stdout.decode("utf-8") != line:
            sys.exit(f"{PROGRAM}: {run.stdout!r}")
    return best


def loads_time(text):
    """The best processor time of json.loads, in seconds."""
    best = float("inf")
    for _ in range(TRIES * ROUNDS):
        start = time.process_time()
        json.loads(text)
        best = min(best, time.process_time() - start)
    return best


def main():
    if not os.path.exists(PROGRAM):
        sys.exit("build it first: cd crates/session_bench && rt run")
    first = None
    for length in LENGTHS:
        text, value = session(length)
        with tempfile.NamedTemporaryFile(suffix=".json") as file:
            file.write(text)
            file.flush()
            sizes = ", ".join(f"{len(value[name])} {name}" for name in ("pipelines", "sources", "experiments", "arrivals"))
            line = f"{file.name}: {sizes}\n"
            spent = program_time(file.name, line, ROUNDS + 1) - program_time(file.name, line, 1)
        one = spent / ROUNDS
        loads = loads_time(text)
        first = first or one / length
        print(
            f"{length // 1024:5} KiB  read_session {one * 1e3:7.2f} ms, json.loads {loads * 1e3:7.2f} ms, "
            f"{one / loads:5.2f} times; {one / length * 1e9:5.1f} ns a byte, {one / length / first:5.2f} times the first"
        )


if __name__ == "__main__":
    main()
