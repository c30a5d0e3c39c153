#!/usr/bin/env python3
"""Times `artiq_trace` beside `artiq_sim sim` on three kernels: 40,000 outputs of a generated kernel, 35 million instructions of
arithmetic, and 100,000 outputs of calls and parallel blocks.

    python3 bench/traces.py [--program PATH] [--tracer PATH] [ROUNDS]

Without PATH it runs the programs that bin/artiq_sim and bin/artiq_trace built. Both run in turn, and what they write goes to
nowhere. Times are processor times of whole processes, each the least of some runs. Where valgrind is installed it counts host
instructions of one run each: all of them, and all but those of the call that makes the text, which finds the fates of a trace
as well.
"""

import argparse
import os
import re
import shutil
import subprocess
import sys
import tempfile

from instructions import NAMED, callgrind
from kernels import ARITHMETIC, PARALLEL, generated_text
from timing import PROGRAM, ROOT

TRACER = os.path.join(ROOT, "crates", "artiq_trace", "out", "artiq_trace")
KERNELS = {
    "40,000 generated outputs": generated_text(1),
    "35 million instructions": ARITHMETIC,
    "100,000 outputs in pairs": PARALLEL,
}
# The calls that make the text, of a trace with the fates of its outputs.
WRITERS = ("sim_report::texts::report", "trace_program::answer::trace_of")
COST = re.compile(r"\S+ (\d+)$")


def processor_time(argv, path):
    """The processor time of one run on a file, in milliseconds."""
    with open(path, "rb") as text:
        process = subprocess.Popen(argv, stdin=text, stdout=subprocess.DEVNULL)
        _, status, usage = os.wait4(process.pid, 0)
    process.returncode = os.waitstatus_to_exitcode(status)
    if process.returncode != 0:
        sys.exit(f"{argv} ended with status {process.returncode}")
    return 1000 * (usage.ru_utime + usage.ru_stime)


def counted(argv, text):
    """The host instructions of one run, and those of the call that makes the text."""
    every, written = callgrind(argv, text, (0,))
    names, called, is_next, spent = {}, "", False, 0
    for line in written.splitlines():
        if found := NAMED.match(line):
            names.setdefault(found[2], found[3])
            called = names[found[2]] if found[1] else ""
        elif line.startswith("calls="):
            is_next = called in WRITERS
        elif is_next:
            spent, is_next = spent + int(COST.match(line)[1]), False
    return every, spent


def main():
    parser = argparse.ArgumentParser(description=__doc__, formatter_class=argparse.RawDescriptionHelpFormatter)
    parser.add_argument("--program", default=PROGRAM)
    parser.add_argument("--tracer", default=TRACER)
    parser.add_argument("rounds", nargs="?", type=int, default=20)
    asked = parser.parse_args()
    programs = ([asked.program, "sim"], [asked.tracer])
    for argv in programs:
        if not os.path.exists(argv[0]):
            sys.exit(f"{argv[0]} isn't built")
    with tempfile.TemporaryDirectory() as folder:
        path = os.path.join(folder, "kernel.py")
        for name, text in KERNELS.items():
            with open(path, "w", encoding="ascii") as file:
                file.write(text)
            rounds = [[processor_time(argv, path) for argv in programs] for _ in range(asked.rounds)]
            sim, trace = map(min, zip(*rounds))
            print(f"{name:26} sim {sim:8.1f} ms   trace {trace:8.1f} ms   {trace / sim:5.2f} times", flush=True)
            if shutil.which("valgrind"):
                (sim, report), (trace, lines) = (counted(argv, text) for argv in programs)
                bare = f"{(trace - lines) / (sim - report):.2f} without the texts ({report / 1e6:.1f} M and {lines / 1e6:.1f} M)"
                print(f"{'':26} sim {sim / 1e6:8.1f} M    trace {trace / 1e6:8.1f} M    {trace / sim:5.2f} times, {bare}", flush=True)


if __name__ == "__main__":
    main()
