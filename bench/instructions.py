#!/usr/bin/env python3
"""Counts host instructions under callgrind, which no other load disturbs, and prints each figure beside its aim and beside the
last one that docs/SPEED.md keeps.

It runs the processor's loop, `check` on a text of 8,099 statements and on one of 1 MiB, and outputs through a core: each of these
figures is of whole runs, less a run without the work. Then come whole runs of `artiq_sim`, in millions of host instructions, and
the memory of one of them. Needs valgrind (without it nothing is counted), and crates/cpu_bench, crates/core_bench and
crates/artiq_sim built (`rt run` in the folder of each).

    python3 bench/instructions.py [--program PATH]

PATH is the built artiq_sim, else that of crates/artiq_sim.
"""

import argparse
import os
import re
import shutil
import subprocess
import sys
import tempfile

from kernel_texts import expressions_text
from kernels import arithmetic
from straight_outputs import outputs
from timing import PROGRAM, ROOT

CPU = os.path.join(ROOT, "crates", "cpu_bench", "out", "cpu_bench")
CORE = os.path.join(ROOT, "crates", "core_bench", "out", "core_bench")
KEPT = os.path.join(ROOT, "docs", "SPEED.md")
TURNS, TURN = 100_000, 17
STATEMENTS = 8_099
FEW, MANY = 25_000, 50_000
DISTANCE = 10
ONE_DELAY = "def main():\n    delay_mu(0)\n"
DELAYS = "def main():\n" + "".join(f"    delay_mu({number})\n" for number in range(STATEMENTS))
NAMES = expressions_text(1024)
# 50,000 pulses, which keep the lanes full.
PULSES = """def main():
    core.reset()
    for turn in range(50000):
        ttl0.pulse_mu(100)
        delay_mu(100)
"""
COLLECTED = re.compile(r"Collected : (\d+)")
# A function, or one that it calls, with its name where it is met first.
NAMED = re.compile(r"(c?)fn=\((\d+)\)(?: (.+))?")
MEMORY_CALLS = ("rattle_alloc", "rattle_realloc")


def callgrind(argv, text, statuses):
    """Runs a program on a text under callgrind: how many host instructions, and what callgrind wrote. Ends where the run ends with another status."""
    with tempfile.TemporaryDirectory() as folder:
        out = os.path.join(folder, "callgrind.out")
        run = subprocess.run(
            ["valgrind", "--tool=callgrind", f"--callgrind-out-file={out}", *argv],
            input=text.encode("ascii"),
            capture_output=True,
            check=False,
        )
        with open(out, encoding="utf-8", errors="replace") as file:
            written = file.read()
    found = COLLECTED.search(run.stderr.decode(errors="replace"))
    if run.returncode not in statuses or not found:
        sys.exit(f"{argv[0]} ended with status {run.returncode}")
    return int(found[1]), written


def instructions(argv, text="", statuses=(0,)):
    """The host instructions of one run on a text."""
    return callgrind(argv, text, statuses)[0]


def memory_calls(argv):
    """How often one run asked for memory, or for more of it."""
    names, called, calls = {}, "", 0
    for line in callgrind(argv, "", (0,))[1].splitlines():
        if found := NAMED.match(line):
            names.setdefault(found[2], found[3])
            called = names[found[2]] if found[1] else ""
        elif line.startswith("calls=") and called in MEMORY_CALLS:
            calls += int(line[6:].split()[0])
    return calls


def processor():
    """Host instructions for one of the processor's own."""
    many = instructions([CPU, str(TURNS), str(TURNS)])
    return (many - instructions([CPU, "1", "1"])) / (TURNS - 1) / TURN


def statement(program):
    """Host instructions for checking one statement. The text is refused in the end, since it has too many nodes for code."""
    return (check(program, DELAYS, (1,)) - check(program, ONE_DELAY)) / STATEMENTS


def byte(program):
    """Host instructions for checking one byte of long names and comments. The text is refused, since no name is known."""
    return (check(program, NAMES, (1,)) - check(program, ONE_DELAY)) / len(NAMES)


def check(program, text, statuses=(0,)):
    """Host instructions for checking a text."""
    return instructions([program, "check"], text, statuses)


def output():
    """Host instructions for an output, from its request to the trace, with the history's growth."""
    few, many = (instructions([CORE, str(number), str(DISTANCE), "1"]) for number in (FEW, MANY))
    return (many - few) / (MANY - FEW)


def whole(words, text="", statuses=(0,)):
    """What counts the millions of host instructions of a run of the program with these words on a text."""
    return lambda program: instructions([program, *words], text, statuses) / 1e6


def memory(program):
    """The greatest resident set, in MB, of the run of 100,000 outputs."""
    with tempfile.TemporaryFile() as text:
        text.write(PULSES.encode("ascii"))
        text.seek(0)
        process = subprocess.Popen([program, "sim"], stdin=text, stdout=subprocess.DEVNULL)
        _, status, usage = os.wait4(process.pid, 0)
        process.returncode = os.waitstatus_to_exitcode(status)
    if process.returncode != 0:
        sys.exit(f"{program} ended with status {process.returncode}")
    return usage.ru_maxrss / 1e3


BENCHES = [
    ("one instruction of the processor", CPU, processor),
    ("one output, from its request to the trace", CORE, output),
]
MEASURES = [
    ("one statement checked", statement),
    ("one byte checked", byte),
    ("M: check of 8,099 statements", whole(["check"], DELAYS, (1,))),
    ("M: check of 1 MiB of names and comments", whole(["check"], NAMES, (1,))),
    ("M: compile of 5,200 statements", whole(["compile"], outputs(5200))),
    ("M: sim of 5,200 statements", whole(["sim"], outputs(5200))),
    ("M: sim of 100,000 outputs", whole(["sim"], PULSES)),
    ("M: sim --gen 1, 40,000 outputs", whole(["sim", "--gen", "1"])),
    ("M: sim of arithmetic, 100,000 turns", whole(["sim"], arithmetic(100_000))),
    ("MB: memory of 100,000 outputs", memory),
]


def kept():
    """The aim and the last figure of each measure, as the table of docs/SPEED.md has them."""
    with open(KEPT, encoding="utf-8") as file:
        rows = [[cell.strip() for cell in line.strip("|\n ").split("|")] for line in file if line.startswith("|")]
    return {row[0]: (row[1], row[2]) for row in rows if len(row) >= 3}


def tell(name, figures, now):
    """Prints the line of a measure."""
    aim, last = figures.get(name, ("", ""))
    print(f"{name:44} {now:>9} {aim:>9} {last:>9}", flush=True)


def main():
    parser = argparse.ArgumentParser(description=__doc__, formatter_class=argparse.RawDescriptionHelpFormatter)
    parser.add_argument("--program", default=PROGRAM)
    program = parser.parse_args().program
    if not shutil.which("valgrind"):
        print("valgrind isn't installed: nothing is counted")
        return
    figures = kept()
    print(f"{'host instructions for':44} {'now':>9} {'aim':>9} {'kept':>9}")
    for name, bench, measure in BENCHES:
        tell(name, figures, f"{measure():,.1f}" if os.path.exists(bench) else "not built")
    for name, measure in MEASURES:
        tell(name, figures, f"{measure(program):,.1f}" if os.path.exists(program) else "not built")
    if os.path.exists(CORE):
        few, many = (memory_calls([CORE, str(number), str(DISTANCE), "1"]) for number in (FEW, MANY))
        print(f"a core asks for memory {few} times for {FEW:,} outputs, and {many} times for {MANY:,}: its lists double")


if __name__ == "__main__":
    main()
