#!/usr/bin/env python3
"""Instructions per second of the core's processor in a loop of arithmetic, beside python3 and C at the same work in one run.

The loop takes 1,000,000 units, one in each turn, in which a value is multiplied, added to and wrapped to 32 bits. The
processor runs it twice: as instructions written by hand, and as a kernel's text that artiq_sim compiles. Python runs it
twice: as a loop of its own, and as the processor does, instruction by instruction. C is compiled without optimisation and
with -O2. All must come to the same value. Times are processor times, each the best of some runs, less that of a single turn
where a program is started. Needs gcc, and crates/cpu_bench built (rt run in its folder).
"""

import os
import resource
import subprocess
import sys
import tempfile
import time

from timing import PROGRAM as SIMULATOR, SIM

ROOT = os.path.dirname(os.path.dirname(os.path.abspath(__file__)))
PROGRAM = os.path.join(ROOT, "crates", "cpu_bench", "out", "cpu_bench")
SOURCE = os.path.join(ROOT, "bench", "processor_loop.c")
TURNS = 1_000_000
ROUNDS = 5

# The instructions of the image: what each does and its operand. TURNS stands for the number of turns.
LOOP = [
    ("Const", 1),
    ("Store", 0),
    ("Turn", None),
    ("Load", 0),
    ("Const", 1103515245),
    ("Mul", None),
    ("Const", 12345),
    ("Add", None),
    ("Wrap32", None),
    ("Store", 0),
    ("Load", 1),
    ("Const", 1),
    ("Add", None),
    ("Store", 1),
    ("Load", 1),
    ("Const", TURNS),
    ("Lt", None),
    ("JumpZero", 19),
    ("Jump", 2),
    ("Load", 0),
    ("At", None),
    ("Return", None),
]

# The same loop as a kernel's text.
TEXT = """def main():
    value = 1
    turn = 0
    while turn < {turns}:
        value = value * 1103515245 + 12345
        turn += 1
    at_mu(value)
"""


def wrapped(value, bits):
    """The low bits of a number, signed."""
    half = 1 << (bits - 1)
    return ((value + half) & ((1 << bits) - 1)) - half


def own_loop():
    """The loop as python3 writes it: its value."""
    value = 1
    turn = 0
    while True:
        value = ((value * 1103515245 + 12345 + 0x80000000) & 0xFFFFFFFF) - 0x80000000
        turn += 1
        if not turn < TURNS:
            return value


def interpreted():
    """The loop instruction by instruction: its value, the instructions and the units left."""
    operands, slots = [], [0, 0]
    place, cursor, count, units = 0, 0, 0, TURNS
    while True:
        name, operand = LOOP[place]
        count += 1
        place += 1
        if name == "Const":
            operands.append(operand)
        elif name == "Load":
            operands.append(slots[operand])
        elif name == "Store":
            slots[operand] = operands.pop()
        elif name == "Add":
            last = operands.pop()
            operands[-1] = wrapped(operands[-1] + last, 64)
        elif name == "Mul":
            last = operands.pop()
            operands[-1] = wrapped(operands[-1] * last, 64)
        elif name == "Wrap32":
            operands[-1] = wrapped(operands[-1], 32)
        elif name == "Lt":
            last = operands.pop()
            operands[-1] = int(operands[-1] < last)
        elif name == "Turn":
            units -= 1
        elif name == "Jump":
            place = operand
        elif name == "JumpZero":
            if operands.pop() == 0:
                place = operand
        elif name == "At":
            cursor = operands.pop()
        else:
            return cursor, count, units


def call_time(call, rounds):
    """The best processor time of some calls in seconds, and what they return."""
    best = float("inf")
    for _ in range(rounds):
        start = time.process_time()
        found = call()
        best = min(best, time.process_time() - start)
    return best, found


def children_time():
    """The processor time of all programs so far, in seconds."""
    spent = resource.getrusage(resource.RUSAGE_CHILDREN)
    return spent.ru_utime + spent.ru_stime


def run_time(argv, source=b""):
    """The best processor time of some runs in seconds, and what they print."""
    best = float("inf")
    for _ in range(ROUNDS):
        start = children_time()
        run = subprocess.run(argv, input=source, stdout=subprocess.PIPE, check=True)
        best = min(best, children_time() - start)
    return best, run.stdout.decode("ascii")


def program_time(value, count, units):
    """The time of the processor's loop. Ends where it isn't this one."""
    start, _ = run_time([PROGRAM, "1", "1"])
    spent, text = run_time([PROGRAM, str(TURNS), str(TURNS)])
    wanted = f"Returned, {count} instructions, {units} units left, value {value}\n"
    if text != wanted:
        sys.exit(f"{PROGRAM}: {text!r} in place of {wanted!r}")
    return spent - start


def kernel_time(value):
    """The time of the loop as a kernel, and its instructions. Ends where it comes to another value."""
    with open(os.path.join(ROOT, "examples", "pair_of_pulses.py"), "rb") as text:
        subprocess.run(SIM, stdin=text, stdout=subprocess.DEVNULL, check=True)
    times = []
    for turns in (1, TURNS):
        text = TEXT.format(turns=turns).encode()
        image = subprocess.run([SIMULATOR, "compile"], input=text, stdout=subprocess.PIPE, check=True).stdout
        spent, report = run_time([SIMULATOR, "exec"], image)
        times.append(spent)
    lines = dict(line.split(" ", 1) for line in report.splitlines())
    if int(lines["cursor"]) != value:
        sys.exit(f"{SIMULATOR}: {report!r} in place of {value}")
    return times[1] - times[0], int(lines["code"].split()[1])


def compiled_time(level, value):
    """The time of the loop in C. Ends where it comes to another value."""
    with tempfile.TemporaryDirectory() as folder:
        program = os.path.join(folder, "processor_loop")
        subprocess.run(["gcc", level, "-o", program, SOURCE], check=True)
        start, _ = run_time([program, "1"])
        spent, text = run_time([program, str(TURNS)])
    if int(text) != value:
        sys.exit(f"C {level}: {text!r} in place of {value}")
    return spent - start


def main():
    if not os.path.exists(PROGRAM):
        sys.exit("build it first: cd crates/cpu_bench && rt run")
    slow, (value, count, units) = call_time(interpreted, 2)
    own, found = call_time(own_loop, ROUNDS)
    if found != value:
        sys.exit(f"python3: {found} in place of {value}")
    times = [
        ("the processor", program_time(value, count, units), count),
        ("the processor, compiled from a text", *kernel_time(value)),
        ("python3, instruction by instruction", slow, count),
        ("python3, its own loop", own, count),
        ("C -O0", compiled_time("-O0", value), count),
        ("C -O2", compiled_time("-O2", value), count),
    ]
    print(f"{TURNS} turns, {count} instructions, {times[1][2]} where they are compiled, value {value}")
    ours = times[0][1]
    for name, spent, count in times:
        print(f"{name:36} {spent * 1000:8.1f} ms {count / spent / 1e6:10.1f} million instructions/s {spent / ours:8.2f} of the processor's time")


if __name__ == "__main__":
    main()
