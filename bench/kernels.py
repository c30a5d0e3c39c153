#!/usr/bin/env python3
"""Times artiq_sim beside python3 on three kernels: 40,000 outputs of a generated kernel, 35 million instructions of arithmetic,
and 100,000 outputs of calls and parallel blocks.

python3 simulates each kernel in two ways. `simulated` goes through the kernel's text, as a program for any kernel does. `by hand`
is the kernel written as python's own code on a simulated board; the arithmetic there is python's, with no wrapping. All come
to the same report, but for its line `code`. Times are processor times of whole processes, each the best of some runs. The
memory is the least address space in which the program runs, and what an output takes is told beside a run of two outputs.

    python3 bench/kernels.py [ROUNDS]
"""

import os
import subprocess
import sys
import tempfile

from simulated_board import Board, Output
from simulated_kernels import Simulation
from timing import PROGRAM, ROOT, SIM, memory_needed

TURNS = 960_000


def arithmetic(turns):
    """A kernel of so many turns of arithmetic, which sets three datasets."""
    return f"""def main():
    x = int64(1)
    mask = int64(0)
    total = int64(0)
    thirds = 0
    for turn in range({turns}):
        x = (x * 1103515245 + 12345) & 0x7fffffff
        total += x >> 4
        mask = mask ^ x
        if x % 3 == 0:
            thirds += 1
    set_dataset("total", total)
    set_dataset("mask", mask)
    set_dataset("thirds", thirds)
"""


ARITHMETIC = arithmetic(TURNS)

PARALLEL = """def pair(first: int64, second: int64):
    with parallel:
        ttl0.pulse_mu(first)
        with sequential:
            delay_mu(40)
            ttl1.pulse_mu(second)
    delay_mu(200)

def main():
    core.reset()
    for turn in range(25000):
        pair(100, 300)
"""


def generated_pulses(number):
    """The 200 pulses of the generated kernel of a number: delay, channel and length."""
    for _ in range(200):
        number = (number * 6364136223846793005 + 1442695040888963407) % 2**64
        yield 8 + (number >> 33) % 1000, number >> 60, 8 + (number >> 20) % 64


def generated_text(number):
    """The text of that kernel."""
    lines = ["def main():", "    core.reset()", "    for k in range(100):"]
    for delay, channel, length in generated_pulses(number):
        lines += [f"        delay_mu({delay})", f"        ttl{channel}.pulse_mu({length})"]
    return "\n".join(lines) + "\n"


def generated_by_hand():
    """The generated kernel on a board."""
    board = Board()
    ttl = [Output(board, channel) for channel in range(16)]
    pulses = list(generated_pulses(1))
    board.reset()
    for _ in range(100):
        for delay, channel, length in pulses:
            board.delay_mu(delay)
            ttl[channel].pulse_mu(length)
    return board.report("ok")


def arithmetic_by_hand():
    """The arithmetic as python's own code."""
    x, mask, total, thirds = 1, 0, 0, 0
    for _ in range(TURNS):
        x = (x * 1103515245 + 12345) & 0x7FFFFFFF
        total += x >> 4
        mask = mask ^ x
        if x % 3 == 0:
            thirds += 1
    lines = [f"data total {total}", f"data mask {mask}", f"data thirds {thirds}"]
    return lines + Board().report("ok")


def parallel_by_hand():
    """The pairs of pulses on a board."""
    board = Board()
    ttl0, ttl1 = Output(board, 0), Output(board, 1)

    def pair(first, second):
        start = board.now_mu()
        ttl0.pulse_mu(first)
        end = board.now_mu()
        board.at_mu(start)
        board.delay_mu(40)
        ttl1.pulse_mu(second)
        board.at_mu(max(end, board.now_mu()))
        board.delay_mu(200)

    board.reset()
    for _ in range(25000):
        pair(100, 300)
    return board.report("ok")


KERNELS = {
    "generated": ("40,000 generated outputs", generated_text(1), generated_by_hand),
    "arithmetic": ("35 million instructions", ARITHMETIC, arithmetic_by_hand),
    "parallel": ("100,000 outputs in pairs", PARALLEL, parallel_by_hand),
}


def run_python(way, name):
    """Writes the report of a kernel, simulated in one of two ways."""
    _, text, by_hand = KERNELS[name]
    lines = by_hand() if way == "hand" else Simulation(text).run()
    sys.stdout.write("\n".join(lines) + "\n")


def measured(argv, path, rounds):
    """The best processor time of some runs on a file in seconds, and the lines of the report."""
    best = float("inf")
    for _ in range(rounds):
        with open(path, "rb") as source, tempfile.TemporaryFile() as report:
            process = subprocess.Popen(argv, stdin=source, stdout=report)
            _, status, usage = os.wait4(process.pid, 0)
            process.returncode = os.waitstatus_to_exitcode(status)
            if process.returncode != 0:
                sys.exit(f"{argv} ended with status {process.returncode}")
            best = min(best, usage.ru_utime + usage.ru_stime)
            report.seek(0)
            lines = [line for line in report.read().decode().splitlines() if not line.startswith("code")]
    return best, lines


def python_time(way, name, rounds, report):
    """The time of a kernel in python3. Ends where it has another report."""
    spent, lines = measured([sys.executable, __file__, way, name], os.devnull, rounds)
    if lines != report:
        sys.exit(f"{name}, {way}: another report")
    return spent


def main():
    rounds = int(sys.argv[1]) if len(sys.argv) > 1 else 5
    pair = os.path.join(ROOT, "examples", "pair_of_pulses.py")
    with open(pair, "rb") as text:
        subprocess.run(SIM, stdin=text, stdout=subprocess.DEVNULL, check=True)
    little = memory_needed([PROGRAM, "sim"], pair)
    print(f"{'kernel':26} {'artiq_sim':>11} {'memory':>8} {'an output':>10} {'simulated':>10} {'ratio':>6} {'by hand':>9} {'ratio':>6}")
    with tempfile.TemporaryDirectory() as folder:
        for name, (title, text, _) in KERNELS.items():
            path = os.path.join(folder, "text")
            with open(path, "w", encoding="ascii") as file:
                file.write(text)
            ours, report = measured([PROGRAM, "sim"], path, rounds)
            memory = memory_needed([PROGRAM, "sim"], path)
            outputs = sum(line.startswith("out ") for line in report)
            each = f"{(memory - little) * 2**20 / outputs:8.0f} B" if outputs else f"{'-':>10}"
            simulated = python_time("simulated", name, 1, report)
            by_hand = python_time("hand", name, rounds, report)
            print(
                f"{title:26} {1000 * ours:8.1f} ms {memory:5} MB {each} {simulated:8.2f} s {simulated / ours:6.0f}"
                f" {by_hand:7.2f} s {by_hand / ours:6.1f}"
            )


if __name__ == "__main__":
    if len(sys.argv) == 3 and sys.argv[2] in KERNELS:
        run_python(sys.argv[1], sys.argv[2])
    else:
        main()
