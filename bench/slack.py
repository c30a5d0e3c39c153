#!/usr/bin/env python3
"""Times the command `slack` beside `sim`: on a generated kernel of 40,000 outputs, and on one of 35 million instructions of
arithmetic.

    python3 bench/slack.py [--program PATH]

Without PATH it runs the program that bin/artiq_sim builds. Times are in milliseconds, the best of some runs. Where valgrind is
installed it counts the host instructions of one run each, which no other load disturbs.
"""

import argparse
import os
import shutil
import subprocess
import tempfile

from instructions import instructions
from kernels import ARITHMETIC, generated_text
from timing import PROGRAM, ROOT, SIM, best_time

KERNELS = {"generated": generated_text(1), "arithmetic": ARITHMETIC}


def main():
    parser = argparse.ArgumentParser(description=__doc__, formatter_class=argparse.RawDescriptionHelpFormatter)
    parser.add_argument("--program", default=PROGRAM)
    program = parser.parse_args().program
    if program == PROGRAM:
        with open(os.path.join(ROOT, "examples", "pair_of_pulses.py"), "rb") as text:
            subprocess.run(SIM, stdin=text, stdout=subprocess.DEVNULL, check=True)
    with tempfile.TemporaryDirectory() as folder:
        path = os.path.join(folder, "kernel.py")
        for name, text in KERNELS.items():
            with open(path, "w", encoding="ascii") as file:
                file.write(text)
            sim, slack = (best_time([program, command], path) for command in ("sim", "slack"))
            print(f"{name:12} sim {sim:8.1f} ms   slack {slack:8.1f} ms   {slack / sim:5.2f} times sim", flush=True)
            if shutil.which("valgrind"):
                sim, slack = (instructions([program, command], text) / 1e6 for command in ("sim", "slack"))
                print(f"{'':12} sim {sim:8.1f} M    slack {slack:8.1f} M    {slack / sim:5.2f} times sim", flush=True)


if __name__ == "__main__":
    main()
