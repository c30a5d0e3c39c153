#!/usr/bin/env python3
"""Times artiq_sim on kernels without loops, of 800 to 6,400 outputs: the time for an output must not grow with the number of
outputs already made. A program has at most 16,384 nodes, so no kernel without loops has many more outputs than that."""

import os
import subprocess
import tempfile

from timing import PROGRAM, ROOT, SIM, best_time


def outputs(number):
    """A `main` of so many outputs: eight channels go up or down in a cycle, one cycle after another."""
    lines = ["def main():", "    at_mu(1000)"]
    for cycle in range(number // 8):
        lines += [f"    ttl{channel}.{'off' if cycle % 2 else 'on'}()" for channel in range(8)]
        lines.append("    delay_mu(8)")
    return "\n".join(lines) + "\n"


if __name__ == "__main__":
    with open(os.path.join(ROOT, "examples", "pair_of_pulses.py"), "rb") as text:
        subprocess.run(SIM, stdin=text, stdout=subprocess.DEVNULL, check=True)
    with tempfile.TemporaryDirectory() as folder:
        path = os.path.join(folder, "text")
        for number in (800, 1600, 3200, 6400):
            with open(path, "w", encoding="ascii") as file:
                file.write(outputs(number))
            time = best_time([PROGRAM, "sim"], path)
            print(f"{number:6} outputs {time:8.2f} ms {1000 * time / number:8.2f} us for one")
