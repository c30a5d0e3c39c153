#!/usr/bin/env python3
"""Times `artiq_sim check` and `artiq_sim compile` on programs up to the limits beside python3, which compiles the same texts.

The largest has 256 functions, 16,384 nodes and 1 MiB. Each name has 64 bytes, and each function
calls the one before it.
"""

from timing import COMPILE, compare

NODES = 64


def name(kind, number):
    """A name of 64 bytes."""
    return f"{kind}{number}_".ljust(64, kind)


def function_text(number, last):
    """A function of 64 nodes; the last is `main`."""
    value = name("p", number)
    local = [name("x", place) for place in range(15)]
    if number == last:
        lines = ["def main() -> int64:", f"    {value} = now_mu()"]
    else:
        lines = [f"def {name('f', number)}({value}: int64) -> int64:", "    pass", "    pass"]
    lines.append(f"    {local[0]} = {value}")
    for place in range(1, 15):
        lines.append(f"    {local[place]} = {local[place - 1]} + {value}")
    if number == 0:
        lines.append("    pass")
        lines.append(f"    return {local[14]}")
    else:
        lines.append(f"    return {name('f', number - 1)}({local[14]})")
    return "\n".join(lines) + "\n"


def program_text(functions):
    """A program of so many functions, with 64 nodes and 4 KiB each."""
    text = "".join(function_text(number, functions - 1) for number in range(functions))
    return text + "#".ljust(functions * 4096 - len(text) - 1, ".") + "\n"


if __name__ == "__main__":
    TEXTS = [(f"{count} functions, {count * NODES} nodes", program_text(count), 0) for count in (64, 128, 256)]
    for command in ("check", "compile"):
        print(command)
        compare(TEXTS, command=command, beside=COMPILE)
