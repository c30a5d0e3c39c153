#!/usr/bin/env python3
"""Times artiq_sim on texts of 250 KiB, 500 KiB and 1 MiB near the limit of nodes, beside python3.

The straight ones, which have no loops, are filled with comments, and are run. The others have long expressions, and
are refused once they are parsed, with status 1.
"""

from timing import compare

STATEMENTS = 6400
SIZES = (250, 500, 1024)


def straight_text(kibibytes):
    """A straight text of this size: at most 16,000 nodes, and comments."""
    lines = ["def main():"]
    room = (kibibytes * 1024 - 16) // STATEMENTS
    for number in range(STATEMENTS):
        call = f"delay_mu({8 + number % 97})" if number % 2 == 0 else f"ttl{number % 16}.on()"
        lines.append(f"    {call} # ".ljust(room - 1, "."))
    return "\n".join(lines) + "\n"


def expressions_text(kibibytes):
    """A text of this size whose statements are sums of sixteen long names, with comments behind them."""
    names = " + ".join(["a" * 64] * 16)
    count = min(480, kibibytes * 1024 // (len(names) + 10))
    room = (kibibytes * 1024 - 16) // count
    lines = ["def main():"] + [f"    x = {names} # ".ljust(room - 1, ".") for _ in range(count)]
    return "\n".join(lines) + "\n"


if __name__ == "__main__":
    compare(
        [(f"{size} KiB, straight", straight_text(size), 0) for size in SIZES]
        + [(f"{size} KiB, expressions", expressions_text(size), 1) for size in SIZES]
    )
