#!/usr/bin/env python3
"""Times artiq_sim on texts without loops, of 1,000, 2,000 and 4,000 lines beside python3."""

from timing import compare


def straight_text(lines):
    """A `main` of so many lines, whose outputs rise in cycles."""
    body = ["    at_mu(1000)"]
    while len(body) < lines:
        number = len(body)
        body.append(f"    delay_mu({8 + number % 97})" if number % 2 else f"    ttl{number % 16}.on()")
    return "def main():\n" + "\n".join(body) + "\n"


if __name__ == "__main__":
    compare([(f"{lines} lines", straight_text(lines), 0) for lines in (1000, 2000, 4000)])
