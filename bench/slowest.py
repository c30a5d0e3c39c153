#!/usr/bin/env python3
"""Which functions take longest to prove.

    python3 bench/slowest.py FOLDER..    prints the slowest of what a check kept in these folders, twenty in all

A check that keeps its work (`rattle check --incremental FOLDER`, or `rt check`, in crates/NAME/out/incremental) writes a
file for each part that it has checked, one after another. The time between two files is what the later one took, by the
clock: so the check is the first one over an empty folder, and the only one that its processor has to do. The members of a
cycle of calls count as one function, by the cycle's name, and a file of lemmas by its own.
"""

import collections
import os
import re
import sys

SLOWEST = 20
# The parts of a function's proof that the prover makes or that stand in files of their own.
PART = re.compile(r"\.(Proof|Answers|Invariants|Goals|Given|Code|Statement|Met|Tie|Auto|Reads|Lts[\w+-]*|Key)(\.|$)")


def parts_of(folder):
    """Yields the time and the name of each part that was checked, in their order."""
    found = []
    for place, _, names in os.walk(folder):
        for name in names:
            if name.endswith(".oantt"):
                found.append((os.stat(os.path.join(place, name)).st_mtime, name))
    return sorted(found)


def function_of(name):
    """Returns the crate and the function, cycle or file of lemmas that a part belongs to."""
    match = re.match(r"Rattle-(\w+)-(proofs|specs)\.?(.*?)(\.decls)?\.oantt$", name)
    if not match:
        return "", name
    crate, library, path, _ = match.groups()
    cut = PART.search("." + path)
    path = ("." + path)[: cut.start()].lstrip(".") if cut else path
    return crate, path if library == "proofs" else f"specs.{path}"


def seconds_of(folders):
    """Returns the seconds of each function of the folders' checks."""
    seconds = collections.Counter()
    for folder in folders:
        parts = parts_of(folder)
        for (before, _), (after, name) in zip(parts, parts[1:]):
            seconds[function_of(name)] += after - before
    return seconds


def main():
    if len(sys.argv) < 2 or sys.argv[1].startswith("-"):
        print(__doc__, file=sys.stderr)
        return 2
    print("| crate | function, cycle of functions or lemmas | seconds |\n|---|---|---|")
    for (crate, function), seconds in seconds_of(sys.argv[1:]).most_common(SLOWEST):
        print(f"| {crate} | {function} | {seconds:.0f} |")
    return 0


if __name__ == "__main__":
    sys.exit(main())
