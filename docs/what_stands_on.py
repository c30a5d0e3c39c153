#!/usr/bin/env python3
"""Prints which crates a change of some crates makes to be proved again, lowest first, with the processor minutes that this
takes; edits come on top.

    python3 docs/what_stands_on.py NAME..

The crates themselves are among them. The minutes are those of proof and tests in the table "Crate by crate" of docs/GATE.md.
That leaves quick crates out: of these a star marks the minutes of the proof alone, by launch/times.txt, which were taken on
another machine. A crate that is in neither has a dash.
"""
import re
import sys

from sizes import ROOT, below, crates

ROW = re.compile(r"^\| (\w+) \|(?:[\d. ]*\|)+ ([\d.]+) \|$", re.M)
TIME = re.compile(r"^(\w+) (\d+)$", re.M)


def minutes_by_crate():
    """The last column of the table in docs/GATE.md."""
    section = (ROOT / "docs/GATE.md").read_text().partition("## Crate by crate")[2].partition("\n## ")[0]
    return {name: float(minutes) for name, minutes in ROW.findall(section)}


def minutes_of_proofs():
    """The minutes in launch/times.txt."""
    return {name: int(seconds) / 60 for name, seconds in TIME.findall((ROOT / "launch/times.txt").read_text())}


def main():
    every, minutes, proofs = crates(), minutes_by_crate(), minutes_of_proofs()
    changed = sys.argv[1:]
    wrong = [name for name in changed if name not in every]
    if not changed or wrong:
        sys.exit(f"no crate has the name {wrong[0]}" if wrong else __doc__)
    again = [name for name in every if name in changed or below(every, name) & set(changed)]
    again.sort(key=lambda name: len(below(every, name)))
    for name in again:
        found = minutes.get(name, proofs.get(name))
        star = "" if name in minutes or found is None else " *"
        print(f"{name:26}" + (f"{found:5.1f} min{star}" if found is not None else "    -"))
    by_table = [minutes[name] for name in again if name in minutes]
    by_times = [proofs[name] for name in again if name in proofs and name not in minutes]
    print(f"{len(again)} of {len(every)} crates: {sum(by_table):.1f} minutes of a processor for {len(by_table)} of them", end="")
    print(f", {sum(by_times):.1f} for {len(by_times)} by launch/times.txt" if by_times else "", end="")
    unknown = len(again) - len(by_table) - len(by_times)
    print(f"; {unknown} have no figure" if unknown else "")


if __name__ == "__main__":
    main()
