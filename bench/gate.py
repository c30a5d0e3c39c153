#!/usr/bin/env python3
"""What the gate costs, crate by crate.

    python3 bench/gate.py --record LOG [WORD..]    runs `rt ci WORD..` and notes in LOG what each of its checks cost
    python3 bench/gate.py LOG..                    prints the table of such logs, and what is over its budget
    python3 bench/gate.py --times LOG..            prints launch/times.txt by such logs: the proofs of what the programs stand on

Run by hand. Some kits keep what a gate passed: there the word --anew has the whole gate proved from nothing, and without
it only what the machine has not kept. Other kits take no word, and prove all each time. Times are of processors, user
and system together, read twice a second from /proc: what a check used up after its last reading is missing, so a crate's
numbers are low by a part of a second for each check. Behind them a line has the seconds of the run at which the check was
first and last seen. The last line of a log has the whole run as the system counts it, with the run's own work. What was
read so far stands in LOG while the run goes on, too.
"""

import collections
import os
import resource
import subprocess
import sys
import time

sys.path.insert(0, os.path.join(os.path.dirname(os.path.abspath(__file__)), "../docs"))
import sizes  # noqa: E402

# The budget in seconds: of a crate, and of a program's top crate.
BUDGET, TOP_BUDGET, TOP_CRATES = 420, 840, ("sim_program", "trace_program", "lab_program")
PROGRAMS = "artiq_sim", "artiq_lab", "artiq_trace"
TIMES = os.path.join(os.path.dirname(os.path.abspath(__file__)), "../launch/times.txt")
KINDS = ("proof", "tests", "edits")
TICK = os.sysconf("SC_CLK_TCK")


def words_of(process):
    """Returns the command line of a process, or no words where it is gone."""
    try:
        with open(f"/proc/{process}/cmdline", "rb") as file:
            return file.read().decode(errors="replace").split("\0")
    except OSError:
        return []


def stat_of(process):
    """Returns the parent of a process and the seconds that it has used, or None where it is gone."""
    try:
        with open(f"/proc/{process}/stat", encoding="utf-8", errors="replace") as file:
            fields = file.read().rpartition(")")[2].split()
    except OSError:
        return None
    return int(fields[1]), (int(fields[11]) + int(fields[12])) / TICK


def kind_of(process, words):
    """Returns whether a check is a crate's own proof, that of its tests, or belongs to its must-fail edits."""
    if "--test" in words:
        return "tests"
    try:
        folder = os.readlink(f"/proc/{process}/cwd")
    except OSError:
        folder = ""
    # (the first check of a crate's edits keeps its work, by --incremental)
    return "edits" if "rt-edit-" in folder or "--incremental" in words else "proof"


def below(top):
    """Returns the seconds of each process that descends from the one given."""
    found = {int(it): stat_of(it) for it in os.listdir("/proc") if it.isdigit()}
    parents = {it: stat[0] for it, stat in found.items() if stat}

    def descends(process):
        while process in parents and process != top:
            process = parents[process]
        return process == top

    return {it: found[it][1] for it in parents if it != top and descends(it)}


def record(path, words):
    """Runs the gate and writes a line for each of its checks: seconds, crate, kind."""
    run = subprocess.Popen(["rt", "ci", *words], start_new_session=True)
    known, seconds, first, last = {}, {}, {}, {}
    start = written = time.monotonic()
    while run.poll() is None:
        now = time.monotonic()
        for process, used in below(run.pid).items():
            if process not in known:
                line = words_of(process)
                if len(line) < 2 or not line[0].endswith("/rattle"):
                    continue
                name = line[line.index("--crate-name") + 1] if "--crate-name" in line else "-"
                known[process] = name, kind_of(process, line)
            seconds[process] = used
            first.setdefault(process, now - start)
            last[process] = now - start
        if now - written > 60:
            written = now
            write(path, [(seconds[it], *known[it], first[it], last[it]) for it in seconds])
        time.sleep(0.5)
    whole = resource.getrusage(resource.RUSAGE_CHILDREN)
    checks = [(seconds[it], *known[it], first[it], last[it]) for it in seconds]
    write(path, checks, (whole.ru_utime + whole.ru_stime, time.monotonic() - start))
    return run.returncode


def write(path, checks, whole=None):
    """Writes a log: a line for each check, and the last for the whole run where that has ended."""
    with open(path, "w", encoding="utf-8") as log:
        for used, crate, kind, first, last in checks:
            print(f"{used:.1f} {crate} {kind} {first:.0f} {last:.0f}", file=log)
        if whole:
            print(f"{whole[0]:.1f} whole {whole[1]:.0f}", file=log)


def lines_of(paths):
    """Yields the lines of the logs."""
    for path in paths:
        with open(path, encoding="utf-8") as log:
            yield from log


def show(paths):
    """Prints the table of the logs, dearest crates first, and names those over their budget."""
    spent, checks, whole = collections.defaultdict(lambda: dict.fromkeys(KINDS, 0.0)), collections.Counter(), [0.0, 0]
    for line in lines_of(paths):
        seconds, crate, kind, *_ = line.split()
        if crate == "whole":
            whole = [whole[0] + float(seconds), whole[1] + int(kind)]
        else:
            spent[crate][kind] += float(seconds)
            checks[crate, kind] += 1
    print("| crate | proof, s | tests, s | edits, s | together, min |\n|---|---|---|---|---|")
    for crate, of in sorted(spent.items(), key=lambda it: -sum(it[1].values())):
        cells = [f"{of[kind]:.0f}" if checks[crate, kind] else "" for kind in KINDS]
        print(f"| {crate} | {' | '.join(cells)} | {sum(of.values()) / 60:.1f} |")
    every = {kind: sum(of[kind] for of in spent.values()) / 60 for kind in KINDS}
    print(f"\nproofs {every['proof']:.0f}, tests {every['tests']:.0f}, edits {every['edits']:.0f} processor minutes")
    print(f"the whole: {whole[0] / 60:.0f} processor minutes, {whole[1] / 60:.0f} minutes by the clock")
    length, names = chain({crate: of["proof"] for crate, of in spent.items()})
    print(f"the longest chain of proofs: {length / 60:.0f} processor minutes, {', '.join(names)}")
    for crate, of in spent.items():
        limit = TOP_BUDGET if crate in TOP_CRATES else BUDGET
        if sum(of.values()) > limit:
            print(f"over its budget of {limit // 60} minutes: {crate}")


def show_times(paths):
    """Prints launch/times.txt: its words, and the seconds of each crate's proof, of those that a program stands on."""
    spent = collections.Counter()
    for line in lines_of(paths):
        seconds, crate, kind, *_ = line.split()
        spent[crate] += float(seconds) if kind == "proof" else 0.0
    with open(TIMES, encoding="utf-8") as kept:
        print("".join(line for line in kept if line.startswith("#")), end="")
    every = sizes.crates()
    wanted = {*PROGRAMS, *(below for program in PROGRAMS for below in sizes.below(every, program))}
    for name in every:
        if name in wanted and name in spent:
            print(f"{name} {spent[name]:.0f}")


def chain(seconds):
    """Returns the seconds of the longest chain of proofs, each crate of which stands on the one before, and its crates."""
    every, best = sizes.crates(), {}
    for name in sorted(every, key=lambda it: len(sizes.below(every, it))):
        under = max((best[it] for it in sizes.below(every, name) - {name}), default=(0.0, []))
        best[name] = under[0] + seconds.get(name, 0.0), [*under[1], name]
    return max(best.values())


def main():
    words = sys.argv[1:]
    if words[:1] == ["--record"] and len(words) > 1:
        return record(words[1], words[2:])
    if not words or words[0].startswith("-") and words[0] != "--times":
        print(__doc__, file=sys.stderr)
        return 2
    if words[0] == "--times":
        show_times(words[1:])
    else:
        show(words)
    return 0


if __name__ == "__main__":
    sys.exit(main())
