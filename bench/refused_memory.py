#!/usr/bin/env python3
"""Refuses each allocation of the built programs in turn, and again all from each one on, and looks at what comes.

    python3 bench/refused_memory.py [WORD]        only the cases with this word in their names

The system's C compiler builds `refusing_memory.c`, which is preloaded into the programs as they were built. A case is a
command with its input. It is run once with nothing refused, which counts its allocations. Then for every number n it is run
with the n-th one refused, and with all from the n-th on. What may come: status 5, the line `memory` on standard error and
nothing on standard output; or, where the refused one wasn't needed (a thread that can't be made: the workers run one after
another), what came with nothing refused. Of several workers the clocks, stamps and order of lines go by their turns, so they
aren't compared. `crew_ends` says how each worker of a session ended: where memory ran out for some, each other one has to be
stopped by one of these, by the same, or to have finished before. Every other outcome is an error and is printed. That a process
has ended says that all its threads have. Run by hand: docs/RELIABILITY.md has its figures.
"""

import collections
import concurrent.futures
import json
import os
import subprocess
import sys
import tempfile

from timing import PROGRAM, ROOT

LABORATORY = os.path.join(ROOT, "crates", "artiq_lab", "out", "artiq_lab")
TRACER = os.path.join(ROOT, "crates", "artiq_trace", "out", "artiq_trace")
CREW = os.path.join(ROOT, "crates", "crew_ends", "out", "crew_ends")
SESSIONS = os.path.join(ROOT, "crates", "crew_ends", "data")
SOURCE = os.path.join(ROOT, "bench", "refusing_memory.c")
# A run that takes longer than this many seconds counts as one that doesn't end.
LONGEST = 120
# The size of the count that the preloaded library keeps.
COUNT_BYTES = 8

PAIR = ["at_mu(1000)", "ttl0.on()", "delay_mu(500)", "ttl0.off()"]
PLAYED_TWICE = [
    'with core_dma.record("p"):',
    "    ttl0.on()",
    "    delay_mu(50)",
    "    ttl0.off()",
    "    delay_mu(30)",
    "at_mu(1000)",
    'core_dma.playback("p")',
    'core_dma.playback("p")',
]
ONE_EDGE = [
    "at_mu(1000)",
    "t = in0.gate_rising_mu(100)",
    "a = in0.timestamp_mu(t)",
    "b = in0.timestamp_mu(t)",
    'set_dataset("a", a)',
    'set_dataset("b", b)',
]
USUAL = [
    "core.reset()",
    "total = 0",
    "for i in range(100):",
    "    core.break_realtime()",
    "    with parallel:",
    "        ttl0.pulse_mu(2000)",
    "        ttl1.pulse_mu(1500)",
    "    delay_mu(500)",
    "    t = in0.gate_rising_mu(1000)",
    "    total += in0.count(t)",
    'set_dataset("total", total)',
]

# Four pipelines, and a run in each, which has a kernel, a pause and the kernel again. Which of them goes first decides nothing but
# the order of lines and the clocks.
FOUR_PIPELINES = {
    "pipelines": [{}, {}, {}, {}],
    "sources": ['def main():\n    delay_mu(1000)\n    ttl0.pulse_mu(100)\n    set_dataset("pulses", 2)\n'],
    "experiments": [
        {
            "source": 0,
            "prepare": [],
            "run": [{"kernel": "main", "args": []}, {"pause": True}, {"kernel": "main", "args": []}],
            "analyze": [],
        }
    ],
    "arrivals": [{"at": 0, "submit": {"experiment": 0, "pipeline": pipeline}} for pipeline in range(4)],
}

# A command with its input, whether several workers take turns in it, and whether it says how each of them ended.
Case = collections.namedtuple("Case", "name argv text takes_turns says_ends", defaults=(False, False))
Outcome = collections.namedtuple("Outcome", "status out err")
REFUSED = Outcome(5, b"", b"memory\n")


def kernel(lines):
    """The text of a kernel whose `main` has these lines."""
    return "".join(["def main():\n"] + [f"    {line}\n" for line in lines]).encode()


def output_of(argv, text):
    """What a command writes with nothing refused."""
    return subprocess.run(argv, input=text, stdout=subprocess.PIPE, check=False).stdout


def cases():
    """Every command on a worked kernel or session."""
    image = output_of([PROGRAM, "compile"], kernel(PAIR))
    dump = output_of([PROGRAM, "dump"], kernel(PAIR))
    yield Case("sim, a pair of pulses", [PROGRAM, "sim"], kernel(PAIR))
    yield Case("sim, a recording played twice", [PROGRAM, "sim"], kernel(PLAYED_TWICE))
    yield Case("sim, an edge", [PROGRAM, "sim", "--edges", "24:1040:r"], kernel(ONE_EDGE))
    yield Case("sim, a usual kernel", [PROGRAM, "sim", "--edges", "24:127800:r"], kernel(USUAL))
    yield Case("sim, a refused text", [PROGRAM, "sim"], b"def main()")
    yield Case("check, a usual kernel", [PROGRAM, "check"], kernel(USUAL))
    yield Case("compile, a usual kernel", [PROGRAM, "compile"], kernel(USUAL))
    yield Case("exec, a pair of pulses", [PROGRAM, "exec"], image)
    yield Case("gen", [PROGRAM, "gen", "--number", "1"], b"")
    yield Case("slack, a recording played twice", [PROGRAM, "slack", "--cost", "8"], kernel(PLAYED_TWICE))
    yield Case("dump, a pair of pulses", [PROGRAM, "dump"], kernel(PAIR))
    yield Case("vcd, a pair of pulses", [PROGRAM, "vcd"], dump)
    yield Case("sat, a pair of pulses", [PROGRAM, "sat"], kernel(PAIR))
    yield Case("trace, a recording played twice", [TRACER], kernel(PLAYED_TWICE))
    yield Case("trace, a usual kernel", [TRACER, "--edges", "24:127800:r"], kernel(USUAL))
    with open(os.path.join(ROOT, "crates", "artiq_lab", "stdin"), encoding="utf-8") as file:
        session = json.load(file)
    for workers in (1, 2, 4):
        text = json.dumps(session | {"workers": workers}).encode()
        yield Case(f"laboratory, two runs, workers {workers}", [LABORATORY], text, workers > 1)
    for workers in (2, 4, 8):
        text = json.dumps(FOUR_PIPELINES | {"workers": workers}).encode()
        yield Case(f"laboratory, four pipelines, workers {workers}", [LABORATORY], text, True)
    for file in ("two_runs.json", "four_pipelines.json", "eight_workers.json"):
        yield Case(f"ends of a crew, {file}", [CREW, os.path.join(SESSIONS, file)], b"", True, True)


def run(case, library, at, on):
    """One run with an allocation refused (none where `at` is 0), or all from it on: its outcome, and the count asked."""
    with tempfile.NamedTemporaryFile() as told:
        told.write(bytes(COUNT_BYTES))
        told.flush()
        words = {"LD_PRELOAD": library, "REFUSE_AT": str(at), "REFUSE_ON": str(int(on)), "REFUSE_TOLD": told.name}
        try:
            ended = subprocess.run(
                case.argv,
                input=case.text,
                stdout=subprocess.PIPE,
                stderr=subprocess.PIPE,
                env=os.environ | words,
                timeout=LONGEST,
                check=False,
            )
            outcome = Outcome(ended.returncode, ended.stdout, ended.stderr)
        except subprocess.TimeoutExpired:
            outcome = Outcome(None, b"", b"doesn't end\n")
        told.seek(0)
        return outcome, int.from_bytes(told.read(COUNT_BYTES), sys.byteorder)


def settled(case, outcome):
    """An outcome as it is compared: of several workers without what their turns decide, the order of the lines, the clocks
    and the stamps."""
    if not case.takes_turns:
        return outcome
    lines = [line.split() for line in outcome.out.splitlines()]
    timed = (b"step", b"out", b"cursor", b"counter")
    return outcome.status, sorted([it[0], *it[2:]] if it[0] in timed else it for it in lines), outcome.err


def kind_of(case, outcome, whole):
    """What an outcome is: `memory`, `as before`, or an error. Of the ends of a crew also `stopped`: memory ran out for some of its
    workers, and each other one was stopped by the same of these, or had finished before."""
    if settled(case, outcome) == settled(case, whole):
        return "as before"
    if not case.says_ends:
        return "memory" if outcome == REFUSED else "error"
    ends = outcome.out.decode().partition(": ")[2].split()
    if outcome.status or not ends or ends in (["no", "crew"], ["no", "session"]):
        return "memory" if "finished" not in ends else "error"
    wanting = {f"stopped_by_{number}" for number, end in enumerate(ends) if end == "memory"}
    by = {end for end in ends if end not in ("memory", "finished")}
    return "stopped" if wanting and by <= wanting and len(by) < 2 else "error"


def tried(case, library, pool):
    """Tries a case: its count of allocations, how often each outcome came, and the runs that are errors."""
    whole, count = run(case, library, 0, False)
    if count < 1:
        sys.exit(f"{case.name}: the preloaded library counts nothing")
    numbers = [(at, on) for on in (False, True) for at in range(1, count + 1)]
    outcomes = pool.map(lambda it: run(case, library, *it)[0], numbers)
    found, wrong = collections.Counter(), []
    for (at, on), outcome in zip(numbers, outcomes):
        kind = kind_of(case, outcome, whole)
        found[kind] += 1
        if kind == "error":
            wrong.append((at, on, outcome))
    return count, found, wrong


def main():
    """Tries all cases, prints a line for each, and ends with status 1 where one was an error."""
    word = sys.argv[1] if len(sys.argv) > 1 else ""
    bad = 0
    with tempfile.TemporaryDirectory() as folder, concurrent.futures.ThreadPoolExecutor(os.cpu_count()) as pool:
        library = os.path.join(folder, "refusing_memory.so")
        subprocess.run(["cc", "-O2", "-shared", "-fPIC", "-o", library, SOURCE], check=True)
        print(f"{'case':40} {'allocations':>11} {'runs':>7} {'memory':>7} {'stopped':>7} {'as before':>9} {'errors':>6}")
        for case in cases():
            if word not in case.name:
                continue
            count, found, wrong = tried(case, library, pool)
            shown = f"{found['memory']:7} {found['stopped']:7} {found['as before']:9} {found['error']:6}"
            print(f"{case.name:40} {count:11} {2 * count:7} {shown}", flush=True)
            for at, on, outcome in wrong[:5]:
                print(f"    {'all from' if on else 'only'} {at}: {outcome.status} {outcome.err[:60]} {outcome.out[:60]}")
            bad += len(wrong)
    sys.exit(1 if bad else 0)


if __name__ == "__main__":
    main()
