#!/usr/bin/env python3
"""Serves many sessions with many workers, and judges each report.

    python3 bench/soak.py [SESSIONS [WORKERS [SEED]]]        10000 sessions, 8 workers, seed 1

Each session is made of a seed: one to four pipelines, up to twelve runs of up to four kernel steps, pauses between them, and
kernels that pulse, count photons, play a recording, or divide by zero. Every kernel begins with `core.break_realtime()`, so
which pulses it puts out, and how far apart, doesn't depend on when it begins, and none is late. Two reports of one session
may differ in the order of the steps of different runs and in the clocks; so a report is judged by what it says itself:

- status 0 and nothing on standard error;
- the clocks of its steps rise, and of each run the positions rise from 0 by one to the last step, or to the one that failed;
- each run is `done`, or `failed` where a kernel step of it divides by zero;
- on each core, the outputs are those of the pipeline's kernel steps in the order of the step lines: each step has its
  kernel's pulses at their distances, behind all of the step before it; nothing pends, and no log line stands there;
- the cursor is where the last step's kernel ends.

The first report that is judged wrong is printed with its session, and the status is 1. Run by hand: docs/RELIABILITY.md has
its figures.
"""

import json
import os
import random
import subprocess
import sys
import time

from timing import ROOT

PROGRAM = os.path.join(ROOT, "crates", "artiq_lab", "out", "artiq_lab")
LONGEST = 60

SOURCE = """def pulses(length: int64):
    core.break_realtime()
    ttl0.pulse_mu(length)
    delay_mu(40)
    ttl1.pulse_mu(length)
    delay_mu(16)

def photons(length: int64):
    core.break_realtime()
    end = in0.gate_rising_mu(length)
    set_dataset("seen", in0.count(end))
    delay_mu(80)
    raw3.write(7, 2)
    delay_mu(16)

def played(length: int64):
    with core_dma.record("pair"):
        ttl4.on()
        delay_mu(length)
        ttl4.off()
    core.break_realtime()
    core_dma.playback("pair")
    core_dma.playback("pair")
    delay_mu(16)

def divides(length: int64):
    core.break_realtime()
    ttl2.pulse_mu(length)
    delay_mu(16)
    set_dataset("never", length // (length - length))

def main():
    pass
"""


def pulses(length):
    """Of `pulses`: its outputs as (distance, channel, address, data), and where its cursor ends."""
    behind = length + 40
    return [(0, 0, 0, 1), (length, 0, 0, 0), (behind, 1, 0, 1), (behind + length, 1, 0, 0)], behind + length + 16


def photons(length):
    """Of `photons`: the gate of in0, and a word of a raw channel."""
    return [(0, 24, 2, 1), (length, 24, 2, 0), (length + 80, 19, 7, 2)], length + 96


def played(length):
    """Of `played`: a recording, twice; where one ends the other begins, and overrides what stands there."""
    return [(0, 4, 0, 1), (length, 4, 0, 1), (2 * length, 4, 0, 0)], 2 * length + 16


def divides(length):
    """Of `divides`: what comes before the division."""
    return [(0, 2, 0, 1), (length, 2, 0, 0)], length + 16


KERNELS = {"pulses": pulses, "photons": photons, "played": played, "divides": divides}
FAILS = "divides"


class Wrong(Exception):
    """A report that no order of the workers gives."""


def steps_of(chance):
    """The steps of the stage `run`: kernels, and pauses between them."""
    steps = []
    for _ in range(chance.randint(1, 4)):
        name = chance.choices(list(KERNELS), (4, 3, 3, 1))[0]
        steps.append({"kernel": name, "args": [8 * chance.randint(2, 100)]})
        if chance.random() < 0.5:
            steps.append({"pause": True})
    return steps


def session(chance, workers):
    """A session of a seed."""
    pipelines = chance.randint(1, 4)
    experiments = [
        {"source": 0, "prepare": [], "run": steps_of(chance), "analyze": []} for _ in range(chance.randint(1, 6))
    ]
    arrivals = [
        {
            "at": 0,
            "submit": {
                "experiment": chance.randrange(len(experiments)),
                "pipeline": chance.randrange(pipelines),
                "priority": chance.randint(-2, 2),
                "due": chance.choice((0, 0, 0, chance.randint(1, 20))),
            },
        }
        for _ in range(chance.randint(1, 12))
    ]
    return {
        "workers": workers,
        "lanes": chance.choice((2, 8)),
        "depth": chance.choice((1, 4, 128)),
        "pipelines": [{}] * pipelines,
        "sources": [SOURCE],
        "experiments": experiments,
        "arrivals": arrivals,
    }


def runs_of(day):
    """The steps and the pipeline of each run, by its number."""
    submissions = [arrival["submit"] for arrival in day["arrivals"]]
    return [(day["experiments"][it["experiment"]]["run"], it["pipeline"]) for it in submissions]


def needed(condition, what):
    """Raises where a condition of the judgement doesn't hold."""
    if not condition:
        raise Wrong(what)


def judged_steps(lines, runs):
    """Judges the step lines: the kernel steps of each pipeline in their order, and which runs failed."""
    clock, reached, failed = 0, [0] * len(runs), set()
    kernels = {}
    for line in lines:
        _, at, rid, position, word = line.split(" ", 4)
        needed(int(at) > clock, f"a clock that doesn't rise: {line}")
        clock, rid, position = int(at), int(rid), int(position)
        steps, pipeline = runs[rid]
        needed(position == reached[rid] and rid not in failed, f"out of its order: {line}")
        reached[rid] += 1
        step = steps[position]
        if "kernel" in step:
            kernels.setdefault(pipeline, []).append((step["kernel"], step["args"][0]))
        fails = step.get("kernel") == FAILS
        wanted = ("raised ZeroDivisionError",) if fails else ("ok",) if "kernel" in step else ("ok", "paused")
        needed(word in wanted, f"another word: {line}")
        if fails:
            failed.add(rid)
    for rid, (steps, _) in enumerate(runs):
        needed(rid in failed or reached[rid] == len(steps), f"run {rid} has steps left")
    return kernels, failed


def judged_core(lines, kernels):
    """Judges the lines of a core: the outputs of its kernel steps, and where the cursor ends."""
    needed(all(line.split()[0] in ("out", "cursor", "counter") for line in lines), "a line that isn't an output")
    outputs = [tuple(int(it) for it in line.split()[1:]) for line in lines if line.startswith("out ")]
    place, end = 0, 0
    for name, length in kernels:
        wanted, ends = KERNELS[name](length)
        found = outputs[place : place + len(wanted)]
        needed(len(found) == len(wanted), f"outputs of {name} {length} are missing")
        start = found[0][0]
        needed(start >= end, f"{name} {length} begins at {start}, before {end}")
        needed(found == [(start + at, *rest) for at, *rest in wanted], f"other outputs of {name} {length}")
        place, end = place + len(wanted), start + ends
    needed(place == len(outputs), "outputs that no kernel made")
    cursor = [int(line.split()[1]) for line in lines if line.startswith("cursor ")]
    needed(cursor == [end], f"the cursor isn't {end}")


def judge(day, report):
    """Judges a report, by its parts."""
    lines = report.splitlines()
    runs = runs_of(day)
    needed(lines and lines[-1] == "end", "no end")
    kernels, failed = judged_steps([line for line in lines if line.startswith("step ")], runs)
    statuses = [line for line in lines if line.startswith("run ")]
    needed(
        statuses == [f"run {rid} {'failed' if rid in failed else 'done'}" for rid in range(len(runs))],
        "other statuses of runs",
    )
    places = [place for place, line in enumerate(lines) if line.startswith("core ")] + [len(lines) - 1]
    needed(len(places) == len(day["pipelines"]) + 1, "another number of cores")
    for pipeline, (begin, behind) in enumerate(zip(places, places[1:])):
        judged_core(lines[begin + 1 : behind], kernels.get(pipeline, []))
    return sum(len(it) for it in kernels.values())


def served(seed, workers):
    """Serves the session of a seed, and judges it: how many kernel steps it had."""
    day = session(random.Random(seed), workers)
    text = json.dumps(day)
    try:
        ended = subprocess.run([PROGRAM], input=text, capture_output=True, text=True, timeout=LONGEST, check=False)
        needed(ended.returncode == 0 and not ended.stderr, f"status {ended.returncode}, {ended.stderr!r}")
        return judge(day, ended.stdout)
    except subprocess.TimeoutExpired:
        print(f"seed {seed}: no end after {LONGEST} s\n{text}")
    except Wrong as wrong:
        print(f"seed {seed}: {wrong}\n{text}\n{ended.stdout}")
    return None


def main():
    """Serves the sessions one after another."""
    count, workers, first = (int(it) for it in (sys.argv[1:] + ["10000", "8", "1"][len(sys.argv) - 1 :]))
    start, steps = time.monotonic(), 0
    for seed in range(first, first + count):
        done = served(seed, workers)
        if done is None:
            sys.exit(1)
        steps += done
    spent = time.monotonic() - start
    print(f"{count} sessions, {workers} workers, {steps} kernel steps: each report judged right, in {spent:.0f} s")


if __name__ == "__main__":
    main()
