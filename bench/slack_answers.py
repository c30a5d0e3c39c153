#!/usr/bin/env python3
"""Holds what `slack` says of made kernels against runs of them. Each kernel is asked at some cost and depth, and run by `sim`
at that cost and depth under fifty schedules: in lockstep, and in schedules of the form `mix:N`. Where `slack` says yes, no run may
raise RTIOUnderflow. Where it says no, it prints how often some run did; that need not be each time. Words: how many kernels
(200 without it), and the seed (1 without it). Ends with status 1 where a yes was wrong.

The kernels have outputs, delays from -2,000 to 20,000 mu, waits, `break_realtime`, `reset`, loops, parallel blocks and a
recording that is played. They read no counter and no edge, so few are open."""

import collections
import random
import subprocess
import sys

from timing import PROGRAM

SCHEDULES = ["lockstep", *(f"mix:{number}" for number in range(49))]
COSTS = [0, 80, 800, 5000, 40000]
DEPTHS = [1, 2, 8, 128]


def statements(rng, depth):
    """Some lines of a block, without their indentation."""
    for _ in range(rng.randint(1, 4)):
        kind = rng.randrange(9)
        if kind <= 2:
            yield f"ttl{rng.randrange(4)}.pulse_mu({rng.randint(8, 3000)})"
        elif kind == 3:
            yield f"delay_mu({rng.randint(-2000, 20000)})"
        elif kind == 4:
            yield "core.break_realtime()"
        elif kind == 5:
            yield f"core.wait_until_mu({rng.randint(0, 400000)})"
        elif kind == 6:
            yield rng.choice(["core.reset()", f"delay_mu({rng.randint(0, 200)})", "core_dma.playback('p')"]).replace("'", '"')
        elif depth < 2:
            yield rng.choice(["with parallel:", f"for i{depth} in range({rng.randint(1, 4)}):"])
            yield from ("    " + line for line in statements(rng, depth + 1))
        else:
            yield f"raw0.write({rng.randrange(4)}, {rng.randrange(256)})"


def kernel(rng):
    """A kernel: a recording is saved, the cursor moves to a first moment, and then come some statements."""
    lines = ['with core_dma.record("p"):', "    ttl4.pulse_mu(64)", "    delay_mu(40)"]
    lines += [rng.choice(["at_mu(1000)", "at_mu(200000)", "core.reset()", "core.break_realtime()"])]
    lines += statements(rng, 0)
    return "def main():\n" + "".join(f"    {line}\n" for line in lines)


def told(words, text):
    """What the program writes under these words."""
    run = subprocess.run([PROGRAM, *words], input=text.encode("ascii"), stdout=subprocess.PIPE, check=False)
    return run.stdout.decode("ascii")


def main():
    count = int(sys.argv[1]) if len(sys.argv) > 1 else 200
    rng = random.Random(int(sys.argv[2]) if len(sys.argv) > 2 else 1)
    seen = collections.Counter()
    for _ in range(count):
        text = kernel(rng)
        options = ["--cost", str(rng.choice(COSTS)), "--depth", str(rng.choice(DEPTHS))]
        verdict = told(["slack", *options], text).split()[1]
        late = any("end raised RTIOUnderflow" in told(["sim", *options, "--schedule", schedule], text) for schedule in SCHEDULES)
        seen[verdict, late] += 1
        if verdict == "yes" and late:
            print(f"a yes that a run breaks, {' '.join(options)}:\n{text}")
    print(f"{count} kernels, {len(SCHEDULES)} schedules each")
    print(f"yes: {seen['yes', False]} never late, {seen['yes', True]} late in some run")
    print(f"no: {seen['no', True]} late in some run, {seen['no', False]} never late in these runs")
    print(f"open: {seen['open', False] + seen['open', True]}")
    sys.exit(1 if seen["yes", True] else 0)


if __name__ == "__main__":
    main()
