"""A Ramsey scan with photons: the ion's state decides how many come, and the fringe is fitted by eye.

    PYTHONPATH=python python3 python/examples/ramsey_fringe.py

A first sweep without photons shows when the gates of `in0` are open. Then each shot is bright or dark by the chance that the
waiting time gives it, photons are drawn at the rate of its state, and a second sweep counts them. The curve has three numbers
that a person turned until it went through the points. The picture is written beside this script.
"""
# ruff: noqa: F821

import math
import pathlib
import random

import matplotlib.pyplot as pyplot

from buszlogem import int32, int64, kernel, photons, sweep

SHOTS = 60
WAITS = range(2_000, 62_000, 2_000)
BRIGHT, DARK = 600_000, 20_000  # Photons in a second.
THRESHOLD = 4

# What nature does in this example.
DETUNING, CONTRAST = 41_700, 0.94  # In Hz; the first is what the scan is to find.

# What the person at the screen chose, by eye.
FITTED_DETUNING, FITTED_CONTRAST, FITTED_OFFSET = 41_500, 0.92, 0.50


@kernel
def shot(wait: int64) -> int32:
    core.break_realtime()
    ttl0.pulse_mu(20_000)  # Cooling.
    delay_mu(1_000)
    ttl1.pulse_mu(2_500)  # The first half of a pi pulse.
    delay_mu(wait)
    ttl1.pulse_mu(2_500)  # And the second.
    delay_mu(1_000)
    with parallel:
        ttl2.pulse_mu(20_000)  # Detection.
        end = in0.gate_rising_mu(20_000)
    return in0.count(end)


# A kernel knows the functions with @kernel and no other names of Python, so SHOTS stands here as a number.
@kernel
def fringe(wait: int64):
    counts = [0] * 60
    for place in range(60):
        counts[place] = shot(wait)
    set_dataset("counts", counts)


def chance(wait, detuning, contrast, offset=0.5):
    """The chance that the ion is bright after a wait in mu."""
    return offset + contrast / 2 * math.cos(2 * math.pi * detuning * wait * 1e-9)


def rates(wait, lots):
    """The rate of photons in each shot's gate: the ion is bright or dark."""
    return [BRIGHT if lots.random() < chance(wait, DETUNING, CONTRAST) else DARK for _ in range(SHOTS)]


def scan():
    """The table of the second sweep: a row for each wait, with the counts of its shots."""
    lots = random.Random(1)
    without = sweep(fringe, [{"wait": wait} for wait in WAITS])
    points = []
    for wait, row in zip(WAITS, without):
        points.append({"wait": wait, "edges": photons(row.report, "in0", rates(wait, lots), seed=wait)})
    return sweep(fringe, points)


def bright_fractions(table):
    """How many of the shots of each wait were bright."""
    return [sum(count >= THRESHOLD for count in row.report.data["counts"]) / SHOTS for row in table]


def draw(table, fractions):
    """The fringe above; below, of the first shots of the waits, the one with the most photons."""
    figure, (above, below) = pyplot.subplots(2, figsize=(8, 6.4), layout="constrained", height_ratios=(3, 2))
    errors = [math.sqrt(max(it * (1 - it), 0.25 / SHOTS) / SHOTS) for it in fractions]
    waits = [wait / 1000 for wait in WAITS]
    above.errorbar(waits, fractions, errors, fmt="o", markersize=4, color="#0072B2", label=f"{SHOTS} shots each")
    fine = range(WAITS[0], WAITS[-1], 100)
    curve = [chance(wait, FITTED_DETUNING, FITTED_CONTRAST, FITTED_OFFSET) for wait in fine]
    label = f"by eye: {FITTED_DETUNING / 1000} kHz, contrast {FITTED_CONTRAST}"
    above.plot([wait / 1000 for wait in fine], curve, color="#D55E00", label=label)
    above.set(xlabel="wait between the pulses (us)", ylabel="bright shots", ylim=(-0.05, 1.25))
    above.legend(loc="upper right", ncols=2, frameon=False)
    above.grid(color="#dddddd", linewidth=0.6)
    brightest = max(table, key=lambda row: row.report.data["counts"][0])
    brightest.report.plot(ax=below, window=(120, 180 + brightest.point["wait"] / 1000))
    figure.savefig(pathlib.Path(__file__).with_suffix(".png"), dpi=90)


def main():
    table = scan()
    fractions = bright_fractions(table)
    off = [it - chance(wait, FITTED_DETUNING, FITTED_CONTRAST, FITTED_OFFSET) for wait, it in zip(WAITS, fractions)]
    print(f"{len(table)} waits, all outputs came out: {table.ok}")
    print(f"the root mean square distance from the curve is {math.sqrt(sum(it * it for it in off) / len(off)):.3f}")
    draw(table, fractions)


if __name__ == "__main__":
    main()
