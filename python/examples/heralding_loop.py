"""A heralding loop: the ion is excited until a photon comes, and a pulse follows at a fixed time behind the photon.

    PYTHONPATH=python python3 python/examples/heralding_loop.py

The next try begins a pause behind the last gate. How slow may a core be, and which line is the tightest? The kernel reads
edges, so `slack` is open, and `margin` goes by runs. The trace at that cost has the slack of each output: it shrinks from try to
try, and the end of the last gate is the tightest.

The picture has the last tries of a run, the slack at the margin, and the margin over the pause. The margin rises until the pulse
behind the photon binds it, which no pause moves: its end is asked for two requests behind the photon, and stands 5,000 mu behind
it. The picture is written beside this script.
"""
# ruff: noqa: F821

import pathlib

import matplotlib.pyplot as pyplot

from buszlogem import int64, kernel, margin, photons, run, trace

RATE = 60_000  # Photons in a second: in a gate of 500 mu one comes in three tries of a hundred.
SEED = 4
PAUSE = 2_000
PAUSES = range(1_000, 17_000, 1_000)


@kernel
def herald(pause: int64):
    core.reset()
    tries = 0
    photon = int64(-1)
    while photon < 0 and tries < 200:
        tries += 1
        delay_mu(pause)
        ttl0.pulse_mu(100)
        delay_mu(50)
        end = in0.gate_rising_mu(500)
        photon = in0.timestamp_mu(end)
    if photon >= 0:
        at_mu(photon + 4_000)
        ttl1.pulse_mu(1_000)
    set_dataset("tries", tries)
    set_dataset("photon", photon)


def edges(pause):
    """The photons that would come in the gates of all tries."""
    return photons(run(herald, args=[pause]), "in0", RATE, SEED)


def draw(report, early, margins):
    """The last tries above, the slack at the margin, and below the margins in the colour of the tightest line."""
    figure, (above, middle, below) = pyplot.subplots(3, figsize=(8, 9), layout="constrained", height_ratios=(2, 3, 3))
    photon = report.data["photon"] / 1000
    report.plot(ax=above, channels=["ttl0", "in0", "ttl1"], window=(photon - 8, photon + 6))
    early.plot(ax=middle).set_ylim(-0.2, 4)  # The outputs of the first try were 125 us early.
    lines = {found.tightest.place.line for found in margins}
    for colour, line in zip(("#0072B2", "#009E73", "#D55E00"), sorted(lines, key=lambda line: line.number)):
        shown = [(pause / 1000, it.cost) for pause, it in zip(PAUSES, margins) if it.tightest.place.line == line]
        below.plot(*zip(*shown), "o", color=colour, label=f"tightest: {line.source.strip()}")
    below.set(xlabel="pause between the tries (us)", ylabel="greatest cost of a request (mu)", ylim=(0, None))
    below.legend(loc="lower right", frameon=False)
    below.grid(color="#dddddd", linewidth=0.6)
    figure.savefig(pathlib.Path(__file__).with_suffix(".png"), dpi=80)


def main():
    report = run(herald, args=[PAUSE], edges=edges(PAUSE))
    print(f"a photon at {report.data['photon']} mu, in try {report.data['tries']}")
    found = margin(herald, args=[PAUSE], edges=edges(PAUSE))
    print(found)
    early = trace(herald, args=[PAUSE], edges=edges(PAUSE), cost=found.cost)
    print(early.annotate())
    draw(report, early, [margin(herald, args=[pause], edges=edges(pause)) for pause in PAUSES])


if __name__ == "__main__":
    main()
