"""Photons: edges by lot in the gates that a run opened, to be given to a second run."""

from __future__ import annotations

import math
import random
from collections.abc import Callable, Sequence
from typing import cast

from .gates import Gate, Played, Sensitivity, gates, input_number
from .report import CHANNEL_NAMES, CYCLE_MU

MOST_EDGES = 4_096
"""The most edges that a run is given."""

MU_IN_A_SECOND = 1_000_000_000

Rate = float | Sequence[float] | Callable[[Gate], float]


def photons(report: Played, channel: int | str, rate: Rate, seed: int) -> dict[str, list[int]]:
    """Draws the photons of an input: rising edges of a Poisson process in the gates of a first run.

    Parameters
    ----------
    report : Report or CoreReport
        Of a run without edges, or with those of other inputs.
    channel : int or str
        24 to 31, or `in0` to `in7`.
    rate : float, or sequence of float of shape (gates,), or callable
        Photons in a second, 0 to 1e9: one rate for all gates, one for each gate in the order of their starts, or a function that
        gives that of a `Gate`.
    seed : int
        The same seed gives the same photons.

    Returns
    -------
    dict of list of int
        Under the channel's name the stamps in mu, rising strictly; for `run(.., edges=..)`. Photons of two inputs are joined
        as `photons(..) | photons(..)`.

    Raises
    ------
    KeyError
        Where the channel isn't an input.
    ValueError
        Where a rate is negative or more than one photon a mu, where the rates aren't as many as the gates, or where there are
        more than 4,096 photons: a run takes no more edges.

    Notes
    -----
    Of photons within one mu the first one counts. Only gates that see rising edges get photons. Where the number of photons
    moves what the kernel does next, the second run may open other gates than the first one; `photons` goes by the first.
    """
    number = input_number(channel)
    opened = [gate for gate in gates(report, number) if gate.sensitivity & Sensitivity.RISING]
    lots = random.Random(seed)
    stamps: list[int] = []
    for gate, gate_rate in zip(opened, _rates(rate, opened), strict=True):
        stamps += _arrivals(gate, gate_rate, lots)
        if len(stamps) > MOST_EDGES:
            raise ValueError(f"more than {MOST_EDGES:,} photons, and a run takes no more edges: lower the rate")
    return {CHANNEL_NAMES[number]: stamps}


def _rates(rate: Rate, opened: Sequence[Gate]) -> list[float]:
    if callable(rate):
        found = [float(rate(gate)) for gate in opened]
    elif hasattr(rate, "__len__"):
        found = [float(item) for item in cast(Sequence[float], rate)]
        if len(found) != len(opened):
            raise ValueError(f"{len(found)} rates for {len(opened)} gates")
    else:
        found = [float(rate)] * len(opened)
    for item in found:
        if not 0 <= item <= MU_IN_A_SECOND:
            raise ValueError(f"a rate is a number of photons in a second, 0 to one a mu: {item}")
    return found


def _arrivals(gate: Gate, rate: float, lots: random.Random) -> list[int]:
    """The stamps of one gate's photons. An edge of cycle 0 is never seen, so there is none."""
    stamps: list[int] = []
    moment = float(gate.start)
    while rate > 0 and len(stamps) <= MOST_EDGES:
        # The gap to the next photon: exponential, with the mean 1 / rate.
        moment -= math.log1p(-lots.random()) / rate * MU_IN_A_SECOND
        if moment >= gate.end:
            break
        stamp = math.floor(moment)
        if stamp >= CYCLE_MU and stamp not in stamps[-1:]:
            stamps.append(stamp)
    return stamps
