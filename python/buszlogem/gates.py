"""The gates of inputs, as the outputs of a run opened and closed them, and which edges they let in.

docs/INPUTS_AND_DMA.md has the rule: the sensitivity at an edge is the data of the last gate output of its channel whose stamp
isn't greater than the edge's, and 0 where there is none.
"""

from __future__ import annotations

import bisect
import dataclasses
import enum
from collections.abc import Iterable, Sequence
from typing import Protocol

from .report import CYCLE_MU, FIRST_INPUT, Edge, Output, channel_number


class Played(Protocol):
    """What a core put out: the report of a run, or that of a core of the laboratory."""

    @property
    def outs(self) -> tuple[Output, ...]:
        """What came out, by stamp and channel."""

    @property
    def counter(self) -> int:
        """What the counter reads at the end, in mu."""


class Sensitivity(enum.IntFlag):
    """Which edges an input sees."""

    CLOSED = 0
    RISING = 1
    FALLING = 2
    BOTH = 3

    def lets_in(self, edge: Edge) -> bool:
        """Whether it sees an edge."""
        return bool(self & (Sensitivity.RISING if edge.rises else Sensitivity.FALLING))


@dataclasses.dataclass(frozen=True)
class Gate:
    """A time in which an input was sensitive in one way.

    Attributes
    ----------
    start, end : int
        Its first stamp, and the first one behind it, in mu.
    sensitivity : Sensitivity
        What it let in.
    closed : bool
        Whether an output ended it; else `end` is the end of the run.
    """

    start: int
    end: int
    sensitivity: Sensitivity
    closed: bool = True


def gates(report: Played, channel: int | str) -> list[Gate]:
    """The gates of an input in a run, by their start.

    Parameters
    ----------
    report : Report or CoreReport
        Of the run. What `core.reset()` closed isn't in a report, so a gate that it closed counts as open up to the next gate
        output.
    channel : int or str
        24 to 31, or `in0` to `in7`.

    Returns
    -------
    list of Gate
        Of one that never closed, `end` is the last stamp that the run looked at, and one more.

    Raises
    ------
    KeyError
        Where the channel isn't an input.
    """
    number = input_number(channel)
    outputs = (output for output in report.outs if output.channel == number)
    return gates_of(outputs, report.counter + CYCLE_MU)


def gates_of(outputs: Iterable[Output], last: int) -> list[Gate]:
    """The gates that the gate outputs of one input make, up to the stamp `last` (mu) where nothing closes them."""
    found: list[Gate] = []
    start, sensitivity = 0, Sensitivity.CLOSED
    for output in outputs:
        if sensitivity and output.stamp > start:
            found.append(Gate(start, output.stamp, sensitivity))
        start, sensitivity = output.stamp, Sensitivity(output.data & 3)
    if sensitivity:
        found.append(Gate(start, max(last, start + 1), sensitivity, closed=False))
    return found


def is_seen(edge: Edge, opened: Sequence[Gate]) -> bool:
    """Whether one of the gates of its input lets an edge in. An edge of cycle 0 is never seen."""
    place = bisect.bisect_right(opened, edge.stamp, key=lambda gate: gate.start) - 1
    if place < 0 or edge.stamp < CYCLE_MU:
        return False
    gate = opened[place]
    return edge.stamp < gate.end and gate.sensitivity.lets_in(edge)


def input_number(channel: int | str) -> int:
    """The number of an input, 24 to 31.

    Raises
    ------
    KeyError
        Where the channel isn't an input.
    """
    number = channel_number(channel)
    if number < FIRST_INPUT:
        raise KeyError(f"{channel!r} is no input: in0 to in7")
    return number
