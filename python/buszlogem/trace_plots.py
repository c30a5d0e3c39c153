"""The picture of a trace, by matplotlib: how early each output was."""

from __future__ import annotations

from typing import TYPE_CHECKING

from .plots import BLUE, GREEN, GREY, MU_IN_A_US, ORANGE, PURPLE, RED, SKY, legend, new_axes
from .report import CYCLE_MU
from .trace_lines import LineSlack
from .trace_parts import AskedOutput, OutputAnswer

if TYPE_CHECKING:
    import matplotlib.axes

    from .trace_report import Trace

LINE_COLOURS = (BLUE, ORANGE, GREEN, PURPLE, SKY)
"""The colours of the lines with the least slack; those of all others are grey."""

MOST_LETTERS = 36
"""How much of a line's source the legend has."""

ROWS = 6
"""How high the picture is, in rows of a run's picture."""


def plot_trace(trace: Trace, ax: matplotlib.axes.Axes | None = None) -> matplotlib.axes.Axes:
    """Draws the slack of each output over its stamp, both in us, in the colour of the line that asked it.

    The five lines with the least slack have a colour each, with the least first; all others are grey. A broken line stands at
    8 mu, below which an output is late. Late ones are marked by a cross, and those that were out of sequence by a square.

    Parameters
    ----------
    trace : Trace
        Of the run.
    ax : matplotlib.axes.Axes, optional
        Where to draw; without it a new figure is made.

    Returns
    -------
    matplotlib.axes.Axes
        `.figure.savefig("slack.png")`, or `.svg`, writes it.

    Raises
    ------
    MissingModule
        Where matplotlib isn't installed.
    """
    axes = ax or new_axes(ROWS)
    lines = sorted(trace.by_line(), key=lambda row: (row.least, row.text_line))
    coloured = {row.text_line for row in lines[: len(LINE_COLOURS)]}
    for rank, (colour, row) in enumerate(zip(LINE_COLOURS, lines)):
        outputs = [it for it in trace.outs if it.place.text_line == row.text_line]
        # The tightest is drawn last.
        _dots(axes, outputs, colour, _label(row), zorder=3 - rank / len(LINE_COLOURS))
    _dots(axes, [it for it in trace.outs if it.place.text_line not in coloured], GREY, "other lines", zorder=2)
    _marks(axes, [it for it in trace.outs if it.how is OutputAnswer.LATE], "X", "late")
    _marks(axes, [it for it in trace.outs if it.how is OutputAnswer.SEQUENCE], "s", "out of sequence")
    axes.axhline(CYCLE_MU / MU_IN_A_US, color=RED, linestyle="--", linewidth=1.0, label=f"{CYCLE_MU} mu: late below")
    axes.set_xlabel("time (us)")
    axes.set_ylabel("slack (us)")
    axes.ticklabel_format(axis="both", useOffset=False, style="plain")
    for side in ("right", "top"):
        axes.spines[side].set_visible(False)
    axes.grid(color="#dddddd", linewidth=0.6)
    axes.set_axisbelow(True)
    legend(axes, columns=2)
    return axes


def _label(row: LineSlack) -> str:
    source = row.line.source.strip()
    return f"{row.line.number}: {source if len(source) <= MOST_LETTERS else f'{source[: MOST_LETTERS - 2]}..'}"


def _dots(axes: matplotlib.axes.Axes, outputs: list[AskedOutput], colour: str, label: str, zorder: float) -> None:
    if outputs:
        axes.scatter(*_places(outputs), 12, color=colour, label=label, zorder=zorder)


def _marks(axes: matplotlib.axes.Axes, outputs: list[AskedOutput], marker: str, label: str) -> None:
    if outputs:
        axes.scatter(*_places(outputs), 60, marker=marker, facecolor="none", edgecolor=RED, label=label, zorder=4)


def _places(outputs: list[AskedOutput]) -> tuple[list[float], list[float]]:
    """Stamps and slacks, in us."""
    return [it.stamp / MU_IN_A_US for it in outputs], [it.slack / MU_IN_A_US for it in outputs]
