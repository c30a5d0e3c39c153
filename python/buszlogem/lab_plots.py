"""The picture of a day of the laboratory, by matplotlib."""

from __future__ import annotations

from typing import TYPE_CHECKING

from .lab_report import LabReport, LabRun, RunStatus
from .plots import BLUE, GREY, ORANGE, RED, legend, new_axes

if TYPE_CHECKING:
    import matplotlib.axes

COLOURS = {
    RunStatus.DONE: BLUE,
    RunStatus.FAILED: RED,
    RunStatus.TERMINATED: ORANGE,
    RunStatus.DELETED: GREY,
}
THICK, THIN = 0.56, 0.12


def plot_day(report: LabReport, ax: matplotlib.axes.Axes | None = None) -> matplotlib.axes.Axes:
    """Draws the runs of a day over the laboratory's clock: a row for each run, in the colour of how it ended.

    A bar is a step that was reported, and a thin line joins the steps of a run that had to wait between them. A run without a
    step has its mark alone, at the left.

    Parameters
    ----------
    report : LabReport
        Of the day.
    ax : matplotlib.axes.Axes, optional
        Where to draw; without it a new figure is made.

    Returns
    -------
    matplotlib.axes.Axes
        `.figure.savefig("day.png")`, or `.svg`, writes it.

    Raises
    ------
    MissingModule
        Where matplotlib isn't installed.
    """
    axes = ax or new_axes(len(report.runs), width=8.0)
    last = max((step.clock for step in report.steps), default=1)
    for run in report.runs:
        _draw(axes, run, float(len(report.runs) - 1 - run.number))
    names = [f"{run.number}  {run.name}" for run in report.runs]
    axes.set_yticks([len(names) - 1 - row for row in range(len(names))], names)
    axes.set_ylim(-0.6, max(len(names) - 0.4, 0.6))
    axes.set_xlim(-0.02 * last, last * 1.02)
    axes.set_xlabel("the laboratory's clock (reported steps)")
    axes.xaxis.get_major_locator().set_params(integer=True)
    axes.tick_params(axis="y", length=0)
    for side in ("left", "right", "top"):
        axes.spines[side].set_visible(False)
    axes.grid(axis="x", color="#dddddd", linewidth=0.6)
    axes.set_axisbelow(True)
    legend(axes)
    return axes


def _draw(axes: matplotlib.axes.Axes, run: LabRun, row: float) -> None:
    colour = COLOURS[run.status]
    if not run.steps:
        axes.scatter([0], [row], 40, marker="x", color=colour, label=f"{run.status}, no step", clip_on=False)
        return
    # A step ends at its clock, and takes a tick of it.
    spans = [(step.clock - 1, 1) for step in run.steps]
    begin, end = spans[0][0], run.steps[-1].clock
    axes.broken_barh([(begin, end - begin)], (row - THIN / 2, THIN), color=colour, alpha=0.5, linewidth=0)
    axes.broken_barh(spans, (row - THICK / 2, THICK), facecolor=colour, edgecolor="white", label=str(run.status))
    paused = [step.clock for step in run.steps if step.word == "paused"]
    if paused:
        axes.scatter(paused, [row] * len(paused), 26, marker="|", color="black", label="paused", zorder=3)
