"""Pictures of runs, by matplotlib: `Report.plot`, `LabReport.plot` and `Table.plot` call what stands here."""

from __future__ import annotations

import dataclasses
from collections.abc import Iterable, Sequence
from typing import TYPE_CHECKING, Protocol

from .gates import Gate, Played, Sensitivity, gates, is_seen
from .optional import need
from .report import CHANNEL_NAMES, CYCLE_MU, FIRST_INPUT, Edge, LossKind, Lost, Output, channel_number

if TYPE_CHECKING:
    import matplotlib.axes

    from .table import Table

FIRST_RAW = 16
MU_IN_A_US = 1000
HIGH = 0.66
"""How high a level of 1 is drawn; a channel has a row of height 1."""

MOST_LABELS = 24
"""The most values of a raw channel that are written out."""

# The colours of Okabe and Ito, which those who see few colours tell apart too.
BLUE, SKY, GREEN, ORANGE, RED, PURPLE, GREY = "#0072B2", "#56B4E9", "#009E73", "#E69F00", "#D55E00", "#CC79A7", "#666666"


class Drawn(Played, Protocol):
    """What is drawn of a run: its report, or that of a core of the laboratory."""

    @property
    def pends(self) -> tuple[Output, ...]:
        """What pends."""

    @property
    def lost(self) -> tuple[Lost, ...]:
        """What was lost."""

    @property
    def edges(self) -> tuple[Edge, ...]:
        """The edges that the inputs were given."""

    @property
    def cursor(self) -> int:
        """Where the cursor stood at the end, in mu."""

    @property
    def exception(self) -> str | None:
        """What ended the kernel, if an exception did."""


@dataclasses.dataclass(frozen=True)
class Mark:
    """How something that isn't a level is drawn."""

    label: str
    marker: str
    colour: str
    filled: bool = True


LOST_MARKS = {
    LossKind.SEQUENCE: Mark("lost: out of sequence", "X", RED),
    LossKind.COLLISION: Mark("lost: collided", "P", PURPLE),
    LossKind.BUSY: Mark("lost: channel busy", "s", ORANGE),
    LossKind.RESET: Mark("lost: cleared by a reset", "o", GREY),
}
PENDING_MARK = Mark("pending", ">", BLUE, filled=False)
LATE_LABEL = "late: RTIOUnderflow"
GATE_COLOURS = {Sensitivity.RISING: GREEN, Sensitivity.FALLING: PURPLE, Sensitivity.BOTH: SKY}
GATE_LABELS = {
    Sensitivity.RISING: "gate, rising",
    Sensitivity.FALLING: "gate, falling",
    Sensitivity.BOTH: "gate, both",
}


def plot_report(
    report: Drawn,
    ax: matplotlib.axes.Axes | None = None,
    channels: Sequence[int | str] | None = None,
    window: tuple[float, float] | None = None,
) -> matplotlib.axes.Axes:
    """Draws a run: a row for each channel, over the time in us.

    A ttl is drawn as a level, a raw channel as its values (`address=data`), an input by its gates and the edges that the run
    was given, filled where a gate let them in. Markers tell what was lost and what pends; a line across tells where an output
    came too late, of which the report has the stamp alone.

    Parameters
    ----------
    report : Report or CoreReport
        Of the run.
    ax : matplotlib.axes.Axes, optional
        Where to draw; without it a new figure is made.
    channels : sequence of int or str, optional
        Numbers or names, from the top row down; without it all that have something to show.
    window : (float, float), optional
        The first and last time, in us; without it all that came out or was lost.

    Returns
    -------
    matplotlib.axes.Axes
        `.figure.savefig("run.png")`, or `.svg`, writes it.

    Raises
    ------
    MissingModule
        Where matplotlib isn't installed.
    KeyError
        Where there is no such channel.
    ValueError
        Where the window ends before it begins.
    """
    numbers = _channels(report) if channels is None else [channel_number(channel) for channel in channels]
    first, last = _window(report, numbers) if window is None else window
    if not first < last:
        raise ValueError(f"a window is its first and its last time in us: {window}")
    drawing = Drawing(ax or new_axes(len(numbers)), numbers, first, last)
    for channel in numbers:
        drawing.channel(report, channel)
    drawing.losses(report)
    drawing.pending(report)
    drawing.late(report)
    drawing.dress()
    return drawing.axes


def new_axes(rows: int, width: float = 9.0) -> matplotlib.axes.Axes:
    """The axes of a new figure that is high enough for some rows.

    Raises
    ------
    MissingModule
        Where matplotlib isn't installed.
    """
    pyplot = need("matplotlib.pyplot", "a picture")
    return pyplot.subplots(figsize=(width, 1.4 + 0.45 * max(rows, 2)), layout="constrained")[1]


def _channels(report: Drawn) -> list[int]:
    """The channels that have something to show, by number."""
    items: list[Output | Lost | Edge] = [*report.outs, *report.pends, *report.lost, *report.edges]
    return sorted({item.channel for item in items})


def _window(report: Drawn, channels: Sequence[int]) -> tuple[float, float]:
    """The time in us that all fits into that came out, was lost or was late, with a margin."""
    items: list[Output | Lost | Edge] = [*report.outs, *report.lost, *(report.edges if not report.outs else ())]
    stamps = [item.stamp for item in items if item.channel in channels]
    if report.exception == "RTIOUnderflow":
        stamps.append(report.cursor)
    if not stamps:
        stamps = [item.stamp for item in report.pends if item.channel in channels] or [0, report.counter]
    first, last = min(stamps), max(stamps)
    margin = max(CYCLE_MU, (last - first) * 0.03)
    return (first - margin) / MU_IN_A_US, (last + margin) / MU_IN_A_US


@dataclasses.dataclass
class Drawing:
    """Axes with a row for each of some channels, from the top down, and a window of time in us."""

    axes: matplotlib.axes.Axes
    channels: Sequence[int]
    first: float
    last: float

    def base(self, channel: int) -> float:
        """The height at which the row of a channel begins."""
        return float(len(self.channels) - 1 - self.channels.index(channel))

    def shows(self, stamp: int) -> bool:
        """Whether a stamp (mu) lies in the window."""
        return self.first <= stamp / MU_IN_A_US <= self.last

    def channel(self, report: Drawn, channel: int) -> None:
        """Draws what came out of a channel."""
        outputs = [output for output in report.outs if output.channel == channel]
        if channel >= FIRST_INPUT:
            self.input(report, channel)
        elif channel < FIRST_RAW or all(output.address == 0 and output.data <= 1 for output in outputs):
            self.levels(channel, outputs)
        else:
            self.values(channel, outputs)

    def levels(self, channel: int, outputs: Iterable[Output]) -> None:
        """Draws levels: 0 up to the first output."""
        times, heights, level = [self.first], [0], 0
        for output in outputs:
            time = output.stamp / MU_IN_A_US
            if time > self.last:
                break
            if time > self.first:
                times += [time, time]
                heights += [level, output.data]
            else:
                heights[0] = output.data
            level = output.data
        times.append(self.last)
        heights.append(level)
        base = self.base(channel)
        line = [base + HIGH * height for height in heights]
        self.axes.plot(times, line, color=BLUE, linewidth=1.3, solid_joinstyle="miter", clip_on=True)
        self.axes.fill_between(times, base, line, color=BLUE, alpha=0.15, linewidth=0)

    def values(self, channel: int, outputs: Sequence[Output]) -> None:
        """Draws writes to a raw channel, each as a stroke, with `address=data` where there is room."""
        base = self.base(channel)
        shown = [output for output in outputs if self.shows(output.stamp)]
        self.axes.hlines(base, self.first, self.last, color=BLUE, linewidth=0.8)
        times = [output.stamp / MU_IN_A_US for output in shown]
        self.axes.vlines(times, base, base + HIGH, color=BLUE, linewidth=1.3)
        if len(shown) <= MOST_LABELS:
            for time, output in zip(times, shown):
                text = f" {output.address}={output.data}"
                self.axes.text(time, base + HIGH / 2, text, fontsize=7, va="center", color=GREY, clip_on=True)

    def input(self, report: Drawn, channel: int) -> None:
        """Draws the gates of an input, and the edges that the run was given."""
        base = self.base(channel)
        opened = gates(report, channel)
        self.axes.hlines(base, self.first, self.last, color=GREY, linewidth=0.8)
        for gate in opened:
            self.gate(base, gate)
        edges = [edge for edge in report.edges if edge.channel == channel and self.shows(edge.stamp)]
        for rises, seen in ((True, True), (True, False), (False, True), (False, False)):
            stamps = [edge.stamp for edge in edges if edge.rises == rises and is_seen(edge, opened) == seen]
            label = f"edge, {'rising' if rises else 'falling'}, {'seen' if seen else 'not seen'}"
            height = base + HIGH * (0.65 if rises else 0.35)
            self.mark(Mark(label, "^" if rises else "v", "black", seen), [(stamp, height) for stamp in stamps], 22)

    def gate(self, base: float, gate: Gate) -> None:
        """Draws a gate as a bar in the colour of what it lets in."""
        start, end = max(self.first, gate.start / MU_IN_A_US), min(self.last, gate.end / MU_IN_A_US)
        if start < end:
            colour, label = GATE_COLOURS[gate.sensitivity], GATE_LABELS[gate.sensitivity]
            self.axes.broken_barh([(start, end - start)], (base, HIGH), color=colour, alpha=0.35, label=label, linewidth=0)

    def mark(self, mark: Mark, places: Sequence[tuple[float, float]], size: float = 36) -> None:
        """Draws markers at stamps (mu) and heights."""
        if places:
            times, heights = [stamp / MU_IN_A_US for stamp, _ in places], [height for _, height in places]
            face = mark.colour if mark.filled else "white"
            shape = {"marker": mark.marker, "facecolor": face, "edgecolor": mark.colour}
            self.axes.scatter(times, heights, size, label=mark.label, zorder=3, clip_on=False, **shape)

    def losses(self, report: Drawn) -> None:
        """Marks what was lost, where it would have come out."""
        for kind, mark in LOST_MARKS.items():
            here = [it for it in report.lost if it.kind == kind and it.channel in self.channels and self.shows(it.stamp)]
            self.mark(mark, [(it.stamp, self.base(it.channel) + HIGH / 2) for it in here])

    def pending(self, report: Drawn) -> None:
        """Marks what pends; what lies behind the window is marked at its end."""
        here = [it for it in report.pends if it.channel in self.channels and it.stamp / MU_IN_A_US >= self.first]
        behind = {it.channel for it in here if it.stamp / MU_IN_A_US > self.last}
        places = [(float(it.stamp), self.base(it.channel) + HIGH / 2) for it in here if it.channel not in behind]
        places += [(self.last * MU_IN_A_US, self.base(channel) + HIGH / 2) for channel in sorted(behind)]
        self.mark(PENDING_MARK, places)

    def late(self, report: Drawn) -> None:
        """Draws a line where an output came too late and ended the kernel."""
        if report.exception == "RTIOUnderflow":
            self.axes.axvline(report.cursor / MU_IN_A_US, color=RED, linestyle="--", linewidth=1.2, label=LATE_LABEL)

    def dress(self) -> None:
        """Names the rows and the time, and says what each colour and marker is."""
        heights = [self.base(channel) + HIGH / 2 for channel in self.channels]
        self.axes.set_yticks(heights, [CHANNEL_NAMES[channel] for channel in self.channels])
        self.axes.set_ylim(-0.25, max(len(self.channels), 1))
        self.axes.set_xlim(self.first, self.last)
        self.axes.set_xlabel("time (us)")
        self.axes.tick_params(axis="y", length=0)
        self.axes.ticklabel_format(axis="x", useOffset=False, style="plain")
        for side in ("left", "right", "top"):
            self.axes.spines[side].set_visible(False)
        self.axes.grid(axis="x", color="#dddddd", linewidth=0.6)
        self.axes.set_axisbelow(True)
        legend(self.axes)


def legend(axes: matplotlib.axes.Axes, columns: int = 4) -> None:
    """Says above the axes what each colour and marker is, each once, in some columns."""
    handles, labels = axes.get_legend_handles_labels()
    once = dict(zip(labels, handles))
    if once:
        axes.legend(
            once.values(), once.keys(), loc="lower left", bbox_to_anchor=(0, 1), ncols=columns, frameon=False, fontsize=8
        )


def plot_columns(table: Table, x: str, y: str, ax: matplotlib.axes.Axes | None = None) -> matplotlib.axes.Axes:
    """Draws one column of a sweep's table over another, a point for each row that has a number in both.

    Raises
    ------
    MissingModule
        Where matplotlib isn't installed.
    KeyError
        Where no row has one of the two.
    """
    for name in (x, y):
        table.column(name)
    both = [(row.get(x), row.get(y)) for row in table]
    pairs = [pair for pair in both if all(isinstance(value, (int, float)) for value in pair)]
    axes = ax or new_axes(5, width=6.5)
    axes.plot([it for it, _ in pairs], [it for _, it in pairs], "o", color=BLUE, markersize=4)
    axes.set_xlabel(x)
    axes.set_ylabel(y)
    axes.grid(color="#dddddd", linewidth=0.6)
    axes.set_axisbelow(True)
    return axes
