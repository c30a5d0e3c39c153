"""A trace by the lines of its kernel: how many outputs each asked, how early they were, and what was lost."""

from __future__ import annotations

import collections
from collections.abc import Iterator, Sequence
from typing import TYPE_CHECKING, NamedTuple

from .kernels import CALL, KernelText, Line
from .trace_parts import AskedOutput, LossReason, LostOutput

if TYPE_CHECKING:
    from .trace_report import Trace

HEAD = ("line", "outputs", "slack ", "lost")
"""The heads of the columns that stand before the source; the mark of the least slack stands behind it."""


class LineSlack(NamedTuple):
    """A line that asked outputs.

    Attributes
    ----------
    line : Line
        The line, where the user has it.
    text_line : int
        Its number in the text that the program got.
    outputs : int
        How many outputs of it were answered.
    least : int
        The least of their slacks, in mu.
    lost : int
        How many of them didn't come out, overridden ones among them.
    reasons : tuple of LossReason
        Why, each once, in the order in which the outputs were asked.
    """

    line: Line
    text_line: int
    outputs: int
    least: int
    lost: int
    reasons: tuple[LossReason, ...]


def by_line(trace: Trace) -> list[LineSlack]:
    """The lines that asked outputs, in the order of the text."""
    asked: dict[int, list[AskedOutput]] = collections.defaultdict(list)
    lost: dict[int, list[LostOutput]] = collections.defaultdict(list)
    for output in trace.outs:
        asked[output.place.text_line].append(output)
    for loss in trace.lost:
        lost[loss.place.text_line].append(loss)
    return [_line(asked[number], lost[number]) for number in sorted(asked)]


def _line(asked: list[AskedOutput], lost: list[LostOutput]) -> LineSlack:
    place = asked[0].place
    least = min(output.slack for output in asked)
    reasons = tuple(dict.fromkeys(loss.reason for loss in lost))
    return LineSlack(place.line, place.text_line, len(asked), least, len(lost), reasons)


def annotated(trace: Trace) -> str:
    """The source of a trace's kernel, with what each line asked beside it.

    Returns
    -------
    str
        A line for each of the kernel's: its number, how many outputs it asked, their least slack in mu, with `*` behind the least
        of all, how many were lost and why, and the source. Behind it stand the output with the least slack, and where the kernel
        stopped if it didn't return. Where the lines are of several files, each has its name above it.

    Raises
    ------
    ValueError
        Where the trace was read without its kernel.
    """
    if trace.kernel is None:
        raise ValueError("a trace that was read without its kernel: Trace.read(text, kernel) takes it")
    rows = {row.text_line: row for row in by_line(trace)}
    marked = trace.least.place.text_line if trace.least else 0
    shown = [(line, _cells(line, rows.get(number), number == marked)) for number, line in _lines(trace.kernel)]
    widths = [max(map(len, column)) for column in zip(HEAD, *(cells for _, cells in shown))]
    several = len({line.file for line, _ in shown}) > 1
    lines, file = [_joined(HEAD, widths)], ""
    for line, cells in shown:
        if several and line.file != file:
            file = line.file
            lines.append(f"{file}:")
        lines.append(f"{_joined(cells, widths)}  {line.source}".rstrip())
    return "\n".join([*lines, *_behind(trace)])


def _lines(kernel: KernelText) -> Iterator[tuple[int, Line]]:
    """The lines of a kernel by their numbers in its text, without a `main` that `call=` put behind it."""
    number = 0
    for origin in kernel.origins:
        for place, source in enumerate(origin.lines):
            number += 1
            if origin.file != CALL:
                yield number, Line(origin.file, origin.first + place, source)


def _cells(line: Line, row: LineSlack | None, is_least: bool) -> tuple[str, ...]:
    if row is None:
        return str(line.number), "", "", ""
    lost = f"{row.lost} {','.join(row.reasons)}" if row.lost else ""
    return str(line.number), str(row.outputs), f"{row.least}{'*' if is_least else ' '}", lost


def _joined(cells: Sequence[str], widths: Sequence[int]) -> str:
    return "  ".join(cell.rjust(width) for cell, width in zip(cells, widths))


def _behind(trace: Trace) -> list[str]:
    lines = [f"* {output}" for output in trace.tightest(1)]
    if not trace.returned:
        lines.append(f"ended by {trace.end}: {trace.end_place}")
    return lines
