"""How slow a core may be: the greatest cost of a request at which no output of a kernel comes too late."""

from __future__ import annotations

import dataclasses
import enum
import functools
import warnings
from collections.abc import Callable, Sequence
from typing import Any, NamedTuple

from .errors import ProgramMissing
from .kernels import KernelLike, KernelText, Line, read_kernel
from .options import NUMBERS, read_number, sim_words
from .report import CHANNEL_NAMES
from .run import Job
from .slack import Slack, SlackWord, ask_slack
from .trace import trace_of
from .trace_parts import AskedOutput, OutputAnswer, Place
from .trace_report import Trace

MOST_COST = NUMBERS["cost"].most


class Basis(enum.StrEnum):
    """What a margin rests on."""

    SLACK = "slack"
    """The command `slack`: at the margin no output can come too late, whatever the run; that is proved."""
    RUNS = "runs"
    """Runs: none of those that were tried had an underflow at the margin."""


@dataclasses.dataclass(frozen=True)
class Margin:
    """The greatest cost of a request without underflow.

    Attributes
    ----------
    cost : int or None
        In mu; None where an output is too late even at cost 0. It is at most 1,000,000, the most that a core takes.
    by : Basis
        What it rests on.
    verdict : Slack
        What `slack` says at the first cost at which it doesn't say yes; its yes where it says so at each cost.
    stamp : int or None
        The stamp of the output that is too late first, at a cost above the margin, in mu; None where there is none.
    channel : int or None
        Its channel.
    number : int or None
        How many outputs were asked before it.
    place : Place or None
        Where it is asked, by the trace; None where no run asks it, or `artiq_trace` isn't built. `line` is its line alone.
    tightest : AskedOutput or None
        The output with the least slack at the margin, with its slack (mu) and the place that asked it, by the trace of a run at
        that cost; None where there is none, or `artiq_trace` isn't built.
    runs : int
        How many runs were made to find the cost.
    """

    cost: int | None
    by: Basis
    verdict: Slack
    stamp: int | None = None
    channel: int | None = None
    number: int | None = None
    place: Place | None = None
    tightest: AskedOutput | None = None
    runs: int = 0

    @property
    def line(self) -> Line | None:
        """The line that asks the output that is too late first, where the user has it."""
        return self.place.line if self.place else None

    def __str__(self) -> str:
        if self.cost is None:
            head = f"an output is too late at cost 0, by {self.by}"
        elif self.stamp is None:
            head = f"no output is too late up to a cost of {self.cost} mu, by {self.by}"
        else:
            head = f"margin {self.cost} mu, by {self.by}"
        if self.by is Basis.RUNS:
            head += f" ({self.runs} runs; slack is {self.verdict})"
        return "\n".join([head, *self._first_late(), *self._tightest()])

    def _first_late(self) -> list[str]:
        if self.stamp is None:
            return []
        name = f" on {CHANNEL_NAMES[self.channel]}" if self.channel is not None else ""
        said = f"the output{name} at {self.stamp} mu is the first to be too late"
        return [said, str(self.place)] if self.place else [said]

    def _tightest(self) -> list[str]:
        found = self.tightest
        if found is None:
            return []
        behind = f"with a slack of {found.slack} mu"
        if (found.number, found.place) == (self.number, self.place):
            return [f"at {self.cost} mu it is the tightest, {behind}"]
        said = f"at {self.cost} mu the output on {found.name} at {found.stamp} mu is the tightest, {behind}"
        return [said, str(found.place)]


def margin(
    kernel: KernelLike,
    *,
    depth: int = 128,
    schedules: Sequence[str] = ("lockstep",),
    by: Basis | str | None = None,
    call: str | None = None,
    args: Sequence[int] = (),
    **options: Any,
) -> Margin:
    """Finds the greatest cost of a request at which no output of a kernel comes too late.

    Parameters
    ----------
    kernel, call, args
        As `run` takes them.
    depth : int
        The events that each lane holds, 1 to 1,024.
    schedules : sequence of str
        The orders of steps that runs are made under. Lockstep is the worst case of a kernel that reads neither the counter nor
        an input (docs/TIMELINE.md); of others several show more, as `["lockstep", "mix:1", "mix:2"]`.
    by : {"slack", "runs"}, optional
        What to go by; without it `slack` where it answers yes or no, and runs where it is open.
    **options
        Of the runs: `lanes`, `horizon`, `budget`, `edges`, `hold` and `recordings`, as `run` takes them. `slack` goes by the
        text alone.

    Returns
    -------
    Margin
        The cost in mu, what it rests on, the line that is too late first above it, and the tightest line at it. The lines are
        told by `artiq_trace`; a warning says where it isn't built.

    Raises
    ------
    KernelError
        Where the kernel is refused.
    OptionError
        Where an option has a value that it doesn't take.
    ProgramMissing, ProgramError
        Where the program isn't there, or ended otherwise than by an answer.

    Notes
    -----
    A yes of `slack` at some cost is a yes at every smaller one, which is proved; so twenty questions find the greatest. Runs are
    tried at doubled costs up to the first that is late, and between it and the last that wasn't. An underflow that the kernel
    itself takes by `except RTIOUnderflow` doesn't count in a run; the tightest output then has a slack below 8 mu.
    """
    trial = _Trial(read_kernel(kernel, call, args), read_number("depth", depth), tuple(schedules), options)
    in_time, verdict = trial.by_slack()
    basis = Basis(by) if by is not None else Basis.RUNS if verdict.word is SlackWord.OPEN else Basis.SLACK
    if basis is Basis.RUNS:
        in_time = trial.by_runs(in_time)
    runs = trial.runs
    cost = None if in_time < 0 else in_time
    tightest = None if cost is None else trial.tightest(cost)
    if in_time == MOST_COST:
        return Margin(cost, basis, verdict, tightest=tightest, runs=runs)
    late = trial.late_output(in_time + 1) if basis is Basis.RUNS else trial.named_output(verdict, max(in_time, 0))
    return Margin(cost, basis, verdict, *late, tightest, runs)


class _Late(NamedTuple):
    """The output that is too late first, as far as it is known: its stamp in mu, its channel, its number, and its place."""

    stamp: int | None = None
    channel: int | None = None
    number: int | None = None
    place: Place | None = None


@dataclasses.dataclass
class _Trial:
    """A kernel that is tried at several costs. A cost of -1 stands for none at all."""

    kernel: KernelText
    depth: int
    schedules: tuple[str, ...]
    options: dict[str, Any]
    runs: int = 0

    def by_slack(self) -> tuple[int, Slack]:
        """The greatest cost with a yes, and the verdict above it (or its own, where none is greater)."""
        ask = functools.cache(lambda cost: ask_slack(self.kernel, cost, self.depth))
        if ask(MOST_COST).word is SlackWord.YES:
            return MOST_COST, ask(MOST_COST)
        found = greatest(lambda cost: ask(cost).word is SlackWord.YES, -1, MOST_COST)
        return found, ask(found + 1)

    def by_runs(self, known: int) -> int:
        """The greatest cost found at which no run is late; at `known` none is."""
        good, step = known, 1
        while good < MOST_COST:
            cost = min(max(known, 0) + step - 1 if good < 0 else good + step, MOST_COST)
            if self.late(cost) is not None:
                return greatest(lambda it: self.late(it) is None, good, cost)
            good, step = cost, step * 2
        return good

    def late(self, cost: int) -> tuple[str, int] | None:
        """The first schedule under which an underflow ends a run at a cost, and where its cursor stood (mu)."""
        for schedule in self.schedules:
            self.runs += 1
            report = self.job(cost, schedule).run()
            if report.exception == "RTIOUnderflow":
                return schedule, report.cursor
        return None

    def job(self, cost: int, schedule: str) -> Job:
        """The run at a cost under a schedule."""
        return Job(self.kernel, sim_words(cost=cost, depth=self.depth, schedule=schedule, **self.options))

    def trace(self, cost: int, schedule: str) -> Trace | None:
        """The trace of the run at a cost under a schedule; None, with a warning, where the program isn't built."""
        try:
            return trace_of(self.job(cost, schedule))
        except ProgramMissing as why:
            warnings.warn(f"no line is told: {why}", stacklevel=4)
            return None

    def tightest(self, cost: int) -> AskedOutput | None:
        """The output with the least slack in the runs at a cost."""
        traces = [self.trace(cost, schedule) for schedule in self.schedules]
        found = [output for trace in traces if trace for output in trace.tightest(1)]
        return min(found, key=lambda output: output.slack) if found else None

    def late_output(self, cost: int) -> _Late:
        """The output that is too late in a run at a cost."""
        found = self.late(cost)
        if found is None:
            return _Late()
        schedule, stamp = found
        trace = self.trace(cost, schedule)
        late = [output for output in trace.outs if output.how is OutputAnswer.LATE] if trace else []
        return _Late(late[-1].stamp, late[-1].channel, late[-1].number, late[-1].place) if late else _Late(stamp)

    def named_output(self, verdict: Slack, cost: int) -> _Late:
        """The output that a no names, by its number in a run at a cost at which all before it are in time."""
        trace = self.trace(cost, self.schedules[0])
        place = next((it.place for it in trace.outs if it.number == verdict.number), None) if trace else None
        return _Late(verdict.stamp, verdict.channel, verdict.number, place)


def greatest(holds: Callable[[int], bool], low: int, high: int) -> int:
    """By halving, a number from `low` on at which `holds` holds and above which it doesn't; it does at `low`, not at `high`."""
    while high - low > 1:
        middle = (low + high) // 2
        low, high = (middle, high) if holds(middle) else (low, middle)
    return low
