"""`trace`: which line of a kernel each of its requests came from, and how early each output was."""

from __future__ import annotations

from collections.abc import Mapping, Sequence

from .errors import NotOk, ProgramError, ProgramMissing
from .kernels import KernelLike
from .options import Edges, Recordings
from .report import Report
from .run import Job, ask, prepare
from .trace_parts import LossReason, Place
from .trace_report import Trace


def trace(
    kernel: KernelLike,
    *,
    cost: int = 0,
    lanes: int = 8,
    depth: int = 128,
    horizon: int | None = None,
    budget: int | None = None,
    schedule: str = "lockstep",
    edges: Edges | None = None,
    hold: Mapping[str | int, int] | None = None,
    recordings: Recordings | None = None,
    call: str | None = None,
    args: Sequence[int | bool] = (),
    strict: bool = False,
    timeout: float | None = None,
) -> Trace:
    """Runs a kernel as `run` does, and tells which line asked each request, how early each output was, and what became of it.

    Parameters
    ----------
    kernel, cost, lanes, depth, horizon, budget, schedule, edges, hold, recordings, call, args, timeout
        As `run` takes them.
    strict : bool
        Whether it is an error where `Trace.ok` is false.

    Returns
    -------
    Trace
        Its lines are those of the user's own text, file or Python function.

    Raises
    ------
    KernelError
        Where the text is refused.
    OptionError
        Where an option has a value that it doesn't take.
    NotOk
        Under `strict`: where the kernel didn't return, or outputs are missing.
    ProgramMissing, ProgramError
        Where `artiq_trace` isn't there, or couldn't answer.
    OSError
        Where the kernel's file can't be read.

    Examples
    --------
    >>> found = trace("def main():\\n    at_mu(1000)\\n    ttl0.pulse_mu(500)\\n", cost=400)
    >>> [(output.place.line.number, output.stamp, output.slack) for output in found.outs]
    [(3, 1000, 1000), (3, 1500, 1100)]
    """
    job = prepare(
        kernel,
        cost=cost,
        lanes=lanes,
        depth=depth,
        horizon=horizon,
        budget=budget,
        schedule=schedule,
        edges=edges,
        hold=hold,
        recordings=recordings,
        call=call,
        args=args,
    )
    found = trace_of(job, timeout)
    if strict and not found.ok:
        raise NotOk(found.why_not_ok(), trace=found, place=found.fault)
    return found


def trace_of(job: Job, timeout: float | None = None) -> Trace:
    """The trace of a run that is ready to be started; see `trace`."""
    words = _words(job.words)
    answer = ask(words, job.kernel, timeout, "artiq_trace")
    return Trace.read(answer.out, job.kernel, answer.status, words, job.sha256)


def not_ok(job: Job, report: Report, timeout: float | None = None) -> NotOk:
    """The error of a run whose report isn't ok: with its trace, which tells the line, where `artiq_trace` is built."""
    try:
        found = trace_of(job, timeout)
    except (ProgramMissing, ProgramError):
        return NotOk(report.why_not_ok(), report)
    return NotOk(report.why_not_ok(), report, found, _place(report, found))


def _words(words: Sequence[str]) -> tuple[str, ...]:
    """The words of a run without its command, and without `--dma`, which the trace doesn't take."""
    options = list(words[1:])
    if "--dma" in options:
        at = options.index("--dma")
        del options[at : at + 2]
    return tuple(options)


def _place(report: Report, found: Trace) -> Place | None:
    """Where the first thing was asked that `Report.why_not_ok` tells."""
    if not report.returned:
        return found.end_place
    if report.lost:
        return next((it.place for it in found.lost if it.number == report.lost[0].number), None)
    return next((it.place for it in found.lost if it.reason is LossReason.PENDING), None)
