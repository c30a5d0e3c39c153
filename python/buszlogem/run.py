"""`run`: a kernel on a simulated core."""

from __future__ import annotations

import dataclasses
import hashlib
from collections.abc import Mapping, Sequence

from . import programs
from .errors import OptionError, ProgramError
from .faults import kernel_error
from .kernels import KernelLike, KernelText, read_kernel, read_source
from .options import TAKES, Edges, Recordings, sim_words
from .report import Report

# The statuses of artiq_sim, by docs/ERRORS.md.
REFUSED, WRONG_WORDS = 1, 2
REPORTED = (0, 6, 7)
_WHY = {
    3: "its standard input can't be read",
    4: "its standard output can't be written",
    5: "memory was refused",
    8: "a text has at most 1,048,576 bytes",
}


@dataclasses.dataclass(frozen=True)
class Job:
    """A run that is ready to be started: the kernel's text and the words, by which its report is settled.

    Attributes
    ----------
    kernel : KernelText
        The text.
    words : tuple of str
        `sim` and its options.
    """

    kernel: KernelText
    words: tuple[str, ...]

    @property
    def sha256(self) -> str:
        """The SHA-256 of the text, in hex digits."""
        return hashlib.sha256(self.kernel.data).hexdigest()

    def run(self, strict: bool = False, timeout: float | None = None) -> Report:
        """Starts the program and reads its report; see `run`."""
        answer = ask(self.words, self.kernel, timeout)
        report = Report.read(answer.out, answer.status, self.words, self.sha256)
        if strict and not report.ok:
            from .trace import not_ok  # It stands on this module.

            raise not_ok(self, report, timeout)
        return report


def prepare(
    kernel: KernelLike,
    *,
    cost: int = 0,
    lanes: int = 8,
    depth: int = 128,
    horizon: int | None = None,
    budget: int | None = None,
    schedule: str = "lockstep",
    edges: Edges | None = None,
    hold: Mapping[str | int, int] | None = None,
    recordings: Recordings | None = None,
    call: str | None = None,
    args: Sequence[int | bool] = (),
    dma: bool = False,
) -> Job:
    """What `run` would start, with each option tried. The parameters are those of `run`."""
    words = sim_words(
        cost=cost,
        lanes=lanes,
        depth=depth,
        horizon=horizon,
        budget=budget,
        schedule=schedule,
        edges=edges,
        hold=hold,
        recordings=recordings,
        dma=dma,
    )
    return Job(read_kernel(kernel, call, args), words)


def run(
    kernel: KernelLike,
    *,
    cost: int = 0,
    lanes: int = 8,
    depth: int = 128,
    horizon: int | None = None,
    budget: int | None = None,
    schedule: str = "lockstep",
    edges: Edges | None = None,
    hold: Mapping[str | int, int] | None = None,
    recordings: Recordings | None = None,
    call: str | None = None,
    args: Sequence[int | bool] = (),
    dma: bool = False,
    strict: bool = False,
    timeout: float | None = None,
) -> Report:
    """Runs a kernel on a simulated core.

    Parameters
    ----------
    kernel : str, path or function
        A text, a path, or a Python function whose source is taken: see `buszlogem.kernels.read_kernel`.
    cost : int
        The mu that each request takes, 0 to 1,000,000.
    lanes, depth : int
        The core's lanes, 1 to 32, and the events that each holds, 1 to 1,024.
    horizon : int, optional
        The last cycle (of 8 mu), 1 to 134,217,728, which is that without it; in lockstep up to 576,460,752,303,423,488.
    budget : int, optional
        The units of the run, 1 to 1,000,000, which is that without it.
    schedule : str
        `lockstep`, `letters:WORD` or `mix:NUMBER`.
    edges : dict, optional
        What the inputs see: for a channel (`in0` to `in7`, or 24 to 31) a list or array of shape (n,) of the stamps of rising
        edges in mu, 0 to below 2**62, in any order. An item may also be a pair of a stamp and `"r"` or `"f"`.
        Or a list of `Edge`, as `Report.edges` has them.
    hold : dict, optional
        For a channel the cycles of 8 mu that it is busy with an event, 0 to 1,000,000.
    recordings : dict, optional
        The recordings that the core keeps at first, by name: `Report.recordings` of an earlier run.
    call : str, optional
        A function of the text that is run in place of `main`.
    args : sequence of int or bool
        What it is called with.
    dma : bool
        Whether the report has the recordings that the core keeps at the end.
    strict : bool
        Whether it is an error where `Report.ok` is false.
    timeout : float, optional
        The most seconds that the program may take.

    Returns
    -------
    Report

    Raises
    ------
    KernelError
        Where the text is refused.
    OptionError
        Where an option has a value that it doesn't take.
    NotOk
        Under `strict`: where the kernel didn't return, outputs are lost, or some pend. Where `artiq_trace` is built, the run is
        made once more by it, and the error names the line.
    ProgramMissing, ProgramError
        Where the program isn't there, or couldn't answer.
    OSError
        Where the kernel's file can't be read.

    Examples
    --------
    >>> report = run("def main():\\n    at_mu(1000)\\n    ttl0.pulse_mu(500)\\n")
    >>> [(stamp, name, data) for stamp, _, name, _, data in report.outs]
    [(1000, 'ttl0', 1), (1500, 'ttl0', 0)]
    """
    job = prepare(
        kernel,
        cost=cost,
        lanes=lanes,
        depth=depth,
        horizon=horizon,
        budget=budget,
        schedule=schedule,
        edges=edges,
        hold=hold,
        recordings=recordings,
        call=call,
        args=args,
        dma=dma,
    )
    return job.run(strict=strict, timeout=timeout)


def ask(
    words: Sequence[str], kernel: KernelText, timeout: float | None = None, program: str = "artiq_sim"
) -> programs.Answer:
    """Starts `artiq_sim`, or `artiq_trace`, on a kernel's text, and returns what it answered where the text was taken.

    Raises
    ------
    KernelError, OptionError, ProgramError, ProgramMissing
        As `run`.
    """
    answer = programs.start(program, words, kernel.data, timeout)
    if answer.status in REPORTED:
        return answer
    if answer.status == REFUSED:
        raise kernel_error(answer.err, kernel)
    if answer.status == WRONG_WORDS and "--recordings" in words:
        # All else was tried before; only the program reads the bytes of recordings.
        raise OptionError("recordings", words[list(words).index("--recordings") + 1], TAKES["recordings"])
    why = _WHY.get(answer.status, answer.err.strip() or "it said nothing")
    raise ProgramError(answer.status, answer.err, f"{program} ended with status {answer.status}: {why}")


def check(kernel: KernelLike) -> str:
    """The canonical text of a kernel, by `artiq_sim check`; raises as `run` where the text is refused."""
    return ask(("check",), read_source(kernel)).out
