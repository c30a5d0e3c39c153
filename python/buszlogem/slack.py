"""Whether an output of a kernel can come too late, asked without a run: the command `slack` (docs/SLACK.md)."""

from __future__ import annotations

import dataclasses
import enum
from collections.abc import Sequence

from .kernels import KernelLike, KernelText, read_kernel
from .options import read_number
from .report import CHANNEL_NAMES
from .run import ask


class SlackWord(enum.StrEnum):
    """What `slack` answers."""

    YES = "yes"
    NO = "no"
    OPEN = "open"


@dataclasses.dataclass(frozen=True)
class Slack:
    """What `slack` says of a kernel at some cost and depth.

    Attributes
    ----------
    word : SlackWord
        `yes`: no output can come too late, at this cost and each smaller one; `no`: one may; `open`: that can't be told.
    outputs : int or None
        Of a yes: how many outputs the kernel asks for.
    number, stamp, channel, limit : int or None
        Of a no: the output that may be too late, from 0; a bound that its stamp isn't below and one that the counter's reading
        doesn't exceed when it is asked for, in mu; and its channel.
    requests : int or None
        Of an open one: how many requests were answered before.
    why : str or None
        Of an open one: why, as docs/SLACK.md lists it.
    """

    word: SlackWord
    outputs: int | None = None
    number: int | None = None
    stamp: int | None = None
    channel: int | None = None
    limit: int | None = None
    requests: int | None = None
    why: str | None = None

    @classmethod
    def read(cls, line: str) -> Slack:
        """Reads the line that the program writes.

        Raises
        ------
        ValueError
            Where it is no such line.
        """
        match line.split():
            case ["slack", "yes", outputs]:
                return cls(SlackWord.YES, outputs=int(outputs))
            case ["slack", "no", *numbers]:
                number, stamp, channel, limit = map(int, numbers)
                return cls(SlackWord.NO, number=number, stamp=stamp, channel=channel, limit=limit)
            case ["slack", "open", requests, why]:
                return cls(SlackWord.OPEN, requests=int(requests), why=why)
        raise ValueError(f"slack writes no line {line!r}")

    def __str__(self) -> str:
        match self.word:
            case SlackWord.YES:
                return f"yes: none of {self.outputs} outputs can come too late"
            case SlackWord.NO:
                name = CHANNEL_NAMES[self.channel or 0]
                where = f"output {self.number} on {name} at {self.stamp} mu"
                return f"no: {where} may be asked for when the counter reads {self.limit} mu"
        return f"open: {self.why}, after {self.requests} requests"


def slack(kernel: KernelLike, *, cost: int = 0, depth: int = 128, call: str | None = None, args: Sequence[int] = ()) -> Slack:
    """Asks without a run whether an output of a kernel can come too late on a core's first session.

    Parameters
    ----------
    kernel, call, args
        As `run` takes them.
    cost : int
        The mu that each request takes, 0 to 1,000,000.
    depth : int
        The events that each lane holds at least, 1 to 1,024.

    Returns
    -------
    Slack
        A yes holds for every schedule, every script of edges and any number of lanes.

    Raises
    ------
    KernelError
        Where the kernel is refused.
    OptionError
        Where an option has a value that it doesn't take.
    ProgramMissing, ProgramError
        Where the program isn't there, or ended otherwise than by an answer.
    """
    return ask_slack(read_kernel(kernel, call, args), read_number("cost", cost), read_number("depth", depth))


def ask_slack(kernel: KernelText, cost: int, depth: int) -> Slack:
    """As `slack`, of a kernel's text."""
    words = ("slack", "--cost", str(cost), "--depth", str(depth))
    return Slack.read(ask(words, kernel).out)
