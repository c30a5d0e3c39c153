"""The parts of a trace: requests with the places that asked them, and outputs with what became of them (docs/TRACE.md)."""

from __future__ import annotations

import dataclasses
import enum
from typing import Any, NamedTuple

from .kernels import Line
from .report import CHANNEL_NAMES


class RequestKind(enum.StrEnum):
    """What a kernel asks of its core; the words are those of the trace."""

    OUTPUT = "out"
    COUNTER = "counter"
    RESET = "reset"
    WAIT = "wait"
    EDGE = "edge"
    SAVE = "save"
    FETCH = "fetch"
    FETCH_HANDLE = "fetch_handle"
    HANDLE = "handle"
    ERASE = "erase"
    DATA = "data"


class OutputAnswer(enum.StrEnum):
    """How an output was answered."""

    OK = "ok"
    """It was taken."""
    LATE = "late"
    """It came too late: its slack is below 8 mu."""
    SEQUENCE = "seq"
    """It was out of sequence: no lane could take it."""


class LossReason(enum.StrEnum):
    """Why an output didn't come out under its own number."""

    LATE = "late"
    SEQUENCE = "seq"
    RESET = "rst"
    COLLISION = "col"
    BUSY = "busy"
    OVERRIDDEN = "over"
    PENDING = "pend"

    @property
    def is_fault(self) -> bool:
        """Whether such an output is missing. One that was overridden is meant; one that was late the kernel was told of."""
        return self not in (LossReason.OVERRIDDEN, LossReason.LATE)


@dataclasses.dataclass(frozen=True)
class Place:
    """Where in a kernel something was asked.

    Attributes
    ----------
    text_line : int
        The number of the line in the text that the program got, as `Trace.text` has it.
    line : Line
        The line of the innermost statement, where the user has it: in a text, in a file, or in a Python function.
    main : Line or None
        Where that stands in a called function, the line of the call in `main` under which it was asked. None where it stands in
        `main` itself, and where `call=` put the `main` behind the text.
    """

    text_line: int
    line: Line
    main: Line | None = None

    def __str__(self) -> str:
        return f"{self.line}, called from {self.main}" if self.main else str(self.line)


class Request(NamedTuple):
    """A request that was answered, other than an output.

    Attributes
    ----------
    place : Place
        Where it was asked.
    counter : int
        What the counter read at the answer, in mu.
    kind : RequestKind
        What was asked; equal to `edge`, `wait`, ..
    values : dict
        The words behind it, by the names of docs/TRACE.md: `until` (mu); `channel`, `upto`, `stamp` (mu, None where there is no
        edge, `"lost"` where one was lost); `name`, `events`, `length` (mu, None where nothing is kept); `handle`; `how`; `value`.
    """

    place: Place
    counter: int
    kind: RequestKind
    values: dict[str, Any]


class AskedOutput(NamedTuple):
    """An output that was answered, whether it came out or not.

    Attributes
    ----------
    place : Place
        Where it was asked.
    counter : int
        What the counter read at the answer, in mu.
    number : int
        How many outputs were asked before it.
    stamp : int
        When it is to come out, in mu.
    channel : int
        0 to 31.
    name : str
        The channel's name, as `ttl0`.
    address : int
        0 to 255.
    data : int
        32 bits, without a sign.
    slack : int
        How early it was: its stamp less the reading, in mu. Below 8 it is late.
    how : OutputAnswer
        How it was answered; equal to `ok`, `late` or `seq`.
    """

    place: Place
    counter: int
    number: int
    stamp: int
    channel: int
    name: str
    address: int
    data: int
    slack: int
    how: OutputAnswer

    @property
    def kind(self) -> RequestKind:
        """That it is an output, as `Request.kind`."""
        return RequestKind.OUTPUT

    def __str__(self) -> str:
        return f"slack {self.slack} mu: output {self.number} on {self.name} at {self.stamp} mu, {self.place}"


class LostOutput(NamedTuple):
    """An output that didn't come out under its own number.

    Attributes
    ----------
    number : int
        How many outputs were asked before it.
    place : Place
        Where it was asked.
    stamp : int
        Its stamp, in mu.
    channel : int
        0 to 31.
    reason : LossReason
        Why; equal to `late`, `seq`, `rst`, `col`, `busy`, `over` or `pend`.
    by : int or None
        Of one that was overridden, the number of the first later output of its channel and stamp.
    """

    number: int
    place: Place
    stamp: int
    channel: int
    reason: LossReason
    by: int | None = None

    @property
    def name(self) -> str:
        """The channel's name, as `ttl0`."""
        return CHANNEL_NAMES[self.channel]


class Least(NamedTuple):
    """The least slack of a run, in mu, late outputs among them: where that output was asked, and its number."""

    slack: int
    place: Place
    number: int


class Counts(NamedTuple):
    """How many outputs were answered (`asked`), came out (`out`), and didn't (`lost`)."""

    asked: int
    out: int
    lost: int
