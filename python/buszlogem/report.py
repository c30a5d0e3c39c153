"""The report of a run: what came out, what didn't, and how the kernel ended."""

from __future__ import annotations

import dataclasses
import enum
import functools
import re
from collections.abc import Sequence
from types import ModuleType
from typing import TYPE_CHECKING, Any, NamedTuple

if TYPE_CHECKING:
    import matplotlib.axes
    import numpy

CYCLE_MU = 8
"""The mu of a coarse cycle."""

CHANNEL_NAMES: tuple[str, ...] = (
    *(f"ttl{number}" for number in range(16)),
    *(f"raw{number}" for number in range(8)),
    *(f"in{number}" for number in range(8)),
)
"""The name of each channel: `ttl0` to `ttl15` are 0 to 15, `raw0` to `raw7` 16 to 23, `in0` to `in7` 24 to 31."""

FIRST_INPUT = 24
"""The channel of `in0`. An output on an input's channel sets its gate: 1 rising, 2 falling, 3 both, 0 closed."""

# The lines of what came out are most of a report: they are read where they are asked for.
_OUTS = re.compile(r"(?:out [0-9]++ (?:[12]?[0-9]|3[01]) [0-9]++ [0-9]++\n)*+")


def channel_number(channel: int | str) -> int:
    """The number of a channel, 0 to 31, from its name or its number.

    Raises
    ------
    KeyError
        Where there is no such channel.
    """
    if isinstance(channel, str):
        if channel in CHANNEL_NAMES:
            return CHANNEL_NAMES.index(channel)
    elif 0 <= channel < len(CHANNEL_NAMES):
        return int(channel)
    raise KeyError(f"no channel {channel!r}: ttl0 to ttl15, raw0 to raw7, in0 to in7")


def numpy_or_none() -> ModuleType | None:
    """The module numpy where it is installed, else None."""
    try:
        import numpy
    except ImportError:
        return None
    return numpy


class Output(NamedTuple):
    """An output of a channel.

    Attributes
    ----------
    stamp : int
        When, in mu.
    channel : int
        0 to 31.
    name : str
        The channel's name, as `ttl0`.
    address : int
        0 to 255: 0 of a ttl, 2 (the gate) of an input.
    data : int
        32 bits, without a sign.
    """

    stamp: int
    channel: int
    name: str
    address: int
    data: int

    @classmethod
    def read(cls, items: Sequence[str]) -> Output:
        """Reads `STAMP CHANNEL ADDRESS DATA`, the items of a report's line behind `out` or `pend`."""
        stamp, channel, address, data = map(int, items)
        return cls(stamp, channel, CHANNEL_NAMES[channel], address, data)


def read_outs(lines: str) -> tuple[Output, ...]:
    """Reads the lines `out` of a report, and nothing else."""
    numbers = list(map(int, lines.replace("out ", "").split()))
    channels = numbers[1::4]
    names = map(CHANNEL_NAMES.__getitem__, channels)
    return tuple(map(Output._make, zip(numbers[0::4], channels, names, numbers[2::4], numbers[3::4])))


class LossKind(enum.StrEnum):
    """Why an output that was accepted didn't come out; docs/ERRORS.md says how to mend each."""

    SEQUENCE = "seq"
    COLLISION = "col"
    BUSY = "busy"
    RESET = "rst"


class Lost(NamedTuple):
    """An output that was asked for and didn't come out.

    Attributes
    ----------
    kind : LossKind
        Why; equal to `seq`, `col`, `busy` or `rst`.
    number : int
        Its number among the outputs that were asked for, from 0.
    stamp : int
        Its stamp in mu.
    channel : int
        0 to 31.
    """

    kind: LossKind
    number: int
    stamp: int
    channel: int

    @property
    def name(self) -> str:
        """The channel's name, as `ttl0`."""
        return CHANNEL_NAMES[self.channel]

    @classmethod
    def read(cls, kind: str, items: Sequence[str]) -> Lost:
        """Reads a report's line `seq`, `col`, `busy` or `rst`: its word, and `NUMBER STAMP CHANNEL`."""
        number, stamp, channel = map(int, items)
        return cls(LossKind(kind), number, stamp, channel)


class Edge(NamedTuple):
    """An edge at an input's pin: the channel (24 to 31), the stamp in mu, and whether the level rises."""

    channel: int
    stamp: int
    rises: bool


OUTPUT_FIELDS = (("stamp", "i8"), ("channel", "u1"), ("name", "U5"), ("address", "u1"), ("data", "u4"))


def as_records(outputs: Sequence[Output]) -> numpy.recarray[Any, Any] | list[Output]:
    """Outputs as a numpy record array of shape (n,) where numpy is installed, else as they are.

    A field is `records["data"]`. By attribute, as `records.stamp`, all fields are there but `data`: that name is the memory
    of an array.
    """
    module = numpy_or_none()
    if module is None:
        return list(outputs)
    records: numpy.recarray[Any, Any] = module.recarray(len(outputs), dtype=list(OUTPUT_FIELDS))
    for (field, _), column in zip(OUTPUT_FIELDS, zip(*outputs)):
        records[field] = column
    return records


def records_of_lines(lines: str) -> numpy.recarray[Any, Any] | None:
    """The lines `out` of a report as `as_records` gives them; None where numpy isn't installed."""
    module = numpy_or_none()
    if module is None:
        return None
    # From the text itself it takes a tenth of the time that it takes from tuples.
    numbers = module.fromstring(lines.replace("out ", ""), dtype="i8", sep=" ").reshape(-1, 4)
    records: numpy.recarray[Any, Any] = module.recarray(len(numbers), dtype=list(OUTPUT_FIELDS))
    for column, field in enumerate(("stamp", "channel", "address", "data")):
        records[field] = numbers[:, column]
    records["name"] = module.array(CHANNEL_NAMES)[numbers[:, 1]]
    return records


def read_value(text: str) -> int | list[int]:
    """Reads the value of a dataset as a report writes it: `17` or `[2,1,0]`."""
    if text.startswith("["):
        return [int(item) for item in text[1:-1].split(",") if item]
    return int(text)


def as_values(data: dict[str, int | list[int]]) -> dict[str, Any]:
    """Datasets with their lists as numpy arrays of int64, shape (n,), where numpy is installed."""
    numpy = numpy_or_none()
    if numpy is None:
        return dict(data)
    return {name: numpy.array(it, dtype="i8") if isinstance(it, list) else it for name, it in data.items()}


@dataclasses.dataclass
class _Lines:
    """What the lines of a report say, before it is put into a `Report`."""

    pends: list[Output] = dataclasses.field(default_factory=list)
    lost: list[Lost] = dataclasses.field(default_factory=list)
    data: dict[str, int | list[int]] = dataclasses.field(default_factory=dict)
    recordings: dict[str, bytes] = dataclasses.field(default_factory=dict)
    lanes: tuple[int, ...] = ()
    code: tuple[int, int] = (0, 0)
    end: str = ""
    cursor: int = 0
    counter: int = 0

    def take(self, line: str) -> None:
        word, *items = line.split(" ")
        match word:
            case "pend":
                self.pends.append(Output.read(items))
            case "seq" | "col" | "busy" | "rst":
                self.lost.append(Lost.read(word, items))
            case "data":
                self.data[items[0]] = read_value(items[1])
            case "dma":
                self.recordings[items[0]] = bytes.fromhex(items[1])
            case "lanes":
                self.lanes = tuple(map(int, items))
            case "code":
                self.code = (int(items[0]), int(items[1]))
            case "end":
                self.end = " ".join(items)
            case "cursor":
                self.cursor = int(items[0])
            case "counter":
                self.counter = int(items[0])
            case _:
                raise ValueError(f"a report has no line {line!r}")


@dataclasses.dataclass(frozen=True, eq=False)
class Report:
    """What a run of a kernel gave. `run` makes it; `Report.read` makes it from a text that was stored.

    Attributes
    ----------
    text : str
        The report as the program wrote it.
    status : int
        The program's status: 0 returned and nothing pends, 6 ended by an exception, 7 ended at the horizon or the budget, or
        returned while outputs pend.
    words : tuple of str
        The words that the program was started with: `sim` and its options.
    kernel_sha256 : str
        The SHA-256 of the kernel's text as the program got it, in hex digits.
    outs, pends : tuple of Output
        What came out, by stamp and channel; what pends, in the order in which it was asked for. `outputs` and `pending` have
        the same as record arrays. What came out is taken from the text when it is first asked for.
    outs_length : int
        How many characters of the text the lines of what came out take. They stand first.
    lost : tuple of Lost
        What was lost: kind, number, stamp (mu), channel.
    values : dict
        What `set_dataset` set last under each name, as int or list of int. `data` has the lists as arrays.
    recordings : dict of bytes
        What the core keeps at the end, by name, where `run(.., dma=True)` asked for it; to be given to `run(recordings=..)`.
    lanes : tuple of int
        The most events that each lane held.
    code : tuple of int
        The bytes of the kernel's image, and the instructions that were executed.
    end : str
        How the kernel ended: `ok`, `raised NAME`, `budget UNITS` or `horizon CYCLES`.
    cursor : int
        Where the timeline cursor stood at the end, in mu.
    counter : int
        What the counter reads once all is put out, in mu.
    """

    text: str = dataclasses.field(repr=False)
    status: int
    words: tuple[str, ...]
    kernel_sha256: str
    outs_length: int = dataclasses.field(repr=False)
    pends: tuple[Output, ...] = dataclasses.field(repr=False)
    lost: tuple[Lost, ...]
    values: dict[str, int | list[int]]
    recordings: dict[str, bytes] = dataclasses.field(repr=False)
    lanes: tuple[int, ...]
    code: tuple[int, int]
    end: str
    cursor: int
    counter: int

    @classmethod
    def read(cls, text: str, status: int = 0, words: Sequence[str] = ("sim",), kernel_sha256: str = "") -> Report:
        """Reads a report's text.

        Raises
        ------
        ValueError
            Where a line is none of a report.
        """
        found = _OUTS.match(text)
        outs_length = found.end() if found else 0
        lines = _Lines()
        for line in text[outs_length:].splitlines():
            lines.take(line)
        return cls(
            text=text,
            status=status,
            words=tuple(words),
            kernel_sha256=kernel_sha256,
            outs_length=outs_length,
            pends=tuple(lines.pends),
            lost=tuple(lines.lost),
            values=lines.data,
            recordings=lines.recordings,
            lanes=lines.lanes,
            code=lines.code,
            end=lines.end,
            cursor=lines.cursor,
            counter=lines.counter,
        )

    @functools.cached_property
    def outs(self) -> tuple[Output, ...]:
        """What came out, by stamp and channel."""
        return read_outs(self.text[: self.outs_length])

    @functools.cached_property
    def outputs(self) -> numpy.recarray[Any, Any] | list[Output]:
        """What came out: a record array of shape (n,) with the fields of `Output`, or a list of them where numpy isn't
        installed. Each item unpacks as `stamp, channel, name, address, data`."""
        records = records_of_lines(self.text[: self.outs_length])
        return list(self.outs) if records is None else records

    @functools.cached_property
    def pending(self) -> numpy.recarray[Any, Any] | list[Output]:
        """What was accepted and is still to come beyond the last cycle; as `outputs`."""
        return as_records(self.pends)

    @functools.cached_property
    def data(self) -> dict[str, Any]:
        """What `set_dataset` set last under each name: an int, or an array of int64 (a list where numpy isn't installed)."""
        return as_values(self.values)

    @property
    def returned(self) -> bool:
        """Whether the kernel returned."""
        return self.end == "ok"

    @property
    def exception(self) -> str | None:
        """The name of the exception that ended the kernel, as `RTIOUnderflow`, or None."""
        word, _, name = self.end.partition(" ")
        return name if word == "raised" else None

    @property
    def ok(self) -> bool:
        """Whether the kernel returned, nothing pends and nothing is lost."""
        return self.returned and not self.pends and not self.lost

    @property
    def edges(self) -> tuple[Edge, ...]:
        """The edges that the run was given, by stamp and channel."""
        if "--edges" not in self.words:
            return ()
        items = self.words[self.words.index("--edges") + 1].split(",")
        parts = (item.split(":") for item in items)
        return tuple(Edge(int(channel), int(stamp), level == "r") for channel, stamp, level in parts)

    def why_not_ok(self) -> str:
        """A sentence for each thing that isn't right, empty where all is: see `ok`."""
        found = []
        if not self.returned:
            found.append(f"the kernel ended by {self.end}, at cursor {self.cursor} mu")
        if self.lost:
            first = self.lost[0]
            found.append(
                f"outputs that are lost: {len(self.lost)}, the first by {first.kind}: number {first.number}"
                f" on {first.name} at {first.stamp} mu"
            )
        if self.pends:
            first_pending = self.pends[0]
            found.append(f"outputs that pend: {len(self.pends)}, the first on {first_pending.name} at {first_pending.stamp} mu")
        return "; ".join(found)

    def plot(
        self,
        ax: matplotlib.axes.Axes | None = None,
        channels: Sequence[int | str] | None = None,
        window: tuple[float, float] | None = None,
    ) -> matplotlib.axes.Axes:
        """Draws the run: see `buszlogem.plots.plot_report`."""
        from . import plots

        return plots.plot_report(self, ax=ax, channels=channels, window=window)

    def __str__(self) -> str:
        return self.text
