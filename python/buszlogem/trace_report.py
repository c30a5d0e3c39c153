"""The trace of a run: which line asked each request, how early each output was, and what became of it (docs/TRACE.md)."""

from __future__ import annotations

import dataclasses
import functools
import heapq
from collections.abc import Sequence
from typing import TYPE_CHECKING, Any

from .kernels import CALL, KernelLike, KernelText, Line, read_kernel
from .report import CHANNEL_NAMES, numpy_or_none, read_value
from .trace_parts import (
    AskedOutput,
    Counts,
    Least,
    LossReason,
    LostOutput,
    OutputAnswer,
    Place,
    Request,
    RequestKind,
)

if TYPE_CHECKING:
    import matplotlib.axes
    import numpy

    from .trace_lines import LineSlack

OUTPUT_FIELDS = (
    ("line", "i4"), ("main", "i4"), ("counter", "i8"), ("number", "i4"), ("stamp", "i8"), ("channel", "u1"), ("name", "U5"),
    ("address", "u1"), ("data", "u4"), ("slack", "i8"), ("how", "U4"),
)  # fmt: skip
"""The fields of the record array of outputs; `main` is 0 where there is no such line."""

# An enumeration's own look-up takes longer, and a trace may have a million lines.
_KINDS = {str(kind): kind for kind in RequestKind}
_ANSWERS = {str(answer): answer for answer in OutputAnswer}

# What stands behind the word of each kind but `out`.
_VALUES: dict[RequestKind, tuple[str, ...]] = {
    RequestKind.COUNTER: (),
    RequestKind.RESET: (),
    RequestKind.WAIT: ("until",),
    RequestKind.EDGE: ("channel", "upto", "stamp"),
    RequestKind.SAVE: ("name", "events", "length", "how"),
    RequestKind.FETCH: ("name", "events", "length"),
    RequestKind.FETCH_HANDLE: ("handle", "events", "length"),
    RequestKind.HANDLE: ("name", "handle"),
    RequestKind.ERASE: ("name", "how"),
    RequestKind.DATA: ("name", "value"),
}


@dataclasses.dataclass(frozen=True, eq=False)
class Trace:
    """What a run asked of its core, line by line. `trace` makes it; `Trace.read` makes it from a text that was stored.

    Attributes
    ----------
    text : str
        The trace as the program wrote it. Its lines are those of the text that the program got.
    status : int
        The program's status: 0 returned and nothing is missing, 6 ended by an exception, 7 ended at the horizon or the budget, or
        returned while outputs are missing.
    words : tuple of str
        The words that the program was started with.
    kernel_sha256 : str
        The SHA-256 of the kernel's text as the program got it, in hex digits.
    kernel : KernelText or None
        The kernel, whose lines `annotate` prints; None where a stored trace was read without it.
    requests : tuple of Request or AskedOutput
        What was asked, in the order in which it was answered: each with its place, the counter's reading (mu) and its kind.
    lost : tuple of LostOutput
        What didn't come out, by number: reason, place, stamp (mu), channel.
    least : Least or None
        The least slack, its place and its output's number; None where no output was asked.
    end : str
        How the kernel ended: `ok`, `raised NAME`, `budget UNITS` or `horizon CYCLES`.
    end_place : Place or None
        Where it stopped; None where it returned.
    counts : Counts
        How many outputs were `asked`, came `out` and were `lost`.
    """

    text: str = dataclasses.field(repr=False)
    status: int
    words: tuple[str, ...]
    kernel_sha256: str
    kernel: KernelText | None = dataclasses.field(repr=False)
    requests: tuple[Request | AskedOutput, ...] = dataclasses.field(repr=False)
    lost: tuple[LostOutput, ...]
    least: Least | None
    end: str
    end_place: Place | None
    counts: Counts

    @classmethod
    def read(
        cls,
        text: str,
        kernel: KernelLike | None = None,
        status: int = 0,
        words: Sequence[str] = (),
        kernel_sha256: str = "",
    ) -> Trace:
        """Reads a trace's text.

        Parameters
        ----------
        text : str
            What the program wrote.
        kernel : str, path, function or KernelText, optional
            The kernel that it is of, from which the lines are taken.

        Raises
        ------
        ValueError
            Where a line is none of a trace.
        """
        read = None if kernel is None else read_kernel(kernel)
        lines = _Lines(read)
        for line in text.splitlines():
            lines.take(line)
        return cls(
            text=text,
            status=status,
            words=tuple(words),
            kernel_sha256=kernel_sha256,
            kernel=read,
            requests=tuple(lines.requests),
            lost=tuple(lines.lost),
            least=lines.least,
            end=lines.end,
            end_place=lines.end_place,
            counts=lines.counts,
        )

    @functools.cached_property
    def outs(self) -> tuple[AskedOutput, ...]:
        """The outputs among the requests, by number. `outputs` has the same as a record array."""
        return tuple(request for request in self.requests if isinstance(request, AskedOutput))

    @functools.cached_property
    def outputs(self) -> numpy.recarray[Any, Any] | list[AskedOutput]:
        """The outputs that were answered: a record array of shape (n,) with the fields of `AskedOutput`, but for `line` and
        `main` (line numbers) in place of its place; or a list of them where numpy isn't installed."""
        module = numpy_or_none()
        if module is None:
            return list(self.outs)
        fits = all(-(2**63) <= output.slack < 2**63 for output in self.outs)
        types = [(field, "O" if field == "slack" and not fits else kind) for field, kind in OUTPUT_FIELDS]
        records: numpy.recarray[Any, Any] = module.recarray(len(self.outs), dtype=types)
        rows = ((it.place.line.number, it.place.main.number if it.place.main else 0, *it[1:]) for it in self.outs)
        for (field, kind), column in zip(types, zip(*rows)):
            records[field] = module.array(column, dtype=kind)
        return records

    @property
    def returned(self) -> bool:
        """Whether the kernel returned."""
        return self.end == "ok"

    @property
    def exception(self) -> str | None:
        """The name of the exception that ended the kernel, as `RTIOUnderflow`, or None."""
        word, _, name = self.end.partition(" ")
        return name if word == "raised" else None

    @property
    def missing(self) -> tuple[LostOutput, ...]:
        """The lost outputs that are missing: all but those that were overridden, which is meant, and those that were late, which
        the kernel was told of."""
        return tuple(output for output in self.lost if output.reason.is_fault)

    @property
    def ok(self) -> bool:
        """Whether the kernel returned and no output is missing: just where the status is 0."""
        return self.returned and not self.missing

    @property
    def fault(self) -> Place | None:
        """Where the kernel stopped, if it didn't return; else where the first output that is missing was asked."""
        if not self.returned:
            return self.end_place
        return self.missing[0].place if self.missing else None

    def why_not_ok(self) -> str:
        """A sentence for each thing that isn't right, empty where all is: see `ok`. `fault` is the place of the first."""
        found = [] if self.returned else [f"the kernel ended by {self.end}"]
        if self.missing:
            first = self.missing[0]
            found.append(
                f"outputs that are missing: {len(self.missing)}, the first by {first.reason}: number {first.number}"
                f" on {first.name} at {first.stamp} mu"
            )
        return "; ".join(found)

    def tightest(self, n: int = 10) -> list[AskedOutput]:
        """The outputs with the least slack, late ones among them, by slack; of equal ones the earlier first.

        Parameters
        ----------
        n : int
            How many, at most.
        """
        return heapq.nsmallest(n, self.outs, key=lambda output: (output.slack, output.number))

    def by_line(self) -> list[LineSlack]:
        """The lines that asked outputs, in the order of the text: how many, their least slack, how many were lost.

        Returns
        -------
        list of LineSlack
        """
        from . import trace_lines

        return trace_lines.by_line(self)

    def annotate(self) -> str:
        """The kernel's source with what each line asked beside it: see `buszlogem.trace_lines.annotated`."""
        from . import trace_lines

        return trace_lines.annotated(self)

    def plot(self, ax: matplotlib.axes.Axes | None = None) -> matplotlib.axes.Axes:
        """Draws slack over time: see `buszlogem.trace_plots.plot_trace`."""
        from . import trace_plots

        return trace_plots.plot_trace(self, ax=ax)

    def __str__(self) -> str:
        return self.text


@dataclasses.dataclass
class _Lines:
    """What the lines of a trace say, before it is put into a `Trace`."""

    kernel: KernelText | None
    places: dict[str, Place] = dataclasses.field(default_factory=dict)
    requests: list[Request | AskedOutput] = dataclasses.field(default_factory=list)
    lost: list[LostOutput] = dataclasses.field(default_factory=list)
    least: Least | None = None
    end: str = ""
    end_place: Place | None = None
    counts: Counts = Counts(0, 0, 0)

    def take(self, line: str) -> None:
        word, *items = line.split(" ")
        try:
            match word:
                case "lost":
                    self.lost.append(self.lost_output(items))
                case "least":
                    self.least = Least(int(items[0]), self.place(items[1]), int(items[2]))
                case "end":
                    self.take_end(items)
                case "asked":
                    self.counts = Counts(int(items[0]), int(items[2]), int(items[4]))
                case _:
                    self.requests.append(self.request(word, items))
        except (LookupError, ValueError) as why:
            raise ValueError(f"a trace has no line {line!r}") from why

    def take_end(self, items: list[str]) -> None:
        if "line" in items:
            self.end_place = self.place(items[-1])
            items = items[: items.index("line")]
        self.end = " ".join(items)

    def request(self, place: str, items: list[str]) -> Request | AskedOutput:
        """Reads `PLACE READING KIND` and what stands behind."""
        kind = _KINDS[items[1]]
        if kind is RequestKind.OUTPUT:
            return self.output(place, int(items[0]), items[2:])
        return Request(self.place(place), int(items[0]), kind, _values(kind, items[2:]))

    def output(self, place: str, counter: int, items: list[str]) -> AskedOutput:
        number, stamp, channel, address, data, slack = map(int, items[:6])
        how = _ANSWERS[items[6]]
        name = CHANNEL_NAMES[channel]
        return AskedOutput(self.place(place), counter, number, stamp, channel, name, address, data, slack, how)

    def lost_output(self, items: list[str]) -> LostOutput:
        number, place, stamp, channel, reason, *by = items
        return LostOutput(
            int(number), self.place(place), int(stamp), int(channel), LossReason(reason), int(by[0]) if by else None
        )

    def place(self, word: str) -> Place:
        """The place of `LINE` or `LINE<MAIN`."""
        if word not in self.places:
            self.places[word] = self.read_place(word)
        return self.places[word]

    def read_place(self, word: str) -> Place:
        number, _, main = word.partition("<")
        called = self.line(int(main)) if main else None
        if called is not None and called.file == CALL:
            called = None
        return Place(int(number), self.line(int(number)), called)

    def line(self, number: int) -> Line:
        return self.kernel.line(number) if self.kernel else Line("<kernel>", number, "")


def _values(kind: RequestKind, items: Sequence[str]) -> dict[str, Any]:
    """What stands behind the word of a request, by name; numbers that aren't there are None."""
    names = _VALUES[kind]
    if items[-1:] in (["none"], ["old"]) and names[-1] != "how":
        # A recording that isn't kept has one word in place of two numbers.
        items = [*items[:-1], *["none"] * (len(names) - len(items) + 1)]
    if len(items) != len(names):
        raise ValueError(f"{kind} has {len(names)} items")
    return {name: _value(name, item) for name, item in zip(names, items)}


def _value(name: str, item: str) -> Any:
    if name in ("name", "how") or item == "lost":
        return item
    return None if item == "none" else read_value(item)
