"""Two runs side by side: what came out in the one and not in the other, channel by channel."""

from __future__ import annotations

import collections
import dataclasses
from collections.abc import Iterable, Sequence

from .report import CHANNEL_NAMES, Output, Report

What = tuple[int, int, int]

NEIGHBOURS = 2
"""How many places before and behind it an output is held against, where a shift is looked for."""

MOST_SHIFTS = 8
"""How many of the shifts that come most often are tried in full."""


@dataclasses.dataclass(frozen=True)
class ChannelDifference:
    """What one channel put out in one of two runs alone.

    Attributes
    ----------
    channel : int
        0 to 31.
    only_a, only_b : tuple of Output
        What came out in the first run and not in the second, and the other way round, each at its own stamp (mu).
    both : int
        How many came out in both.
    """

    channel: int
    only_a: tuple[Output, ...]
    only_b: tuple[Output, ...]
    both: int

    @property
    def name(self) -> str:
        """The channel's name, as `ttl0`."""
        return CHANNEL_NAMES[self.channel]


@dataclasses.dataclass(frozen=True)
class Comparison:
    """What two runs put out, side by side.

    Attributes
    ----------
    shift : int
        How many mu later the second run put out what both have; 0 where they have nothing in common.
    channels : tuple of ChannelDifference
        One for each channel that put something out, by number.
    """

    shift: int
    channels: tuple[ChannelDifference, ...]

    @property
    def same(self) -> bool:
        """Whether both runs put out the same, at the same stamps."""
        return self.shift == 0 and self.same_but_for_shift

    @property
    def same_but_for_shift(self) -> bool:
        """Whether both runs put out the same, all of it `shift` mu later in the second run."""
        return not any(one.only_a or one.only_b for one in self.channels)

    def __str__(self) -> str:
        lines = [f"shift {self.shift} mu"] if self.shift else []
        for one in self.channels:
            lines += [f"- {_line(output)}" for output in one.only_a]
            lines += [f"+ {_line(output)}" for output in one.only_b]
        return "\n".join(lines) if lines else "the same"


def compare(a: Report | Iterable[Output], b: Report | Iterable[Output], shift: int | None = None) -> Comparison:
    """Compares what two runs put out.

    Parameters
    ----------
    a, b : Report, or iterable of Output
        The two runs.
    shift : int, optional
        How many mu later the second run is; without it the shift under which most outputs agree is looked for.

    Returns
    -------
    Comparison
        By channel, with the shift.
    """
    first, second = _outputs(a), _outputs(b)
    found = _best_shift(first, second) if shift is None else shift
    return Comparison(found, tuple(_differences(first, second, found)))


def _outputs(run: Report | Iterable[Output]) -> tuple[Output, ...]:
    return run.outs if isinstance(run, Report) else tuple(run)


def _what(output: Output) -> What:
    return output.channel, output.address, output.data


def _line(output: Output) -> str:
    return f"{output.stamp} {output.name} {output.address} {output.data}"


def _differences(first: Sequence[Output], second: Sequence[Output], shift: int) -> Iterable[ChannelDifference]:
    # Outputs of the second run, by what and when they would be in the first one.
    left = collections.Counter((_what(output), output.stamp - shift) for output in second)
    only_a: dict[int, list[Output]] = collections.defaultdict(list)
    both: collections.Counter[int] = collections.Counter()
    for output in first:
        key = _what(output), output.stamp
        if left[key] > 0:
            left[key] -= 1
            both[output.channel] += 1
        else:
            only_a[output.channel].append(output)
    only_b: dict[int, list[Output]] = collections.defaultdict(list)
    for output in second:
        key = _what(output), output.stamp - shift
        if left[key] > 0:
            left[key] -= 1
            only_b[output.channel].append(output)
    for channel in sorted({*only_a, *only_b, *both}):
        yield ChannelDifference(channel, tuple(only_a[channel]), tuple(only_b[channel]), both[channel])


def _best_shift(first: Sequence[Output], second: Sequence[Output]) -> int:
    """The shift under which most outputs agree; of equally good ones the smallest."""
    shifts = [shift for shift, _ in _shifts(first, second).most_common(MOST_SHIFTS)]
    wanted = collections.Counter((_what(output), output.stamp) for output in first)

    def agree(shift: int) -> int:
        shifted = collections.Counter((_what(output), output.stamp - shift) for output in second)
        return (wanted & shifted).total()

    return max([0, *shifts], key=lambda shift: (agree(shift), -abs(shift)))


def _shifts(first: Sequence[Output], second: Sequence[Output]) -> collections.Counter[int]:
    """How often each shift stands between an output and its like at nearly the same place of the other run."""
    found: collections.Counter[int] = collections.Counter()
    stamps_b = _stamps_by_what(second)
    for what, stamps in _stamps_by_what(first).items():
        others = stamps_b.get(what, [])
        # From the beginning, and from the end: a run may lack some at either.
        for offset in {0, len(others) - len(stamps)}:
            for place, stamp in enumerate(stamps):
                low = max(0, place + offset - NEIGHBOURS)
                found.update(other - stamp for other in others[low : max(low, place + offset + NEIGHBOURS + 1)])
    return found


def _stamps_by_what(outputs: Sequence[Output]) -> dict[What, list[int]]:
    stamps: dict[What, list[int]] = collections.defaultdict(list)
    for output in outputs:
        stamps[_what(output)].append(output.stamp)
    return stamps
