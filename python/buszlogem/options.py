"""The options of a run, each tried before the program is asked: it says only the usage line of a faulty one."""

from __future__ import annotations

import operator
import re
from collections.abc import Iterable, Mapping, Sequence
from typing import NamedTuple

from .errors import OptionError
from .report import CHANNEL_NAMES, FIRST_INPUT, Edge, channel_number

Edges = Mapping[str | int, Iterable[int | tuple[int, str]]] | Sequence[Edge]
"""Edges by channel: stamps in mu of rising edges, or pairs of a stamp and `"r"` or `"f"`; or a list of `Edge`."""

Recordings = Mapping[str, bytes | str]
"""Recordings by name, as `Report.recordings` has them: bytes, or their hex digits."""

MOST_CYCLES = 134_217_728
MOST_CYCLES_LOCKSTEP = 576_460_752_303_423_488
MOST_EDGES, MOST_HOLDS, MOST_HOLD, MOST_RECORDINGS = 4096, 32, 1_000_000, 64
STAMPS_BELOW = 2**62


class Number(NamedTuple):
    """What an option takes that is a number: what it means, with its unit, and its range."""

    meaning: str
    least: int
    most: int

    @property
    def takes(self) -> str:
        """The meaning and the range."""
        return f"{self.meaning}, {self.least} to {self.most}"


NUMBERS: dict[str, Number] = {
    "cost": Number("the mu that each request takes", 0, 1_000_000),
    "lanes": Number("a number of lanes", 1, 32),
    "depth": Number("the events that each lane holds", 1, 1024),
    "horizon": Number("the last cycle, of 8 mu", 1, MOST_CYCLES),
    "budget": Number("a number of units", 1, 1_000_000),
}
DEFAULTS: dict[str, int] = {"cost": 0, "lanes": 8, "depth": 128}

TAKES: dict[str, str] = {
    **{name: number.takes for name, number in NUMBERS.items()},
    "horizon": f"{NUMBERS['horizon'].takes}, in lockstep to {MOST_CYCLES_LOCKSTEP}",
    "schedule": "'lockstep', 'letters:' and 1 to 64 letters c and t with a c, or 'mix:' and a number below 2**63",
    "edges": f"for each of in0 to in7 its stamps in mu, or pairs of a stamp and 'r' or 'f': 0 to below 2**62,"
    f" no two of a channel equal, at most {MOST_EDGES}",
    "hold": "for channels the cycles of 8 mu that each is busy, 0 to 1000000",
    "recordings": f"at most {MOST_RECORDINGS} recordings by name, as a report's recordings have them",
}
"""What each option takes, with its unit and range."""


def sim_words(
    *,
    cost: int = 0,
    lanes: int = 8,
    depth: int = 128,
    horizon: int | None = None,
    budget: int | None = None,
    schedule: str = "lockstep",
    edges: Edges | None = None,
    hold: Mapping[str | int, int] | None = None,
    recordings: Recordings | None = None,
    dma: bool = False,
) -> tuple[str, ...]:
    """The words of `artiq_sim sim` with these options; what is as without the option is left out.

    Raises
    ------
    OptionError
        Where an option has a value that it doesn't take.
    """
    found = {"cost": cost, "lanes": lanes, "depth": depth, "horizon": horizon, "budget": budget}
    lockstep = read_schedule(schedule) == "lockstep"
    words = ["sim"]
    for name, value in found.items():
        if value is not None and (number := read_number(name, value, lockstep)) != DEFAULTS.get(name):
            words += [f"--{name}", str(number)]
    lists = {"edges": edges_word(edges), "hold": hold_word(hold), "recordings": recordings_word(recordings)}
    if not lockstep:
        words += ["--schedule", schedule]
    for name, word in lists.items():
        if word:
            words += [f"--{name}", word]
    return (*words, "--dma", "lines") if dma else tuple(words)


def read_number(name: str, value: int, lockstep: bool = True) -> int:
    """A number of the option, where it is in the option's range."""
    least, most = NUMBERS[name].least, NUMBERS[name].most
    if name == "horizon" and lockstep:
        most = MOST_CYCLES_LOCKSTEP
    number = _whole(value)
    if number is None or not least <= number <= most:
        raise OptionError(name, value, TAKES[name])
    return number


def read_schedule(schedule: str) -> str:
    """A schedule, where it is of one of the three forms."""
    text = schedule if isinstance(schedule, str) else ""
    letters = re.fullmatch(r"letters:[ct]{1,64}", text) and "c" in text.removeprefix("letters:")
    mix = re.fullmatch(r"mix:\d{1,19}", text, re.ASCII) and int(text.removeprefix("mix:")) < 2**63
    if text == "lockstep" or letters or mix:
        return text
    raise OptionError("schedule", schedule, TAKES["schedule"])


def read_edges(edges: Edges | None) -> list[Edge]:
    """Edges by stamp and channel, as the program wants them."""
    if edges is None:
        return []
    found = sorted(_edges_of(edges), key=lambda it: (it.stamp, it.channel))
    for before, it in zip(found, found[1:]):
        if (before.stamp, before.channel) == (it.stamp, it.channel):
            raise OptionError("edges", {CHANNEL_NAMES[it.channel]: it.stamp}, TAKES["edges"])
    if len(found) > MOST_EDGES:
        raise OptionError("edges", f"{len(found)} edges", TAKES["edges"])
    return found


def _edges_of(edges: Edges) -> Iterable[Edge]:
    if isinstance(edges, Mapping):
        for channel, items in edges.items():
            if isinstance(items, (str, int)):
                raise OptionError("edges", {channel: items}, TAKES["edges"])
            for item in items:
                stamp, level = item if isinstance(item, (tuple, list)) and len(item) == 2 else (item, "r")
                yield _edge(channel, stamp, level)
    elif isinstance(edges, str):
        raise OptionError("edges", edges, TAKES["edges"])
    else:
        for edge in edges:
            if not isinstance(edge, Edge):
                raise OptionError("edges", edge, TAKES["edges"])
            yield _edge(edge.channel, edge.stamp, "r" if edge.rises else "f")


def _edge(channel: str | int, stamp: object, level: object) -> Edge:
    number, at = _channel(channel), _whole(stamp)
    if number is None or number < FIRST_INPUT or at is None or not 0 <= at < STAMPS_BELOW or level not in ("r", "f"):
        raise OptionError("edges", {channel: (stamp, level)}, TAKES["edges"])
    return Edge(number, at, level == "r")


def edges_word(edges: Edges | None) -> str:
    """The value of `--edges`, empty where there are none."""
    return ",".join(f"{it.channel}:{it.stamp}:{'r' if it.rises else 'f'}" for it in read_edges(edges))


def hold_word(hold: Mapping[str | int, int] | None) -> str:
    """The value of `--hold`, empty where there are none."""
    found: dict[int, int] = {}
    for channel, cycles in (hold or {}).items():
        number, value = _channel(channel), _whole(cycles)
        if number is None or number in found or value is None or not 0 <= value <= MOST_HOLD:
            raise OptionError("hold", {channel: cycles}, TAKES["hold"])
        found[number] = value
    return ",".join(f"{number}:{found[number]}" for number in sorted(found))


def recordings_word(recordings: Recordings | None) -> str:
    """The value of `--recordings`, empty where there are none."""
    items = dict(recordings or {})
    if len(items) > MOST_RECORDINGS:
        raise OptionError("recordings", f"{len(items)} recordings", TAKES["recordings"])
    for name, data in items.items():
        if not re.fullmatch(r"\w{1,32}", name, re.ASCII) or not isinstance(data, (bytes, str)) or not data:
            raise OptionError("recordings", {name: data}, TAKES["recordings"])
    return ",".join(f"{name}:{data.hex() if isinstance(data, bytes) else data}" for name, data in items.items())


def _channel(channel: str | int) -> int | None:
    try:
        return channel_number(channel)
    except (KeyError, TypeError):
        return None


def _whole(value: object) -> int | None:
    if isinstance(value, bool):
        return None
    try:
        return operator.index(value)  # type: ignore[arg-type]
    except TypeError:
        return None
