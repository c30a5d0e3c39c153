"""A crew of shells: programs run side by side, and one thread of Python tells the shells what to start.

Threads that each wait for a shell of their own hold each other up: only one of them runs at once. One thread that waits for all
shells has nobody to hand over to. Of short programs a shell is told several at once, and of the next ones before those are
over: so it never waits for Python, which wakes once for several.
"""

from __future__ import annotations

import collections
import contextlib
import itertools
import resource
import selectors
import time
from collections.abc import Iterable, Iterator
from types import TracebackType
from typing import Generic, NamedTuple, TypeVar

from .shells import Ended, Shell, Words

Item = TypeVar("Item")

MOST_AT_ONCE = 8
"""Of how many programs a shell knows at most, the one that runs among them."""

SECONDS_AHEAD = 0.1
"""How long those may take together at most that it is told ahead, by what those before took: another shell may take them."""


class Start(NamedTuple, Generic[Item]):
    """A program to be started: for what, by which words, and what it reads."""

    item: Item
    words: Words
    data: bytes


Answered = tuple[Item, Ended | None]
"""For what a program was started, and what `Shell.start` gives of it: None where no shell could start it."""


class _Member(Generic[Item]):
    """A shell, and what it was told of."""

    def __init__(self, most: int) -> None:
        self.shell = Shell(most - 1)
        self.items: collections.deque[Item] = collections.deque()
        self._most = most
        self._since = 0.0
        self._each = float("inf")

    def wanted(self, left: int) -> int:
        """Of how many programs it is to be told now, where so many are left for each shell; 0 while it knows of enough."""
        most = min(self._most, 1 + int(SECONDS_AHEAD / self._each), 1 + left // 2)
        at_once = max(1, most // 2)
        return at_once if len(self.items) + at_once <= most else 0

    def ask(self, starts: list[Start[Item]]) -> int:
        """Tells the shell to start programs; of how many it was told, from the first on."""
        told = 0
        with contextlib.suppress(OSError):
            told = self.shell.ask([(start.words, start.data) for start in starts])
        if told and not self.items:
            self._since = time.monotonic()
        self.items.extend(start.item for start in starts[:told])
        return told

    def hear(self) -> list[Answered[Item]]:
        """Waits for the end of programs; raises OSError where the shell is gone."""
        found = self.shell.hear()
        now = time.monotonic()
        self._each, self._since = max((now - self._since) / len(found), 1e-6), now
        return [(self.items.popleft(), ended) for ended in found]


class Crew(Generic[Item]):
    """Shells that start programs side by side, in the folder and with the variables that there are when each shell begins.

    Parameters
    ----------
    size : int
        How many programs run at once at most, from 1 on.

    Raises
    ------
    OSError
        Where no shell can be had.
    """

    def __init__(self, size: int) -> None:
        self._size = size
        self._members: list[_Member[Item]] = []
        self._waiting: Iterator[Start[Item]] = iter(())
        self._left = 0
        self._hiring = True
        self._selector = selectors.DefaultSelector()
        try:
            self._recruit()
        except OSError:
            self._selector.close()
            raise

    def __enter__(self) -> Crew[Item]:
        return self

    def __exit__(self, kind: type[BaseException] | None, error: BaseException | None, at: TracebackType | None) -> None:
        self.close()

    def close(self) -> None:
        """Ends the shells, once what runs is over; what hasn't begun isn't begun."""
        for member in self._members:
            member.shell.withdraw()
        while self._members:
            self._members.pop().shell.close()
        self._selector.close()

    def carry_out(self, starts: Iterable[Start[Item]], most: int) -> Iterator[Answered[Item]]:
        """Starts programs, and gives for each what came of it, as they end. It is called once.

        Parameters
        ----------
        starts : iterable of Start
            Each is asked for when a shell is to be told of it: programs run while later ones are made ready.
        most : int
            How many there are at most. The last ones are handed out one by one.
        """
        self._waiting, self._left = iter(starts), most
        yield from self._give(self._members[0])
        while self._hiring or self._is_busy():
            if self._hiring:
                yield from self._hire()
            for key, _ in self._selector.select(None if self._is_busy() and not self._hiring else 0):
                yield from self._hear(key.data)
        # Here none is left but where all shells are gone.
        yield from ((start.item, None) for start in self._waiting)

    def _is_busy(self) -> bool:
        return any(member.items for member in self._members)

    def _hire(self) -> Iterator[Answered[Item]]:
        """One shell more, and a program for it, as long as there are both."""
        self._hiring = False
        if len(self._members) < self._size:
            with contextlib.suppress(OSError):
                member = self._recruit()
                yield from self._give(member)
                self._hiring = bool(member.items)

    def _hear(self, member: _Member[Item]) -> Iterator[Answered[Item]]:
        try:
            found = member.hear()
        except OSError:
            yield from self._dismiss(member)
        else:
            yield from self._give(member)
            yield from found

    def _give(self, member: _Member[Item]) -> Iterator[Answered[Item]]:
        """Tells a shell of as many programs as it wants, as far as there are; gives those that it can't be told of."""
        while wanted := member.wanted(max(0, self._left) // self._size):
            starts = list(itertools.islice(self._waiting, wanted))
            if not starts:
                return
            self._left -= len(starts)
            while starts:
                told = member.ask(starts)
                # Where it can't be told of one, it may be told of those behind.
                yield from ((start.item, None) for start in starts[told : told + 1])
                del starts[: told + 1]

    def _recruit(self) -> _Member[Item]:
        member = _Member[Item](_most_at_once(self._size))
        self._members.append(member)
        self._selector.register(member.shell, selectors.EVENT_READ, member)
        return member

    def _dismiss(self, member: _Member[Item]) -> Iterator[Answered[Item]]:
        """Lets a shell go that is gone; another takes its place."""
        self._members.remove(member)
        self._selector.unregister(member.shell)
        member.shell.close()
        self._hiring = True
        yield from ((item, None) for item in member.items)


def _most_at_once(size: int) -> int:
    """Of how many programs each of so many shells may know."""
    files = resource.getrlimit(resource.RLIMIT_NOFILE)[0]
    if files == resource.RLIM_INFINITY:
        return MOST_AT_ONCE
    # Each program takes four open files. Half of those that this process may have are left for others.
    return max(1, min(MOST_AT_ONCE, files // 2 // 4 // size))
