"""The steps of an experiment, as plain data: what stands in the lists `prepare`, `run` and `analyze` of a `Day`.

A step is a dict of the form that docs/SESSIONS.md gives it, but that a submission may name its experiment and its
pipeline. `Day.session` puts their places for the names.
"""

from __future__ import annotations

import operator
from collections.abc import Callable, Iterable, Sequence
from typing import Any, SupportsIndex, TypeVar, cast

Step = dict[str, Any]
Point = TypeVar("Point")


def kernel(function: str, *args: SupportsIndex) -> Step:
    """Runs a function of the experiment's source on the core of the run's pipeline.

    Parameters
    ----------
    function : str
        Its name.
    *args : int
        Its arguments, at most 8. A truth value counts as 0 or 1.
    """
    return {"kernel": function, "args": [operator.index(number) for number in args]}


def pause() -> Step:
    """Gives way to a run of the pipeline that has a higher priority; ends where the run was asked to."""
    return {"pause": True}


def check_termination() -> Step:
    """Ends where the run was asked to."""
    return {"check_termination": True}


def set_dataset(
    name: str,
    value: SupportsIndex | Sequence[SupportsIndex],
    *,
    broadcast: bool = False,
    persist: bool = False,
    archive: bool = True,
) -> Step:
    """Sets a dataset.

    Parameters
    ----------
    name : str
        1 to 32 letters, digits and `_`.
    value : int or sequence of int
        A number, or a list of at most 512 numbers; a list may be empty.
    broadcast, persist, archive : bool
        Its flags. What persists is broadcast too.
    """
    return {
        "set": name,
        "value": _numbers(value),
        "broadcast": broadcast,
        "persist": persist,
        "archive": archive,
    }


def append(name: str, value: SupportsIndex) -> Step:
    """Appends a number to the list of a dataset."""
    return {"append": name, "value": operator.index(value)}


def sum_into(name: str, into: str) -> Step:
    """Sets the dataset `into` to the sum of the dataset `name`."""
    return {"sum": name, "into": into}


def submit(
    experiment: str | int,
    *,
    pipeline: str | int = 0,
    priority: int = 0,
    due: int = 0,
    flush: bool = False,
) -> Step:
    """Submits an experiment from a run's step.

    Parameters
    ----------
    experiment, pipeline : str or int
        Their names in the `Day`, or their places, from 0.
    priority : int
        -1000 to 1000; the greater comes first.
    due : int
        The laboratory's clock from which it may begin, 0 to 2^62.
    flush : bool
        Whether it waits until no other run of the pipeline with at least its priority is under way.
    """
    return {"submit": submission(experiment, pipeline, priority, due, flush)}


def submission(experiment: str | int, pipeline: str | int, priority: int, due: int, flush: bool) -> dict[str, Any]:
    """The fields of a submission, in a step as in an arrival."""
    return {"experiment": experiment, "pipeline": pipeline, "priority": priority, "due": due, "flush": flush}


def loop(points: Iterable[Point], body: Callable[[Point], Iterable[Step]]) -> list[Step]:
    """The steps of `body(point)` for each point, one after another: the laboratory has no loop over steps.

    Parameters
    ----------
    points : iterable
        A stage has at most 16 steps, so there may be few; a longer scan is a loop in a kernel.
    body : callable
        Gives the steps of one point.

    Examples
    --------
    >>> loop([1000, 2000], lambda wait: [kernel("shot", wait), pause()])
    [{'kernel': 'shot', 'args': [1000]}, {'pause': True}, {'kernel': 'shot', 'args': [2000]}, {'pause': True}]
    """
    return [step for point in points for step in body(point)]


def _numbers(value: SupportsIndex | Sequence[SupportsIndex]) -> int | list[int]:
    # An array of one item has an index too.
    if isinstance(value, SupportsIndex) and not hasattr(value, "__len__"):
        return operator.index(value)
    return [operator.index(number) for number in cast(Sequence[SupportsIndex], value)]
