"""A day of the laboratory, built from files and names: what `laboratory` carries out."""

from __future__ import annotations

import dataclasses
import json
import operator
import os
import pathlib
from collections.abc import Sequence
from typing import Any

from .kernels import KernelLike, KernelText, read_source
from .options import Edges, read_edges
from .steps import Step, submission

ONLY_PIPELINE = "main"
"""The name of the pipeline of a day that names none."""

MOST_STEPS = 16
"""The most steps of a stage of an experiment."""


@dataclasses.dataclass(frozen=True)
class Experiment:
    """An experiment of a `Day`.

    Attributes
    ----------
    name : str
        Its name.
    source : int
        The place of its text in the session's `sources`.
    prepare, run, analyze : tuple of Step
        Its steps; submissions among them may have names.
    """

    name: str
    source: int
    prepare: tuple[Step, ...]
    run: tuple[Step, ...]
    analyze: tuple[Step, ...]


class Day:
    """A day of the laboratory: cores, experiments with their sources and steps, and what arrives.

    Parameters
    ----------
    cost : int
        The mu that each request of a kernel takes, 0 to 1,000,000.
    budget : int
        The units that each kernel step may spend, 1 to 20,000.
    workers : int
        How many workers serve, 1 to 8.
    lanes, depth : int
        The lanes of each core, 1 to 32, and the events that a lane has room for, 1 to 1,024.
    horizon : int
        The last cycle of each core, 1 to 134,217,728 cycles of 8 mu.

    Examples
    --------
    >>> day = Day(cost=8)
    >>> day.experiment("scan", "def shot(wait: int64): ..", run=[steps.kernel("shot", 1000), steps.pause()])
    >>> day.submit("scan", priority=1)
    >>> report = laboratory(day)
    """

    def __init__(
        self,
        *,
        cost: int = 0,
        budget: int = 20_000,
        workers: int = 1,
        lanes: int = 8,
        depth: int = 128,
        horizon: int = 134_217_728,
    ) -> None:
        self.settings = {
            "cost": operator.index(cost),
            "budget": operator.index(budget),
            "workers": operator.index(workers),
            "lanes": operator.index(lanes),
            "depth": operator.index(depth),
            "horizon": operator.index(horizon),
        }
        self.pipelines: dict[str, dict[str, Any]] = {}
        self.sources: list[KernelText] = []
        self.experiments: dict[str, Experiment] = {}
        self.arrivals: list[dict[str, Any]] = []

    def pipeline(self, name: str, edges: Edges | None = None) -> None:
        """Adds a pipeline with a core of its own. A day without one gets one, `main`.

        Parameters
        ----------
        name : str
            Its name; at most four pipelines have one.
        edges : dict, optional
            What the inputs of its core see, as `run` takes it: by channel name and stamps in mu.

        Raises
        ------
        OptionError
            Where `edges` are no edges.
        ValueError
            Where the name is taken.
        """
        if name in self.pipelines:
            raise ValueError(f"there is a pipeline {name!r} already")
        listed = [[edge.channel, edge.stamp, "r" if edge.rises else "f"] for edge in read_edges(edges)]
        self.pipelines[name] = {"edges": listed}

    def experiment(
        self,
        name: str,
        source: KernelLike,
        *,
        run: Sequence[Step],
        prepare: Sequence[Step] = (),
        analyze: Sequence[Step] = (),
    ) -> None:
        """Adds an experiment.

        Parameters
        ----------
        name : str
            Its name, by which it is submitted.
        source : str, path or function
            The kernel's text, its file, or a Python function, as `run` takes them. A function may have parameters: the steps
            name it, and what it is called with.
        run : sequence of Step
            1 to 16 steps on the core: see `buszlogem.steps`.
        prepare, analyze : sequence of Step
            At most 16 steps on datasets, before and after it.

        Raises
        ------
        ValueError
            Where the name is taken, a stage has more steps than it may have, or the text isn't UTF-8.
        OptionError
            Where `source` is no kernel.
        OSError
            Where the file can't be read.
        """
        if name in self.experiments:
            raise ValueError(f"there is an experiment {name!r} already")
        for stage, found in (("prepare", prepare), ("run", run), ("analyze", analyze)):
            if len(found) > MOST_STEPS:
                advice = "put the loop into the kernel, or make several experiments of it"
                raise ValueError(f"experiment {name!r}: {stage} has {len(found)} steps of at most {MOST_STEPS}; {advice}")
        place = self._source(source)
        self.experiments[name] = Experiment(name, place, tuple(prepare), tuple(run), tuple(analyze))

    def submit(
        self,
        experiment: str,
        *,
        at: int = 0,
        pipeline: str | int = 0,
        priority: int = 0,
        due: int = 0,
        flush: bool = False,
    ) -> None:
        """Submits an experiment at a clock of the laboratory. Runs are numbered from 0 in the order of their arrival.

        Parameters
        ----------
        experiment : str
            Its name; it may be added later.
        at : int
            The laboratory's clock, which rises by one with each step of a run: 0 to 2^62.
        pipeline : str or int
            The pipeline's name, or its place, from 0.
        priority, due, flush
            As in `steps.submit`.
        """
        self._arrive(at, {"submit": submission(experiment, pipeline, priority, due, flush)})

    def delete(self, run: int, *, at: int) -> None:
        """Deletes a run, 0 to 63, at a clock of the laboratory."""
        self._arrive(at, {"delete": operator.index(run)})

    def terminate(self, run: int, *, at: int) -> None:
        """Asks a run, 0 to 63, to end, at a clock of the laboratory."""
        self._arrive(at, {"terminate": operator.index(run)})

    def session(self) -> dict[str, Any]:
        """The day as plain data, of the form of docs/SESSIONS.md: dicts, lists, numbers and texts that `json` writes.

        Raises
        ------
        KeyError
            Where a submission names an experiment or a pipeline that isn't there.
        """
        pipelines = self.pipelines or {ONLY_PIPELINE: {"edges": []}}
        experiments = [self._plain(experiment) for experiment in self.experiments.values()]
        arrivals = [self._resolved(arrival) for arrival in self.arrivals]
        return {
            **self.settings,
            "pipelines": list(pipelines.values()),
            "sources": [source.data.decode() for source in self.sources],
            "experiments": experiments,
            "arrivals": sorted(arrivals, key=operator.itemgetter("at")),
        }

    def json(self) -> str:
        """The session as a text in JSON, as `bin/artiq_lab` reads it."""
        return json.dumps(self.session(), indent=1) + "\n"

    def write(self, path: str | os.PathLike[str]) -> None:
        """Writes the session to a file."""
        pathlib.Path(path).write_text(self.json(), encoding="utf-8")

    @property
    def pipeline_names(self) -> tuple[str, ...]:
        """The names of the pipelines, by their places."""
        return tuple(self.pipelines) or (ONLY_PIPELINE,)

    def _source(self, source: KernelLike) -> int:
        found = read_source(source)
        found.data.decode()
        if found not in self.sources:
            self.sources.append(found)
        return self.sources.index(found)

    def _arrive(self, at: int, order: dict[str, Any]) -> None:
        self.arrivals.append({"at": operator.index(at), **order})

    def _plain(self, experiment: Experiment) -> dict[str, Any]:
        return {
            "source": experiment.source,
            "prepare": list(experiment.prepare),
            "run": [self._resolved(step) for step in experiment.run],
            "analyze": list(experiment.analyze),
        }

    def _resolved(self, item: dict[str, Any]) -> dict[str, Any]:
        """A step or an arrival with places where its submission has names."""
        if "submit" not in item:
            return item
        asked = item["submit"]
        places = {
            "experiment": _place(asked["experiment"], tuple(self.experiments), "experiment"),
            "pipeline": _place(asked["pipeline"], self.pipeline_names, "pipeline"),
        }
        return {**item, "submit": {**asked, **places}}


def _place(name: str | int, names: Sequence[str], what: str) -> int:
    if not isinstance(name, str):
        return operator.index(name)
    if name not in names:
        raise KeyError(f"no {what} {name!r}; there are {', '.join(names) or 'none'}")
    return names.index(name)
