"""The report of a day of the laboratory: steps, runs, datasets, and what came out of each core."""

from __future__ import annotations

import dataclasses
import enum
import functools
from collections.abc import Iterable, Mapping, Sequence
from typing import TYPE_CHECKING, Any, ClassVar, NamedTuple

from .kernels import KernelText, whole
from .report import Edge, Lost, Output, as_records, as_values, read_value

if TYPE_CHECKING:
    import matplotlib.axes
    import numpy

    from .lab_causes import Failure


class RunStatus(enum.StrEnum):
    """How a run ended."""

    DONE = "done"
    FAILED = "failed"
    TERMINATED = "terminated"
    DELETED = "deleted"


class LabStep(NamedTuple):
    """A step that was reported.

    Attributes
    ----------
    clock : int
        The laboratory's clock after it, which rises by one with each.
    run : int
        The number of its run.
    position : int
        Its place in the stage `run` of the experiment, from 0.
    word : str
        `ok`, `paused`, `terminated`, `deleted`, `failed`, `budget`, `horizon` or `raised NAME`.
    """

    clock: int
    run: int
    position: int
    word: str


class Dataset(NamedTuple):
    """A dataset at the day's end: its value, an int or a list of int, and its flags."""

    value: int | list[int]
    broadcast: bool
    persist: bool
    archive: bool


@dataclasses.dataclass(frozen=True)
class LabRun:
    """A run of an experiment.

    Attributes
    ----------
    number : int
        Its number (ARTIQ's RID), from 0, in the order of submission.
    status : RunStatus
        How it ended; equal to `done`, `failed`, `terminated` or `deleted`.
    experiment, pipeline : int
        Their places in the session.
    name, pipeline_name : str
        Their names in the `Day`, or `experiment N` and `pipeline N`.
    priority, due : int
        As it was submitted.
    steps : tuple of LabStep
        Its steps that were reported.
    """

    number: int
    status: RunStatus
    experiment: int
    pipeline: int
    name: str
    pipeline_name: str
    priority: int
    due: int
    steps: tuple[LabStep, ...]


@dataclasses.dataclass(frozen=True, eq=False)
class CoreReport:
    """What came out of the core of a pipeline.

    Attributes
    ----------
    pipeline : str
        The pipeline's name.
    outs, pends : tuple of Output
        What came out, by stamp and channel; what pends. `outputs` and `pending` have the same as record arrays.
    lost : tuple of Lost
        What was lost.
    cursor, counter : int
        Where the last session on it ended, 0 where none did, and what its counter reads, in mu.
    edges : tuple of Edge
        The edges that its inputs were given.
    """

    pipeline: str
    outs: tuple[Output, ...] = dataclasses.field(repr=False)
    pends: tuple[Output, ...] = dataclasses.field(repr=False)
    lost: tuple[Lost, ...]
    cursor: int
    counter: int
    edges: tuple[Edge, ...] = dataclasses.field(repr=False)

    exception: ClassVar[None] = None
    """A core goes on behind a kernel that an exception ended."""

    @functools.cached_property
    def outputs(self) -> numpy.recarray[Any, Any] | list[Output]:
        """What came out, as `Report.outputs`: a record array of shape (n,), or a list."""
        return as_records(self.outs)

    @functools.cached_property
    def pending(self) -> numpy.recarray[Any, Any] | list[Output]:
        """What pends, as `outputs`."""
        return as_records(self.pends)

    def plot(
        self,
        ax: matplotlib.axes.Axes | None = None,
        channels: Sequence[int | str] | None = None,
        window: tuple[float, float] | None = None,
    ) -> matplotlib.axes.Axes:
        """Draws what came out: see `buszlogem.plots.plot_report`."""
        from . import plots

        return plots.plot_report(self, ax=ax, channels=channels, window=window)


@dataclasses.dataclass(frozen=True)
class Names:
    """What the parts of a session are called, by their places.

    Attributes
    ----------
    experiments, pipelines : tuple of str
        Their names.
    files : tuple of str
        The file of each source, `<source N>` of a text.
    texts : tuple of KernelText
        The sources with their lines where the user has them; empty where the session has their texts alone.
    """

    experiments: tuple[str, ...]
    pipelines: tuple[str, ...]
    files: tuple[str, ...]
    texts: tuple[KernelText, ...] = ()

    @classmethod
    def of_places(cls, session: Mapping[str, Any]) -> Names:
        """Names by number, for a session without names of its own."""

        def numbered(what: str, key: str) -> tuple[str, ...]:
            return tuple(f"{what} {place}" for place in range(len(session[key])))

        files = tuple(f"<source {place}>" for place in range(len(session["sources"])))
        return cls(numbered("experiment", "experiments"), numbered("pipeline", "pipelines"), files)


@dataclasses.dataclass(frozen=True, eq=False)
class LabReport:
    """What a day of the laboratory gave. `laboratory` makes it.

    Attributes
    ----------
    text : str
        The report as the program wrote it.
    session : dict
        The day as it was given.
    names : Names
        What its parts are called.
    steps : tuple of LabStep
        The steps that were reported, in their order.
    runs : tuple of LabRun
        The runs, by number.
    datasets : dict of Dataset
        The datasets at the day's end, with their flags, in the order of first setting.
    cores : tuple of CoreReport
        What came out of each pipeline's core.
    """

    text: str = dataclasses.field(repr=False)
    session: Mapping[str, Any] = dataclasses.field(repr=False)
    names: Names = dataclasses.field(repr=False)
    steps: tuple[LabStep, ...] = dataclasses.field(repr=False)
    runs: tuple[LabRun, ...]
    datasets: dict[str, Dataset]
    cores: tuple[CoreReport, ...] = dataclasses.field(repr=False)

    @classmethod
    def read(cls, text: str, session: Mapping[str, Any], names: Names | None = None) -> LabReport:
        """Reads the report of a session.

        Raises
        ------
        ValueError
            Where a line is none of a laboratory's report.
        """
        names = names or Names.of_places(session)
        lines = _Lines()
        for line in text.splitlines():
            lines.take(line)
        steps = tuple(lines.steps)
        runs = tuple(_runs(session, names, steps, lines.statuses))
        cores = tuple(
            core.report(name, pipeline) for core, name, pipeline in zip(lines.cores, names.pipelines, session["pipelines"])
        )
        return cls(text, session, names, steps, runs, lines.datasets, cores)

    @functools.cached_property
    def data(self) -> dict[str, Any]:
        """The datasets' values: an int, or an array of int64 of shape (n,) (a list where numpy isn't installed)."""
        return as_values({name: dataset.value for name, dataset in self.datasets.items()})

    def source(self, place: int) -> KernelText:
        """A source of the session, with its lines where the user has them."""
        texts = self.names.texts
        return texts[place] if texts else whole(self.session["sources"][place].encode(), self.names.files[place])

    @property
    def ok(self) -> bool:
        """Whether each run is done, nothing pends and nothing is lost."""
        done = all(run.status is RunStatus.DONE for run in self.runs)
        return done and not any(core.lost or core.pends for core in self.cores)

    @functools.cached_property
    def failures(self) -> dict[int, Failure]:
        """Why each run that failed did, by its number; a refused source is asked about of `artiq_sim`.

        Raises
        ------
        ProgramMissing
            Where a source has to be asked about and the program isn't there.
        """
        from . import lab_causes

        return {run.number: lab_causes.cause(self, run) for run in self.runs if run.status is RunStatus.FAILED}

    def plot(self, ax: matplotlib.axes.Axes | None = None) -> matplotlib.axes.Axes:
        """Draws the runs over the laboratory's clock: see `buszlogem.plots.plot_day`."""
        from . import lab_plots

        return lab_plots.plot_day(self, ax=ax)

    def __str__(self) -> str:
        return self.text


def submissions(session: Mapping[str, Any], steps: Iterable[LabStep]) -> list[dict[str, Any]]:
    """What was submitted, in the order of the runs' numbers: that of arrivals and of submitting steps.

    By docs/SCHEDULER.md the clock rises with a step's report, what arrives by then is taken, and then the step has its effect.
    """
    arrivals = [arrival for arrival in session["arrivals"] if "submit" in arrival]
    taken = 0
    found: list[dict[str, Any]] = []
    for step in steps:
        while taken < len(arrivals) and arrivals[taken]["at"] <= step.clock:
            found.append(arrivals[taken]["submit"])
            taken += 1
        submitter = session["experiments"][found[step.run]["experiment"]]["run"][step.position]
        if "submit" in submitter and step.word == "ok":
            found.append(submitter["submit"])
    return found + [arrival["submit"] for arrival in arrivals[taken:]]


def _runs(
    session: Mapping[str, Any], names: Names, steps: Sequence[LabStep], statuses: Sequence[RunStatus]
) -> Iterable[LabRun]:
    for number, (asked, status) in enumerate(zip(submissions(session, steps), statuses, strict=True)):
        yield LabRun(
            number=number,
            status=status,
            experiment=asked["experiment"],
            pipeline=asked["pipeline"],
            name=names.experiments[asked["experiment"]],
            pipeline_name=names.pipelines[asked["pipeline"]],
            priority=asked.get("priority", 0),
            due=asked.get("due", 0),
            steps=tuple(step for step in steps if step.run == number),
        )


@dataclasses.dataclass
class _CoreLines:
    outs: list[Output] = dataclasses.field(default_factory=list)
    pends: list[Output] = dataclasses.field(default_factory=list)
    lost: list[Lost] = dataclasses.field(default_factory=list)
    cursor: int = 0
    counter: int = 0

    def report(self, name: str, pipeline: Mapping[str, Any]) -> CoreReport:
        edges = tuple(Edge(channel, stamp, level == "r") for channel, stamp, level in pipeline.get("edges", ()))
        return CoreReport(name, tuple(self.outs), tuple(self.pends), tuple(self.lost), self.cursor, self.counter, edges)


@dataclasses.dataclass
class _Lines:
    """What the lines of a laboratory's report say."""

    steps: list[LabStep] = dataclasses.field(default_factory=list)
    statuses: list[RunStatus] = dataclasses.field(default_factory=list)
    datasets: dict[str, Dataset] = dataclasses.field(default_factory=dict)
    cores: list[_CoreLines] = dataclasses.field(default_factory=list)

    def take(self, line: str) -> None:
        word, *items = line.split(" ")
        match word:
            case "step":
                clock, run, position = map(int, items[:3])
                self.steps.append(LabStep(clock, run, position, " ".join(items[3:])))
            case "run":
                self.statuses.append(RunStatus(items[1]))
            case "data":
                broadcast, persist, archive = (flag != "-" for flag in items[1])
                self.datasets[items[0]] = Dataset(read_value(items[2]), broadcast, persist, archive)
            case "core":
                self.cores.append(_CoreLines())
            case "out":
                self.cores[-1].outs.append(Output.read(items))
            case "pend":
                self.cores[-1].pends.append(Output.read(items))
            case "seq" | "col" | "busy" | "rst":
                self.cores[-1].lost.append(Lost.read(word, items))
            case "cursor":
                self.cores[-1].cursor = int(items[0])
            case "counter":
                self.cores[-1].counter = int(items[0])
            case "end":
                pass
            case _:
                raise ValueError(f"a laboratory's report has no line {line!r}")
