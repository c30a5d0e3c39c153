"""Why a run of the laboratory failed: the report says only that it did (docs/LABORATORY.md has the four causes)."""

from __future__ import annotations

import dataclasses
import enum
import re
from collections.abc import Iterable, Mapping, Sequence
from typing import TYPE_CHECKING, Any

from .errors import KernelError
from .report import CYCLE_MU
from .run import check

if TYPE_CHECKING:
    from .lab_report import LabReport, LabRun, LabStep


class FailureKind(enum.Enum):
    """What failed."""

    SOURCE = "source"
    """The source is no accepted kernel."""
    FUNCTION = "function"
    """A kernel step names no function of the source."""
    ARGUMENTS = "arguments"
    """The arguments of a kernel step don't fit its function."""
    EXCEPTION = "exception"
    """An exception ended a kernel."""
    BUDGET = "budget"
    """A kernel used up its units."""
    HORIZON = "horizon"
    """A kernel waited up to the last cycle of its core."""
    DATASET = "dataset"
    """An `append` or a `sum` of a dataset that wasn't set, or isn't a list."""
    SUBMISSION = "submission"
    """A `submit` where runs and submissions to come were 64."""


@dataclasses.dataclass(frozen=True)
class Failure:
    """Why a run failed.

    Attributes
    ----------
    run : int
        The run's number.
    experiment : str
        The experiment's name.
    kind : FailureKind
        What failed.
    why : str
        A sentence, and behind it what mends it; of a refused source the line with its caret too.
    step : int or None
        The place of the step in the stage `run`, from 0, where a step of it failed.
    error : KernelError or None
        Of a refused source: line, column, kind and advice.
    """

    run: int
    experiment: str
    kind: FailureKind
    why: str
    step: int | None = None
    error: KernelError | None = None

    def __str__(self) -> str:
        return f"run {self.run} ({self.experiment}): {self.why}"


MENDED = {
    "RTIOUnderflow": "an output came too late: begin with core.break_realtime(), or put it later",
    "RTIOOverflow": "an edge came while 64 of its input were unread: read the edges sooner, or close the gate",
    "DMAError": "a recording that isn't kept, or a handle that is old: record first, and ask for a new handle",
    "ZeroDivisionError": "// or % by 0: test the divisor",
    "IndexError": "an index below 0 or not below the array's length",
    "StackOverflow": "the 65th function that is active: a loop in place of the recursion",
}
"""What each exception means, and what mends it, by docs/ERRORS.md."""

_FUNCTION = re.compile(r"^def (\w+)\((.*?)\)", re.M | re.A)
_RANGES = {"int32": (-(2**31), 2**31 - 1), "int64": (-(2**63), 2**63 - 1), "bool": (0, 1)}


def cause(report: LabReport, run: LabRun) -> Failure:
    """Why a run that failed did.

    Raises
    ------
    ProgramMissing
        Where its source has to be asked about and `artiq_sim` isn't there.
    """
    stages = report.session["experiments"][run.experiment]
    if not run.steps:
        return _of_preparation(report, run, stages)
    last = run.steps[-1]
    if last.word in ("budget", "horizon", "failed") or last.word.startswith("raised "):
        return _of_step(report, run, last, stages["run"][last.position])
    which = _dataset_steps(stages["analyze"])
    return Failure(run.number, run.name, FailureKind.DATASET, f"its analysis failed: {which}")


def _of_step(report: LabReport, run: LabRun, last: LabStep, step: Mapping[str, Any]) -> Failure:
    kind, what = FailureKind.EXCEPTION, ""
    called = f"step {last.position}, {shown(step)},"
    match last.word.split():
        case ["raised", name]:
            what = f"{called} raised {name}: {MENDED[name]}"
        case ["budget"]:
            units = report.session.get("budget", 20_000)
            kind = FailureKind.BUDGET
            what = f"{called} used up its {units:,} units: a loop that doesn't end, or a budget that is too small"
        case ["horizon"]:
            cycles = report.session.get("horizon", 134_217_728)
            kind = FailureKind.HORIZON
            what = (
                f"{called} waited up to the last cycle of its core, {cycles:,}, which is {cycles * CYCLE_MU:,} mu;"
                " the kernels of a pipeline share it"
            )
        case _ if "submit" in step:
            kind = FailureKind.SUBMISSION
            what = f"{called} failed: runs and submissions to come were 64"
        case _:
            kind = FailureKind.DATASET
            what = f"{called} failed: {_dataset_steps([step])}"
    return Failure(run.number, run.name, kind, what, step=last.position)


def _of_preparation(report: LabReport, run: LabRun, stages: Mapping[str, Any]) -> Failure:
    try:
        canonical = check(report.source(stages["source"]))
    except KernelError as error:
        why = f"its source is refused\n{error}"
        return Failure(run.number, run.name, FailureKind.SOURCE, why, error=error)
    functions = parameters(canonical)
    for place, step in enumerate(stages["run"]):
        if "kernel" in step and (found := _misfit(step, functions)) is not None:
            kind, why = found
            return Failure(run.number, run.name, kind, f"step {place}, {shown(step)}, {why}", step=place)
    which = _dataset_steps(stages["prepare"])
    return Failure(run.number, run.name, FailureKind.DATASET, f"its preparation failed: {which}")


def parameters(canonical: str) -> dict[str, list[tuple[str, str]]]:
    """The functions of a kernel's canonical text: for each its parameters, as pairs of a name and a type."""
    found = {}
    for name, inside in _FUNCTION.findall(canonical):
        items = [item.split(": ") for item in inside.split(", ") if item]
        found[name] = [(item[0], item[1]) for item in items]
    return found


def _misfit(step: Mapping[str, Any], functions: Mapping[str, list[tuple[str, str]]]) -> tuple[FailureKind, str] | None:
    """Why a kernel step can't be done with these functions, or None where it can."""
    if step["kernel"] not in functions:
        return FailureKind.FUNCTION, f"names no function of its source, which has {', '.join(functions)}"
    wanted, args = functions[step["kernel"]], step["args"]
    if len(args) != len(wanted):
        has = ", ".join(f"{name}: {kind}" for name, kind in wanted) or "no parameters"
        return FailureKind.ARGUMENTS, f"has {len(args)} arguments, and the function has {has}"
    for value, (name, kind) in zip(args, wanted):
        least, most = _RANGES[kind]
        if not least <= value <= most:
            return FailureKind.ARGUMENTS, f"has {value} for {name}, which takes {least} to {most} ({kind})"
    return None


def shown(step: Mapping[str, Any]) -> str:
    """A step as a person writes it, as `shot(1000)`."""
    if "kernel" in step:
        return f"{step['kernel']}({', '.join(map(str, step['args']))})"
    if "append" in step:
        return f"append {step['value']} to {step['append']}"
    if "sum" in step:
        return f"sum of {step['sum']} into {step['into']}"
    return next(iter(step))


def _dataset_steps(steps: Sequence[Mapping[str, Any]]) -> str:
    """Which steps on datasets may have failed, and why they do."""
    return "; or ".join(_reasons(steps))


def _reasons(steps: Iterable[Mapping[str, Any]]) -> Iterable[str]:
    for step in steps:
        if "append" in step:
            yield f"{shown(step)}, which wasn't set, or holds a number: set it to [] first"
        elif "sum" in step:
            yield f"{shown(step)}, which wasn't set"
