"""Sweeps: one kernel at many points, each a run of the program, on all processors or on a cluster."""

from __future__ import annotations

import concurrent.futures
import contextlib
import dataclasses
import functools
import itertools
import os
from collections.abc import Callable, Generator, Iterable, Iterator, Mapping, Sequence
from typing import Any, NamedTuple

from .crew import Crew, Start
from .errors import BuszlogemError, OptionError, ProgramError
from .faults import kernel_error
from .kernels import KernelLike, KernelText, called_in, parameters, read_kernel, text_of, with_call
from .options import sim_words
from .programs import Answer, answer_of, find, start
from .run import REFUSED, REPORTED, Job
from .shells import ShellThreads
from .store import Kept, Store
from .table import Finished, Row, Table

Point = Mapping[str, Any] | Sequence[int] | int
"""What a sweep runs once: options and arguments by name, the arguments in their order, or the only argument."""

RUN_OPTIONS = frozenset(
    (
        *("cost", "lanes", "depth", "horizon", "budget", "schedule", "edges", "hold", "recordings", "dma"),
        *("call", "args", "kernel"),
    )
)
"""The keys of a point that are options of `run`; `kernel` is the kernel of this point."""


def sweep(
    kernel: KernelLike | None,
    points: Iterable[Point],
    executor: concurrent.futures.Executor | None = None,
    progress: bool = True,
    *,
    resume: str | os.PathLike[str] | None = None,
    **options: Any,
) -> Table:
    """Runs a kernel at many points.

    Parameters
    ----------
    kernel : str, path or function
        As `run` takes it; None where each point has a `kernel` of its own.
    points : iterable
        Of dicts: keys that are options of `run` (`cost`, `edges`, `schedule`, .., also `call`, `args` and `kernel`) are that;
        the others are parameters of the function `call`, by name. Of sequences of int: the arguments of `call`. Or of int: its
        only argument. `grid` makes the dicts of all combinations.
    executor : concurrent.futures.Executor, optional
        Where the program is started; without it by shells, one for each processor. `buszlogem.shells.ShellThreads(n)` asks for
        n shells. `Client.get_executor()` of dask.distributed and `MPIPoolExecutor` of mpi4py are executors. It is left open.
    progress : bool
        Whether a bar of tqdm tells how many points are finished, where tqdm is installed.
    resume : str or path, optional
        A file that keeps finished points; points that it has aren't run again. It goes by kernel, words and point: remove it
        where the programs have changed.
    **options
        Options of `run` for all points.

    Returns
    -------
    Table
        A row for each point, in the order of the points. A point that fails is a row with its error.

    Raises
    ------
    OptionError
        Where `options` has an option that `run` doesn't have.
    OSError
        Where the kernel's file can't be read.
    sqlite3.DatabaseError
        Where `resume` is a file of another kind.
    """
    if unknown := sorted(set(options) - RUN_OPTIONS):
        raise OptionError(unknown[0], options[unknown[0]], f"nothing: run has {', '.join(sorted(RUN_OPTIONS))}")
    # A file is read once; of a function each point has to see that it is one.
    plan = _Plan(kernel if kernel is None or callable(kernel) else read_kernel(kernel), options)
    listed = list(points)
    with contextlib.ExitStack() as stack:
        store = stack.enter_context(contextlib.closing(Store(resume))) if resume is not None else None
        step = stack.enter_context(_progress(len(listed), progress))
        # Programs are running while later points are made ready.
        rows = _carry_out(map(plan.task, listed), _workers(executor, len(listed), stack), store, step)
    return Table(tuple(rows))


def grid(**values: Iterable[Any]) -> list[dict[str, Any]]:
    """All combinations of some values, as points of a sweep; the last name turns fastest.

    Examples
    --------
    >>> grid(wait=[1000, 2000], shots=[1])
    [{'wait': 1000, 'shots': 1}, {'wait': 2000, 'shots': 1}]
    """
    lists = [list(items) for items in values.values()]
    return [dict(zip(values, items)) for items in itertools.product(*lists)]


class Work(NamedTuple):
    """What is sent to a worker: plain data, so that it may be another process or another machine."""

    words: tuple[str, ...]
    data: bytes


def work(it: Work) -> Answer | str:
    """Starts the program once, and gives its answer, or why there is none. This is what an executor is handed."""
    try:
        return start("artiq_sim", it.words, it.data)
    except BuszlogemError as why:
        return str(why)


@dataclasses.dataclass(frozen=True)
class _Task:
    """A point with the run that it stands for."""

    point: Point
    job: Job

    @property
    def work(self) -> Work:
        """What is sent to a worker."""
        return Work(self.job.words, self.job.kernel.data)

    def row(self, answer: Answer | str | Exception, kept: bool = False) -> Row:
        """The row of an answer, or of why there is none."""
        if not isinstance(answer, Answer):
            return Row(self.point, None, BuszlogemError(answer) if isinstance(answer, str) else answer)
        if answer.status in REPORTED:
            finished = Finished(answer.out, answer.status, self.job.words, self.job.sha256)
            return Row(self.point, finished, None, kept)
        if answer.status == REFUSED:
            return Row(self.point, None, kernel_error(answer.err, self.job.kernel))
        said = answer.err.strip()
        why = f"artiq_sim ended with status {answer.status}: {said}"
        return Row(self.point, None, ProgramError(answer.status, said, why))


class _Plan:
    """How the points of a sweep become runs. What they have in common is worked out once."""

    def __init__(self, kernel: KernelLike | None, options: Mapping[str, Any]) -> None:
        self._kernel = kernel
        self._call = {name: options[name] for name in ("call", "args") if name in options}
        self._others = {name: value for name, value in options.items() if name not in self._call}

    def task(self, point: Point) -> _Task | Row:
        """What a point runs, or its row where it can't be run."""
        try:
            return _Task(point, self._job(point))
        except (BuszlogemError, OSError, TypeError) as error:
            return Row(point, None, error)

    def _job(self, point: Point) -> Job:
        options = self._call | self._options(point)
        kernel = options.pop("kernel", self._kernel)
        call, args = options.pop("call", None), options.pop("args", ())
        words = sim_words(**self._others | options) if options else self._words
        return Job(with_call(self._text_of(kernel), called_in(kernel, call, args), args), words)

    def _options(self, point: Point) -> dict[str, Any]:
        """The options of `run` that a point has, with the arguments of the function that it calls in their order."""
        if not isinstance(point, Mapping):
            return {"args": list(point) if isinstance(point, Iterable) else [point]}
        options = {name: value for name, value in point.items() if name in RUN_OPTIONS}
        arguments = {name: value for name, value in point.items() if name not in RUN_OPTIONS}
        if arguments:
            call = options.get("call", self._call.get("call"))
            options["args"] = self._in_order(options.get("kernel", self._kernel), call, arguments)
        return options

    def _in_order(self, kernel: Any, call: str | None, arguments: Mapping[str, Any]) -> list[Any]:
        """Arguments by name in the order of the parameters of the function `call`."""
        name = str(call or getattr(kernel, "__name__", "main"))
        names = parameters(self._text_of(kernel).data, name)
        if names is None:
            raise OptionError("call", name, "the name of a function of the kernel, which the arguments of a point go to")
        if set(names) != set(arguments):
            raise OptionError("point", dict(arguments), f"the arguments of {name}: {', '.join(names) or 'none'}")
        return [arguments[it] for it in names]

    def _text_of(self, kernel: Any) -> KernelText:
        return self._text if kernel is self._kernel else text_of(kernel)

    @functools.cached_property
    def _text(self) -> KernelText:
        return text_of(self._kernel)  # type: ignore[arg-type]  # It names a kernel that isn't there.

    @functools.cached_property
    def _words(self) -> tuple[str, ...]:
        return sim_words(**self._others)


def processors() -> int:
    """How many processors this process may use."""
    return len(os.sched_getaffinity(0)) if hasattr(os, "sched_getaffinity") else os.cpu_count() or 1


_Placed = tuple[int, _Task]
_Answers = Generator[tuple[_Placed, Answer | str | Exception], None, None]
_Workers = Callable[[Iterable[_Placed]], _Answers]
"""What carries out tasks, each with its place among the points: it gives their answers as they come, or why there is none."""


def _carry_out(
    tasks: Iterable[_Task | Row],
    workers: _Workers,
    store: Store | None,
    step: Callable[[], object],
) -> list[Row]:
    rows: dict[int, Row] = {}

    def to_run() -> Iterator[_Placed]:
        for place, task in enumerate(tasks):
            row = task if isinstance(task, Row) else _kept(task, store)
            if row is not None:
                rows[place] = row
                step()
            elif isinstance(task, _Task):
                yield place, task

    with contextlib.closing(workers(to_run())) as answers:
        for (place, task), answer in answers:
            rows[place] = _finished(task, answer, store)
            step()
    return [rows[place] for place in sorted(rows)]


def _workers(executor: concurrent.futures.Executor | None, points: int, stack: contextlib.ExitStack) -> _Workers:
    """Who carries out the tasks of a sweep: shells, or the executor that was handed over."""
    if executor is not None and not isinstance(executor, ShellThreads):
        return functools.partial(_by_executor, executor)
    size = executor.threads if executor is not None else processors()
    try:
        crew = stack.enter_context(Crew[_Placed](max(1, min(size, points))))
    except OSError:
        return functools.partial(_by_executor, stack.enter_context(concurrent.futures.ThreadPoolExecutor(size)))
    return functools.partial(_by_crew, crew, points)


def _by_crew(crew: Crew[_Placed], most: int, tasks: Iterable[_Placed]) -> _Answers:
    try:
        program = find("artiq_sim")
    except BuszlogemError as why:
        yield from ((it, str(why)) for it in tasks)
        return
    starts = (Start(it, (program, *it[1].job.words), it[1].job.kernel.data) for it in tasks)
    for it, ended in crew.carry_out(starts, most):
        try:
            answer: Answer | str | Exception = work(it[1].work) if ended is None else answer_of(*ended)
        except ValueError as error:  # Of words that no program can be given.
            answer = error
        yield it, answer


def _by_executor(pool: concurrent.futures.Executor, tasks: Iterable[_Placed]) -> _Answers:
    waiting: dict[concurrent.futures.Future[Answer | str], _Placed] = {}
    try:
        for it in tasks:
            waiting[pool.submit(work, it[1].work)] = it
        for future in concurrent.futures.as_completed(waiting):
            answer: Answer | str | Exception
            try:
                answer = future.result()
            except Exception as error:  # What a cluster's worker raised, as where it doesn't have this package.
                answer = error
            yield waiting[future], answer
    finally:
        # Where the sweep is stopped, what hasn't begun isn't begun.
        for future in waiting:
            future.cancel()


def _kept(task: _Task, store: Store | None) -> Row | None:
    kept = store.get(task.job.sha256, task.job.words, task.point) if store else None
    return task.row(Answer(kept.status, kept.report, ""), kept=True) if kept else None


def _finished(task: _Task, answer: Answer | str | Exception, store: Store | None) -> Row:
    row = task.row(answer)
    if store is not None and row.finished is not None:
        store.put(task.job.sha256, task.job.words, task.point, Kept(row.finished.status, row.finished.text))
    return row


@contextlib.contextmanager
def _progress(total: int, wanted: bool) -> Iterator[Callable[[], object]]:
    """A function to be called at each finished point."""
    bar = None
    if wanted:
        with contextlib.suppress(ImportError):
            from tqdm.auto import tqdm

            bar = tqdm(total=total, unit="point")
    try:
        yield bar.update if bar is not None else (lambda: None)
    finally:
        if bar is not None:
            bar.close()
