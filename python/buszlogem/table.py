"""What a sweep gives: a row for each point."""

from __future__ import annotations

import csv
import dataclasses
import functools
import os
from collections.abc import Iterator, Mapping, Sequence
from typing import IO, TYPE_CHECKING, Any, NamedTuple

from .report import Report, numpy_or_none

if TYPE_CHECKING:
    import matplotlib.axes

FIELDS = ("ok", "status", "end", "cursor", "counter")
"""What a column may be of a report, beside its datasets."""


class Finished(NamedTuple):
    """A run that is over: its report as the program wrote it, the program's status, the words, and the kernel's SHA-256."""

    text: str
    status: int
    words: tuple[str, ...]
    kernel_sha256: str


@dataclasses.dataclass(frozen=True)
class Row:
    """A point of a sweep, and what its run gave.

    Attributes
    ----------
    point : dict, sequence of int or int
        As it was given.
    finished : Finished or None
        What the program wrote, where it wrote a report. `report` is that, read when it is first asked for.
    error : Exception or None
        Why there is none, as a `KernelError` or an `OptionError`.
    kept : bool
        Whether it was taken from the file `resume=`.
    """

    point: Any
    finished: Finished | None
    error: Exception | None = None
    kept: bool = False

    @functools.cached_property
    def report(self) -> Report | None:
        """The report, where there is one."""
        # To read a report takes longer than to start its run, and only one thread of Python runs at once.
        return Report.read(*self.finished) if self.finished is not None else None

    @property
    def ok(self) -> bool:
        """Whether it has a report, and that is `ok`: returned, nothing pends, nothing is lost."""
        return self.report is not None and self.report.ok

    def get(self, name: str) -> Any:
        """The value of a column: of the point, of a dataset, or of the report; None where there is none."""
        if isinstance(self.point, Mapping) and name in self.point:
            return self.point[name]
        if name == "point":
            return self.point
        if name == "error":
            return None if self.error is None else str(self.error)
        if name == "ok":
            return self.ok
        if self.report is None:
            return None
        return self.report.values[name] if name in self.report.values else getattr(self.report, name, None)


@dataclasses.dataclass(frozen=True)
class Table(Sequence[Row]):
    """The rows of a sweep, in the order of its points.

    `table[3]` is a row, `table["photons"]` a column.
    """

    rows: tuple[Row, ...]

    def __len__(self) -> int:
        return len(self.rows)

    def __iter__(self) -> Iterator[Row]:
        return iter(self.rows)

    def __getitem__(self, key: Any) -> Any:
        return self.column(key) if isinstance(key, str) else self.rows[key]

    @property
    def failed(self) -> list[Row]:
        """The rows without a report."""
        return [row for row in self.rows if row.finished is None]

    @property
    def ok(self) -> bool:
        """Whether each row is."""
        return all(row.ok for row in self.rows)

    @property
    def names(self) -> list[str]:
        """The columns: the keys of points, the fields of reports, the datasets, and `error`."""
        keys = {name: None for row in self.rows if isinstance(row.point, Mapping) for name in row.point}
        data = {name: None for row in self.rows if row.report for name in row.report.values}
        first = list(keys) if keys else ["point"]
        return [*first, *FIELDS, *(name for name in data if name not in keys), "error"]

    def column(self, name: str) -> Any:
        """A column.

        Parameters
        ----------
        name : str
            A key of the points, a dataset, `point`, `error`, or an attribute of reports as `end`, `status` and `cursor`.

        Returns
        -------
        numpy.ndarray or list
            Of shape (rows,), or (rows, n) where each is a list of n numbers. A missing number is nan. It is a list where numpy
            isn't installed, or where the values aren't alike.

        Raises
        ------
        KeyError
            Where no row has it.
        """
        values = [row.get(name) for row in self.rows]
        if name != "error" and self.rows and all(value is None for value in values):
            raise KeyError(f"no row has {name!r}; there are {', '.join(self.names)}")
        numpy = numpy_or_none()
        if numpy is None:
            return values
        if all(isinstance(value, (int, float, type(None))) for value in values):
            missing = any(value is None for value in values)
            return numpy.array([numpy.nan if value is None else value for value in values]) if missing else numpy.array(values)
        if all(isinstance(value, list) and len(value) == len(values[0]) for value in values):
            return numpy.array(values)
        return values

    def write_csv(self, file: IO[str] | str | os.PathLike[str]) -> None:
        """Writes the table as CSV: a line for each row, lists with spaces between their numbers.

        Raises
        ------
        OSError
            Where the file can't be written.
        """
        if isinstance(file, (str, os.PathLike)):
            with open(file, "w", newline="", encoding="utf-8") as opened:
                self.write_csv(opened)
            return
        names = self.names
        writer = csv.writer(file, lineterminator="\n")
        writer.writerow(names)
        for row in self.rows:
            writer.writerow([_cell(row.get(name)) for name in names])

    def plot(self, x: str, y: str, ax: matplotlib.axes.Axes | None = None) -> matplotlib.axes.Axes:
        """Draws one column over another: see `buszlogem.plots.plot_columns`."""
        from . import plots

        return plots.plot_columns(self, x, y, ax=ax)


def _cell(value: Any) -> str:
    if value is None:
        return ""
    if isinstance(value, Sequence) and not isinstance(value, str):
        return " ".join(map(str, value))
    return str(value).replace("\n", " | ")
