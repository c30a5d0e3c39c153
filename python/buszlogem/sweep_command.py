"""`python3 -m buszlogem sweep`: a kernel at many points, as a table in CSV."""

from __future__ import annotations

import argparse
import io
import re
import sys
from collections.abc import Sequence

from .cli import write
from .command_words import add_kernel, add_options, argument, kernel_of, options_of
from .errors import OptionError
from .plot_command import add_picture, picture_of
from .shells import ShellThreads
from .sweep import grid, processors, sweep

FAILED = 10
"""The status where a row has an error; under `--strict` also where one isn't ok."""

_RANGE = re.compile(r"(-?\d+):(-?\d+):(-?\d+)", re.ASCII)
_TAKES = "NAME=V,V,.. or NAME=FIRST:BEHIND:STEP, whole numbers"


def add_command(commands: argparse._SubParsersAction[argparse.ArgumentParser]) -> None:
    """Adds the command to those of argparse."""
    parser = commands.add_parser(
        "sweep",
        help="runs a kernel at many points",
        description="Runs a kernel at all combinations of some values, and writes a table in CSV: a line for each point. The"
        f" status is {FAILED} where a point has an error.",
    )
    add_kernel(parser)
    parser.add_argument(
        "--over",
        metavar="NAME=VALUES",
        action="append",
        required=True,
        help="the values of an option of the run, as cost, or of a parameter of the function that --call names:"
        f" {_TAKES}. May be given several times",
    )
    parser.add_argument("--jobs", metavar="N", type=int, default=processors(), help="how many programs run at once")
    parser.add_argument("--resume", metavar="FILE", help="keeps finished points in this file, and takes them from there")
    parser.add_argument("--quiet", action="store_true", help="no progress bar")
    parser.add_argument(
        "--strict", action="store_true", help=f"status {FAILED} also where a kernel didn't return, or outputs are lost or pend"
    )
    add_picture(parser)
    parser.add_argument("--plot", metavar="X,Y", help="the columns that -o draws, as wait,photons")
    add_options(parser)
    parser.set_defaults(do=_do)


def _do(parsed: argparse.Namespace) -> int:
    values = dict(read_values(word) for word in parsed.over)
    path, columns = (picture_of(parsed), _columns(parsed.plot)) if parsed.out is not None else (None, ())
    if parsed.jobs < 1:
        raise OptionError("jobs", parsed.jobs, "a number from 1 on")
    options = {name: value for name, value in options_of(parsed).items() if name not in values}
    with ShellThreads(parsed.jobs) as pool:
        progress = not parsed.quiet and sys.stderr.isatty()
        table = sweep(kernel_of(parsed), grid(**values), pool, progress, resume=parsed.resume, **options)
    written = io.StringIO()
    table.write_csv(written)
    write(written.getvalue())
    if path is not None:
        table.plot(*columns).figure.savefig(path)
    return FAILED if table.failed or (parsed.strict and not table.ok) else 0


def read_values(word: str) -> tuple[str, list[int]]:
    """A name and its values, as the option writes them: `wait=0:1000:100` or `shots=1,2,5`."""
    name, equals, text = word.partition("=")
    found = _RANGE.fullmatch(text)
    if found:
        first, behind, step = map(int, found.groups())
        values: Sequence[int | str] = range(first, behind, step) if step else ()
    else:
        values = [argument(item) for item in text.split(",")]
    numbers = [value for value in values if isinstance(value, int)]
    if not (equals and name.isidentifier() and numbers and len(numbers) == len(values)):
        raise OptionError("over", word, _TAKES)
    return name, numbers


def _columns(word: str | None) -> list[str]:
    columns = (word or "").split(",")
    if len(columns) != 2:
        raise OptionError("plot", word, "two columns with a comma between them, where -o names a picture")
    return columns
