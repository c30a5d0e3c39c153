"""`python3 -m buszlogem compare`: what came out in one of two runs and not in the other."""

from __future__ import annotations

import argparse
import pathlib
import sys

from .cli import write
from .command_words import add_options, kernel_of, options_of
from .compare import compare
from .errors import OptionError
from .report import Report
from .run import run

DIFFERENT = 1


def add_command(commands: argparse._SubParsersAction[argparse.ArgumentParser]) -> None:
    """Adds the command to those of argparse."""
    parser = commands.add_parser(
        "compare",
        help="tells what came out in one run and not in another",
        description="Compares what two kernels, or two stored reports, put out. A line with - came out in the first one alone,"
        f" one with + in the second alone. The status is 0 where both put out the same, and {DIFFERENT} where they don't.",
    )
    parser.add_argument("first", metavar="FILE", help="a kernel, or a stored report (NAME.report)")
    parser.add_argument("second", metavar="OTHER", help="a kernel, or a stored report (NAME.report)")
    parser.add_argument("--shift", metavar="MU", type=int, help="how much later the second one is; else it is looked for")
    add_options(parser)
    parser.set_defaults(do=_do)


def _do(parsed: argparse.Namespace) -> int:
    first, second = (_report(path, parsed) for path in (parsed.first, parsed.second))
    found = compare(first, second, parsed.shift)
    write(f"{found}\n")
    return 0 if found.same or (parsed.shift is not None and found.same_but_for_shift) else DIFFERENT


def _report(path: str, parsed: argparse.Namespace) -> Report:
    if path.endswith(".report"):
        try:
            return Report.read(pathlib.Path(path).read_text(encoding="utf-8"))
        except ValueError as why:
            raise OptionError("FILE", path, f"a kernel or a report: {why}") from why
    report = run(kernel_of(argparse.Namespace(file=path)), **options_of(parsed))
    if not report.returned:
        print(f"{path}: ended by {report.end}", file=sys.stderr)
    return report
