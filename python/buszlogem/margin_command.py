"""`python3 -m buszlogem margin`: the greatest cost of a request without underflow."""

from __future__ import annotations

import argparse

from .cli import write
from .command_words import add_kernel, add_options, kernel_of, options_of
from .errors import OptionError
from .margin import Basis, margin

LATE = 6
"""The status where an output is too late even at cost 0: that of a run which an exception ended."""


def add_command(commands: argparse._SubParsersAction[argparse.ArgumentParser]) -> None:
    """Adds the command to those of argparse."""
    parser = commands.add_parser(
        "margin",
        help="finds the greatest cost of a request without underflow",
        description="Finds the greatest cost of a request, in mu, at which no output comes too late, the line that is too late"
        " first above it, and the tightest line at it. By slack where it answers, by runs where it is open; the lines by"
        f" artiq_trace. The status is {LATE} where an output is too late even at cost 0.",
    )
    add_kernel(parser)
    parser.add_argument("--by", choices=[str(basis) for basis in Basis], help="what to go by")
    parser.add_argument(
        "--schedules", metavar="ORDER,..", help="the orders of steps that runs are made under, as lockstep,mix:1,mix:2"
    )
    add_options(parser)
    parser.set_defaults(do=_do)


def _do(parsed: argparse.Namespace) -> int:
    options = options_of(parsed)
    if options.pop("cost", None) is not None:
        raise OptionError("cost", parsed.cost, "nothing here: it is what is looked for")
    schedules = [options.pop("schedule")]
    if parsed.schedules is not None:
        schedules = parsed.schedules.split(",")
    found = margin(kernel_of(parsed), schedules=schedules, by=parsed.by, **options)
    write(f"{found}\n")
    return LATE if found.cost is None else 0
