"""`python3 -m buszlogem run`: a kernel's report on standard output."""

from __future__ import annotations

import argparse

from .cli import write
from .command_words import add_kernel, add_options, add_strict, kernel_of, options_of, status_of_run
from .run import prepare


def add_command(commands: argparse._SubParsersAction[argparse.ArgumentParser]) -> None:
    """Adds the command to those of argparse."""
    parser = commands.add_parser(
        "run",
        help="runs a kernel, and writes its report",
        description="Runs a kernel, and writes its report as artiq_sim does. What is wrong with it goes to standard error.",
    )
    add_kernel(parser)
    add_options(parser)
    parser.add_argument("--dma", choices=["lines"], help="lists the recordings that the core keeps at the end")
    add_strict(parser)
    parser.set_defaults(do=_do)


def _do(parsed: argparse.Namespace) -> int:
    job = prepare(kernel_of(parsed), **options_of(parsed), dma=parsed.dma is not None)
    report = job.run()
    write(report.text)
    return status_of_run(job, report, parsed.strict)
