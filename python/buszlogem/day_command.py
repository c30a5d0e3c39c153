"""`python3 -m buszlogem day`: a day of the laboratory."""

from __future__ import annotations

import argparse
import pathlib
import sys

from .cli import NOT_OK, write
from .lab import laboratory
from .plot_command import add_picture, picture_of


def add_command(commands: argparse._SubParsersAction[argparse.ArgumentParser]) -> None:
    """Adds the command to those of argparse."""
    parser = commands.add_parser(
        "day",
        help="carries out a day of the laboratory",
        description="Carries out a session of the laboratory (docs/SESSIONS.md), writes its report as artiq_lab does, and says on"
        " standard error why each run failed that did.",
    )
    parser.add_argument("file", metavar="FILE", help="the session, in JSON; - is standard input")
    add_picture(parser)
    parser.add_argument("--strict", action="store_true", help=f"status {NOT_OK} where a run isn't done, or outputs are lost")
    parser.set_defaults(do=_do)


def _do(parsed: argparse.Namespace) -> int:
    path = picture_of(parsed) if parsed.out is not None else None
    report = laboratory(sys.stdin.buffer.read() if parsed.file == "-" else pathlib.Path(parsed.file))
    write(report.text)
    for failure in report.failures.values():
        print(failure, file=sys.stderr)
    if path is not None:
        report.plot().figure.savefig(path)
    return NOT_OK if parsed.strict and not report.ok else 0
