"""`python3 -m buszlogem trace`: which line each request of a kernel came from, and how early each output was."""

from __future__ import annotations

import argparse
import sys

from .cli import write
from .command_words import add_kernel, add_options, kernel_of, options_of
from .errors import OptionError
from .plot_command import add_picture, picture_of
from .trace import trace
from .trace_report import Trace


def add_command(commands: argparse._SubParsersAction[argparse.ArgumentParser]) -> None:
    """Adds the command to those of argparse."""
    parser = commands.add_parser(
        "trace",
        help="runs a kernel, and tells which line each output came from, and how early it was",
        description="Runs a kernel, and writes its trace as artiq_trace does: which line asked each request, how early each"
        " output was, and what became of it (docs/TRACE.md). The lines of a trace are those of the file.",
    )
    add_kernel(parser)
    shown = parser.add_mutually_exclusive_group()
    shown.add_argument(
        "--annotate", action="store_true", help="writes the source with outputs, least slack and losses beside each line"
    )
    shown.add_argument("--tightest", metavar="N", type=int, help="writes the N outputs with the least slack, each with its line")
    add_picture(parser)
    parser.add_argument("--strict", action="store_true", help="tells what is missing, and from which line")
    add_options(parser)
    parser.set_defaults(do=_do)


def _do(parsed: argparse.Namespace) -> int:
    path = picture_of(parsed) if parsed.out is not None else None
    if parsed.tightest is not None and parsed.tightest < 1:
        raise OptionError("tightest", parsed.tightest, "a number from 1 on")
    found = trace(kernel_of(parsed), **options_of(parsed))
    write(_shown(found, parsed))
    if path is not None:
        found.plot().figure.savefig(path)
    if parsed.strict and not found.ok:
        print(f"{found.why_not_ok()}\n{found.fault}", file=sys.stderr)
    return found.status


def _shown(found: Trace, parsed: argparse.Namespace) -> str:
    if parsed.annotate:
        return f"{found.annotate()}\n"
    if parsed.tightest is not None:
        return "".join(f"{output}\n" for output in found.tightest(parsed.tightest))
    return found.text
