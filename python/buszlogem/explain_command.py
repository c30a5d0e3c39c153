"""`python3 -m buszlogem explain`: where a kernel's text is at fault, and how that is mended."""

from __future__ import annotations

import argparse

from .cli import REFUSED, write
from .command_words import add_kernel, kernel_of
from .errors import KernelError
from .kernels import with_main
from .run import check


def add_command(commands: argparse._SubParsersAction[argparse.ArgumentParser]) -> None:
    """Adds the command to those of argparse."""
    parser = commands.add_parser(
        "explain",
        help="says what is wrong with a kernel's text",
        description="Says where a kernel's text is at fault: FILE:LINE:COLUMN: KIND: and what is wrong, the line, a caret"
        " below the place, and an example of the mistake and its mending. Nothing is written of a text that is accepted.",
    )
    add_kernel(parser)
    parser.add_argument(
        "--functions", action="store_true", help="asks for no main: of a text whose functions --call or the steps of a day call"
    )
    parser.set_defaults(do=_do)


def _do(parsed: argparse.Namespace) -> int:
    try:
        kernel = kernel_of(parsed)
        check(with_main(kernel) if parsed.functions else kernel)
    except KernelError as error:
        write(f"{error}\n")
        return REFUSED
    return 0
