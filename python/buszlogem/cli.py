"""The commands of `python3 -m buszlogem`.

Each command is a module with `add_command(commands)`, which adds its parser to those of argparse and names, by
`set_defaults(do=..)`, the function that does it: it takes the parsed words and returns the status.
"""

from __future__ import annotations

import argparse
import importlib
import sys
import warnings
from collections.abc import Callable, Sequence

from .errors import BuszlogemError, KernelError, OptionError, ProgramError, ProgramMissing
from .version import VERSION

COMMANDS: tuple[str, ...] = (
    "run_command",
    "explain_command",
    "trace_command",
    "plot_command",
    "sweep_command",
    "margin_command",
    "compare_command",
    "day_command",
)
"""The modules of the commands, in the order in which `--help` lists them."""

# Statuses as of the programs (docs/ERRORS.md); 70 is the launcher's, and 10 this package's own.
REFUSED, WRONG_WORDS, UNREADABLE, UNWRITABLE, UNBUILT = 1, 2, 3, 4, 70
NOT_OK = 10
"""The status of `--strict` where the program's is 0 and outputs are lost."""

_STATUSES = """\
The status is that of the program: 0 all came out, 1 the kernel is refused, 2 wrong words, 3 a file can't be read, 4 the
report can't be written, 5 memory, 6 an exception ended the kernel, 7 it met the horizon or its budget, or outputs pend (in a
trace, are missing), 8 too long. Under --strict it is 10 where outputs are lost, and 70 where a program isn't built."""


class Unwritable(Exception):
    """Standard output can't be written: whoever read it has closed it, or a disk is full."""


def write(text: str) -> None:
    """Writes to standard output at once.

    Raises
    ------
    Unwritable
        Where it can't be written.
    """
    try:
        sys.stdout.write(text)
        sys.stdout.flush()
    except OSError as why:
        raise Unwritable from why


def parser() -> argparse.ArgumentParser:
    """The parser of all commands."""
    top = argparse.ArgumentParser(
        prog="python3 -m buszlogem",
        description="Runs kernels on Buszlogem's simulated real-time core. docs/PYTHON.md has all of it.",
        epilog=_STATUSES,
    )
    top.add_argument("--version", action="version", version=f"buszlogem {VERSION}")
    commands = top.add_subparsers(title="commands", metavar="COMMAND", required=True)
    for name in COMMANDS:
        importlib.import_module(f".{name}", __package__).add_command(commands)
    return top


def main(words: Sequence[str] | None = None) -> int:
    """Does what the words say, and returns the status."""
    parsed = parser().parse_args(words)
    try:
        with warnings.catch_warnings():
            warnings.showwarning = _teller()
            status: int = parsed.do(parsed)
            return status
    except BuszlogemError as error:
        print(error, file=sys.stderr)
        return status_of(error)
    except Unwritable:
        # Python would try once more at its end, and tell of it.
        sys.stdout = None  # type: ignore[assignment]
        return UNWRITABLE
    except OSError as error:
        print(f"{error.filename or 'buszlogem'}: {error.strerror or error}", file=sys.stderr)
        return UNREADABLE


def _teller() -> Callable[..., None]:
    """What tells a warning: each text once, without the line of this package that Python's own form names."""
    told: set[str] = set()

    def tell(message: Warning | str, *_where: object, **_more: object) -> None:
        if str(message) not in told:
            told.add(str(message))
            print(f"warning: {message}", file=sys.stderr)

    return tell


def status_of(error: BuszlogemError) -> int:
    """The status that tells an error."""
    match error:
        case KernelError():
            return REFUSED
        case OptionError():
            return WRONG_WORDS
        case ProgramMissing():
            return UNBUILT
        case ProgramError(status=status) if 0 < status < 126:
            return status
    return 1
