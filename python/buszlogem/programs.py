"""How the programs `artiq_sim`, `artiq_lab` and `artiq_trace` are found and started.

A program is looked for in this order:

1. in the folder that the environment variable `BUSZLOGEM_BIN` names, where it is set;
2. in the checkout that this package lies in, as `crates/NAME/out/NAME`, where the launcher `bin/NAME` builds it;
3. in `PREFIX/bin`, where `bin/install PREFIX` put this package;
4. on the `PATH`.

Nothing is built from here: a build proves the program first, which takes its time. `ProgramMissing` says which command does.
"""

from __future__ import annotations

import dataclasses
import functools
import os
import pathlib
import shutil
import subprocess
import warnings
from collections.abc import Iterable, Sequence

from .errors import ProgramError, ProgramMissing
from .shells import Ended, Words, own_shell

FOLDER_VARIABLE = "BUSZLOGEM_BIN"
PROGRAMS = ("artiq_sim", "artiq_lab", "artiq_trace")

_PACKAGE = pathlib.Path(__file__).resolve().parent


@dataclasses.dataclass(frozen=True)
class Answer:
    """What a program answered.

    Attributes
    ----------
    status : int
        Its status, by docs/ERRORS.md; negative where a signal ended it.
    out, err : str
        What it wrote to standard output and to standard error.
    """

    status: int
    out: str
    err: str


def checkout() -> pathlib.Path | None:
    """The repository's folder that this package lies in, or None where the package is installed elsewhere."""
    top = _PACKAGE.parent.parent
    return top if (top / "launch" / "start.sh").is_file() else None


def find(name: str) -> pathlib.Path:
    """Finds a program; see the head of this module for where.

    Parameters
    ----------
    name : {"artiq_sim", "artiq_lab", "artiq_trace"}

    Raises
    ------
    ProgramMissing
        Where it isn't there, with the command that builds it.
    """
    return _find(name, os.environ.get(FOLDER_VARIABLE))


@functools.lru_cache(maxsize=None)
def _find(name: str, folder: str | None) -> pathlib.Path:
    if folder:
        program = pathlib.Path(folder) / name
        if _runs(program):
            return program
        raise ProgramMissing(f"{FOLDER_VARIABLE} is {folder}, and there is no program {name}")
    top = checkout()
    if top is not None:
        program = top / "crates" / name / "out" / name
        if _runs(program):
            _warn_if_older(program, top)
            return program
    for program in _installed(name):
        if _runs(program):
            return program
    raise ProgramMissing(_how_to_build(name, top))


def _installed(name: str) -> Iterable[pathlib.Path]:
    # The package lies in PREFIX/lib/pythonX.Y/site-packages then.
    if len(_PACKAGE.parents) > 3:
        yield _PACKAGE.parents[3] / "bin" / name
    on_path = shutil.which(name)
    if on_path:
        yield pathlib.Path(on_path)


def _runs(program: pathlib.Path) -> bool:
    return program.is_file() and os.access(program, os.X_OK)


def _how_to_build(name: str, top: pathlib.Path | None) -> str:
    if top is None:
        return f"{name} isn't there: install it by bin/install, or set {FOLDER_VARIABLE} to the folder that has it"
    return (
        f"{name} isn't built in {top}: run bin/{name} there once, which proves and builds it first,"
        f" or set {FOLDER_VARIABLE} to a folder that has it"
    )


def _warn_if_older(program: pathlib.Path, top: pathlib.Path) -> None:
    # The launcher notes the folders of a program's code beside it: code='crates/a/src crates/b/src'.
    noted = program.with_name(f"{program.name}.code")
    if not noted.is_file():
        return
    built = program.stat().st_mtime_ns
    folders = noted.read_text().partition("'")[2].partition("'")[0].split()
    files = (file for folder in folders for file in (top / folder).rglob("*"))
    if any(file.stat().st_mtime_ns > built for file in files):
        warnings.warn(f"{program.name} is older than its code: run bin/{program.name} once", stacklevel=4)


def start(name: str, words: Sequence[str], given: str | bytes, timeout: float | None = None) -> Answer:
    """Starts a program and waits for its end. In a thread of `ShellThreads` its shell starts it, without a timeout.

    Parameters
    ----------
    name : {"artiq_sim", "artiq_lab", "artiq_trace"}
    words : sequence of str
        The command and its options, as `("slack", "--cost", "800")`.
    given : str or bytes
        What it reads from standard input.
    timeout : float, optional
        The most seconds that it may take.

    Returns
    -------
    Answer
        Whatever its status is.

    Raises
    ------
    ProgramMissing
        Where it isn't there.
    ProgramError
        Where it can't be started, or took longer than `timeout`.
    """
    data = given.encode() if isinstance(given, str) else given
    try:
        return answer_of(*_ended((find(name), *words), data, timeout))
    except subprocess.TimeoutExpired as late:
        raise ProgramError(-9, "", f"{name} was ended after {timeout} seconds") from late
    except OSError as why:
        raise ProgramError(126, "", f"{name} can't be started: {why}") from why


def _ended(command: Words, data: bytes, timeout: float | None) -> Ended:
    """The status of a program, and what it wrote to standard output and to standard error."""
    shell = own_shell() if timeout is None else None
    answered = shell.start(command, data) if shell is not None else None
    if answered is None:
        ended = subprocess.run(command, input=data, capture_output=True, timeout=timeout, check=False)
        answered = ended.returncode, ended.stdout, ended.stderr
    return answered


def answer_of(status: int, out: bytes, err: bytes) -> Answer:
    """The answer of a program that gave this."""
    return Answer(status, out.decode(), err.decode())
