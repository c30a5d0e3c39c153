"""The words that the commands share: a kernel's file, and the options of its run."""

from __future__ import annotations

import argparse
import sys
from typing import Any

from .cli import NOT_OK
from .errors import OptionError
from .kernels import KernelText, whole
from .options import NUMBERS, TAKES
from .report import Report
from .run import Job
from .trace import not_ok


def add_kernel(parser: argparse.ArgumentParser) -> None:
    """Adds the argument FILE."""
    parser.add_argument("file", metavar="FILE", help="the kernel's file; - is standard input")


def kernel_of(parsed: argparse.Namespace) -> KernelText:
    """The kernel that FILE names."""
    if parsed.file == "-":
        return whole(sys.stdin.buffer.read(), "<stdin>")
    with open(parsed.file, "rb") as file:
        return whole(file.read(), parsed.file)


def add_options(parser: argparse.ArgumentParser) -> None:
    """Adds the options of a run, as artiq_sim takes them, and `--call` with `--args`."""
    group = parser.add_argument_group("the run (docs/OPTIONS.md)")
    for name in NUMBERS:
        group.add_argument(f"--{name}", metavar="N", type=_number, help=TAKES[name])
    group.add_argument("--schedule", metavar="ORDER", default="lockstep", help="lockstep, letters:WORD or mix:NUMBER")
    group.add_argument("--edges", metavar="CHANNEL:STAMP:r,..", help="edges at the inputs; r rises, f falls; 24 or in0")
    group.add_argument("--hold", metavar="CHANNEL:CYCLES,..", help=TAKES["hold"])
    group.add_argument("--recordings", metavar="NAME:HEX,..", help="recordings that the core keeps at first")
    group.add_argument("--call", metavar="NAME", help="runs this function in place of main")
    group.add_argument("--args", metavar="N", nargs="+", default=[], help="what it is called with: numbers, True, False")


def options_of(parsed: argparse.Namespace) -> dict[str, Any]:
    """The keyword arguments of `run` that the words give."""
    numbers = {name: value for name in NUMBERS if (value := getattr(parsed, name)) is not None}
    return {
        **numbers,
        "schedule": parsed.schedule,
        "edges": read_edges_word(parsed.edges),
        "hold": _read_hold(parsed.hold),
        "recordings": _read_recordings(parsed.recordings),
        "call": parsed.call,
        "args": [argument(word) for word in parsed.args],
    }


def add_strict(parser: argparse.ArgumentParser) -> None:
    """Adds the option `--strict`."""
    parser.add_argument(
        "--strict", action="store_true", help=f"tells what is lost, and from which line; then the status is {NOT_OK} in place of 0"
    )


def status_of_run(job: Job, report: Report, strict: bool) -> int:
    """The status of a run; under `--strict` what isn't right with it is told on standard error."""
    if not strict or report.ok:
        return report.status
    print(not_ok(job, report), file=sys.stderr)
    return report.status or NOT_OK


def read_edges_word(word: str | None) -> dict[str | int, list[tuple[Any, str]]] | None:
    """Edges as the option writes them, `24:1990:r,in1:2040:f`; `:r` may be left out."""
    if word is None:
        return None
    edges: dict[str | int, list[tuple[Any, str]]] = {}
    for item in word.split(","):
        channel, *behind = item.split(":")
        if len(behind) not in (1, 2):
            raise OptionError("edges", word, TAKES["edges"])
        edges.setdefault(_number(channel), []).append((_number(behind[0]), behind[1] if len(behind) == 2 else "r"))
    return edges


def argument(word: str) -> int | bool | str:
    """An argument of a kernel's function: a whole number, `True` or `False`; else the word, which `run` refuses."""
    if word in ("True", "False"):
        return word == "True"
    digits = word.removeprefix("-")
    return int(word) if digits.isascii() and digits.isdigit() else word


def _pairs(option: str, word: str) -> list[tuple[str, str]]:
    found = [item.partition(":") for item in word.split(",")]
    names = [name for name, _, _ in found]
    if not all(colon for _, colon, _ in found) or len(set(names)) < len(names):
        raise OptionError(option, word, TAKES[option])
    return [(name, value) for name, _, value in found]


def _read_hold(word: str | None) -> dict[str | int, Any] | None:
    return None if word is None else {_number(channel): _number(cycles) for channel, cycles in _pairs("hold", word)}


def _read_recordings(word: str | None) -> dict[str, str] | None:
    return None if word is None else dict(_pairs("recordings", word))


def _number(word: str) -> int | str:
    """A number as the programs take it, 1 to 19 digits; else the word, which the option refuses by its name."""
    return int(word) if word.isascii() and word.isdigit() and len(word) <= 19 else word
