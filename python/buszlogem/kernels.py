"""A kernel's text, from a text, a file or a Python function, and where each of its lines comes from."""

from __future__ import annotations

import dataclasses
import functools
import inspect
import operator
import os
import pathlib
import re
from collections.abc import Callable, Iterator, Sequence
from typing import TypeVar, Union

from .errors import OptionError

KernelLike = Union[str, os.PathLike[str], Callable[..., object], "KernelText"]
"""What `run` takes as a kernel: a text, a path, a Python function, or what `read_kernel` gave."""

int32 = int
"""A type of kernels: an integer of 32 bits that wraps. Python's own integers don't."""
int64 = int
"""A type of kernels: an integer of 64 bits that wraps. Python's own integers don't."""

_TEXT = "<kernel>"
CALL = "<call>"
"""The file of the `main` that `call=` puts behind a text."""

_LEAST_INT64, _MOST_INT64 = -(2**63), 2**63 - 1
_LEAST_INT32 = -(2**31)
# A text in double quotes, a comment, or the name main: where the first two are taken whole, a main in them is left alone.
_MAIN = re.compile(r'"[^"\n]*"|#[^\n]*|\bmain\b')
_DECORATOR = re.compile(r"^@(?:\w+\.)*kernel *(?=\n|#|$)")

_Function = TypeVar("_Function", bound=Callable[..., object])


def kernel(function: _Function) -> _Function:
    """Marks a Python function whose source is a kernel. It does nothing in Python.

    A function that is marked so is put before a kernel that names it.
    """
    return function


@dataclasses.dataclass(frozen=True)
class Line:
    """A line of a kernel, where the user has it.

    Attributes
    ----------
    file : str
        Its file, `<kernel>` of a text.
    number : int
        Its number there, from 1.
    source : str
        The line as it stands there.
    """

    file: str
    number: int
    source: str

    def __str__(self) -> str:
        return f"{self.file}:{self.number}: {self.source.strip()}"


@dataclasses.dataclass(frozen=True)
class Origin:
    """Where a run of lines of a kernel's text comes from.

    Attributes
    ----------
    file : str
        The file, `<kernel>` for a text, `<call>` for the `main` that `call=` puts behind it.
    first : int
        The number that the first of these lines has in the file, from 1.
    indent : int
        How many spaces before each line the kernel's text leaves out.
    lines : tuple of str
        The lines as they stand in the file.
    """

    file: str
    first: int
    indent: int
    lines: tuple[str, ...]


@dataclasses.dataclass(frozen=True)
class KernelText:
    """A kernel's text as the program gets it.

    Attributes
    ----------
    data : bytes
        The text.
    origins : tuple of Origin
        Where its lines come from, in their order.
    """

    data: bytes
    origins: tuple[Origin, ...]

    def origin_of(self, line: int) -> tuple[Origin, int]:
        """Where a line of the text comes from: its origin and its place in `lines`, from 0. Lines are counted from 1."""
        place = line - 1
        for origin in self.origins:
            if place < len(origin.lines):
                return origin, place
            place -= len(origin.lines)
        last = self.origins[-1]
        return last, len(last.lines) - 1

    def line(self, number: int) -> Line:
        """A line of the text as it stands where it comes from. Lines are counted from 1."""
        origin, place = self.origin_of(number)
        return Line(origin.file, origin.first + place, origin.lines[place])


def read_kernel(kernel: KernelLike, call: str | None = None, args: Sequence[int | bool] = ()) -> KernelText:
    """Takes a kernel's text.

    Parameters
    ----------
    kernel : str, path, function or KernelText
        A str of several lines, or one that begins with `def`, `@` or `#`, is a text; any other str is a path. Of a Python
        function the source is taken, and before it that of each function marked by `@kernel` that it names.
    call : str, optional
        The function that a `main` put behind the text calls. A `main` that the text has already is renamed. A Python
        function that isn't named `main` is called without being asked for.
    args : sequence of int or bool
        What it is called with. An int has 64 bits.

    Raises
    ------
    OptionError
        Where `kernel`, `call` or `args` isn't such a thing.
    OSError
        Where the file can't be read.
    """
    return with_call(text_of(kernel), called_in(kernel, call, args), args)


def text_of(kernel: KernelLike) -> KernelText:
    """Takes a kernel's text as it is, whatever is called in it; raises as `read_kernel`."""
    if isinstance(kernel, KernelText):
        return kernel
    return _text_of_function(kernel) if callable(kernel) else _text_of(kernel)


def called_in(kernel: KernelLike, call: str | None, args: Sequence[int | bool]) -> str | None:
    """The function of a kernel that is run in place of `main`; None where `main` is."""
    if call is None and callable(kernel) and (kernel.__name__ != "main" or len(args) > 0):
        return kernel.__name__
    return call


def with_call(text: KernelText, call: str | None, args: Sequence[int | bool]) -> KernelText:
    """A text with a `main` behind it that calls the function `call`; as it is where that is None. Raises as `read_kernel`."""
    if call is None:
        if len(args) > 0:
            raise OptionError("args", args, "the arguments of the function that call= names, and there is no call=")
        return text
    if not isinstance(call, str) or not re.fullmatch(r"[A-Za-z_]\w{0,63}", call, re.ASCII):
        raise OptionError("call", call, "the name of a function of the text")
    data, other = _without_main(text.data)
    given = ", ".join(map(_argument, args))
    called = other if call == "main" and other is not None else call
    behind = f"def main():\n    {called}({given})\n"
    shown = ("def main():", f"    {call}({given})")
    return KernelText(data + behind.encode(), (*text.origins, Origin(CALL, 1, 0, shown)))


# A sweep calls one function of a text with many arguments.
@functools.lru_cache(maxsize=8)
def _without_main(data: bytes) -> tuple[bytes, str | None]:
    """A text whose last line is ended and whose own `main` has another name, and that name where it had a `main`."""
    data = data if data.endswith(b"\n") else data + b"\n"
    decoded = data.decode(errors="surrogateescape")
    other = _other_name(decoded)
    if other is None:
        return data, None
    return _with_main_renamed(decoded, other).encode(errors="surrogateescape"), other


@functools.lru_cache(maxsize=8)
def parameters(data: bytes, function: str) -> tuple[str, ...] | None:
    """The names of the parameters of a function of a kernel's text; None where the text has no such function."""
    head = re.search(rf"^def\s+{re.escape(function)}\s*\(([^)]*)\)", data.decode(errors="replace"), re.M)
    return tuple(re.findall(r"(\w+)\s*:", head[1])) if head else None


def read_source(kernel: KernelLike) -> KernelText:
    """Takes a kernel's text whose functions are called from elsewhere, as those of a laboratory's source are.

    As `read_kernel`, but that a Python function with parameters, which no `main` can call by itself, gets a `main` that does
    nothing.
    """
    if isinstance(kernel, KernelText) or not inspect.isfunction(kernel) or not inspect.signature(kernel).parameters:
        return read_kernel(kernel)
    return with_main(_text_of_function(kernel))


def with_main(text: KernelText) -> KernelText:
    """A text with a `main`: one that has none gets one behind it that does nothing."""
    data = text.data if text.data.endswith(b"\n") else text.data + b"\n"
    if _other_name(data.decode(errors="surrogateescape")) is not None:
        return text
    behind = ("def main():", "    pass")
    return KernelText(data + "\n".join([*behind, ""]).encode(), (*text.origins, Origin(CALL, 1, 0, behind)))


def _text_of(kernel: str | os.PathLike[str]) -> KernelText:
    if isinstance(kernel, str) and _is_text(kernel):
        return whole(kernel.encode(errors="surrogateescape"), _TEXT)
    if not isinstance(kernel, (str, os.PathLike)):
        raise OptionError("kernel", kernel, "a text, a path or a Python function")
    return whole(pathlib.Path(kernel).read_bytes(), os.fspath(kernel))


def _is_text(kernel: str) -> bool:
    return "\n" in kernel or kernel.strip() == "" or kernel.lstrip().startswith(("def ", "@", "#"))


def whole(data: bytes, file: str) -> KernelText:
    """A text all of whose lines are those of one file."""
    return KernelText(data, (Origin(file, 1, 0, _lines(data)),))


def _lines(data: bytes) -> tuple[str, ...]:
    return tuple(line.removesuffix("\r") for line in data.decode(errors="replace").removesuffix("\n").split("\n"))


def _text_of_function(function: Callable[..., object]) -> KernelText:
    if not inspect.isfunction(inspect.unwrap(function)):
        raise OptionError("kernel", function, "a text, a path or a Python function")
    texts, origins = [], []
    for part in _functions_for(function):
        source, origin = _source_of(part)
        texts.append(source)
        origins.append(origin)
    return KernelText("".join(texts).encode(errors="surrogateescape"), tuple(origins))


def _functions_for(function: Callable[..., object]) -> list[Callable[..., object]]:
    """The marked functions that a function names, each before those that name it, and at last the function itself."""
    found: list[Callable[..., object]] = []

    def visit(it: Callable[..., object], above: tuple[Callable[..., object], ...]) -> None:
        if it in found or it in above:
            return
        for other in _marked_names(it):
            visit(other, (*above, it))
        found.append(it)

    visit(inspect.unwrap(function), ())
    return found


def _marked_names(function: Callable[..., object]) -> Iterator[Callable[..., object]]:
    known = {**function.__globals__, **inspect.getclosurevars(function).nonlocals}
    for name in function.__code__.co_names + function.__code__.co_freevars:
        other = known.get(name)
        if inspect.isfunction(other) and _is_marked(other):
            yield other


def _is_marked(function: Callable[..., object]) -> bool:
    try:
        return any(_DECORATOR.match(line.lstrip()) for line in inspect.getsourcelines(function)[0][:1])
    except OSError:
        return False


def _source_of(function: Callable[..., object]) -> tuple[str, Origin]:
    try:
        lines, first = inspect.getsourcelines(function)
    except (OSError, TypeError) as why:
        raise OptionError("kernel", function, "a function whose source Python finds: one of a file or a notebook") from why
    as_written = tuple(line.rstrip("\r\n") for line in lines)
    indent = len(as_written[0]) - len(as_written[0].lstrip(" "))
    plain = [line[indent:] if line[:indent].isspace() or indent == 0 else line for line in as_written]
    plain[0] = _DECORATOR.sub("@kernel", plain[0])
    return "\n".join([*plain, ""]), Origin(_file_of(function), max(first, 1), indent, as_written)


def _file_of(function: Callable[..., object]) -> str:
    return inspect.getsourcefile(function) or _TEXT


def _other_name(text: str) -> str | None:
    """A name for the text's own `main`, as long as that so that columns stay; None where it has none."""
    if not any(found[0] == "main" for found in _MAIN.finditer(text)):
        return None
    names = ("Main", *(f"m{number:03d}" for number in range(1000)))
    return next(name for name in names if not re.search(rf"\b{name}\b", text))


def _with_main_renamed(text: str, other: str) -> str:
    return _MAIN.sub(lambda found: other if found[0] == "main" else str(found[0]), text)


def _argument(value: int | bool) -> str:
    # numpy's truth values are none of Python's, and have no index.
    if isinstance(value, bool) or type(value).__name__ in ("bool_", "bool"):
        return str(bool(value))
    try:
        number = operator.index(value)
    except TypeError:
        number = None
    if number is None or not _LEAST_INT64 <= number <= _MOST_INT64:
        raise OptionError("args", value, "whole numbers of 64 bits and truth values")
    # The least number of a width can't be written by a sign: its digits alone are too large.
    return f"(-{-number - 1} - 1)" if number in (_LEAST_INT64, _LEAST_INT32) else str(number)
