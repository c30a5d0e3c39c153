"""From the program's line of a refused text to a `KernelError` that points at the place."""

from __future__ import annotations

import re

from .advice import CODE, advice_for, kind_of
from .errors import KernelError
from .kernels import KernelText
from .report import CHANNEL_NAMES

EXCEPTIONS = ("RTIOUnderflow", "RTIOOverflow", "DMAError", "ZeroDivisionError", "IndexError", "StackOverflow")
KEYWORDS = (
    "def", "return", "if", "elif", "else", "while", "for", "in", "with", "try", "except", "pass", "break", "continue",
    "and", "or", "not", "True", "False",
)  # fmt: skip
RESERVED = (
    *CHANNEL_NAMES, *EXCEPTIONS, "core", "core_dma", "parallel", "sequential", "kernel", "range", "int32", "int64", "bool",
    "len", "now_mu", "at_mu", "delay_mu", "set_dataset",
)  # fmt: skip
METHODS = {
    "ttl": ("on", "off", "pulse_mu"),
    "raw": ("on", "off", "pulse_mu", "write"),
    "in": ("gate_rising_mu", "gate_falling_mu", "gate_both_mu", "timestamp_mu", "count"),
    "core": ("get_rtio_counter_mu", "break_realtime", "reset", "wait_until_mu"),
    "core_dma": ("record", "playback", "playback_handle", "erase", "get_handle"),
}
"""The methods of each object; a channel is known by its name without the number."""

_NAME = re.compile(r'"[^"]*"|#.*|(?<![\w.])([A-Za-z_]\w*)')
_CALL = re.compile(r"(?<![\w.])(?!(?:if|elif|while|return|not|and|or|in|except)\b)([A-Za-z_]\w*(?:\.\w+)?) *\(")
_METHOD = re.compile(r"\b([A-Za-z_]\w*)\.(\w+)")
# What gives a name of a function its value: an assignment, a loop, a parameter.
_ASSIGNED = re.compile(r"\b([A-Za-z_]\w*) *(?:=(?!=)|:(?= *(?:int32|int64|bool)\b))|\bfor +(\w+)")
_HEADER = re.compile(r" *(?:@kernel *)?(?:def|else|try|if|elif|while|for|with|except)\b.*: *(?=\S)")


def kernel_error(told: str, text: KernelText) -> KernelError:
    """The error for a line that the program told of a text.

    Parameters
    ----------
    told : str
        `lex AT KIND`, `syntax TOKEN AT`, `type LINE KIND` or `code NODES`.
    text : KernelText
        The text that was refused.
    """
    told = told.strip()
    kind = kind_of(told)
    if kind == "code":
        return KernelError(kind, 0, 0, text.origins[0].file, "", CODE, told)
    line, column = _place(told, text.data)
    lines = text.data.decode(errors="replace").split("\n")
    row = advice_for(kind, "\n".join(lines[: line - 1]), lines[line - 1].removesuffix("\r"), column)
    origin, place = text.origin_of(line)
    return KernelError(
        kind=kind,
        line=origin.first + place,
        column=column + origin.indent,
        file=origin.file,
        source=origin.lines[place],
        advice=row.why if row else "the text is refused",
        told=told,
        example=(row.text, row.mended) if row and row.is_shown else None,
    )


def _place(told: str, data: bytes) -> tuple[int, int]:
    word, first, second = told.split(" ")
    if word == "type":
        return int(first), _column_of_type(second, data.decode(errors="replace").split("\n"), int(first))
    at = int(first) if word == "lex" else int(second)
    if at >= len(data):
        # The end of the text is told where what stands last isn't complete.
        at = len(data.rstrip())
    elif data[at - 1 : at + 1] == b"\r\n":
        # The end of such a line is told at its line feed.
        at -= 1
    above = data[:at]
    start = above.rfind(b"\n") + 1
    return above.count(b"\n") + 1, len(data[start:at].decode(errors="replace")) + 1


def _column_of_type(kind: str, lines: list[str], line: int) -> int:
    """Where in a line a fault of types stands, as far as the line tells: else where its statement begins."""
    source = lines[line - 1]
    found = None
    if kind == "Unknown":
        found = _first_unknown(lines, line)
    elif kind == "Method":
        found = _first_unknown_method(source)
    elif kind == "Arity" and not re.search(r"\breturn\b", source):
        found = _only_call(source)
    return (_statement_begins(source) if found is None else found) + 1


def _statement_begins(source: str) -> int:
    header = _HEADER.match(source)
    return header.end() if header else len(source) - len(source.lstrip())


def _first_unknown(lines: list[str], line: int) -> int | None:
    known = {*KEYWORDS, *RESERVED, *_names_before(lines, line)}
    own = {found.span(1) for found in _ASSIGNED.finditer(lines[line - 1])}
    for found in _NAME.finditer(lines[line - 1]):
        if found[1] is not None and found[1] not in known and found.span(1) not in own:
            return found.start(1)
    return None


def _names_before(lines: list[str], line: int) -> set[str]:
    """The functions above a line, and the names that its own function was given a value for above it."""
    heads = [place for place in range(line) if re.match(r"(@kernel)? *def\b", lines[place])]
    functions = {re.sub(r".*?\bdef +(\w+).*", r"\1", lines[place]) for place in heads}
    start = heads[-1] if heads else 0
    head = {name for found in _ASSIGNED.finditer(lines[start]) if (name := found[1])}
    body = "\n".join(lines[start : line - 1])
    return functions | head | {found[1] or found[2] for found in _ASSIGNED.finditer(body)} | _loop_of(lines[line - 1])


def _loop_of(source: str) -> set[str]:
    found = re.match(r" *for +(\w+)", source)
    return {found[1]} if found else set()


def _first_unknown_method(source: str) -> int | None:
    for found in _METHOD.finditer(source):
        if found[2] not in METHODS.get(re.sub(r"\d+$", "", found[1]), ()):
            return found.start(2)
    return None


def _only_call(source: str) -> int | None:
    calls = [found.start(1) for found in _CALL.finditer(source) if not re.search(r"\bdef *$", source[: found.start(1)])]
    return calls[0] if len(calls) == 1 else None
