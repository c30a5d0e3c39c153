"""What this package raises. Each class is a `BuszlogemError`; docs/PYTHON.md says which call raises which."""

from __future__ import annotations

from typing import TYPE_CHECKING

if TYPE_CHECKING:
    from .report import Report
    from .trace_parts import Place
    from .trace_report import Trace


class BuszlogemError(Exception):
    """The base of all errors of this package. Errors come back whole from other processes."""

    def __reduce__(self) -> tuple[object, ...]:
        return _made_again, (type(self), self.args, dict(self.__dict__))


def _made_again(kind: type[BuszlogemError], args: tuple[object, ...], fields: dict[str, object]) -> BuszlogemError:
    error = kind.__new__(kind)
    error.args = args
    error.__dict__.update(fields)
    return error


class ProgramMissing(BuszlogemError):
    """A program isn't built, or isn't where the environment variable says."""


class ProgramError(BuszlogemError):
    """A program ended otherwise than by an answer: it couldn't read, write, or was refused memory.

    Attributes
    ----------
    status : int
        The status of the program; docs/ERRORS.md says what each means. Negative: the signal that ended it.
    said : str
        What it wrote to standard error.
    """

    def __init__(self, status: int, said: str, why: str) -> None:
        super().__init__(why)
        self.status = status
        self.said = said


class OptionError(BuszlogemError, ValueError):
    """An option has a value that the program doesn't take.

    Attributes
    ----------
    option : str
        The option's name, as `cost`.
    value : object
        What was given.
    takes : str
        What the option takes, with its unit and range.
    """

    def __init__(self, option: str, value: object, takes: str) -> None:
        super().__init__(f"{option}={value!r}: {option} takes {takes}")
        self.option = option
        self.value = value
        self.takes = takes


class NotOk(BuszlogemError):
    """A run under `strict=True` lost outputs, left some pending, or didn't return.

    Attributes
    ----------
    report : Report or None
        The report of the run; None where `trace` made it.
    trace : Trace or None
        Its trace; None where `artiq_trace` isn't built.
    place : Place or None
        Where the first thing that isn't right was asked, by the trace.
    """

    def __init__(
        self, why: str, report: Report | None = None, trace: Trace | None = None, place: Place | None = None
    ) -> None:
        super().__init__(f"{why}\n{place}" if place else why)
        self.report = report
        self.trace = trace
        self.place = place


class KernelError(BuszlogemError):
    """A kernel's text is refused.

    Attributes
    ----------
    kind : str
        The kind, as the program tells it: `lex Number`, `syntax`, `type Unknown`, `code`.
    line : int
        The line of the fault, from 1, in `file`; 0 where the whole text is at fault (`code`).
    column : int
        Its column, from 1, in characters; 0 where the whole text is at fault.
    file : str
        The file of the line, `<kernel>` for a text.
    source : str
        The line as it stands there.
    advice : str
        What docs/ERRORS.md says of it.
    told : str
        The line of the program, as `lex 21 Number`.
    example : tuple of str or None
        A text with this mistake, and the same without it; None where no text is like enough.
    """

    def __init__(
        self,
        kind: str,
        line: int,
        column: int,
        file: str,
        source: str,
        advice: str,
        told: str,
        example: tuple[str, str] | None = None,
    ) -> None:
        self.kind = kind
        self.line = line
        self.column = column
        self.file = file
        self.source = source
        self.advice = advice
        self.told = told
        self.example = example
        super().__init__(self.shown())

    @property
    def caret(self) -> str:
        """A line with `^` under the fault, to be printed below `source`; empty where there is no column."""
        if self.column == 0:
            return ""
        before = self.source[: self.column - 1]
        return "".join("\t" if letter == "\t" else " " for letter in before) + "^"

    def shown(self) -> str:
        """The error as lines: `file:line:column: kind: advice`, the source line, the caret, and the example."""
        lines = [f"{self.file}:{self.line}:{self.column}: {self.kind}: {self.advice}"]
        if self.column:
            lines += [self.source, self.caret]
        if self.example:
            mistaken, mended = self.example
            lines += ["not:", *_indented(mistaken), "but:", *_indented(mended)]
        return "\n".join(lines)


def _indented(text: str) -> list[str]:
    return [f"    {line}" for line in text.splitlines()]
