"""The laboratory: a day of experiments, carried out by the program `artiq_lab`."""

from __future__ import annotations

import json
import os
import pathlib
import re
from collections.abc import Mapping
from typing import Any

from .day import Day
from .errors import BuszlogemError, ProgramError
from .lab_report import LabReport, Names
from .programs import start

DayLike = Day | Mapping[str, Any] | str | bytes | os.PathLike[str]
"""What `laboratory` takes as a day."""

WHY = {
    "Missing": "a field that it has to have isn't there",
    "Unknown": "there is no such field here, or its stage doesn't have such a step",
    "Type": "a value of another type is wanted",
    "Range": "a number, a length or a spelling is out of its range",
    "Index": "there is no such place in its list",
    "Order": "it comes before the one ahead of it",
}
"""What each kind of fault of a session says; docs/SESSIONS.md has the fields with their ranges."""

_PLACES = re.compile(r"\[(\d+)\]|([^.\[\]]+)")
_NAMED = re.compile(r"\b(experiments|pipelines|sources)\[(\d+)\]")


class SessionError(BuszlogemError):
    """A day that the laboratory doesn't take.

    Attributes
    ----------
    path : str
        The place of its first fault, as `arrivals[2].submit.due`; empty where the text is no JSON.
    kind : str
        `json`, `Missing`, `Unknown`, `Type`, `Range`, `Index` or `Order`.
    value : object
        What stands there; None where nothing does.
    told : str
        The line of the program.
    """

    def __init__(self, told: str, path: str, kind: str, value: object, why: str) -> None:
        super().__init__(why)
        self.told = told
        self.path = path
        self.kind = kind
        self.value = value


def laboratory(day: DayLike, *, timeout: float | None = None) -> LabReport:
    """Carries out a day of the laboratory.

    Parameters
    ----------
    day : Day, dict, str, bytes or path
        A `Day`; a session as plain data; its text in JSON, as bytes or as a str that begins with `{`; or the file of one. Of a
        session docs/SESSIONS.md has the fields.
    timeout : float, optional
        The most seconds that it may take.

    Returns
    -------
    LabReport
        Steps, runs, datasets and what came out of each core, whatever became of the runs.

    Raises
    ------
    SessionError
        Where the program refuses the day, with the place of the first fault.
    KeyError
        Where a submission names an experiment or a pipeline that isn't there.
    ProgramMissing
        Where `artiq_lab` isn't there.
    ProgramError
        Where it ended otherwise than by an answer.
    OSError
        Where the file can't be read.
    """
    text = _text(day)
    answer = start("artiq_lab", (), text, timeout)
    if answer.status == 1:
        raise _refusal(answer.err.strip(), text, day)
    if answer.status != 0:
        said = answer.err.strip()
        raise ProgramError(answer.status, said, f"artiq_lab ended with status {answer.status}: {said}")
    session = json.loads(text)
    return LabReport.read(answer.out, session, _names(day, session))


def _text(day: DayLike) -> bytes:
    if isinstance(day, Day):
        return day.json().encode()
    if isinstance(day, Mapping):
        return json.dumps(day).encode()
    if isinstance(day, bytes):
        return day
    if isinstance(day, str) and day.lstrip().startswith("{"):
        # Half of a surrogate pair is for the program to refuse.
        return day.encode(errors="surrogatepass")
    return pathlib.Path(day).read_bytes()


def _names(day: DayLike, session: Mapping[str, Any]) -> Names:
    if not isinstance(day, Day):
        return Names.of_places(session)
    files = tuple(source.origins[0].file for source in day.sources)
    return Names(tuple(day.experiments), day.pipeline_names, files, tuple(day.sources))


def _refusal(told: str, text: bytes, day: DayLike) -> SessionError:
    """The error of a line `session json` or `session PATH KIND`."""
    if told == "session json":
        return SessionError(told, "", "json", None, f"the text is no JSON: {_json_fault(text)}")
    # A key is told as it is written, with its spaces.
    path, _, kind = told.removeprefix("session ").rpartition(" ")
    session = json.loads(text)
    value = _at(session, path)
    here = f"; here stands {_short(value)}" if value is not None else ""
    named = _with_names(path, _names(day, session)) if isinstance(day, Day) else path
    return SessionError(told, path, kind, value, f"{named}: {kind}: {WHY[kind]}{here}")


def _json_fault(text: bytes) -> str:
    try:
        json.loads(text)
    except (ValueError, RecursionError) as why:
        return str(why)
    # Python takes more than the program does.
    return "NaN or Infinity, a number beyond every float, half of a surrogate pair, a byte order mark, or more than 127 levels"


def _at(session: Any, path: str) -> object:
    """What stands at a path, or None where nothing does."""
    if path == "session":
        return session
    found = session
    for place, key in _PLACES.findall(path) or [("", path)]:
        try:
            found = found[int(place)] if place else found[key]
        except (KeyError, IndexError, TypeError):
            return None
    return found


def _short(value: object) -> str:
    if isinstance(value, (list, dict)) and len(value) > 4:
        return f"a {'list' if isinstance(value, list) else 'dict'} of {len(value)} items"
    text = json.dumps(value)
    return text if len(text) <= 60 else f"{text[:57]}..."


def _with_names(path: str, names: Names) -> str:
    """The path, with the names of experiments, pipelines and files behind their places."""
    lists = {"experiments": names.experiments, "pipelines": names.pipelines, "sources": names.files}

    def named(found: re.Match[str]) -> str:
        what, place = found[1], int(found[2])
        return f"{found[0]} ({lists[what][place]})" if place < len(lists[what]) else found[0]

    return _NAMED.sub(named, path)
