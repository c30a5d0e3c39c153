"""Finished points of a sweep in a file, so that a sweep that was stopped goes on where it was: SQLite, one row a point."""

from __future__ import annotations

import json
import operator
import os
import sqlite3
import time
from collections.abc import Mapping, Sequence
from typing import Any, NamedTuple

SECONDS_BETWEEN = 1.0
"""How long finished points wait at most before they are written to the disk, where others finish meanwhile."""

_MAKE = """
CREATE TABLE IF NOT EXISTS points (
    kernel TEXT, words TEXT, point TEXT, status INTEGER, report TEXT,
    PRIMARY KEY (kernel, words, point)
)
"""


class Kept(NamedTuple):
    """A finished point: the program's status, and the report's text."""

    status: int
    report: str


class Store:
    """A file of finished points, by the SHA-256 of the kernel's text, the words of the run, and the point.

    Parameters
    ----------
    path : str or path
        The file, which is made where it isn't there.

    Raises
    ------
    sqlite3.DatabaseError
        Where the file is something else.
    """

    def __init__(self, path: str | os.PathLike[str]) -> None:
        self.connection = sqlite3.connect(path)
        self.connection.execute(_MAKE)
        self.connection.commit()
        self.written = time.monotonic()

    def get(self, kernel_sha256: str, words: Sequence[str], point: object) -> Kept | None:
        """The finished point, or None where it isn't there."""
        key = (kernel_sha256, " ".join(words), as_text(point))
        asked = "SELECT status, report FROM points WHERE kernel = ? AND words = ? AND point = ?"
        row = self.connection.execute(asked, key).fetchone()
        return Kept(*row) if row else None

    def put(self, kernel_sha256: str, words: Sequence[str], point: object, kept: Kept) -> None:
        """Keeps a finished point; on the disk it is at the latest when the store is closed."""
        row = (kernel_sha256, " ".join(words), as_text(point), *kept)
        self.connection.execute("INSERT OR REPLACE INTO points VALUES (?, ?, ?, ?, ?)", row)
        if time.monotonic() - self.written >= SECONDS_BETWEEN:
            self.connection.commit()
            self.written = time.monotonic()

    def close(self) -> None:
        """Writes what isn't on the disk yet, and closes the file."""
        self.connection.commit()
        self.connection.close()


def as_text(point: object) -> str:
    """A point as a text that tells it from others: JSON with the keys in their order, arrays as lists, other things by `repr`."""
    return json.dumps(point, sort_keys=True, default=_plain)


def _plain(value: Any) -> object:
    if isinstance(value, Mapping):
        return dict(value)
    if hasattr(value, "tolist"):
        return value.tolist()
    try:
        return operator.index(value)
    except TypeError:
        return repr(value)
