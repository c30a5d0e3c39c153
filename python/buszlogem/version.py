"""The version: that of the repository's file VERSION, of which an installed package has a copy."""

from __future__ import annotations

import importlib.metadata
import pathlib

_FOLDER = pathlib.Path(__file__).resolve().parent


def _version() -> str:
    for file in (_FOLDER / "VERSION", _FOLDER.parent.parent / "VERSION"):
        if file.is_file():
            return file.read_text().strip()
    return importlib.metadata.version("buszlogem")


VERSION: str = _version()
