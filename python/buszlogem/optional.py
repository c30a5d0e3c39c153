"""What is used where it is installed: numpy, matplotlib, tqdm and a cluster's library."""

from __future__ import annotations

import importlib
from types import ModuleType

from .errors import BuszlogemError

DEBIAN = {"matplotlib": "python3-matplotlib", "numpy": "python3-numpy", "tqdm": "python3-tqdm"}
"""The package of Debian that has each module."""


class MissingModule(BuszlogemError, ImportError):
    """A module that isn't part of Python is needed and isn't installed; the message names it."""


def need(module: str, purpose: str) -> ModuleType:
    """Imports a module that needn't be installed.

    Parameters
    ----------
    module : str
        Its name, as `matplotlib.pyplot`.
    purpose : str
        What it is needed for, as the beginning of a sentence.

    Raises
    ------
    MissingModule
        Where it isn't installed.
    """
    try:
        return importlib.import_module(module)
    except ImportError as why:
        top = module.partition(".")[0]
        hint = f"pip install {top}" + (f", or apt install {DEBIAN[top]}" if top in DEBIAN else "")
        raise MissingModule(f"{purpose} needs {top}, which isn't installed for this Python: {hint}") from why
