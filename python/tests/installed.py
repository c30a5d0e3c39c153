"""What tests need that isn't part of Python."""

import importlib.util
import unittest


def needs(*modules):
    """Skips a test where one of some modules isn't installed."""
    missing = [module for module in modules if importlib.util.find_spec(module) is None]
    return unittest.skipIf(missing, f"{', '.join(missing)} isn't installed for this Python")
