"""Kernels as Python functions, for the tests: a module of its own, so that lines and names are those of a file."""
# ruff: noqa: F821

import buszlogem
from buszlogem import int64


@buszlogem.kernel
def once(stamp: int64):
    at_mu(stamp)
    ttl0.on()


@buszlogem.kernel
def twice():
    once(8)
    once(24)


class Scan:
    """A class with a kernel, indented as those of ARTIQ."""

    def misspelt():
        at_mu(1000)
        tll0.on()
