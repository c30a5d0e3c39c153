"""What the tests share: where things lie, and the programs, without which a test is skipped."""

import pathlib
import sys
import unittest

ROOT = pathlib.Path(__file__).resolve().parent.parent.parent
EXAMPLES = ROOT / "examples"
DATA = pathlib.Path(__file__).resolve().parent / "data"

sys.path.insert(0, str(ROOT / "python"))

from buszlogem import ProgramMissing, programs  # noqa: E402  (the package lies beside the tests)
from buszlogem.command_words import read_edges_word  # noqa: E402
from buszlogem.options import NUMBERS  # noqa: E402


class SimCase(unittest.TestCase):
    """A test on the programs that `needed` names. It is skipped where one isn't built: no test builds one."""

    needed = ("artiq_sim",)

    @classmethod
    def setUpClass(cls):
        for name in cls.needed:
            try:
                programs.find(name)
            except ProgramMissing as why:
                raise unittest.SkipTest(str(why)) from why


def kernels_of_examples():
    """Each kernel of examples/ with its options and its stored report: (path, words, report)."""
    for report in sorted(EXAMPLES.glob("*.report")):
        kernel, words = report.with_suffix(".py"), report.with_suffix(".words")
        if kernel.exists():
            yield kernel, words.read_text().split() if words.exists() else [], report.read_text()


def options_of_words(words):
    """The options of `run` that the words of an example give."""
    edges = read_edges_word(words[words.index("--edges") + 1] if "--edges" in words else None)
    hold = {"ttl0": 10} if "--hold" in words else None
    numbers = {words[at][2:]: int(words[at + 1]) for at in range(0, len(words), 2) if words[at][2:] in NUMBERS}
    return {"edges": edges, "hold": hold, **numbers}
