"""Stored reports: each line is read as it stands, with numpy and without, and what is no report is refused."""

import pickle
import unittest
from unittest import mock

from installed import needs
from support import kernels_of_examples

from buszlogem import Report
from buszlogem.report import CHANNEL_NAMES

END = "lanes 1\ncode 1 1\nend ok\ncursor 1000\ncounter 2000\n"


def lines_of(text, word):
    """The numbers of each line of a report that begins with a word."""
    return [tuple(map(int, items)) for found, *items in map(str.split, text.splitlines()) if found == word]


class Stored(unittest.TestCase):
    def test_what_came_out_and_what_pends_of_the_examples(self):
        for path, _, text in kernels_of_examples():
            with self.subTest(path.name):
                report = Report.read(text)
                for word, found in (("out", report.outs), ("pend", report.pends)):
                    self.assertEqual([(it.stamp, it.channel, it.address, it.data) for it in found], lines_of(text, word))
                    self.assertEqual([it.name for it in found], [CHANNEL_NAMES[it.channel] for it in found])
                self.assertEqual([tuple(it) for it in report.outputs], [tuple(it) for it in report.outs])
                self.assertEqual([tuple(it) for it in report.pending], [tuple(it) for it in report.pends])

    def test_without_numpy_the_same_is_a_list(self):
        for path, _, text in kernels_of_examples():
            with self.subTest(path.name), mock.patch.dict("sys.modules", {"numpy": None}):
                report = Report.read(text)
                self.assertEqual(report.outputs, list(report.outs))

    @needs("numpy")
    def test_the_ends_of_each_range(self):
        text = f"out 0 0 0 0\nout {2**63 - 1} 31 255 {2**32 - 1}\n"
        report = Report.read(text + END)
        self.assertEqual(report.outs[1], (2**63 - 1, 31, "in7", 255, 2**32 - 1))
        self.assertEqual([tuple(it) for it in report.outputs], list(report.outs))
        self.assertEqual([kind.str[1:] for kind, _ in report.outputs.dtype.fields.values()], ["i8", "u1", "U5", "u1", "u4"])
        self.assertEqual(Report.read(END).outputs.shape, (0,))

    def test_no_output_at_all(self):
        report = Report.read(END)
        self.assertEqual((report.outs, report.pends, len(report.outputs), report.ok), ((), (), 0, True))

    def test_lines_of_another_kind(self):
        for line in ("outs 1 0 0 1", "out 1 0 0", "out 1 0 0 1 1", "out 1 32 0 1", "out -1 0 0 1", "out 1 0 0 x", "seq 1 2", ""):
            with self.subTest(line), self.assertRaises(ValueError):
                Report.read(f"out 1 0 0 1\n{line}\n{END}")
        with self.assertRaises(ValueError):
            Report.read(f"{END}out 1 0 0 1\n")

    def test_a_report_comes_back_whole_from_another_process(self):
        text = f"out 1 0 0 1\npend 9 1 0 1\nseq 2 8 3\n{END}"
        report = Report.read(text, 7, ("sim", "--cost", "8"), "sum")
        again = pickle.loads(pickle.dumps(report))
        for name in ("text", "status", "words", "kernel_sha256", "outs", "pends", "lost", "lanes", "end", "cursor", "counter"):
            self.assertEqual(getattr(again, name), getattr(report, name), name)


if __name__ == "__main__":
    unittest.main()
