"""Pictures: what is drawn where, and that PNG and SVG are written. How they look was looked at."""

import io
import json
import unittest

from installed import needs
from support import EXAMPLES, SimCase, kernels_of_examples

from buszlogem import LabReport, MissingModule, Report, run, sweep

# A level, a raw channel's values, gates and edges, each kind of loss, what pends, and an output that was late.
ALL = """\
out 1000 0 0 1
out 1200 16 3 77
out 1300 24 2 1
out 1400 24 2 0
out 1500 0 0 0
pend 100000 4 0 1
seq 7 1444 3
col 5 1300 2
rst 6 1440 0
busy 4 1250 1
lanes 1
code 1 1
end raised RTIOUnderflow
cursor 1900
counter 1800
"""
ALL_LABELS = [
    "gate, rising",
    "edge, rising, seen",
    "edge, falling, not seen",
    "lost: out of sequence",
    "lost: collided",
    "lost: channel busy",
    "lost: cleared by a reset",
    "pending",
    "late: RTIOUnderflow",
]


def names(axes):
    """The names of the rows, from the top down."""
    places = sorted(zip(axes.get_yticks(), axes.get_yticklabels()), key=lambda it: -it[0])
    return [label.get_text() for _, label in places]


def labels(axes):
    """What the legend says."""
    return [text.get_text() for text in axes.get_legend().get_texts()] if axes.get_legend() else []


@needs("matplotlib")
class Pictures(unittest.TestCase):
    @classmethod
    def setUpClass(cls):
        import matplotlib

        matplotlib.use("Agg")

    def tearDown(self):
        from matplotlib import pyplot

        pyplot.close("all")

    def report(self):
        return Report.read(ALL, 6, ("sim", "--edges", "24:1350:r,24:1360:f"))

    def test_all_that_a_report_can_have(self):
        axes = self.report().plot()
        self.assertEqual(names(axes), ["ttl0", "ttl1", "ttl2", "ttl3", "ttl4", "raw0", "in0"])
        self.assertEqual(sorted(labels(axes)), sorted(ALL_LABELS))
        self.assertEqual([text.get_text().strip() for text in axes.texts], ["3=77"])
        self.assertEqual(axes.get_xlabel(), "time (us)")

    def test_a_level(self):
        # Up at 1 us and down at 1.5 us, in a row whose foot is at 0.
        axes = self.report().plot(channels=["ttl0"], window=(0.5, 2.0))
        points = [(round(x, 6), y > 0) for x, y in axes.get_lines()[0].get_xydata().tolist()]
        self.assertEqual(points, [(0.5, False), (1.0, False), (1.0, True), (1.5, True), (1.5, False), (2.0, False)])
        self.assertEqual(axes.get_xlim(), (0.5, 2.0))

    def test_a_level_from_before_the_window(self):
        axes = self.report().plot(channels=["ttl0"], window=(1.2, 1.4))
        self.assertEqual([y > 0 for _, y in axes.get_lines()[0].get_xydata().tolist()], [True, True])

    def test_channels_in_the_order_that_is_asked_for(self):
        self.assertEqual(names(self.report().plot(channels=["in0", 0])), ["in0", "ttl0"])
        with self.assertRaises(KeyError):
            self.report().plot(channels=["ttl16"])

    def test_a_window_that_is_none(self):
        with self.assertRaises(ValueError):
            self.report().plot(window=(2.0, 1.0))

    def test_what_pends_behind_the_window_is_marked_at_its_end(self):
        axes = self.report().plot(channels=["ttl4"], window=(1.0, 2.0))
        marked = next(it for it in axes.collections if it.get_label() == "pending")
        self.assertEqual([x for x, _ in marked.get_offsets().tolist()], [2.0])

    def test_nothing_at_all(self):
        axes = Report.read("lanes 0\ncode 1 1\nend ok\ncursor 0\ncounter 0\n").plot()
        self.assertEqual(names(axes), [])

    def test_axes_of_the_caller(self):
        from matplotlib.figure import Figure

        mine = Figure().add_subplot()
        self.assertIs(self.report().plot(ax=mine), mine)

    def test_png_and_svg(self):
        for ending, head in (("png", b"\x89PNG"), ("svg", b"<?xml")):
            written = io.BytesIO()
            self.report().plot().figure.savefig(written, format=ending)
            self.assertTrue(written.getvalue().startswith(head))

    def test_each_example(self):
        for path, _, text in kernels_of_examples():
            with self.subTest(path.name):
                report = Report.read(text)
                shown = {it.name for it in (*report.outs, *report.pends, *report.lost)}
                self.assertEqual(set(names(report.plot())), shown)

    def test_a_day(self):
        session = json.loads((EXAMPLES / "day_of_one_trap.json").read_text())
        report = LabReport.read((EXAMPLES / "day_of_one_trap.report").read_text(), session)
        axes = report.plot()
        self.assertEqual(names(axes)[:3], ["0  experiment 0", "1  experiment 1", "2  experiment 3"])
        wanted = ["done", "failed", "deleted", "terminated", "failed, no step", "paused"]
        self.assertEqual(sorted(labels(axes)), sorted(wanted))
        self.assertEqual(names(report.cores[0].plot()), ["ttl0", "ttl1", "ttl2", "in0", "in1"])


@needs("matplotlib")
class PicturesOfRuns(SimCase):
    def test_a_run(self):
        axes = run("def main():\n    at_mu(1000)\n    ttl3.pulse_mu(500)\n").plot()
        self.assertEqual(names(axes), ["ttl3"])

    def test_columns_of_a_sweep(self):
        kernel = 'def shot(w: int64):\n    set_dataset("twice", w + w)\n'
        table = sweep(kernel, [{"w": 1}, {"w": 3}, {"w": "?"}], progress=False, call="shot")
        points = table.plot("w", "twice").get_lines()[0].get_xydata().tolist()
        self.assertEqual(points, [[1, 2], [3, 6]])


class WithoutMatplotlib(unittest.TestCase):
    def test_it_is_asked_for_by_name(self):
        from unittest import mock

        with mock.patch.dict("sys.modules", {"matplotlib": None, "matplotlib.pyplot": None}):
            with self.assertRaises(MissingModule) as raised:
                Report.read(ALL).plot()
        self.assertIn("matplotlib", str(raised.exception))
        self.assertIn("python3-matplotlib", str(raised.exception))
        self.assertIsInstance(raised.exception, ImportError)


if __name__ == "__main__":
    unittest.main()
