"""Traces: the lines that asked, the slack of outputs, what was lost, and where a run stopped. Worked out by docs/TRACE.md."""

import os
import pathlib
import pickle
import subprocess
import tempfile
import unittest
from unittest import mock

from support import EXAMPLES, SimCase, kernels_of_examples, options_of_words  # isort: skip  (it shows where the package lies)
import later_kernels
from installed import needs
from later_kernels import once

from buszlogem import KernelError, Line, NotOk, OptionError, ProgramMissing, Trace, kernel, programs, run, trace
from buszlogem.report import numpy_or_none

# The kernel of docs/TRACE.md: at a cost of 400 mu each output is 300 mu closer to being late than the one before.
TIGHT = """\
def flash(length: int64):
    ttl0.on()
    delay_mu(length)
    ttl0.off()

def main():
    at_mu(1000)
    flash(100)
    delay_mu(100)
    flash(100)
"""
ANNOTATED = """\
line  outputs  slack   lost
   1                         def flash(length: int64):
   2        2    400             ttl0.on()
   3                             delay_mu(length)
   4        2    100*            ttl0.off()
   5
   6                         def main():
   7                             at_mu(1000)
   8                             flash(100)
   9                             delay_mu(100)
  10                             flash(100)
* slack 100 mu: output 3 on ttl0 at 1300 mu, <kernel>:4: ttl0.off(), called from <kernel>:10: flash(100)
"""
# One overridden, one that collides, one cleared by the reset, and two that come out.
FATES = """\
def main():
    at_mu(1000)
    ttl0.off()
    ttl0.on()
    delay_mu(4)
    ttl0.off()
    at_mu(5000)
    ttl1.on()
    core.wait_until_mu(2000)
    core.reset()
    ttl2.pulse_mu(80)
"""
# Each request that isn't an output, with both of its answers where it has two.
REQUESTS = """\
def main():
    core.reset()
    with core_dma.record("pair"):
        ttl0.pulse_mu(80)
    core_dma.playback("pair")
    handle = core_dma.get_handle("pair")
    core_dma.erase("pair")
    try:
        core_dma.playback_handle(handle)
    except DMAError:
        set_dataset("gone", handle)
    try:
        core_dma.playback("pair")
    except DMAError:
        pass
    end = in0.gate_rising_mu(1000)
    a = [in0.timestamp_mu(end), in0.timestamp_mu(end)]
    set_dataset("a", a)
    core.wait_until_mu(now_mu() + 4)
    core.break_realtime()
"""




@kernel
def main():
    once(16)
    ttl1.on()  # noqa: F821


def numbers(outputs):
    return [output.number for output in outputs]


class Stored(unittest.TestCase):
    """Traces that lie in examples/, read without a program."""

    def stored(self, name):
        return Trace.read((EXAMPLES / f"{name}.trace").read_text(), EXAMPLES / f"{name}.py")

    def test_the_lines_of_a_trace(self):
        found = self.stored("late_pulse")
        self.assertEqual([it.kind for it in found.requests], ["out", "out", "wait", "out", "counter", "out", "out", "data"])
        self.assertEqual([it.place.line.number for it in found.requests], [6, 6, 7, 10, 13, 14, 14, 15])
        self.assertEqual([it.counter for it in found.requests], [0, 0, 5000, 5000, 5000, 5000, 5000, 5000])
        late = found.outs[2]
        self.assertEqual((late.number, late.stamp, late.channel, late.name), (2, 3000, 1, "ttl1"))
        self.assertEqual((late.address, late.data, late.slack, late.how), (0, 1, -2000, "late"))
        self.assertEqual(late.place.line, Line(str(EXAMPLES / "late_pulse.py"), 10, "        ttl1.pulse_mu(200)"))
        self.assertEqual([(it.number, it.reason, it.name, it.by) for it in found.lost], [(2, "late", "ttl1", None)])
        self.assertEqual(found.least, (-2000, late.place, 2))
        self.assertEqual((found.end, found.end_place, found.counts), ("ok", None, (5, 4, 1)))

    def test_a_called_function_has_the_line_of_its_call_in_main(self):
        found = self.stored("ramsey_scan")
        self.assertEqual((found.least.place.line.number, found.least.place.main.number), (11, 26))
        self.assertEqual(found.end, "ok")
        place = found.requests[-1].place
        self.assertEqual((place.line.number, place.main), (28, None))

    def test_counts_are_those_of_the_outputs(self):
        for path in sorted(EXAMPLES.glob("*.trace")):
            with self.subTest(path.name):
                found = self.stored(path.stem)
                self.assertEqual(found.counts, (len(found.outs), len(found.outs) - len(found.lost), len(found.lost)))
                self.assertEqual(numbers(found.outs), list(range(len(found.outs))))
                least = found.tightest(1)[0]
                self.assertEqual((least.slack, least.place, least.number), found.least)

    def test_without_its_kernel(self):
        found = Trace.read((EXAMPLES / "too_late.trace").read_text())
        self.assertEqual((found.end, found.exception), ("raised RTIOUnderflow", "RTIOUnderflow"))
        self.assertEqual(found.end_place.line, Line("<kernel>", 5, ""))
        with self.assertRaises(ValueError):
            found.annotate()

    def test_lines_of_another_kind(self):
        rows = ("", "4", "4 0 jump", "x 0 counter", "4 0 wait", "4 0 reset 3", "4 0 out 1 2", "lost 1 2", "least 3")
        for line in (*rows, "4 0 out 0 1000 99 0 1 1000 ok", "lost 0 4 1000 0 gone", "asked 3"):
            with self.subTest(line), self.assertRaises(ValueError):
                Trace.read(line + "\n")


class TraceCase(SimCase):
    needed = ("artiq_trace",)


class Traces(TraceCase):
    def test_the_examples_give_their_traces(self):
        for path, words, _ in kernels_of_examples():
            with self.subTest(path.name):
                found = trace(path, **options_of_words(words))
                self.assertEqual(found.text, path.with_suffix(".trace").read_text())
                self.assertEqual(str(found), found.text)
                self.assertEqual(found.ok, found.status == 0)

    def test_the_words_and_the_sum_of_the_text(self):
        found = trace(TIGHT, cost=400, lanes=8, edges={"in1": [9]})
        self.assertEqual(found.words, ("--cost", "400", "--edges", "25:9:r"))
        summed = subprocess.run(["sha256sum"], input=TIGHT.encode(), capture_output=True, check=True)
        self.assertEqual(found.kernel_sha256, summed.stdout.decode().split()[0])

    def test_slack(self):
        found = trace(TIGHT, cost=400)
        self.assertEqual([(it.counter, it.stamp, it.slack) for it in found.outs], [
            (0, 1000, 1000), (400, 1100, 700), (800, 1200, 400), (1200, 1300, 100),
        ])  # fmt: skip
        self.assertEqual([(it.place.line.number, it.place.main.number) for it in found.outs], [(2, 8), (4, 8), (2, 10), (4, 10)])
        self.assertEqual(numbers(found.tightest()), [3, 2, 1, 0])
        self.assertEqual(numbers(found.tightest(2)), [3, 2])
        self.assertEqual(found.least[::2], (100, 3))

    def test_of_equal_slacks_the_first_is_the_tightest(self):
        found = trace("def main():\n    at_mu(1000)\n    ttl0.on()\n    ttl1.on()\n")
        self.assertEqual(numbers(found.tightest(1)), [0])

    def test_the_lines_of_the_text(self):
        rows = trace(TIGHT, cost=400).by_line()
        self.assertEqual([row.line for row in rows], [Line("<kernel>", 2, "    ttl0.on()"), Line("<kernel>", 4, "    ttl0.off()")])
        self.assertEqual([(row.outputs, row.least, row.lost, row.reasons) for row in rows], [(2, 400, 0, ()), (2, 100, 0, ())])
        self.assertEqual(trace(TIGHT, cost=400).annotate() + "\n", ANNOTATED)

    def test_what_is_lost(self):
        found = trace(FATES)
        self.assertEqual([(it.number, it.reason, it.by) for it in found.lost], [(0, "over", 1), (2, "col", None), (3, "rst", None)])
        self.assertEqual([it.place.line.number for it in found.lost], [3, 6, 8])
        self.assertEqual((found.status, found.ok, numbers(found.missing)), (7, False, [2, 3]))
        self.assertEqual(found.why_not_ok(), "outputs that are missing: 2, the first by col: number 2 on ttl0 at 1004 mu")
        self.assertEqual(found.fault.line.number, 6)
        rows = [(row.line.number, row.outputs, row.lost, row.reasons) for row in found.by_line()]
        self.assertEqual(rows, [(3, 1, 1, ("over",)), (4, 1, 0, ()), (6, 1, 1, ("col",)), (8, 1, 1, ("rst",)), (11, 2, 0, ())])
        self.assertIn("   6        1    1004    1 col      ttl0.off()\n", found.annotate())

    def test_the_other_reasons(self):
        rows = [
            (EXAMPLES / "busy_shutter.py", {"hold": {"ttl0": 10}}, [(3, "busy", 7)], 7),
            (EXAMPLES / "collisions.py", {}, [(0, "over", 6), (3, "col", 11), (5, "col", 14), (14, "seq", 24)], 7),
            (EXAMPLES / "pair_of_pulses.py", {"horizon": 100}, [(0, "pend", 4), (1, "pend", 6)], 7),
            (EXAMPLES / "late_pulse.py", {}, [(2, "late", 10)], 0),
        ]
        for path, options, lost, status in rows:
            with self.subTest(path.name):
                found = trace(path, **options)
                self.assertEqual([(it.number, it.reason, it.place.line.number) for it in found.lost], lost)
                self.assertEqual((found.status, found.ok), (status, status == 0))

    def test_where_a_run_stopped(self):
        rows = [
            ("def main():\n    ttl0.on()\n", {}, "raised RTIOUnderflow", 2, 6),
            ("def main():\n    at_mu(1000)\n    while True:\n        ttl0.pulse_mu(8)\n", {"budget": 1}, "budget 1", 4, 7),
            ("def main():\n    at_mu(8)\n    core.wait_until_mu(2000)\n", {"horizon": 200}, "horizon 200", 3, 7),
            ("def main():\n    x = 0\n    x = 1 // x\n", {}, "raised ZeroDivisionError", 3, 6),
        ]
        for text, options, end, line, status in rows:
            with self.subTest(end):
                found = trace(text, **options)
                self.assertEqual((found.end, found.end_place.line.number, found.status), (end, line, status))
                self.assertEqual((found.returned, found.ok, found.fault), (False, False, found.end_place))
                self.assertTrue(found.why_not_ok().startswith(f"the kernel ended by {end}"))
                self.assertEqual(found.annotate().splitlines()[-1], f"ended by {end}: {found.end_place}")

    def test_requests_other_than_outputs(self):
        found = trace(REQUESTS, edges={"in0": [126_000]})
        wanted = [
            ("reset", 2, {}),
            ("save", 3, {"name": "pair", "events": 2, "length": 80, "how": "ok"}),
            ("fetch", 5, {"name": "pair", "events": 2, "length": 80}),
            ("handle", 6, {"name": "pair", "handle": 4096}),
            ("erase", 7, {"name": "pair", "how": "ok"}),
            ("fetch_handle", 9, {"handle": 4096, "events": None, "length": None}),
            ("data", 11, {"name": "gone", "value": 4096}),
            ("fetch", 13, {"name": "pair", "events": None, "length": None}),
            ("edge", 17, {"channel": 24, "upto": 126_080, "stamp": 126_000}),
            ("edge", 17, {"channel": 24, "upto": 126_080, "stamp": None}),
            ("data", 18, {"name": "a", "value": [126_000, -1]}),
            ("wait", 19, {"until": 126_084}),
            ("counter", 20, {}),
        ]
        others = [it for it in found.requests if it.kind != "out"]
        self.assertEqual([(it.kind, it.place.line.number, it.values) for it in others], wanted)
        self.assertEqual([it.place.line.number for it in found.outs], [5, 5, 16, 16])

    def test_an_edge_that_was_lost(self):
        text = (
            "def main():\n    core.reset()\n    end = in0.gate_rising_mu(1000)\n    core.wait_until_mu(end)\n"
            "    try:\n        n = in0.count(end)\n    except RTIOOverflow:\n        pass\n"
        )
        found = trace(text, edges={"in0": range(125_008, 125_528, 8)})
        self.assertEqual([it.values["stamp"] for it in found.requests if it.kind == "edge"], ["lost"])

    def test_no_output_at_all(self):
        found = trace("def main():\n    pass\n")
        self.assertEqual((found.least, found.tightest(), found.by_line(), found.counts), (None, [], [], (0, 0, 0)))
        before = " " * 25
        self.assertEqual(found.annotate(), f"line  outputs  slack   lost\n   1{before}def main():\n   2{before}    pass")
        self.assertEqual(len(found.outputs), 0)


class Arrays(TraceCase):
    def setUp(self):
        if numpy_or_none() is None:
            self.skipTest("numpy isn't installed: outputs are tuples")

    def test_outputs_are_a_record_array(self):
        outputs = trace(TIGHT, cost=400).outputs
        self.assertEqual((outputs.shape, outputs.line.tolist(), outputs.main.tolist()), ((4,), [2, 4, 2, 4], [8, 8, 10, 10]))
        self.assertEqual((outputs.slack.tolist(), outputs.counter.tolist()), ([1000, 700, 400, 100], [0, 400, 800, 1200]))
        self.assertEqual((outputs["data"].tolist(), set(outputs.how), set(outputs.name)), ([1, 0, 1, 0], {"ok"}, {"ttl0"}))
        self.assertEqual((outputs.slack.dtype, outputs[outputs.slack < 500].number.tolist()), (numpy_or_none().int64, [2, 3]))
        self.assertEqual(trace("def main():\n    at_mu(8)\n    ttl0.on()\n").outputs.main.tolist(), [0])

    def test_a_slack_of_more_than_64_bits(self):
        text = "def main():\n    core.wait_until_mu(1000)\n    at_mu(-9223372036854775807 - 1)\n    ttl0.on()\n"
        found = trace(text)
        self.assertEqual(found.least.slack, -9_223_372_036_854_776_808)
        self.assertEqual(found.outputs.slack.tolist(), [-9_223_372_036_854_776_808])

    def test_without_numpy_the_same_are_tuples(self):
        found = trace(TIGHT)
        with mock.patch.dict("sys.modules", {"numpy": None}):
            self.assertEqual(found.outputs, list(found.outs))


class Places(TraceCase):
    """Lines are those of the user's own text, file or function."""

    def test_a_function_of_the_text_that_is_called(self):
        # The call stands behind the text, in line 9 of what the program gets.
        text = "def pulse(t: int64):\n    ttl0.pulse_mu(t)\n\ndef shot(t: int64):\n    at_mu(t)\n    ttl1.on()\n    pulse(t)\n"
        found = trace(text, call="shot", args=[1000])
        self.assertEqual([str(it.place) for it in found.outs], ["<kernel>:6: ttl1.on()", *["<kernel>:2: ttl0.pulse_mu(t)"] * 2])
        self.assertEqual({it.place.main for it in found.requests}, {None})
        self.assertTrue(found.text.startswith("6<9 0 out 0 1000 1 0 1 1000 ok\n"), found.text)
        self.assertNotIn("<call>", found.annotate())
        self.assertEqual(len(found.annotate().splitlines()), 1 + 7 + 1)

    def test_a_call_that_used_up_its_units(self):
        found = trace("def shot():\n    at_mu(8)\n    ttl0.on()\n", call="shot", budget=1)
        self.assertEqual((found.end, found.end_place.line.number, found.end_place.main), ("budget 1", 3, None))

    def test_a_file(self):
        with tempfile.TemporaryDirectory() as folder:
            path = pathlib.Path(folder) / "tight.py"
            path.write_text(TIGHT)
            place = trace(path, cost=400).least.place
        self.assertEqual(str(place), f"{path}:4: ttl0.off(), called from {path}:10: flash(100)")

    def test_a_python_function_that_names_another(self):
        lines = pathlib.Path(later_kernels.__file__).read_text().splitlines()
        found = trace(later_kernels.twice)
        self.assertEqual([it.stamp for it in found.outs], [8, 24])
        for output in found.outs:
            self.assertEqual((output.place.main, output.place.line.file), (None, later_kernels.__file__))
            self.assertEqual(lines[output.place.line.number - 1], "    ttl0.on()")
        self.assertEqual(sum("ttl0.on()" in line for line in found.annotate().splitlines()[:-1]), 1)
        self.assertNotIn("later_kernels.py:", found.annotate().partition("* slack")[0])

    def test_a_main_of_one_file_that_names_a_function_of_another(self):
        found = trace(main)
        first, second = (output.place for output in found.outs)
        self.assertEqual((first.line.file, first.line.source), (later_kernels.__file__, "    ttl0.on()"))
        self.assertEqual((first.main.file, first.main.source), (__file__, "    once(16)"))
        self.assertEqual((second.line, second.main), (Line(__file__, first.main.number + 1, "    ttl1.on()  # noqa: F821"), None))
        named = [line for line in found.annotate().splitlines() if line.endswith(".py:")]
        self.assertEqual(named, [f"{later_kernels.__file__}:", f"{__file__}:"])

    def test_a_fault_is_told_as_run_tells_it(self):
        with self.assertRaises(KernelError) as raised:
            trace(later_kernels.Scan.misspelt)
        self.assertEqual((pathlib.Path(raised.exception.file).name, raised.exception.column), ("later_kernels.py", 9))


class Refused(TraceCase):
    def test_faulty_options_are_named(self):
        rows = [
            ("cost", -1), ("lanes", 33), ("depth", 0), ("horizon", 0), ("budget", 0), ("schedule", "fast"),
            ("edges", {"ttl0": [8]}), ("hold", {"ttl16": 4}), ("recordings", {"pulse": "0A"}), ("call", "my shot"), ("args", [1]),
        ]  # fmt: skip
        for name, value in rows:
            with self.subTest(name), self.assertRaises(OptionError) as raised:
                trace(TIGHT, **{name: value})
            self.assertEqual(raised.exception.option, name)

    def test_it_takes_no_dma(self):
        with self.assertRaises(TypeError):
            trace(TIGHT, dma=True)

    def test_a_program_that_is_not_built(self):
        with tempfile.TemporaryDirectory() as folder, mock.patch.dict(os.environ, {programs.FOLDER_VARIABLE: folder}):
            with self.assertRaises(ProgramMissing) as raised:
                trace(TIGHT)
        self.assertIn("artiq_trace", str(raised.exception))

    def test_options_are_those_of_run(self):
        found = trace(TIGHT, cost=400, schedule="letters:c", lanes=2, depth=1, budget=20, horizon=500, hold={"ttl0": 0})
        words = ("--cost", "400", "--lanes", "2", "--depth", "1", "--horizon", "500", "--budget", "20")
        self.assertEqual(found.words, (*words, "--schedule", "letters:c", "--hold", "0:0"))


class Strict(TraceCase):
    needed = ("artiq_sim", "artiq_trace")

    def test_a_trace_raises_where_an_output_is_missing(self):
        with self.assertRaises(NotOk) as raised:
            trace(FATES, strict=True)
        error = raised.exception
        self.assertEqual((error.report, error.trace.status, error.place.line.number), (None, 7, 6))
        self.assertEqual(str(error), f"{error.trace.why_not_ok()}\n<kernel>:6: ttl0.off()")
        self.assertTrue(trace(EXAMPLES / "late_pulse.py", strict=True).ok)

    def test_a_run_names_the_line_of_what_it_tells_first(self):
        rows = [
            (EXAMPLES / "collisions.py", {}, 24),
            (EXAMPLES / "too_late.py", {}, 5),
            (EXAMPLES / "pair_of_pulses.py", {"horizon": 100, "dma": True}, 4),
            (EXAMPLES / "busy_shutter.py", {"hold": {"ttl0": 10}}, 7),
            (FATES, {}, 6),
        ]
        for path, options, line in rows:
            with self.subTest(path):
                with self.assertRaises(NotOk) as raised:
                    run(path, strict=True, **options)
                error = raised.exception
                self.assertEqual((error.place.line.number, error.report.ok), (line, False))
                self.assertEqual(str(error), f"{error.report.why_not_ok()}\n{error.place}")
                again = pickle.loads(pickle.dumps(error))
                self.assertEqual((str(again), again.place, again.trace.text), (str(error), error.place, error.trace.text))

    def test_without_the_program_a_run_names_no_line(self):
        with tempfile.TemporaryDirectory() as folder:
            (pathlib.Path(folder) / "artiq_sim").symlink_to(programs.find("artiq_sim"))
            with mock.patch.dict(os.environ, {programs.FOLDER_VARIABLE: folder}), self.assertRaises(NotOk) as raised:
                run(EXAMPLES / "collisions.py", strict=True)
        error = raised.exception
        self.assertEqual((error.trace, error.place, str(error)), (None, None, error.report.why_not_ok()))


@needs("matplotlib")
class Pictures(unittest.TestCase):
    """What is drawn where, of stored traces. How it looks was looked at."""

    @classmethod
    def setUpClass(cls):
        import matplotlib

        matplotlib.use("Agg")

    def tearDown(self):
        from matplotlib import pyplot

        pyplot.close("all")

    def drawn(self, name):
        """The points of a stored trace's picture, by what the legend calls them, and the axes."""
        axes = Trace.read((EXAMPLES / f"{name}.trace").read_text(), EXAMPLES / f"{name}.py").plot()
        points = {it.get_label(): it.get_offsets().round(6).tolist() for it in axes.collections}
        return {label: [tuple(point) for point in found] for label, found in points.items()}, axes

    def test_slack_over_the_stamp_with_late_ones_marked(self):
        points, axes = self.drawn("late_pulse")
        self.assertEqual(points["late"], [(3.0, -2.0)])
        self.assertEqual(points["6: ttl0.pulse_mu(200)"], [(1.0, 1.0), (1.2, 1.2)])
        self.assertEqual(points["14: ttl1.pulse_mu(200)"], [(130.0, 125.0), (130.2, 125.2)])
        self.assertEqual((axes.get_xlabel(), axes.get_ylabel()), ("time (us)", "slack (us)"))
        self.assertEqual(set(axes.get_lines()[0].get_ydata()), {0.008})

    def test_lines_beyond_the_five_tightest_share_a_colour(self):
        points, _ = self.drawn("collisions")
        self.assertEqual(points["out of sequence"], [(4.0, 4.0)])
        self.assertEqual(len(points["other lines"]), 10)
        self.assertEqual(points["6: ttl0.off()"], [(1.0, 1.0)])

    def test_axes_of_the_caller(self):
        from matplotlib.figure import Figure

        mine = Figure().add_subplot()
        self.assertIs(Trace.read("end ok\nasked 0 out 0 lost 0\n").plot(ax=mine), mine)


if __name__ == "__main__":
    unittest.main()
