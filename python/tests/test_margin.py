"""`slack` and `margin`: the costs were worked out by the rule of docs/TIMELINE.md and docs/SLACK.md."""

import os
import pathlib
import tempfile
import unittest
from unittest import mock

from support import SimCase  # isort: skip  (it shows where the package lies)
from later_kernels import once

from buszlogem import Basis, KernelError, OptionError, Slack, SlackWord, margin, programs, slack, trace

# The third output is asked for when the counter may read 2 * cost, and is late from 1600 on: margin 799.
STEPS = """\
def main():
    at_mu(1000)
    ttl0.on()
    at_mu(1500)
    ttl0.off()
    at_mu(1600)
    ttl0.on()
"""
# The kernel of docs/SLACK.md: there the margin is worked out as 21039.
CATCHING_UP = """\
def main():
    core.reset()
    delay_mu(1000)
    with parallel:
        ttl0.pulse_mu(100)
        with sequential:
            delay_mu(40)
            ttl1.pulse_mu(200)
    core.break_realtime()
    ttl0.on()
"""
# In lockstep `break_realtime` goes with the cost, and the fourth output (126240 mu, asked for at 4 * cost) is late first.
IN_LOCKSTEP = 31_559


class SlackCase(SimCase):
    def test_its_three_answers(self):
        self.assertEqual(slack(STEPS, cost=799), Slack(SlackWord.YES, outputs=3))
        self.assertEqual(slack(STEPS, cost=800), Slack(SlackWord.NO, number=2, stamp=1600, channel=0, limit=1600))
        reading = "def main():\n    core.get_rtio_counter_mu()\n"
        self.assertEqual(slack(reading), Slack(SlackWord.OPEN, requests=0, why="Reading"))

    def test_depth_and_calls(self):
        # With one place in a lane the second output may have to wait up to the cycle before its own.
        kernel = (
            "def shot(gap: int64):\n    at_mu(1000)\n    ttl0.on()\n    at_mu(3000)\n    ttl0.off()\n"
            "    at_mu(3000 - gap)\n    ttl0.on()\n"
        )
        self.assertEqual(slack(kernel, depth=1, call="shot", args=[100]).limit, 2992)
        self.assertEqual(slack(kernel, call="shot", args=[100]).word, "yes")

    def test_what_is_refused(self):
        with self.assertRaises(KernelError):
            slack("def main():\n    tll0.on()\n")
        with self.assertRaises(OptionError):
            slack(STEPS, cost=1_000_001)

    def test_lines_that_slack_does_not_write(self):
        for line in ("", "slack maybe 3", "slack yes", "yes 3"):
            with self.subTest(line), self.assertRaises(ValueError):
                Slack.read(line)


class MarginCase(SimCase):
    needed = ("artiq_sim", "artiq_trace")

    def test_by_slack(self):
        found = margin(STEPS)
        self.assertEqual((found.cost, found.by, found.runs), (799, "slack", 0))
        self.assertEqual((found.stamp, found.channel, found.number), (1600, 0, 2))
        self.assertEqual((found.line.number, found.line.source), (7, "    ttl0.on()"))
        # At 799 it is asked for when the counter reads 1592.
        self.assertEqual((found.tightest.slack, found.tightest.number, found.tightest.place), (8, 2, found.place))
        self.assertEqual(str(found).splitlines(), [
            "margin 799 mu, by slack",
            "the output on ttl0 at 1600 mu is the first to be too late",
            "<kernel>:7: ttl0.on()",
            "at 799 mu it is the tightest, with a slack of 8 mu",
        ])  # fmt: skip

    def test_slack_asks_for_more_than_a_run_does(self):
        found = margin(CATCHING_UP)
        self.assertEqual((found.cost, found.by, found.stamp), (21_039, "slack", 126_240))
        # Two outputs have this stamp; on ttl0 it is the last line's, though in lockstep it isn't late there.
        self.assertEqual((found.channel, found.line.number), (0, 10))
        # In lockstep the fourth output is the tightest: it is asked for at 4 * 21039, when the counter reads 84152.
        self.assertEqual((found.tightest.slack, found.tightest.number, found.tightest.place.line.number), (42_088, 3, 8))
        self.assertEqual(str(found).splitlines()[3:], [
            "at 21039 mu the output on ttl1 at 126240 mu is the tightest, with a slack of 42088 mu",
            "<kernel>:8: ttl1.pulse_mu(200)",
        ])  # fmt: skip

    def test_by_runs_where_slack_is_open(self):
        found = margin(CATCHING_UP + '    set_dataset("d", now_mu())\n')
        self.assertEqual((found.cost, found.by, found.verdict.why), (IN_LOCKSTEP, "runs", "Span"))
        self.assertEqual((found.stamp, found.channel, found.number, found.line.number), (126_240, 1, 3, 8))
        # At 4 * 31559 the counter reads 126232.
        self.assertEqual((found.tightest.slack, found.tightest.place), (8, found.place))

    def test_by_runs_where_they_are_wanted(self):
        self.assertEqual(margin(CATCHING_UP, by="runs").cost, IN_LOCKSTEP)
        self.assertEqual(margin(STEPS, by=Basis.RUNS).cost, 799)

    def test_a_gate_whose_photon_comes(self):
        # The photon is read when the counter reads 126000. The pulse is asked for one cost later, and is late from 126400 on; its
        # end is asked for two costs later, and is late from 126900 on.
        kernel = """\
def main():
    core.reset()
    end = in0.gate_rising_mu(10_000)
    photon = in0.timestamp_mu(end)
    at_mu(photon + 400)
    ttl0.pulse_mu(500)
"""
        found = margin(kernel, edges={"in0": [126_000]})
        self.assertEqual((found.by, found.verdict.why, found.verdict.requests), ("runs", "Edge", 3))
        self.assertEqual((found.cost, found.stamp, found.line.number), (399, 126_400, 6))
        self.assertEqual((found.tightest.stamp, found.tightest.slack, found.tightest.place), (126_400, 8, found.place))

    def test_several_schedules(self):
        # docs/OPTIONS.md: in time in lockstep at cost 16, and late where the second reading comes early.
        kernel = "def main():\n    core.get_rtio_counter_mu()\n    at_mu(core.get_rtio_counter_mu() + 25)\n    ttl0.on()\n"
        alone = margin(kernel)
        both = margin(kernel, schedules=["lockstep", "letters:cctttt"])
        self.assertGreaterEqual(alone.cost, 16)
        self.assertLess(both.cost, 16)
        # The tightest of both orders, at that cost.
        slacks = [trace(kernel, cost=both.cost, schedule=it).least.slack for it in ("lockstep", "letters:cctttt")]
        self.assertEqual(both.tightest.slack, min(slacks))

    def test_late_at_no_cost(self):
        found = margin("def main():\n    ttl0.on()\n")
        self.assertEqual((found.cost, found.by, found.stamp, found.line.number), (None, "slack", 0, 2))
        self.assertIsNone(found.tightest)
        self.assertIn("too late at cost 0", str(found))
        self.assertIsNone(margin("def main():\n    ttl0.on()\n", by="runs").cost)

    def test_no_output_at_all(self):
        for by in (None, "runs"):
            found = margin("def main():\n    pass\n", by=by)
            self.assertEqual((found.cost, found.stamp, found.line, found.tightest), (1_000_000, None, None, None))

    def test_calls_and_python_functions(self):
        # One output, asked for before any cost.
        found = margin(once, args=[8])
        self.assertEqual((found.cost, found.tightest.slack, found.tightest.place.line.source), (1_000_000, 8, "    ttl0.on()"))
        self.assertTrue(str(found).startswith("no output is too late up to a cost of 1000000 mu, by slack\nat 1000000 mu the output"))
        found = margin(once, args=[7])
        self.assertEqual((found.cost, found.line.source), (None, "    ttl0.on()"))

    def test_what_is_refused(self):
        with self.assertRaises(KernelError):
            margin("def main():\n    tll0.on()\n")
        for options in ({"depth": 0}, {"by": "runs", "lanes": 33}):
            with self.subTest(options), self.assertRaises(OptionError):
                margin(STEPS, **options)

    def test_an_underflow_that_the_kernel_takes(self):
        # The second output is late from a cost of 8 on, and the kernel takes it; slack counts it, and runs don't.
        kernel = (
            "def main():\n    at_mu(8)\n    ttl0.on()\n    try:\n        ttl1.on()\n    except RTIOUnderflow:\n        pass\n"
        )
        found = margin(kernel)
        self.assertEqual((found.cost, found.line.number), (7, 5))
        found = margin(kernel, by="runs")
        self.assertEqual((found.cost, found.tightest.how, found.tightest.place.line.number), (1_000_000, "late", 5))


class WithoutTheTrace(SimCase):
    def test_the_cost_is_told_and_no_line(self):
        with tempfile.TemporaryDirectory() as folder:
            (pathlib.Path(folder) / "artiq_sim").symlink_to(programs.find("artiq_sim"))
            with mock.patch.dict(os.environ, {programs.FOLDER_VARIABLE: folder}), self.assertWarnsRegex(UserWarning, "artiq_trace"):
                slack_, runs = margin(STEPS), margin(STEPS, by="runs")
        for found in (slack_, runs):
            self.assertEqual((found.cost, found.stamp, found.line, found.tightest), (799, 1600, None, None))
        self.assertEqual((slack_.channel, runs.channel), (0, None))


# Each kernel is late, and the line that puts the late output out is the one with the remark.
TIGHTEST = {
    "in a function": """\
def flash():
    ttl0.on()
    ttl1.on()  # here

def main():
    at_mu(16)
    flash()
    flash()
""",
    "in a loop's body": """\
def main():
    at_mu(8)
    for k in range(3):
        ttl0.on()  # here
        delay_mu(-8)
""",
    "a playback": """\
def main():
    with core_dma.record("p"):
        ttl0.on()
    at_mu(7)
    core_dma.playback("p")  # here
""",
    "behind one that is taken": """\
def main():
    try:
        ttl0.on()
    except RTIOUnderflow:
        pass
    ttl1.on()  # here
""",
    "in two lines": """\
def main():
    raw0.write(  # here
        1, 2
    )
""",
    "in a parallel block": """\
def main():
    with parallel:
        delay_mu(100)
        in0.gate_rising_mu(8)  # here
""",
}


class Lines(SimCase):
    needed = ("artiq_sim", "artiq_trace")

    def test_the_line(self):
        for name, kernel in TIGHTEST.items():
            cost = 10 if name == "in a function" else 0
            lines = kernel.split("\n")
            wanted = next(place + 1 for place, line in enumerate(lines) if "# here" in line)
            with self.subTest(name):
                found = margin(kernel, by="runs")
                self.assertLessEqual(-1 if found.cost is None else found.cost, cost)
                self.assertEqual(found.line.number, wanted)

    def test_the_line_that_slack_means(self):
        for name, kernel in TIGHTEST.items():
            if name == "behind one that is taken":
                continue  # slack names the output that the kernel takes.
            lines = kernel.split("\n")
            wanted = next(place + 1 for place, line in enumerate(lines) if "# here" in line)
            with self.subTest(name):
                found = margin(kernel)
                self.assertEqual((found.by, found.line.number), ("slack", wanted))

    def test_a_call_in_the_head_of_a_loop(self):
        kernel = "def main():\n    while in0.gate_rising_mu(8) < 0:\n        pass\n"
        for by in (None, "runs"):
            found = margin(kernel, by=by)
            self.assertEqual((found.cost, found.line.number), (None, 2))


if __name__ == "__main__":
    unittest.main()
