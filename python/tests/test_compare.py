"""`compare`, `gates` and `photons`."""

import unittest

from support import EXAMPLES, SimCase

from buszlogem import Report, Sensitivity, compare, gates, photons, run
from buszlogem.gates import Gate, is_seen
from buszlogem.report import Edge, Output

SHOTS = """\
def shots(lead: int64, pulses: int32):
    at_mu(lead)
    for i in range(pulses):
        ttl0.pulse_mu(100)
        ttl1.pulse_mu(50)
        delay_mu(1000)
"""
WINDOWS = """\
def main():
    at_mu(1000)
    in0.gate_rising_mu(2000)
    delay_mu(500)
    in0.gate_both_mu(1000)
    delay_mu(500)
    in0.gate_falling_mu(100)
    in3.gate_rising_mu(50)
"""


def shots(lead, pulses=3):
    return run(SHOTS, call="shots", args=[lead, pulses])


class Comparisons(SimCase):
    def test_the_same(self):
        found = compare(shots(1000), shots(1000))
        self.assertTrue(found.same)
        self.assertEqual([(one.name, one.both) for one in found.channels], [("ttl0", 6), ("ttl1", 6)])
        self.assertEqual(str(found), "the same")

    def test_a_shift(self):
        found = compare(shots(1000), shots(1077))
        self.assertEqual((found.shift, found.same, found.same_but_for_shift), (77, False, True))
        self.assertEqual(compare(shots(1077), shots(1000)).shift, -77)

    def test_a_shift_that_is_given(self):
        found = compare(shots(1000), shots(1077), shift=0)
        self.assertEqual([len(one.only_a) for one in found.channels], [6, 6])

    def test_what_is_missing_at_either_end(self):
        # Three shots and four, which begin a shot of 1150 mu earlier and 77 mu later: the last three of four are the three.
        found = compare(shots(3000), shots(3000 - 1150 + 77, 4))
        self.assertEqual(found.shift, 77)
        self.assertEqual([(len(one.only_a), len(one.only_b), one.both) for one in found.channels], [(0, 2, 6), (0, 2, 6)])
        found = compare(shots(3000, 4), shots(3077, 3))
        self.assertEqual((found.shift, [len(one.only_a) for one in found.channels]), (77, [2, 2]))

    def test_one_output_elsewhere(self):
        report = run(EXAMPLES / "pair_of_pulses.py")
        moved = [report.outs[0], report.outs[1]._replace(stamp=1600)]
        found = compare(report, moved)
        self.assertEqual(found.shift, 0)
        self.assertEqual((found.channels[0].only_a, found.channels[0].only_b), ((report.outs[1],), (moved[1],)))
        self.assertEqual(str(found), "- 1500 ttl0 0 0\n+ 1600 ttl0 0 0")

    def test_the_same_output_twice(self):
        twice = [Output(8, 16, "raw0", 0, 5)] * 2
        found = compare(twice, twice[:1])
        self.assertEqual((found.channels[0].both, len(found.channels[0].only_a)), (1, 1))

    def test_nothing_in_common(self):
        found = compare(shots(1000), run("def main():\n    at_mu(8)\n    ttl5.on()\n"))
        self.assertEqual((found.shift, [one.both for one in found.channels]), (0, [0, 0, 0]))


class Gates(SimCase):
    def test_the_gates_of_a_run(self):
        report = run(WINDOWS)
        wanted = [
            Gate(1000, 3000, Sensitivity.RISING),
            Gate(3500, 4500, Sensitivity.BOTH),
            Gate(5000, 5100, Sensitivity.FALLING),
        ]
        self.assertEqual(gates(report, "in0"), wanted)
        self.assertEqual(gates(report, 27), [Gate(5100, 5150, Sensitivity.RISING)])
        self.assertEqual(gates(report, "in1"), [])
        with self.assertRaises(KeyError):
            gates(report, "ttl0")

    def test_a_gate_that_is_never_closed(self):
        report = Report.read("out 1000 24 2 3\nlanes 1\ncode 1 1\nend ok\ncursor 1000\ncounter 2000\n")
        self.assertEqual(gates(report, "in0"), [Gate(1000, 2008, Sensitivity.BOTH, closed=False)])

    def test_which_edges_are_seen(self):
        # The table of docs/INPUTS_AND_DMA.md.
        late, early = [Gate(1002, 2000, Sensitivity.RISING)], [Gate(1000, 1100, Sensitivity.RISING)]
        rows = [(late, 1001, True, False), (late, 1002, True, True), (late, 1003, True, True)]
        rows += [(early, 1040, True, True), (early, 1040, False, False), (early, 1100, True, False), ([], 1000, True, False)]
        rows += [([Gate(0, 1100, Sensitivity.BOTH)], 7, True, False)]
        for opened, stamp, rises, seen in rows:
            with self.subTest(stamp=stamp, rises=rises):
                self.assertEqual(is_seen(Edge(24, stamp, rises), opened), seen)


class Photons(SimCase):
    COUNT = 'def main():\n    core.reset()\n    end = in0.gate_rising_mu(1_000_000)\n    set_dataset("n", in0.count(end))\n'

    def test_they_are_counted(self):
        first = run(self.COUNT)
        found = photons(first, "in0", 30_000, seed=5)
        second = run(self.COUNT, edges=found)
        self.assertEqual(second.data["n"], len(found["in0"]))
        # 30 are expected, with a deviation of 5.5.
        self.assertTrue(10 <= second.data["n"] <= 50, second.data["n"])

    def test_the_same_seed_gives_the_same(self):
        report = run(WINDOWS)
        self.assertEqual(photons(report, "in0", 1e7, seed=1), photons(report, 24, 1e7, seed=1))
        self.assertNotEqual(photons(report, "in0", 1e7, seed=1), photons(report, "in0", 1e7, seed=2))

    def test_they_lie_in_gates_that_see_rising_edges(self):
        report = run(WINDOWS)
        stamps = photons(report, "in0", 1e8, seed=1)["in0"]
        self.assertEqual(stamps, sorted(set(stamps)))
        self.assertTrue(all(type(stamp) is int and (1000 <= stamp < 3000 or 3500 <= stamp < 4500) for stamp in stamps))
        # 300 are expected.
        self.assertTrue(200 <= len(stamps) <= 400, len(stamps))

    def test_a_rate_for_each_gate(self):
        report = run(WINDOWS)
        stamps = photons(report, "in0", [0, 5e7], seed=3)["in0"]
        self.assertTrue(stamps and all(3500 <= stamp < 4500 for stamp in stamps))
        self.assertEqual(photons(report, "in0", lambda gate: 0 if gate.start == 1000 else 5e7, seed=3)["in0"], stamps)

    def test_rates_that_are_none(self):
        report = run(WINDOWS)
        for rate in (-1, float("nan"), float("inf"), 1.1e9, [1], [1, 2, 3]):
            with self.subTest(rate), self.assertRaises(ValueError):
                photons(report, "in0", rate, seed=1)
        with self.assertRaises(KeyError):
            photons(report, "ttl0", 1, seed=1)

    def test_more_than_a_run_takes(self):
        with self.assertRaises(ValueError):
            photons(run(self.COUNT), "in0", 1e7, seed=1)

    def test_no_gate_no_photon(self):
        self.assertEqual(photons(run(WINDOWS), "in7", 1e9, seed=1), {"in7": []})


if __name__ == "__main__":
    unittest.main()
