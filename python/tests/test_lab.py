"""Days of the laboratory: sessions give their reports, a `Day` gives its session, and each failure has its why."""

import json
import pathlib
import tempfile
import unittest

from installed import needs
from support import EXAMPLES, SimCase  # isort: skip  (it shows where the package lies)
from later_kernels import Scan, once

from buszlogem import Day, FailureKind, KernelError, LabReport, OptionError, RunStatus, SessionError, laboratory, steps

DAYS = ("day_of_one_trap", "day_of_two_traps", "scan_with_calibration")

PULSE = """\
def pulse(length: int64):
    core.break_realtime()
    ttl0.pulse_mu(length)

def main():
    pulse(100)
"""


def one_experiment(run, source=PULSE, prepare=(), analyze=(), **settings):
    """A day with one experiment, which is submitted once."""
    day = Day(**settings)
    day.experiment("only", source, run=run, prepare=prepare, analyze=analyze)
    day.submit("only")
    return day


class Stored(unittest.TestCase):
    """Reports that lie in examples/, read without a program."""

    def report(self, name):
        session = json.loads((EXAMPLES / f"{name}.json").read_text())
        return LabReport.read((EXAMPLES / f"{name}.report").read_text(), session)

    def test_runs_with_their_experiments(self):
        # The order of submission: by arrivals of docs and steps; run 6 of the second day is submitted by a step at clock 10.
        one, two = self.report("day_of_one_trap"), self.report("day_of_two_traps")
        self.assertEqual([run.experiment for run in one.runs], [0, 1, 3, 2, 0, 1])
        self.assertEqual([run.experiment for run in two.runs], [0, 2, 1, 3, 0, 4, 3, 3])
        self.assertEqual([run.pipeline for run in two.runs], [0, 1, 0, 0, 1, 1, 1, 1])
        self.assertEqual([run.priority for run in one.runs], [0, 10, 0, 1, -1, 0])

    def test_steps_datasets_and_cores(self):
        report = self.report("day_of_one_trap")
        self.assertEqual(report.steps[2], (3, 0, 2, "paused"))
        self.assertEqual([len(run.steps) for run in report.runs], [8, 2, 1, 0, 2, 2])
        self.assertEqual(report.datasets["calibrated"], (1, True, True, False))
        self.assertEqual(report.datasets["waits"], ([], True, False, True))
        self.assertEqual(report.runs[2].status, "failed")
        core = report.cores[0]
        self.assertEqual(core.outs[0], (125_000, 0, "ttl0", 0, 1))
        self.assertEqual((len(core.outs), core.lost, core.pends), (41, (), ()))
        self.assertEqual((core.cursor, core.counter, len(core.edges)), (833_844, 833_856, 14))

    def test_an_exception_of_several_words(self):
        report = self.report("day_of_two_traps")
        self.assertEqual(report.steps[14], (15, 1, 0, "raised RTIOUnderflow"))

    def test_lines_of_another_kind(self):
        with self.assertRaises(ValueError):
            LabReport.read("lanes 1 2\n", {"pipelines": [{}], "sources": [], "experiments": [], "arrivals": []})


class Days(unittest.TestCase):
    """What a `Day` builds, without a program."""

    def test_the_session_of_a_day(self):
        day = Day(cost=8, workers=2)
        day.pipeline("trap", edges={"in0": [130, (140, "f")], "in1": [135]})
        day.pipeline("oven")
        day.experiment(
            "scan",
            PULSE,
            prepare=[steps.set_dataset("waits", [], broadcast=True)],
            run=[
                *steps.loop([1, 2], lambda wait: [steps.kernel("pulse", wait), steps.pause()]),
                steps.submit("load", pipeline="oven"),
            ],
            analyze=[steps.sum_into("waits", "waited")],
        )
        day.experiment("load", PULSE, run=[steps.kernel("main"), steps.check_termination(), steps.append("waits", 3)])
        day.submit("load", at=5, priority=2, flush=True)
        day.submit("scan", pipeline="oven", due=7)
        day.terminate(1, at=9)
        day.delete(0, at=8)
        flags = {"broadcast": True, "persist": False, "archive": True}
        submit = {"experiment": 1, "pipeline": 1, "priority": 0, "due": 0, "flush": False}
        wanted = {
            "cost": 8, "budget": 20_000, "workers": 2, "lanes": 8, "depth": 128, "horizon": 134_217_728,
            "pipelines": [{"edges": [[24, 130, "r"], [25, 135, "r"], [24, 140, "f"]]}, {"edges": []}],
            "sources": [PULSE],
            "experiments": [
                {
                    "source": 0,
                    "prepare": [{"set": "waits", "value": [], **flags}],
                    "run": [
                        {"kernel": "pulse", "args": [1]}, {"pause": True}, {"kernel": "pulse", "args": [2]}, {"pause": True},
                        {"submit": submit},
                    ],
                    "analyze": [{"sum": "waits", "into": "waited"}],
                },
                {
                    "source": 0,
                    "prepare": [],
                    "run": [{"kernel": "main", "args": []}, {"check_termination": True}, {"append": "waits", "value": 3}],
                    "analyze": [],
                },
            ],
            "arrivals": [
                {"at": 0, "submit": {"experiment": 0, "pipeline": 1, "priority": 0, "due": 7, "flush": False}},
                {"at": 5, "submit": {"experiment": 1, "pipeline": 0, "priority": 2, "due": 0, "flush": True}},
                {"at": 8, "delete": 0},
                {"at": 9, "terminate": 1},
            ],
        }  # fmt: skip
        self.assertEqual(day.session(), wanted)
        self.assertEqual(json.loads(day.json()), wanted)

    def test_sources_by_path(self):
        day = one_experiment([steps.kernel("shot", 1000)], source=EXAMPLES / "ramsey_scan.py")
        day.experiment("again", str(EXAMPLES / "ramsey_scan.py"), run=[steps.kernel("main")])
        self.assertEqual(day.session()["sources"], [(EXAMPLES / "ramsey_scan.py").read_text()])

    def test_names_that_are_not_there(self):
        day = one_experiment([steps.kernel("main")])
        day.submit("other")
        with self.assertRaises(KeyError):
            day.session()
        day = one_experiment([steps.submit("only", pipeline="oven")])
        with self.assertRaises(KeyError):
            day.session()

    def test_names_that_are_taken(self):
        day = one_experiment([steps.kernel("main")])
        with self.assertRaises(ValueError):
            day.experiment("only", PULSE, run=[steps.kernel("main")])
        day.pipeline("trap")
        with self.assertRaises(ValueError):
            day.pipeline("trap")

    def test_a_loop_that_is_too_long(self):
        with self.assertRaises(ValueError) as raised:
            one_experiment(steps.loop(range(17), lambda wait: [steps.kernel("pulse", wait)]))
        self.assertIn("experiment 'only': run has 17 steps of at most 16", str(raised.exception))

    def test_edges_that_are_none(self):
        with self.assertRaises(OptionError):
            Day().pipeline("trap", edges={"ttl0": [8]})

    @needs("numpy")
    def test_numbers_of_numpy(self):
        import numpy

        step = steps.set_dataset("waits", numpy.arange(3))
        self.assertEqual(json.dumps([step["value"], steps.kernel("pulse", numpy.int64(7), True)["args"]]), "[[0, 1, 2], [7, 1]]")


class Laboratory(SimCase):
    needed = ("artiq_lab",)

    def test_the_days_of_the_examples(self):
        for name in DAYS:
            with self.subTest(name):
                self.assertEqual(laboratory(EXAMPLES / f"{name}.json").text, (EXAMPLES / f"{name}.report").read_text())

    def test_a_day_a_dict_a_text_and_a_file(self):
        day = one_experiment([steps.kernel("pulse", 200)])
        with tempfile.TemporaryDirectory() as folder:
            file = pathlib.Path(folder) / "day.json"
            day.write(file)
            reports = [laboratory(it) for it in (day, day.session(), day.json(), file, str(file))]
        self.assertEqual(len({report.text for report in reports}), 1)
        self.assertTrue(reports[0].ok)
        self.assertEqual([output.stamp for output in reports[0].cores[0].outs], [125_000, 125_200])
        self.assertEqual([report.runs[0].name for report in reports[:2]], ["only", "experiment 0"])

    def test_a_function_with_parameters(self):
        report = laboratory(one_experiment([steps.kernel("once", 1000), steps.kernel("once", 2000)], source=once))
        self.assertEqual([output.stamp for output in report.cores[0].outs], [1000, 2000])

    def test_edges_and_datasets(self):
        counting = (
            "def main():\n    core.break_realtime()\n    end = in0.gate_rising_mu(1000)\n"
            '    set_dataset("photons", in0.count(end))\n'
        )
        day = Day()
        day.pipeline("trap", edges={"in0": [125_010, 125_020]})
        day.experiment("count", counting, run=[steps.kernel("main")])
        day.submit("count")
        report = laboratory(day)
        self.assertEqual(report.data["photons"], 2)
        self.assertEqual(report.runs[0].pipeline_name, "trap")

    def test_a_pause_for_a_run_of_higher_priority(self):
        day = Day()
        day.experiment("scan", PULSE, run=[steps.kernel("main"), steps.pause(), steps.kernel("main")])
        day.experiment("calibration", PULSE, run=[steps.kernel("main")])
        day.submit("scan")
        day.submit("calibration", at=1, priority=1)
        report = laboratory(day)
        self.assertEqual([(step.run, step.word) for step in report.steps], [(0, "ok"), (0, "paused"), (1, "ok"), (0, "ok")])
        self.assertEqual([run.status for run in report.runs], [RunStatus.DONE, RunStatus.DONE])

    def test_sessions_that_are_refused(self):
        day = one_experiment([steps.kernel("main")])
        rows = [
            (lambda it: it.update(workers=0), "workers", "Range", 0),
            (lambda it: it["arrivals"][0].pop("submit"), "arrivals[0]", "Missing", {"at": 0}),
            (lambda it: it["experiments"][0].update(source=1), "experiments[0].source", "Index", 1),
            (lambda it: it["experiments"][0]["run"].append({"pause": False}), "experiments[0].run[1].pause", "Range", False),
            (lambda it: it.update(cots=8), "cots", "Unknown", 8),
            (lambda it: it["pipelines"][0].update(edges=[[24, 9]]), "pipelines[0].edges[0]", "Range", [24, 9]),
            (lambda it: it.update({"the cost": 8}), "the cost", "Unknown", 8),
            (lambda it: it.update({"": 8}), "", "Unknown", 8),
        ]
        for damage, path, kind, value in rows:
            session = day.session()
            damage(session)
            with self.subTest(path), self.assertRaises(SessionError) as raised:
                laboratory(session)
            self.assertEqual((raised.exception.path, raised.exception.kind, raised.exception.value), (path, kind, value))
            self.assertIn(path, str(raised.exception))

    def test_a_text_that_is_no_json(self):
        rows = [
            ('{"workers": 1', "Expecting ',' delimiter"),
            (b"", "Expecting value"),
            (b'{"workers": "\xff"}', "can't decode byte 0xff"),
            ({"workers": float("nan")}, "NaN or Infinity"),
            ('{"workers": "\ud800"}', ""),
        ]
        for text, said in rows:
            with self.subTest(text), self.assertRaises(SessionError) as raised:
                laboratory(text)
            self.assertEqual((raised.exception.kind, raised.exception.told), ("json", "session json"))
            self.assertIn(said, str(raised.exception))

    def test_a_text_of_something_else(self):
        with self.assertRaises(SessionError) as raised:
            laboratory(b"[1]")
        self.assertEqual((raised.exception.path, raised.exception.kind), ("session", "Type"))

    def test_a_fault_is_told_with_the_names_of_the_day(self):
        with self.assertRaises(SessionError) as raised:
            laboratory(one_experiment([steps.kernel("main"), steps.append("my waits", 1)]))
        self.assertIn("experiments[0] (only).run[1].append: Range", str(raised.exception))

    def test_a_file_that_is_not_there(self):
        with self.assertRaises(FileNotFoundError):
            laboratory("nothing.json")


# What fails, by the day's only experiment: kind, step, and what the sentence has.
FAILURES = [
    ("an exception", dict(run=[steps.kernel("main")], source="def main():\n    ttl0.on()\n"),
     FailureKind.EXCEPTION, 0, "step 0, main(), raised RTIOUnderflow: an output came too late"),
    ("a loop without end", dict(run=[steps.kernel("main")], source="def main():\n    while True:\n        pass\n", budget=60),
     FailureKind.BUDGET, 0, "step 0, main(), used up its 60 units"),
    ("a wait beyond the end", dict(run=[steps.kernel("main")], source="def main():\n    core.wait_until_mu(9000)\n", horizon=100),
     FailureKind.HORIZON, 0, "step 0, main(), waited up to the last cycle of its core, 100, which is 800 mu"),
    ("no such function", dict(run=[steps.pause(), steps.kernel("shot", 1)]),
     FailureKind.FUNCTION, 1, "step 1, shot(1), names no function of its source, which has pulse, main"),
    ("too few arguments", dict(run=[steps.kernel("pulse")]),
     FailureKind.ARGUMENTS, 0, "step 0, pulse(), has 0 arguments, and the function has length: int64"),
    ("an argument of more than 32 bits", dict(run=[steps.kernel("main"), steps.kernel("wait", 2**31)],
                                              source="def wait(t: int32):\n    delay_mu(t)\n\ndef main():\n    pass\n"),
     FailureKind.ARGUMENTS, 1, "has 2147483648 for t, which takes -2147483648 to 2147483647 (int32)"),
    ("a truth value of 2", dict(run=[steps.kernel("light", 2)],
                                source="def light(on: bool):\n    pass\n\ndef main():\n    pass\n"),
     FailureKind.ARGUMENTS, 0, "has 2 for on, which takes 0 to 1 (bool)"),
    ("an append to nothing", dict(run=[steps.kernel("main"), steps.append("log", 7)]),
     FailureKind.DATASET, 1, "step 1, append 7 to log, failed"),
    ("a sum of nothing, in preparation", dict(run=[steps.kernel("main")], prepare=[steps.sum_into("log", "total")]),
     FailureKind.DATASET, None, "its preparation failed: sum of log into total, which wasn't set"),
    ("a sum of nothing, in analysis", dict(run=[steps.kernel("main")], analyze=[steps.sum_into("log", "total")]),
     FailureKind.DATASET, None, "its analysis failed: sum of log into total, which wasn't set"),
]  # fmt: skip


class Failures(SimCase):
    """A refused source is asked about of `artiq_sim`, so both programs are needed."""

    needed = ("artiq_sim", "artiq_lab")

    def test_each_kind(self):
        for name, day, kind, step, said in FAILURES:
            with self.subTest(name):
                failure = laboratory(one_experiment(**day)).failures[0]
                self.assertEqual((failure.kind, failure.step, failure.experiment), (kind, step, "only"))
                self.assertIn(said, failure.why)

    def test_a_refused_source(self):
        with tempfile.TemporaryDirectory() as folder:
            file = pathlib.Path(folder) / "scan.py"
            file.write_text("def main():\n    core.break_realtime()\n    ttl16.on()\n")
            failure = laboratory(one_experiment([steps.kernel("main")], source=file)).failures[0]
        self.assertEqual(failure.kind, FailureKind.SOURCE)
        self.assertIsInstance(failure.error, KernelError)
        self.assertEqual((failure.error.line, failure.error.column, failure.error.kind), (3, 5, "type Unknown"))
        self.assertIn(f"{file}:3:5: type Unknown: ", str(failure))
        self.assertIn("    ttl16.on()\n    ^", str(failure))

    def test_a_refused_function(self):
        failure = laboratory(one_experiment([steps.kernel("misspelt")], source=Scan.misspelt)).failures[0]
        self.assertEqual((failure.error.line, failure.error.source), (25, "        tll0.on()"))
        self.assertTrue(failure.error.file.endswith("later_kernels.py"), failure.error.file)

    def test_the_65th_run(self):
        # Run 0 submits 16 runs, and so do runs 1 and 2: 49. Run 3 submits 15 more, and its 16th submission is one too many.
        report = laboratory(one_experiment([steps.submit("only")] * 16))
        failure = report.failures[3]
        self.assertEqual((failure.kind, failure.step), (FailureKind.SUBMISSION, 15))
        self.assertEqual(len(report.runs), 64)
        self.assertEqual([run.status for run in report.runs[:4]], ["done", "done", "done", "failed"])

    def test_the_failures_of_a_stored_day(self):
        report = laboratory(EXAMPLES / "day_of_one_trap.json")
        self.assertEqual({run: it.kind for run, it in report.failures.items()}, {2: FailureKind.DATASET, 3: FailureKind.SOURCE})
        self.assertIn("append 1 to log", report.failures[2].why)


if __name__ == "__main__":
    unittest.main()
