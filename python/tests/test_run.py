"""Runs on the real program: what comes out, which options it takes, and where kernels come from."""

import os
import pathlib
import shutil
import subprocess
import sys
import tempfile
import unittest

from support import EXAMPLES, ROOT, SimCase, kernels_of_examples, options_of_words  # isort: skip  (it shows where the package lies)
import later_kernels

import buszlogem
from buszlogem import Edge, OptionError, int32, int64, kernel, programs, run
from buszlogem.command_words import read_edges_word
from buszlogem.options import NUMBERS
from buszlogem.report import CHANNEL_NAMES, channel_number, numpy_or_none

# The kernels of docs/OPTIONS.md.
STEPS = "def main():\n    at_mu(1000)\n    ttl0.on()\n    at_mu(1500)\n    ttl0.off()\n    at_mu(1600)\n    ttl0.on()\n"
YEARS = "def main():\n    at_mu(4_000_000_000_000_000_000)\n    ttl0.on()\n"
FOREVER = "def main():\n    at_mu(1000)\n    while True:\n        ttl0.pulse_mu(100)\n        delay_mu(100)\n"
TODAY = 'def main():\n    with core_dma.record("pulse"):\n        ttl0.pulse_mu(50)\n        delay_mu(30)\n'
TOMORROW = 'def main():\n    at_mu(1000)\n    core_dma.playback("pulse")\n'
PULSE = "020200000050000000000000000000010100001064"
SHOTS = "def shot(wait: int64, count: int32):\n    at_mu(wait)\n    for i in range(count):\n        ttl0.pulse_mu(100)\n"
TOLD = 'def tell(value: int64, really: bool):\n    if really:\n        set_dataset("value", value)\n'


@kernel
def first_pulse(wait: int64, count: int32):
    at_mu(wait)  # noqa: F821
    for i in range(count):
        ttl3.pulse_mu(100)  # noqa: F821
        delay_mu(100)  # noqa: F821


@kernel
def main():
    first_pulse(1000, 2)


class Reports(SimCase):
    def test_the_examples_give_their_reports(self):
        for path, words, report in kernels_of_examples():
            with self.subTest(path.name):
                found = run(path, **options_of_words(words))
                self.assertEqual(found.text, report)
                self.assertEqual(str(found), report)

    def test_what_came_out(self):
        report = run(EXAMPLES / "photon_counting.py", edges={"in0": [1990, 2040, (2300, "f"), 2500, 2504, 2999, 3100]})
        self.assertEqual(report.outs, ((2000, 24, "in0", 2, 1), (3000, 24, "in0", 2, 0)))
        self.assertEqual([tuple(it) for it in report.outputs], [tuple(it) for it in report.outs])
        self.assertEqual(report.data, {"first": 2040, "others": 3, "none": -1})
        self.assertEqual(report.edges[:3], (Edge(24, 1990, True), Edge(24, 2040, True), Edge(24, 2300, False)))
        self.assertEqual((report.end, report.cursor, report.counter, report.status), ("ok", 3000, 3000, 0))
        self.assertEqual((report.lanes, report.code), ((2, 0, 0, 0, 0, 0, 0, 0), (287, 58)))
        self.assertTrue(report.ok and report.returned)

    def test_the_words_and_the_sum_of_the_text(self):
        report = run(STEPS, cost=700, lanes=8, edges={"in1": [9]})
        self.assertEqual(report.words, ("sim", "--cost", "700", "--edges", "25:9:r"))
        summed = subprocess.run(["sha256sum"], input=STEPS.encode(), capture_output=True, check=True)
        self.assertEqual(report.kernel_sha256, summed.stdout.decode().split()[0])

    def test_what_is_lost(self):
        report = run(EXAMPLES / "collisions.py")
        self.assertEqual(report.lost[0], ("seq", 14, 4000, 8))
        self.assertEqual(report.lost[0].name, "ttl8")
        self.assertEqual((report.status, report.end, report.ok), (0, "ok", False))

    def test_what_pends(self):
        report = run(EXAMPLES / "pair_of_pulses.py", horizon=100)
        self.assertEqual([tuple(it) for it in report.pending], [(1000, 0, "ttl0", 0, 1), (1500, 0, "ttl0", 0, 0)])
        self.assertEqual((report.status, report.returned, report.ok, len(report.outputs)), (7, True, False, 0))

    def test_how_a_kernel_ends(self):
        rows = [
            ({"cost": 800}, STEPS, "raised RTIOUnderflow", "RTIOUnderflow", 6),
            ({"cost": 700}, STEPS, "ok", None, 0),
            ({"budget": 10}, FOREVER, "budget 10", None, 7),
            ({"horizon": 200}, "def main():\n    core.wait_until_mu(2000)\n", "horizon 200", None, 7),
        ]
        for options, text, end, exception, status in rows:
            with self.subTest(options):
                report = run(text, **options)
                self.assertEqual((report.end, report.exception, report.status), (end, exception, status))

    def test_lists_are_arrays_where_numpy_is_there(self):
        edges = {"in0": [125000 + 4900, 125000 + 5000]}
        text = 'def main():\n    photons = [3, -1, 2]\n    set_dataset("photons", photons)\n    set_dataset("last", 7)\n'
        report = run(text, edges=edges)
        self.assertEqual(report.values, {"photons": [3, -1, 2], "last": 7})
        self.assertEqual(list(report.data["photons"]), [3, -1, 2])
        numpy = numpy_or_none()
        if numpy is None:
            self.skipTest("numpy isn't installed: lists are lists")
        self.assertEqual((report.data["photons"].dtype, report.data["photons"].shape), (numpy.int64, (3,)))

    def test_outputs_are_a_record_array_where_numpy_is_there(self):
        numpy = numpy_or_none()
        if numpy is None:
            self.skipTest("numpy isn't installed: outputs are tuples")
        outputs = run(STEPS).outputs
        self.assertIsInstance(outputs, numpy.recarray)
        self.assertEqual(outputs.dtype.names, ("stamp", "channel", "name", "address", "data"))
        self.assertEqual((outputs.shape, outputs.stamp.tolist()), ((3,), [1000, 1500, 1600]))
        self.assertEqual(outputs[outputs.name == "ttl0"]["data"].tolist(), [1, 0, 1])
        self.assertEqual(run("def main(): pass").outputs.shape, (0,))

    def test_without_numpy_the_same_is_tuples_and_lists(self):
        program = "import sys; sys.modules['numpy'] = None\nfrom buszlogem import run\n"
        program += "r = run('def main():\\n    at_mu(8)\\n    ttl0.on()\\n    a = [1, 2]\\n    set_dataset(\"a\", a)\\n')\n"
        program += "print(r.outputs[0].stamp, type(r.outputs).__name__, r.data)\n"
        ran = subprocess.run([sys.executable, "-c", program], capture_output=True, text=True, env=environment())
        self.assertEqual((ran.stdout, ran.stderr), ("8 list {'a': [1, 2]}\n", ""))


class Options(SimCase):
    def test_lanes_and_depth(self):
        self.assertEqual([it.kind for it in run(EXAMPLES / "collisions.py", lanes=9).lost].count("seq"), 0)
        self.assertEqual(run(STEPS, lanes=2, depth=1).lanes, (1, 1))

    def test_a_horizon_of_years(self):
        self.assertEqual(run(YEARS, horizon=576_460_752_303_423_488).outs[0].stamp, 4_000_000_000_000_000_000)

    def test_schedules(self):
        self.assertEqual(run(STEPS, cost=800, schedule="letters:c").end, "ok")
        self.assertEqual(run(STEPS, cost=800, schedule="mix:7").text, run(STEPS, cost=800, schedule="mix:7").text)

    def test_edges_in_any_order_and_form(self):
        rows = [
            {"in0": [2500, 2040], "in1": (1990,)},
            {24: [(2500, "r"), (2040, "r")], 25: [1990]},
            [Edge(24, 2500, True), Edge(25, 1990, True), Edge(24, 2040, True)],
            read_edges_word("24:2500:r,in1:1990,in0:2040"),
        ]
        numpy = numpy_or_none()
        if numpy is not None:
            rows.append({"in0": numpy.array([2500, 2040]), "in1": numpy.array([1990])})
        for edges in rows:
            with self.subTest(edges):
                self.assertEqual(run(STEPS, edges=edges).words[2], "25:1990:r,24:2040:r,24:2500:r")

    def test_hold(self):
        report = run(EXAMPLES / "busy_shutter.py", hold={"ttl0": 10})
        self.assertEqual(report.lost, (("busy", 3, 2240, 0),))
        self.assertEqual(run(STEPS, hold={"ttl9": 1, 2: 0}).words, ("sim", "--hold", "2:0,9:1"))

    def test_recordings_from_day_to_day(self):
        kept = run(TODAY, dma=True).recordings
        self.assertEqual(kept, {"pulse": bytes.fromhex(PULSE)})
        for recordings in (kept, {"pulse": PULSE}):
            report = run(TOMORROW, recordings=recordings)
            self.assertEqual([it.stamp for it in report.outs], [1000, 1050])

    def test_the_ends_of_each_range_are_taken(self):
        for name, number in NUMBERS.items():
            for value in (number.least, number.most):
                with self.subTest(name, value=value):
                    self.assertIn(run("def main(): pass", **{name: value}).status, (0, 7))
            for value in (number.least - 1, number.most + 1):
                with self.subTest(name, value=value):
                    asked = run_program("sim", f"--{name}={value}")
                    takes_more = name == "horizon" and value > 0
                    self.assertEqual(asked.status, 0 if takes_more else 2)

    def test_a_faulty_option_is_named_with_what_it_takes(self):
        rows = [
            ("cost", -1, "the mu that each request takes, 0 to 1000000"),
            ("cost", 1.5, "the mu that each request takes, 0 to 1000000"),
            ("cost", "8", "the mu that each request takes, 0 to 1000000"),
            ("lanes", 33, "a number of lanes, 1 to 32"),
            ("lanes", True, "a number of lanes, 1 to 32"),
            ("depth", 0, "the events that each lane holds, 1 to 1024"),
            ("horizon", 0, "the last cycle, of 8 mu, 1 to 134217728"),
            ("horizon", 576_460_752_303_423_489, "in lockstep to 576460752303423488"),
            ("budget", 1_000_001, "a number of units, 1 to 1000000"),
            ("schedule", "letters:ttt", "with a c"),
            ("schedule", "fast", "'lockstep'"),
            ("schedule", "letters:" + 65 * "c", "1 to 64 letters"),
            ("schedule", f"mix:{2**63}", "below 2**63"),
            ("edges", {"ttl0": [8]}, "in0 to in7"),
            ("edges", {"in8": [8]}, "in0 to in7"),
            ("edges", {"in0": [8, 8]}, "no two"),
            ("edges", {"in0": [8.5]}, "stamps in mu"),
            ("edges", {"in0": [-1]}, "0 to below 2**62"),
            ("edges", {"in0": [2**62]}, "0 to below 2**62"),
            ("edges", {"in0": [(8, "x")]}, "'r' or 'f'"),
            ("edges", {"in0": 8}, "stamps in mu"),
            ("edges", {"in0": range(4097)}, "at most 4096"),
            ("edges", "24:8:r", "stamps in mu"),
            ("edges", [(24, 8, True)], "stamps in mu"),
            ("hold", {"ttl16": 4}, "the cycles of 8 mu"),
            ("hold", {"ttl0": 1_000_001}, "0 to 1000000"),
            ("hold", {"ttl0": 1, 0: 2}, "0 to 1000000"),
            ("recordings", {"my pulse": PULSE}, "recordings by name"),
            ("recordings", {"pulse": "0A"}, "recordings by name"),
            ("recordings", {"pulse": b"\x01"}, "recordings by name"),
            ("recordings", {f"p{at}": PULSE for at in range(65)}, "at most 64"),
            ("call", "my shot", "the name of a function"),
            ("args", [1], "call="),
        ]
        for name, value, takes in rows:
            with self.subTest(name, value=value):
                with self.assertRaises(OptionError) as raised:
                    run("def main(): pass", **{name: value})
                self.assertEqual(raised.exception.option, name)
                self.assertIn(takes, raised.exception.takes)
                self.assertIn(name, str(raised.exception))

    def test_a_horizon_beyond_lockstep(self):
        with self.assertRaises(OptionError):
            run("def main(): pass", horizon=134_217_729, schedule="letters:ct")
        self.assertEqual(run("def main(): pass", horizon=134_217_728, schedule="letters:ct").status, 0)

    def test_channels_have_names_and_numbers(self):
        self.assertEqual([channel_number(name) for name in CHANNEL_NAMES], list(range(32)))
        self.assertEqual((CHANNEL_NAMES[15], CHANNEL_NAMES[16], CHANNEL_NAMES[24]), ("ttl15", "raw0", "in0"))
        for wrong in ("ttl16", 32, -1):
            with self.assertRaises(KeyError):
                channel_number(wrong)


class Kernels(SimCase):
    def test_a_text_a_path_and_a_line(self):
        path = EXAMPLES / "pair_of_pulses.py"
        text = path.read_text()
        self.assertEqual(run(path).text, run(text).text)
        self.assertEqual(run(str(path)).text, run(text).text)
        self.assertEqual(run("def main(): ttl0.on()").end, "raised RTIOUnderflow")

    def test_a_file_that_is_not_there(self):
        with self.assertRaises(FileNotFoundError):
            run("no_such_kernel.py")
        for wrong in (None, 3, b"def main(): pass"):
            with self.assertRaises(OptionError):
                run(wrong)

    def test_a_function_of_the_text_is_called(self):
        report = run(SHOTS, call="shot", args=[1000, 2])
        self.assertEqual([it.stamp for it in report.outs], [1000, 1100, 1200])
        self.assertEqual(run(SHOTS + "def main():\n    shot(5000, 1)\n", call="shot", args=[1000, 2]).outs, report.outs)
        self.assertEqual(run(SHOTS[:-1], call="shot", args=(1000, 2)).outs, report.outs)

    def test_a_main_that_the_text_has_is_renamed_and_nothing_else(self):
        text = '# main\ndef main(): pass\ndef shot():\n    main()\n    x = 3  # main\n    set_dataset("main", x)\n'
        self.assertEqual(run(text, call="shot").data, {"main": 3})
        self.assertEqual(run('def main(n: int32): set_dataset("n", n)', call="main", args=[4]).data, {"n": 4})
        self.assertEqual(run('def Main(): set_dataset("n", 1)\ndef main(): pass\n', call="Main").data, {"n": 1})

    def test_arguments_of_all_sizes(self):
        for value in (0, -1, 2**31 - 1, 2**31, -(2**31), -(2**31) - 1, 2**63 - 1, -(2**63)):
            with self.subTest(value):
                self.assertEqual(run(TOLD, call="tell", args=[value, True]).data, {"value": value})
        self.assertEqual(run(TOLD, call="tell", args=[1, False]).data, {})
        self.assertEqual(run("def f(x: int32): pass", call="f", args=[-(2**31)]).end, "ok")
        numpy = numpy_or_none()
        if numpy is not None:
            self.assertEqual(run(TOLD, call="tell", args=[numpy.int32(5), numpy.bool_(True)]).data, {"value": 5})
        for wrong in (1.0, 2**63, "1", None):
            with self.assertRaises(OptionError):
                run(TOLD, call="tell", args=[wrong, True])

    def test_a_fault_of_a_call_is_told_at_the_call(self):
        for call, args, kind in (("shoot", [], "type Unknown"), ("shot", [1], "type Arity"), ("shot", [1, 2**40], "type Width")):
            with self.subTest(call, args=args):
                with self.assertRaises(buszlogem.KernelError) as raised:
                    run(SHOTS, call=call, args=args)
                error = raised.exception
                self.assertEqual((error.kind, error.file, error.line, error.column), (kind, "<call>", 2, 5))
                self.assertEqual(error.source, f"    {call}({', '.join(map(str, args))})")

    def test_a_python_function(self):
        stamps = [it.stamp for it in run(first_pulse, args=[1000, 2]).outs]
        self.assertEqual(stamps, [1000, 1100, 1200, 1300])
        self.assertEqual([it.stamp for it in run(main).outs], stamps)
        self.assertIs(kernel(main), main)
        self.assertEqual([it.stamp for it in run(later_kernels.twice).outs], [8, 24])

    def test_a_function_inside_another(self):
        wait = 3

        @buszlogem.kernel
        def late():
            at_mu(1000)  # noqa: F821
            ttl0.on()  # noqa: F821

        self.assertEqual(wait, 3)
        self.assertEqual(run(late).outs, ((1000, 0, "ttl0", 0, 1),))

    def test_a_fault_of_a_function_is_told_in_its_file(self):
        with self.assertRaises(buszlogem.KernelError) as raised:
            run(later_kernels.Scan.misspelt)
        error = raised.exception
        self.assertEqual(pathlib.Path(error.file).name, "later_kernels.py")
        self.assertEqual((error.source, error.column), ("        tll0.on()", 9))
        lines = pathlib.Path(later_kernels.__file__).read_text().splitlines()
        self.assertEqual(lines[error.line - 1], error.source)

    def test_a_function_without_a_source(self):
        with self.assertRaises(OptionError):
            run(len)
        space = {}
        exec("def made(): pass", space)
        with self.assertRaises(OptionError):
            run(space["made"])


class Strict(SimCase):
    def test_strict_raises_where_not_all_came_out(self):
        rows = [
            (EXAMPLES / "collisions.py", {}, "outputs that are lost: 3"),
            (EXAMPLES / "too_late.py", {}, "raised RTIOUnderflow"),
            (EXAMPLES / "pair_of_pulses.py", {"horizon": 100}, "outputs that pend: 2"),
        ]
        for path, options, why in rows:
            with self.subTest(path.name):
                with self.assertRaises(buszlogem.NotOk) as raised:
                    run(path, strict=True, **options)
                self.assertIn(why, str(raised.exception))
                self.assertFalse(raised.exception.report.ok)
        self.assertTrue(run(EXAMPLES / "pair_of_pulses.py", strict=True).ok)


class Programs(SimCase):
    def test_a_text_that_is_too_long(self):
        with self.assertRaises(buszlogem.ProgramError) as raised:
            run("def main():\n" + " " * 1_048_577)
        self.assertEqual(raised.exception.status, 8)

    def test_a_run_that_takes_too_long(self):
        with self.assertRaises(buszlogem.ProgramError):
            run("def main():\n    while True: pass\n", timeout=0.0)

    def test_the_folder_that_the_variable_names(self):
        before = os.environ.get(programs.FOLDER_VARIABLE)
        with tempfile.TemporaryDirectory() as folder:
            try:
                os.environ[programs.FOLDER_VARIABLE] = folder
                with self.assertRaises(buszlogem.ProgramMissing) as raised:
                    run("def main(): pass")
                self.assertIn(folder, str(raised.exception))
            finally:
                os.environ.pop(programs.FOLDER_VARIABLE)
                if before is not None:
                    os.environ[programs.FOLDER_VARIABLE] = before
        self.assertEqual(run("def main(): pass").end, "ok")

    def test_an_installed_package_finds_the_programs_beside_it(self):
        with tempfile.TemporaryDirectory() as folder:
            # As bin/install PREFIX lays it out.
            prefix = pathlib.Path(folder).resolve()
            site = prefix / "lib" / "python3.11" / "site-packages"
            shutil.copytree(ROOT / "python" / "buszlogem", site / "buszlogem")
            (site / "buszlogem" / "VERSION").write_text("9.8.7\n")
            (prefix / "bin").mkdir()
            (prefix / "bin" / "artiq_sim").symlink_to(programs.find("artiq_sim"))
            program = "import buszlogem as b; print(b.__version__, b.programs.find('artiq_sim'), b.run('def main(): pass').end)"
            variables = {name: value for name, value in environment().items() if name != programs.FOLDER_VARIABLE}
            variables["PYTHONPATH"] = str(site)
            ran = subprocess.run([sys.executable, "-c", program], capture_output=True, text=True, env=variables, cwd=folder)
            self.assertEqual((ran.stdout, ran.stderr), (f"9.8.7 {prefix}/bin/artiq_sim ok\n", ""))

    def test_a_program_that_is_older_than_its_code_is_told(self):
        with tempfile.TemporaryDirectory() as folder:
            # As a checkout lies, with a crate whose code is newer than the program.
            top = pathlib.Path(folder).resolve()
            shutil.copytree(ROOT / "python" / "buszlogem", top / "python" / "buszlogem")
            for name in ("launch/start.sh", "VERSION"):
                (top / name).parent.mkdir(exist_ok=True)
                shutil.copyfile(ROOT / name, top / name)
            out = top / "crates" / "artiq_sim" / "out"
            out.mkdir(parents=True)
            (out.parent / "src").mkdir()
            shutil.copy(programs.find("artiq_sim"), out / "artiq_sim")
            (out / "artiq_sim.code").write_text("code='crates/artiq_sim/src'\n")
            program = "import buszlogem as b; print(b.run('def main(): pass').end); b.run('def main(): pass')"
            variables = {name: value for name, value in environment().items() if name != programs.FOLDER_VARIABLE}
            variables["PYTHONPATH"] = str(top / "python")
            for time, told in ((1, 0), (2_000_000_000, 1)):
                code = out.parent / "src" / "main.rt"
                code.write_text("")
                os.utime(code, (time, time))
                os.utime(out / "artiq_sim", (1_000_000_000, 1_000_000_000))
                ran = subprocess.run([sys.executable, "-c", program], capture_output=True, text=True, env=variables)
                self.assertEqual((ran.stdout, ran.stderr.count("older than its code: run bin/artiq_sim once")), ("ok\n", told))

    def test_the_version_is_the_repositorys(self):
        self.assertEqual(buszlogem.__version__, (ROOT / "VERSION").read_text().strip())


def run_program(*words, text="def main(): pass"):
    """What the program answers, without this package's own look at the options."""
    return programs.start("artiq_sim", words, text)


def environment():
    """The variables for a python3 of its own that is to find the package."""
    return {**os.environ, "PYTHONPATH": str(ROOT / "python")}


if __name__ == "__main__":
    unittest.main()
