"""The commands `plot`, `sweep`, `margin`, `compare` and `day` of `python3 -m buszlogem`, each in a shell."""

import csv
import io
import tempfile
import unittest

from installed import needs
from support import EXAMPLES, SimCase
from test_commands import Shell

from buszlogem import programs

TRAIN = """\
def train(wait: int64, pulses: int32):
    core.reset()
    delay_mu(wait)
    for i in range(pulses):
        ttl0.pulse_mu(200)
        delay_mu(wait)
    set_dataset("length", now_mu() - 125_000)
"""
STEPS = "def main():\n    at_mu(1000)\n    ttl0.on()\n    at_mu(1600)\n    ttl0.off()\n"


class ShellCase(SimCase):
    def setUp(self):
        self.shell = Shell(self.enterContext(tempfile.TemporaryDirectory()))
        (self.shell.folder / "examples").symlink_to(EXAMPLES)
        self.write("train.py", TRAIN)
        self.write("steps.py", STEPS)

    def write(self, name, text):
        (self.shell.folder / name).write_text(text)


class Words(unittest.TestCase):
    """What needs no program."""

    def setUp(self):
        self.shell = Shell(self.enterContext(tempfile.TemporaryDirectory()))
        (self.shell.folder / "kernel.py").write_text("def main(): pass\n")

    def test_help(self):
        for command in ("plot", "sweep", "margin", "compare", "day"):
            with self.subTest(command):
                status, out, err = self.shell.run(f"buszlogem {command} --help")
                self.assertEqual((status, err), (0, ""))
                self.assertTrue(out.startswith(f"usage: python3 -m buszlogem {command} "), out)

    def test_faulty_options(self):
        rows = [
            ("plot kernel.py -o run.gif", "out='run.gif': out takes a file that ends in .png, .svg, .pdf\n"),
            ("plot kernel.py -o run.png --channels ttl16", "channels='ttl16': channels takes names of channels"),
            ("plot kernel.py -o run.png --window 5", "window='5': window takes two times in us"),
            ("plot kernel.py -o run.png --window 5:4", "window='5:4': window takes two times in us"),
            ("sweep kernel.py --over wait", "over='wait': over takes NAME=V,V,.. or NAME=FIRST:BEHIND:STEP"),
            ("sweep kernel.py --over wait=1:2:0", "over='wait=1:2:0': over takes NAME=V,V,.."),
            ("sweep kernel.py --over wait=1.5", "over='wait=1.5': over takes NAME=V,V,.."),
            ("sweep kernel.py --over wait=1 --jobs 0", "jobs=0: jobs takes a number from 1 on\n"),
            ("sweep kernel.py --over wait=1 -o a.png", "plot=None: plot takes two columns"),
            ("margin kernel.py --cost 8", "cost=8: cost takes nothing here"),
        ]
        for words, said in rows:
            with self.subTest(words):
                status, out, err = self.shell.run(f"buszlogem {words}")
                self.assertEqual((status, out), (2, ""))
                self.assertTrue(err.startswith(said), err)

    def test_files_that_are_not_there(self):
        for words in ("plot x.py -o a.png", "sweep x.py --over a=1", "margin x.py", "compare x.py kernel.py", "day x.json"):
            status, out, err = self.shell.run(f"buszlogem {words}")
            name = "x.json" if words.startswith("day") else "x.py"
            self.assertEqual((status, out, err), (3, "", f"{name}: No such file or directory\n"))


class Commands(ShellCase):
    def test_a_sink_that_is_full(self):
        self.write("later.py", STEPS.replace("1600", "1700"))
        for words in ("margin steps.py", "compare steps.py later.py", "sweep steps.py --over cost=0,8"):
            with self.subTest(words):
                self.assertEqual(self.shell.run(f"buszlogem {words} > /dev/full")[0], 4)

    @needs("matplotlib")
    def test_plot(self):
        words = "--edges 24:1990:r,24:2040:r"
        for ending, head in (("png", b"\x89PNG"), ("svg", b"<?xml")):
            run = f"buszlogem plot examples/photon_counting.py -o run.{ending} {words}"
            self.assertEqual(self.shell.run(run), (0, "", ""))
            self.assertTrue((self.shell.folder / f"run.{ending}").read_bytes().startswith(head))

    @needs("matplotlib")
    def test_plot_has_the_status_of_the_run(self):
        status, out, err = self.shell.run("buszlogem plot examples/too_late.py -o run.svg --channels ttl0 --window 0:1")
        self.assertEqual((status, out, err), (6, "", ""))

    @needs("matplotlib")
    def test_plot_strict(self):
        status, out, err = self.shell.run("buszlogem plot examples/collisions.py -o run.svg --strict")
        self.assertEqual((status, out), (10, ""))
        self.assertTrue(err.startswith("outputs that are lost: 3, the first by seq: number 14 on ttl8 at 4000 mu\n"), err)
        self.assertEqual(self.shell.run("buszlogem plot examples/pair_of_pulses.py -o run.svg --strict"), (0, "", ""))

    def test_plot_without_matplotlib(self):
        # A module in the folder stands before those that are installed.
        self.write("matplotlib.py", "raise ImportError\n")
        status, out, err = self.shell.run("buszlogem plot steps.py -o run.png")
        said = "a picture needs matplotlib, which isn't installed for this Python: pip install matplotlib, or apt install"
        self.assertEqual((status, out, err), (1, "", f"{said} python3-matplotlib\n"))

    def test_sweep(self):
        over = "--call train --over wait=100:301:200 --over pulses=1,2"
        status, out, err = self.shell.run(f"buszlogem sweep train.py {over} --jobs 2 --resume points.db")
        rows = list(csv.DictReader(io.StringIO(out)))
        self.assertEqual((status, err), (0, ""))
        self.assertEqual([row["length"] for row in rows], ["400", "700", "800", "1300"])
        self.assertEqual([(row["wait"], row["pulses"]) for row in rows], [("100", "1"), ("100", "2"), ("300", "1"), ("300", "2")])
        again = self.shell.run(f"mkdir none; BUSZLOGEM_BIN=$PWD/none buszlogem sweep train.py {over} --resume points.db")
        self.assertEqual(again, (0, out, ""))

    def test_sweep_over_an_option(self):
        status, out, _ = self.shell.run("buszlogem sweep steps.py --over cost=0,2000")
        rows = list(csv.DictReader(io.StringIO(out)))
        self.assertEqual((status, [row["end"] for row in rows]), (0, ["ok", "raised RTIOUnderflow"]))

    def test_sweep_strict(self):
        for words, wanted in (("", 0), ("--strict", 10)):
            self.assertEqual(self.shell.run(f"buszlogem sweep steps.py --over cost=0,2000 {words}")[0], wanted)
        self.assertEqual(self.shell.run("buszlogem sweep steps.py --over cost=0,8 --strict")[0], 0)

    def test_sweep_with_an_error(self):
        status, out, _ = self.shell.run("buszlogem sweep train.py --call train --over wait=1 --over depth=0,1 --over pulses=1")
        rows = list(csv.DictReader(io.StringIO(out)))
        self.assertEqual((status, [bool(row["error"]) for row in rows]), (10, [True, False]))

    @needs("matplotlib")
    def test_sweep_with_a_picture(self):
        words = "--call train --over wait=100,200 --over pulses=1 -o a.png --plot wait,length"
        status, _, err = self.shell.run(f"buszlogem sweep train.py {words}")
        self.assertEqual((status, err), (0, ""))
        self.assertTrue((self.shell.folder / "a.png").read_bytes().startswith(b"\x89PNG"))

    def test_compare(self):
        self.write("later.py", STEPS.replace("1600", "1700"))
        self.assertEqual(self.shell.run("buszlogem compare steps.py steps.py"), (0, "the same\n", ""))
        said = "- 1600 ttl0 0 0\n+ 1700 ttl0 0 0\n"
        self.assertEqual(self.shell.run("buszlogem compare steps.py later.py"), (1, said, ""))

    def test_compare_with_a_stored_report(self):
        kernel, report = "examples/pair_of_pulses.py", "examples/pair_of_pulses.report"
        self.assertEqual(self.shell.run(f"buszlogem compare {kernel} {report}"), (0, "the same\n", ""))
        self.assertEqual(self.shell.run(f"buszlogem compare {report} {report} --shift 8")[0], 1)
        self.write("no.report", "nothing\n")
        self.assertEqual(self.shell.run(f"buszlogem compare {kernel} no.report")[0], 2)

    def test_a_refused_kernel(self):
        self.write("wrong.py", "def main():\n    tll0.on()\n")
        for words in ("plot wrong.py -o a.png", "margin wrong.py", "compare wrong.py steps.py"):
            status, out, err = self.shell.run(f"buszlogem {words}")
            self.assertEqual((status, out), (1, ""))
            self.assertTrue(err.startswith("wrong.py:2:5: type Unknown: "), err)


class MarginCommand(ShellCase):
    needed = ("artiq_sim", "artiq_trace")

    def test_margin_without_the_trace(self):
        (self.shell.folder / "bin").mkdir()
        (self.shell.folder / "bin" / "artiq_sim").symlink_to(programs.find("artiq_sim"))
        status, out, err = self.shell.run("BUSZLOGEM_BIN=bin buszlogem margin steps.py")
        self.assertEqual((status, out), (0, "margin 1599 mu, by slack\nthe output on ttl0 at 1600 mu is the first to be too late\n"))
        self.assertRegex(err, r"\Awarning: no line is told: .*artiq_trace.*\n\Z")

    def test_margin(self):
        # The second output is asked for at the cost, and is late from 1600 on; at 1599 the counter reads 1592.
        said = (
            "margin 1599 mu, by slack\nthe output on ttl0 at 1600 mu is the first to be too late\nsteps.py:5: ttl0.off()\n"
            "at 1599 mu it is the tightest, with a slack of 8 mu\n"
        )
        self.assertEqual(self.shell.run("buszlogem margin steps.py"), (0, said, ""))
        status, out, _ = self.shell.run("buszlogem margin steps.py --by runs --schedules lockstep,mix:1")
        self.assertEqual((status, out.split(",")[0]), (0, "margin 1599 mu"))

    def test_margin_of_a_kernel_that_is_late(self):
        said = "the output on ttl0 at 0 mu is the first to be too late\nexamples/too_late.py:5: ttl0.on()\n"
        found = self.shell.run("buszlogem margin examples/too_late.py")
        self.assertEqual(found, (6, f"an output is too late at cost 0, by slack\n{said}", ""))


class DayCommand(ShellCase):
    needed = ("artiq_sim", "artiq_lab")

    def test_day(self):
        status, out, err = self.shell.run("buszlogem day examples/day_of_one_trap.json")
        self.assertEqual((status, out), (0, (EXAMPLES / "day_of_one_trap.report").read_text()))
        lines = err.split("\n")
        why = "append 1 to log, which wasn't set, or holds a number: set it to [] first"
        self.assertEqual(lines[0], f"run 2 (experiment 3): its analysis failed: {why}")
        self.assertEqual(lines[1], "run 3 (experiment 2): its source is refused")
        self.assertTrue(lines[2].startswith("<source 2>:3:5: type Unknown: "), lines[2])
        self.assertEqual(lines[3:5], ["    ttl16.on()", "    ^"])

    def test_strict(self):
        self.assertEqual(self.shell.run("buszlogem day --strict examples/day_of_one_trap.json")[0], 10)
        self.assertEqual(self.shell.run("buszlogem day --strict - < examples/scan_with_calibration.json")[0], 0)

    def test_a_refused_session(self):
        self.write("day.json", '{"workers": 0}')
        status, out, err = self.shell.run("buszlogem day day.json")
        self.assertEqual((status, out), (1, ""))
        self.assertEqual(err, "workers: Range: a number, a length or a spelling is out of its range; here stands 0\n")
        self.assertEqual(self.shell.run("echo '[1]' | buszlogem day -")[:2], (1, ""))
        status, out, err = self.shell.run("printf '\\377' | buszlogem day -")
        self.assertEqual((status, out), (1, ""))
        self.assertTrue(err.startswith("the text is no JSON: "), err)

    @needs("matplotlib")
    def test_a_picture(self):
        status, _, _ = self.shell.run("buszlogem day examples/day_of_two_traps.json -o day.svg")
        self.assertEqual(status, 0)
        self.assertTrue((self.shell.folder / "day.svg").read_bytes().startswith(b"<?xml"))


if __name__ == "__main__":
    unittest.main()
