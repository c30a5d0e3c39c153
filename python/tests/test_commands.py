"""The commands `run` and `explain` of `python3 -m buszlogem`, each in a shell."""

import os
import pathlib
import shlex
import subprocess
import sys
import tempfile
import unittest

from support import EXAMPLES, ROOT, SimCase

import buszlogem
from buszlogem import programs

COLON = "def main():\n    at_mu(1000)\n\ndef shutter()\n    ttl0.on()\n"
SHOWN = """\
colon.py:4:14: syntax: a colon is missing before it
def shutter()
             ^
not:
    def main() ttl0.on()
but:
    def main(): ttl0.on()
"""


class Shell:
    """A shell in an empty folder, in which `buszlogem` is this package's command."""

    def __init__(self, folder):
        self.folder = pathlib.Path(folder)

    def run(self, command):
        """The status of the command, and what it wrote to standard output and standard error."""
        prologue = f"buszlogem() {{ {shlex.quote(sys.executable)} -m buszlogem \"$@\"; }}\n"
        environment = {**os.environ, "PYTHONPATH": str(ROOT / "python"), "COLUMNS": "100"}
        ran = subprocess.run(
            ["bash", "-c", prologue + command], cwd=self.folder, env=environment, capture_output=True, text=True, check=False
        )
        return ran.returncode, ran.stdout, ran.stderr


class Words(unittest.TestCase):
    """What needs no program."""

    def setUp(self):
        self.shell = Shell(self.enterContext(tempfile.TemporaryDirectory()))

    def test_help_everywhere(self):
        for words in ("", "run", "explain", "trace"):
            with self.subTest(words):
                status, out, err = self.shell.run(f"buszlogem {words} --help")
                self.assertEqual((status, err), (0, ""))
                self.assertTrue(out.startswith(f"usage: python3 -m buszlogem {words}".rstrip()), out)

    def test_the_version(self):
        self.assertEqual(self.shell.run("buszlogem --version"), (0, f"buszlogem {buszlogem.__version__}\n", ""))

    def test_words_that_are_no_command(self):
        for words in ("", "simulate x.py", "run", "run x.py --cots 8"):
            with self.subTest(words):
                status, out, err = self.shell.run(f"buszlogem {words}")
                self.assertEqual((status, out), (2, ""))
                self.assertIn("usage: ", err)

    def test_a_file_that_is_not_there(self):
        for command in ("run", "explain", "trace"):
            status, out, err = self.shell.run(f"buszlogem {command} nothing.py")
            self.assertEqual((status, out, err), (3, "", "nothing.py: No such file or directory\n"))

    def test_a_faulty_option(self):
        (self.shell.folder / "kernel.py").write_text("def main(): pass\n")
        rows = [
            ("--cost -1", "cost='-1': cost takes the mu that each request takes, 0 to 1000000\n"),
            ("--lanes=33", "lanes=33: lanes takes a number of lanes, 1 to 32\n"),
            ("--edges 24:9:r,24:9:f", "edges={'in0': 9}: edges takes for each of in0 to in7"),
            ("--edges 24", "edges='24': edges takes for each of in0 to in7"),
            ("--hold 0:4,", "hold='0:4,': hold takes for channels the cycles"),
            ("--call shot --args 1.5", "args='1.5': args takes whole numbers of 64 bits and truth values\n"),
        ]
        for words, said in rows:
            with self.subTest(words):
                status, out, err = self.shell.run(f"buszlogem run kernel.py {words}")
                self.assertEqual((status, out), (2, ""))
                self.assertTrue(err.startswith(said), err)

    def test_a_program_that_is_not_built(self):
        (self.shell.folder / "kernel.py").write_text("def main(): pass\n")
        status, out, err = self.shell.run("BUSZLOGEM_BIN=$PWD buszlogem run kernel.py")
        self.assertEqual((status, out), (70, ""))
        self.assertEqual(err, f"BUSZLOGEM_BIN is {self.shell.folder}, and there is no program artiq_sim\n")


class Commands(SimCase):
    def setUp(self):
        self.shell = Shell(self.enterContext(tempfile.TemporaryDirectory()))
        (self.shell.folder / "examples").symlink_to(EXAMPLES)

    def test_run_writes_the_report_and_has_the_programs_status(self):
        words = (EXAMPLES / "photon_counting.words").read_text().strip()
        rows = [
            ("examples/pair_of_pulses.py", "pair_of_pulses.report", 0),
            ("examples/too_late.py", "too_late.report", 6),
            (f"examples/photon_counting.py {words}", "photon_counting.report", 0),
            ("- < examples/pair_of_pulses.py", "pair_of_pulses.report", 0),
        ]
        for words, report, status in rows:
            with self.subTest(words):
                self.assertEqual(self.shell.run(f"buszlogem run {words}"), (status, (EXAMPLES / report).read_text(), ""))

    def test_run_strict(self):
        # Without artiq_trace no line is told.
        self.shell.run(f"mkdir alone; ln -s {programs.find('artiq_sim')} alone/")
        report = (EXAMPLES / "collisions.report").read_text()
        self.assertEqual(self.shell.run("buszlogem run examples/collisions.py"), (0, report, ""))
        status, out, err = self.shell.run("BUSZLOGEM_BIN=$PWD/alone buszlogem run --strict examples/collisions.py")
        self.assertEqual((status, out), (10, report))
        self.assertEqual(err, "outputs that are lost: 3, the first by seq: number 14 on ttl8 at 4000 mu\n")
        self.assertEqual(self.shell.run("buszlogem run --strict examples/pair_of_pulses.py")[0], 0)

    def test_run_a_function_with_arguments(self):
        (self.shell.folder / "shot.py").write_text("def shot(wait: int64, up: bool):\n    at_mu(wait)\n    if up: ttl0.on()\n")
        status, out, _ = self.shell.run("buszlogem run shot.py --call shot --args 1000 True | head -1; exit ${PIPESTATUS[0]}")
        self.assertEqual((status, out), (0, "out 1000 0 0 1\n"))
        status, out, _ = self.shell.run("buszlogem run shot.py --call shot --args -5 False | grep cursor")
        self.assertEqual((status, out), (0, "cursor -5\n"))

    def test_run_recordings(self):
        (self.shell.folder / "today.py").write_text('def main():\n    with core_dma.record("p"):\n        ttl0.pulse_mu(50)\n')
        (self.shell.folder / "next.py").write_text('def main():\n    at_mu(1000)\n    core_dma.playback("p")\n')
        self.shell.run("buszlogem run today.py --dma lines | sed -n 's/^dma p //p' > kept")
        status, out, _ = self.shell.run("buszlogem run next.py --recordings p:$(cat kept) | grep out")
        self.assertEqual((status, out), (0, "out 1000 0 0 1\nout 1050 0 0 0\n"))

    def test_run_of_a_refused_text(self):
        (self.shell.folder / "colon.py").write_text(COLON)
        self.assertEqual(self.shell.run("buszlogem run colon.py"), (1, "", SHOWN))

    def test_a_reader_that_closes(self):
        # The command begins once its reader has closed the pipe.
        closed = "{ exec <&-; echo > closed; }"
        told = f"mkfifo closed; {{ read < closed; buszlogem run examples/ramsey_scan.py; }} | {closed}; echo ${{PIPESTATUS[0]}}"
        self.assertEqual(self.shell.run(told), (0, "4\n", ""))
        status, out, err = self.shell.run("buszlogem run examples/ramsey_scan.py > /dev/full; echo $?")
        self.assertEqual((status, out), (0, "4\n"))

    def test_explain(self):
        (self.shell.folder / "colon.py").write_text(COLON)
        self.assertEqual(self.shell.run("buszlogem explain colon.py"), (1, SHOWN, ""))
        self.assertEqual(self.shell.run("buszlogem explain - < colon.py"), (1, SHOWN.replace("colon.py", "<stdin>"), ""))
        self.assertEqual(self.shell.run("buszlogem explain examples/too_late.py"), (0, "", ""))

    def test_explain_of_functions_without_a_main(self):
        (self.shell.folder / "shot.py").write_text("def shot(wait: int64):\n    at_mu(wait)\n    ttl0.on()")
        status, out, _ = self.shell.run("buszlogem explain shot.py")
        self.assertEqual((status, out.splitlines()[0][:25]), (1, "shot.py:1:16: type NoMain"))
        self.assertEqual(self.shell.run("buszlogem explain --functions shot.py"), (0, "", ""))
        self.assertEqual(self.shell.run("buszlogem explain --functions examples/too_late.py"), (0, "", ""))
        (self.shell.folder / "shot.py").write_text("def shot(wait: int64):\n    at_mu(weit)\n")
        status, out, _ = self.shell.run("buszlogem explain --functions shot.py")
        self.assertEqual((status, out.splitlines()[0][:26]), (1, "shot.py:2:11: type Unknown"))


if __name__ == "__main__":
    unittest.main()
