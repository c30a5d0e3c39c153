"""The command `trace` of `python3 -m buszlogem`, and `run --strict` where artiq_trace is built, each in a shell."""

import tempfile
import unittest

from installed import needs
from support import EXAMPLES
from test_commands import Shell
from test_more_commands import ShellCase
from test_trace import ANNOTATED, TIGHT


class Words(unittest.TestCase):
    """What needs no program."""

    def setUp(self):
        self.shell = Shell(self.enterContext(tempfile.TemporaryDirectory()))
        (self.shell.folder / "kernel.py").write_text("def main(): pass\n")

    def test_faulty_options(self):
        rows = [
            ("--tightest 0", "tightest=0: tightest takes a number from 1 on\n"),
            ("-o slack.gif", "out='slack.gif': out takes a file that ends in .png, .svg, .pdf\n"),
            ("--cost -1", "cost='-1': cost takes the mu that each request takes, 0 to 1000000\n"),
        ]
        for words, said in rows:
            with self.subTest(words):
                self.assertEqual(self.shell.run(f"buszlogem trace kernel.py {words}"), (2, "", said))

    def test_words_that_it_does_not_have(self):
        for words in ("--dma lines", "--annotate --tightest 3"):
            status, out, err = self.shell.run(f"buszlogem trace kernel.py {words}")
            self.assertEqual((status, out), (2, ""))
            self.assertIn("usage: python3 -m buszlogem", err)

    def test_a_program_that_is_not_built(self):
        said = f"BUSZLOGEM_BIN is {self.shell.folder}, and there is no program artiq_trace\n"
        self.assertEqual(self.shell.run("BUSZLOGEM_BIN=$PWD buszlogem trace kernel.py"), (70, "", said))


class TraceCommand(ShellCase):
    needed = ("artiq_sim", "artiq_trace")

    def setUp(self):
        super().setUp()
        self.write("tight.py", TIGHT)

    def test_it_writes_the_trace_and_has_the_programs_status(self):
        words = (EXAMPLES / "photon_counting.words").read_text().strip()
        rows = [
            ("examples/pair_of_pulses.py", "pair_of_pulses", 0),
            ("examples/late_pulse.py", "late_pulse", 0),
            ("examples/too_late.py", "too_late", 6),
            ("examples/collisions.py", "collisions", 7),
            (f"examples/photon_counting.py {words}", "photon_counting", 0),
            ("- < examples/pair_of_pulses.py", "pair_of_pulses", 0),
        ]
        for words, name, status in rows:
            with self.subTest(words):
                stored = (EXAMPLES / f"{name}.trace").read_text()
                self.assertEqual(self.shell.run(f"buszlogem trace {words}"), (status, stored, ""))

    def test_the_source_with_its_slack(self):
        said = ANNOTATED.replace("<kernel>", "tight.py")
        self.assertEqual(self.shell.run("buszlogem trace tight.py --cost 400 --annotate"), (0, said, ""))

    def test_the_tightest_outputs(self):
        said = (
            "slack 100 mu: output 3 on ttl0 at 1300 mu, tight.py:4: ttl0.off(), called from tight.py:10: flash(100)\n"
            "slack 400 mu: output 2 on ttl0 at 1200 mu, tight.py:2: ttl0.on(), called from tight.py:10: flash(100)\n"
        )
        self.assertEqual(self.shell.run("buszlogem trace tight.py --cost 400 --tightest 2"), (0, said, ""))

    def test_a_function_with_arguments(self):
        self.write("shot.py", "def shot(t: int64):\n    at_mu(t)\n    ttl0.on()\n")
        said = "slack 992 mu: output 0 on ttl0 at 992 mu, shot.py:3: ttl0.on()\n"
        self.assertEqual(self.shell.run("buszlogem trace shot.py --call shot --args 992 --tightest 1"), (0, said, ""))

    def test_strict(self):
        why = "outputs that are missing: 1, the first by col: number 2 on ttl0 at 1103 mu"
        said = f"{why}\nexamples/pulses_too_close.py:7: ttl0.pulse_mu(100)\n"
        stored = (EXAMPLES / "pulses_too_close.trace").read_text()
        self.assertEqual(self.shell.run("buszlogem trace --strict examples/pulses_too_close.py"), (7, stored, said))
        status, _, err = self.shell.run("buszlogem trace --strict examples/too_late.py")
        self.assertEqual((status, err), (6, "the kernel ended by raised RTIOUnderflow\nexamples/too_late.py:5: ttl0.on()\n"))
        # A late output that the kernel took is none that is missing.
        self.assertEqual(self.shell.run("buszlogem trace --strict examples/late_pulse.py > trace"), (0, "", ""))

    def test_a_refused_kernel(self):
        self.write("wrong.py", "def main():\n    tll0.on()\n")
        status, out, err = self.shell.run("buszlogem trace wrong.py")
        self.assertEqual((status, out), (1, ""))
        self.assertTrue(err.startswith("wrong.py:2:5: type Unknown: "), err)

    @needs("matplotlib")
    def test_a_picture(self):
        for ending, head in (("png", b"\x89PNG"), ("svg", b"<?xml")):
            status, _, err = self.shell.run(f"buszlogem trace tight.py --cost 400 -o slack.{ending}")
            self.assertEqual((status, err), (0, ""))
            self.assertTrue((self.shell.folder / f"slack.{ending}").read_bytes().startswith(head))

    def test_run_strict_names_the_line(self):
        rows = [
            ("collisions.py", 10, "outputs that are lost: 3, the first by seq: number 14 on ttl8 at 4000 mu", "24: ttl8.on()"),
            ("pair_of_pulses.py --horizon 100", 7, "outputs that pend: 2, the first on ttl0 at 1000 mu", "4: ttl0.on()"),
            ("too_late.py", 6, "the kernel ended by raised RTIOUnderflow, at cursor 0 mu", "5: ttl0.on()"),
        ]
        for words, status, why, line in rows:
            with self.subTest(words):
                said = f"{why}\nexamples/{words.split()[0]}:{line}\n"
                self.assertEqual(self.shell.run(f"buszlogem run --strict examples/{words} > report"), (status, "", said))


if __name__ == "__main__":
    unittest.main()
