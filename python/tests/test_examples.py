"""The worked examples: each runs as it stands, and writes its picture."""

import os
import pathlib
import shutil
import subprocess
import sys
import tempfile
import unittest

from installed import needs
from support import ROOT, SimCase

SCRIPTS = ROOT / "python" / "examples"
MOST_BYTES = 100_000


class Stored(unittest.TestCase):
    def test_each_script_has_its_picture(self):
        scripts = sorted(SCRIPTS.glob("*.py"))
        self.assertEqual(len(scripts), 2)
        for script in scripts:
            with self.subTest(script.name):
                picture = script.with_suffix(".png").read_bytes()
                self.assertTrue(picture.startswith(b"\x89PNG"))
                self.assertLess(len(picture), MOST_BYTES)


@needs("matplotlib")
class Scripts(SimCase):
    needed = ("artiq_sim", "artiq_trace")

    def carried_out(self, name):
        """What a copy of a script writes to standard output; it has to write its picture beside itself."""
        folder = pathlib.Path(self.enterContext(tempfile.TemporaryDirectory()))
        script = shutil.copy(SCRIPTS / name, folder)
        environment = {**os.environ, "PYTHONPATH": str(ROOT / "python"), "MPLBACKEND": "Agg"}
        ran = subprocess.run([sys.executable, script], env=environment, capture_output=True, text=True, check=False)
        self.assertEqual(ran.returncode, 0, ran.stderr)
        picture = (folder / name).with_suffix(".png").read_bytes()
        self.assertTrue(picture.startswith(b"\x89PNG"))
        self.assertLess(len(picture), MOST_BYTES)
        return ran.stdout

    def test_the_heralding_loop(self):
        # A try takes 2650 mu and makes five requests. From 531 on five costs are more, and each try falls behind by the rest:
        # 5 mu at 531, which 81 tries bear, 10 mu at 532, which use up the 522 mu of the gate's end in the 54th try.
        out = self.carried_out("heralding_loop.py")
        # The tightest at 531 is that end in the last try.
        self.assertIn("in try 81\nmargin 531 mu, by runs ", out)
        self.assertIn(f"the output on in0 at {125_000 + 54 * 2650} mu is the first to be too late\n", out)
        self.assertIn(f"at 531 mu the output on in0 at {125_000 + 81 * 2650} mu is the tightest, with a slack of ", out)
        self.assertRegex(out, r"(?m)^ *\d+ +162 +1\d\d\* +end = in0\.gate_rising_mu\(500\)$")
        self.assertTrue(out.endswith(": end = in0.gate_rising_mu(500)\n"), out)

    def test_the_ramsey_fringe(self):
        out = self.carried_out("ramsey_fringe.py")
        self.assertIn("30 waits, all outputs came out: True\n", out)
        distance = float(out.split()[-1])
        # Sixty shots scatter by at most 0.065.
        self.assertLess(distance, 0.08)


if __name__ == "__main__":
    unittest.main()
