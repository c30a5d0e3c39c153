"""A crew of shells: each program's answer is that of its item, whatever shells end or can't be had; what is stopped ends."""

import contextlib
import os
import pathlib
import resource
import shlex
import signal
import subprocess
import sys
import tempfile
import unittest
from unittest import mock

from support import ROOT, SimCase, kernels_of_examples

from buszlogem import crew, grid, programs, run, shells, sweep
from buszlogem.crew import Crew, Start

PULSE = "def main():\n    at_mu(1000)\n    ttl0.pulse_mu(200)\n"
SHOT = "def shot(length: int64):\n    at_mu(1000)\n    ttl0.pulse_mu(length)\n"
# Under the schedule below each cycle is a step: it takes a while.
WAITING = "def main():\n    core.wait_until_mu(200_000_000)\n"
# Who starts the tests may have let them ignore interrupts.
SWEEP = """\
import signal, sys
signal.signal(signal.SIGINT, signal.default_int_handler)
from buszlogem import sweep
from buszlogem.shells import ShellThreads
sweep(sys.argv[1], [{}] * 400, ShellThreads(2), progress=False, schedule="mix:1")
"""


class Crews(SimCase):
    def setUp(self):
        self.folder = pathlib.Path(self.enterContext(tempfile.TemporaryDirectory()))
        self.sim = programs.find("artiq_sim")

    def starts(self, texts):
        """A start of the program for each text, whose item is its place, and which of them were asked for so far."""
        asked = []

        def each():
            for place, text in enumerate(texts):
                asked.append(place)
                yield Start(place, (self.sim, "sim"), text.encode())

        return each(), asked

    def script(self, text):
        """Starts of a script of the shell."""
        return [Start(place, ("/bin/sh", "-c", text), b"") for place in range(8)]

    def test_each_answer_is_that_of_its_item(self):
        cases = [(path.read_bytes(), ("sim", *words), report) for path, words, report in kernels_of_examples()]
        starts = [Start(place, (self.sim, *words), data) for place, (data, words, _) in enumerate(cases)]
        for size in (1, 2, 5):
            with self.subTest(size), Crew(size) as workers:
                found = dict(workers.carry_out(starts, len(starts)))
                self.assertEqual([found[place][1].decode() for place in range(len(cases))], [report for *_, report in cases])

    def test_short_programs_are_told_ahead(self):
        # Whatever time they take, they count as short, and then as long.
        for seconds, first in ((1e9, 1 + crew.MOST_AT_ONCE), (0, 2)):
            starts, asked = self.starts([PULSE] * 40)
            with self.subTest(seconds), mock.patch.object(crew, "SECONDS_AHEAD", seconds), Crew(1) as workers:
                answers = workers.carry_out(starts, 40)
                self.assertEqual(next(answers)[0], 0)
                self.assertEqual(len(asked), first)
                self.assertEqual([place for place, _ in answers], list(range(1, 40)))

    def test_the_last_ones_are_handed_out_one_by_one(self):
        starts, asked = self.starts([PULSE] * 8)
        with mock.patch.object(crew, "SECONDS_AHEAD", 1e9), Crew(4) as workers:
            for count, _ in enumerate(workers.carry_out(starts, 8), 1):
                self.assertLessEqual(len(asked) - count, 7)
        self.assertEqual(count, 8)

    def test_few_files(self):
        # Of nine shells with six files each some can't be had.
        limit = resource.getrlimit(resource.RLIMIT_NOFILE)
        self.addCleanup(resource.setrlimit, resource.RLIMIT_NOFILE, limit)
        resource.setrlimit(resource.RLIMIT_NOFILE, (50, limit[1]))
        starts, _ = self.starts([PULSE] * 30)
        with Crew(9) as workers:
            found = dict(workers.carry_out(starts, 30))
            self.assertLess(len(workers._members), 9)
        self.assertEqual({found[place][0] for place in range(30)}, {0})

    def test_what_no_shell_can_start(self):
        starts = self.script("exit 3")
        starts[2] = starts[2]._replace(words=("/bin/sh", "a\0b"))
        starts[4] = starts[4]._replace(words=(self.folder / "nothing",))
        starts[5] = starts[5]._replace(words=("/bin/sh", "-c", "#" * 200_000))
        for size in (1, 3):
            with self.subTest(size), Crew(size) as workers:
                found = dict(workers.carry_out(starts, 8))
                self.assertEqual([place for place in range(8) if found[place] is None], [2, 4, 5])
                self.assertEqual({ended for ended in found.values() if ended}, {(3, b"", b"")})

    def test_programs_that_end_their_shells(self):
        # In each the shell is gone before it tells a status.
        for size in (1, 3):
            starts = self.script("exit 3")
            for place in (1, 2, 6):
                starts[place] = starts[place]._replace(words=("/bin/sh", "-c", "kill -9 $PPID"))
            with self.subTest(size), Crew(size) as workers:
                found = dict(workers.carry_out(starts, 8))
            self.assertEqual(sorted(found), list(range(8)))
            self.assertEqual({found[place] for place in (1, 2, 6)}, {None})
            self.assertLessEqual(set(found.values()), {None, (3, b"", b"")})

    def test_shells_that_can_not_be_had_anew(self):
        starts = [start._replace(words=("/bin/sh", "-c", "kill -9 $PPID")) for start in self.script("")]
        with Crew(2) as workers, mock.patch.object(shells, "SHELL", "/nowhere/sh"):
            self.assertEqual(sorted(workers.carry_out(starts, 8)), [(place, None) for place in range(8)])

    def test_no_shell(self):
        with mock.patch.object(shells, "SHELL", "/nowhere/sh"):
            with self.assertRaises(OSError):
                Crew(2)
            table = sweep(SHOT, [8, 16], progress=False, call="shot")
        self.assertEqual([row.report.outs[1].stamp for row in table], [1008, 1016])

    def test_no_files_are_left_open(self):
        open_files = pathlib.Path("/proc/self/fd")
        before = len(list(open_files.iterdir()))
        sweep(SHOT, range(8, 80, 8), progress=False, call="shot")
        with mock.patch.object(shells, "SHELL", "/bin/true"), self.assertRaises(OSError):
            Crew(2)
        self.assertEqual(len(list(open_files.iterdir())), before)


class Sweeps(SimCase):
    def setUp(self):
        self.folder = pathlib.Path(self.enterContext(tempfile.TemporaryDirectory()))

    def program(self, before):
        """Makes `artiq_sim` a script that does something before it is the program; its folder is the variable's value."""
        real = shlex.quote(str(programs.find("artiq_sim")))
        (self.folder / "artiq_sim").write_text(f"#!/bin/sh\n{before}\nexec {real} \"$@\"\n")
        (self.folder / "artiq_sim").chmod(0o755)
        return {programs.FOLDER_VARIABLE: str(self.folder)}

    def test_shells_start_the_programs(self):
        parents = self.folder / "parents"
        with mock.patch.dict(os.environ, self.program(f"cat /proc/$PPID/comm >> '{parents}'")):
            table = sweep(SHOT, [8, 16, 24, 32, 40], progress=False, call="shot")
        self.assertEqual([row.report.outs[1].stamp for row in table], [1008, 1016, 1024, 1032, 1040])
        self.assertEqual(parents.read_text().split(), [pathlib.Path(shells.SHELL).name] * 5)

    def test_many_points_have_each_their_row(self):
        points = grid(cost=[0, 100], length=range(8, 800, 8))
        table = sweep(SHOT, points, progress=False, call="shot")
        self.assertEqual([row.point for row in table], points)
        for row in table:
            self.assertEqual([it.stamp for it in row.report.outs], [1000, 1000 + row.point["length"]])
            self.assertEqual(row.report.words, ("sim", "--cost", "100") if row.point["cost"] else ("sim",))
        first = table[0].report
        again = run(SHOT, call="shot", args=[8])
        self.assertEqual((first.text, first.kernel_sha256), (again.text, again.kernel_sha256))

    def test_words_that_no_program_can_be_given(self):
        points = [{}, {"recordings": {"a": "\0"}}, {"recordings": {"a": "\ud800"}}, {}]
        table = sweep(PULSE, points, progress=False)
        self.assertEqual([row.error is None for row in table], [True, False, False, True])

    def test_a_program_that_is_ended(self):
        with mock.patch.dict(os.environ, self.program('case "$*" in *900*) kill -9 $$;; esac')):
            table = sweep(PULSE, [{"cost": cost} for cost in (0, 900, 8)], progress=False)
        self.assertEqual([row.error is None for row in table], [True, False, True])
        self.assertEqual(table[1].error.status, -9)

    def test_an_interrupt_from_the_terminal_ends_programs_and_sweep(self):
        begun = self.folder / "begun"
        os.mkfifo(begun)
        environment = {**os.environ, **self.program(f"echo >> '{begun}'"), "PYTHONPATH": str(ROOT / "python")}
        command = [sys.executable, "-c", SWEEP, WAITING]
        # Opened for both, the pipe doesn't end where no program has it.
        with open(begun, "r+b", buffering=0) as told, subprocess.Popen(
            command, env=environment, stderr=subprocess.PIPE, text=True, start_new_session=True
        ) as running:
            told.read(1)
            told.read(1)
            os.killpg(running.pid, signal.SIGINT)
            said = running.communicate()[1]
        self.assertIn("KeyboardInterrupt", said)
        self.assertEqual(of_group(running.pid), [])


def of_group(group):
    """The processes of a group."""
    found = []
    for stat in pathlib.Path("/proc").glob("[0-9]*/stat"):
        with contextlib.suppress(OSError):
            numbers = stat.read_text(errors="replace").rpartition(") ")[2]
            if int(numbers.split()[2]) == group:
                found.append(int(stat.parent.name))
    return found


if __name__ == "__main__":
    unittest.main()
