"""Programs that a shell starts answer as those that Python starts; where a shell isn't there or is gone, Python starts them."""

import concurrent.futures
import multiprocessing
import os
import pathlib
import signal
import tempfile
import threading
import unittest
from unittest import mock

from support import SimCase, kernels_of_examples

from buszlogem import ProgramError, ProgramMissing, programs, run, shells
from buszlogem.shells import Shell, ShellThreads, own_shell

PULSE = b"def main():\n    at_mu(1000)\n    ttl0.pulse_mu(200)\n"
# Under the schedule below each cycle is a step: it takes a while.
WAITING = "def main():\n    core.wait_until_mu(200_000_000)\n"


def both_ways(words, text, name="artiq_sim"):
    """What a program answers when a shell starts it, and when Python does."""
    with ShellThreads(1) as pool:
        by_shell = pool.submit(started, name, words, text).result()
        if not pool.submit(own_shell).result():
            raise AssertionError("the thread has no shell")
    return by_shell, started(name, words, text)


def started(name, words, text):
    """The answer, or why there is none."""
    try:
        return programs.start(name, words, text)
    except (ProgramError, ValueError) as why:
        return type(why), str(why)


class Answers(SimCase):
    def program(self, text):
        """Makes `artiq_sim` a script of the shell."""
        folder = pathlib.Path(self.enterContext(tempfile.TemporaryDirectory()))
        (folder / "artiq_sim").write_text(text)
        (folder / "artiq_sim").chmod(0o755)
        self.enterContext(mock.patch.dict(os.environ, {programs.FOLDER_VARIABLE: str(folder)}))

    def test_the_same_as_without(self):
        for words, text, status in (
            (["sim"], PULSE, 0),
            (["check"], "def main():\n    pass\n", 0),
            (["sim"], b"def main():\n    tll0.on()\n", 1),
            (["sim"], b"\xff\x00\x80", 1),
            (["sim"], b"", 1),
            (["sim", "--cost", "it's $HOME `ls` \"x\" \\ *\n"], PULSE, 2),
            (["sim", "--cost", ""], PULSE, 2),
            (["sim", "--cost", "\udcffÁé\x81\x88"], PULSE, 2),
            (["sim", "--cost", "1" * 100_000], PULSE, 2),
            (["sim", "--cost", "100000"], b"def main():\n    at_mu(0)\n    ttl0.on()\n", 6),
            (["sim"], b"#" * (2**20 + 1), 8),
        ):
            with self.subTest(words=words):
                by_shell, by_python = both_ways(words, text)
                self.assertEqual(by_shell, by_python)
                self.assertEqual(by_shell.status, status)

    def test_one_after_another(self):
        cases = [(path.read_bytes(), ("sim", *words)) for path, words, _ in kernels_of_examples()]
        with ShellThreads(1) as pool:
            answers = list(pool.map(lambda case: programs.start("artiq_sim", case[1], case[0]), cases))
        self.assertEqual([answer.out for answer in answers], [report for *_, report in kernels_of_examples()])

    def test_what_can_not_be_started(self):
        for words, text in ((["sim", "--cost", "1" * 200_000], PULSE), (["sim", "a\0b"], PULSE)):
            by_shell, by_python = both_ways(words, text)
            self.assertEqual(by_shell, by_python)
            self.assertIn(by_shell[0], (ProgramError, ValueError))
        self.program("#!/nowhere/at/all\n")
        by_shell, by_python = both_ways(["sim"], PULSE)
        self.assertEqual(by_shell, by_python)
        self.assertIn("artiq_sim can't be started: ", by_shell[1])

    def test_signals(self):
        for number in (signal.SIGKILL, signal.SIGSEGV, signal.SIGINT, signal.SIGTERM):
            self.program(f"#!/bin/sh\necho out; echo err >&2; kill -{int(number)} $$\n")
            by_shell, by_python = both_ways(["sim"], PULSE)
            self.assertEqual((by_shell, by_shell.status), (by_python, -number))

    def test_a_folder_with_a_name_that_shells_mind(self):
        program = programs.find("artiq_sim")
        with tempfile.TemporaryDirectory() as folder:
            odd = pathlib.Path(folder) / "it's $(a) \"Á\" *"
            odd.mkdir()
            (odd / "artiq_sim").symlink_to(program)
            with mock.patch.dict(os.environ, {programs.FOLDER_VARIABLE: str(odd)}):
                by_shell, by_python = both_ways(["sim"], PULSE)
        self.assertEqual((by_shell, by_shell.status), (by_python, 0))

    def test_a_program_that_is_not_there(self):
        with tempfile.TemporaryDirectory() as folder, mock.patch.dict(os.environ, {programs.FOLDER_VARIABLE: folder}):
            with ShellThreads(1) as pool, self.assertRaises(ProgramMissing):
                pool.submit(programs.start, "artiq_sim", ["sim"], PULSE).result()

    def test_a_limit_of_time(self):
        with ShellThreads(1) as pool, self.assertRaises(ProgramError) as raised:
            pool.submit(run, WAITING, schedule="mix:1", timeout=0.05).result()
        self.assertEqual(raised.exception.status, -9)


class Threads(SimCase):
    def test_each_has_a_shell_of_its_own(self):
        meet = threading.Barrier(3)

        def shell_of_thread():
            meet.wait(60)
            return own_shell()

        with ShellThreads(3) as pool:
            found = {future.result() for future in [pool.submit(shell_of_thread) for _ in range(3)]}
            self.assertEqual(sum(isinstance(shell, Shell) for shell in found), 3)
        self.assertIsNone(own_shell())

    def test_a_process_that_is_forked_has_none(self):
        def in_a_fork():
            with concurrent.futures.ProcessPoolExecutor(1, multiprocessing.get_context("fork")) as processes:
                return own_shell(), processes.submit(own_shell).result()

        with ShellThreads(1) as pool:
            here, there = pool.submit(in_a_fork).result()
        self.assertIsInstance(here, Shell)
        self.assertIsNone(there)

    def test_shells_end_with_the_pool(self):
        with ShellThreads(2) as pool:
            pool.submit(programs.start, "artiq_sim", ["sim"], PULSE).result()
            shell = pool.submit(own_shell).result()
            self.assertIsNone(shell._process.poll())
        self.assertEqual(shell._process.poll(), 0)
        self.assertIsNone(shell.start((programs.find("artiq_sim"), "sim"), PULSE))

    def test_a_shell_that_is_gone(self):
        with ShellThreads(1) as pool:
            shell = pool.submit(own_shell).result()
            shell._process.kill()
            answer = pool.submit(programs.start, "artiq_sim", ["sim"], PULSE).result()
        self.assertEqual(answer, programs.start("artiq_sim", ["sim"], PULSE))

    def test_no_shell(self):
        for instead in ("/nowhere/sh", "/bin/true", "/bin/cat"):
            with self.subTest(instead), mock.patch.object(shells, "SHELL", instead):
                with self.assertRaises(OSError):
                    Shell()
                with ShellThreads(1) as pool:
                    self.assertIsNone(pool.submit(own_shell).result())
                    self.assertEqual(pool.submit(run, PULSE.decode()).result().text, run(PULSE.decode()).text)

    def test_no_files_are_left_open(self):
        open_files = pathlib.Path("/proc/self/fd")
        before = len(list(open_files.iterdir()))
        with ShellThreads(3) as pool:
            list(pool.map(run, [PULSE.decode()] * 6))
        with mock.patch.object(shells, "SHELL", "/bin/true"), self.assertRaises(OSError):
            Shell()
        self.assertEqual(len(list(open_files.iterdir())), before)

    def test_no_threads(self):
        with self.assertRaises(ValueError):
            ShellThreads(0)


class Ahead(SimCase):
    """A shell that is told of several programs."""

    def setUp(self):
        self.folder = pathlib.Path(self.enterContext(tempfile.TemporaryDirectory()))
        self.shell = Shell(ahead=2)
        self.addCleanup(self.shell.close)
        self.sim = programs.find("artiq_sim")

    def heard(self, answers):
        """Hears so many answers."""
        found = []
        while len(found) < answers:
            found += self.shell.hear()
        return found

    def test_each_has_its_own_text_and_answer(self):
        texts = [PULSE.replace(b"200", length) for length in (b"8", b"16", b"24")]
        starts = [((self.sim, "sim"), text) for text in texts]
        self.assertEqual(self.shell.ask(starts[:1]), 1)
        self.assertEqual(self.shell.ask(starts[1:]), 2)
        self.assertEqual([ended[0] for ended in self.heard(3)], [0, 0, 0])
        self.assertEqual(self.shell.ask(starts[::-1]), 3)
        reports = [run(text.decode()).text.encode() for text in texts[::-1]]
        self.assertEqual(self.heard(3), [(0, report, b"") for report in reports])

    def test_words_that_differ(self):
        rows = [("sim", "--cost", "900"), ("check",), ("sim", "--cost", "-1")]
        self.assertEqual(self.shell.ask([((self.sim, *words), PULSE) for words in rows]), 3)
        for words, ended in zip(rows, self.heard(3)):
            answer = programs.start("artiq_sim", words, PULSE)
            self.assertEqual(ended, (answer.status, answer.out.encode(), answer.err.encode()))

    def test_one_that_is_not_started_between_others(self):
        nothing = self.folder / "nothing"
        self.assertEqual(self.shell.ask([((it, "sim"), PULSE) for it in (self.sim, nothing, self.sim)]), 3)
        first, none, last = self.heard(3)
        self.assertIsNone(none)
        self.assertEqual((first, last), ((0, run(PULSE.decode()).text.encode(), b""),) * 2)

    def test_there_is_room_for_so_many(self):
        starts = [((self.sim, "sim"), PULSE)] * 4
        self.assertEqual([self.shell.ask(starts), self.shell.ask(starts)], [3, 0])
        self.assertEqual(len(self.heard(3)), 3)
        self.assertEqual(self.shell.ask(starts[:2]), 2)
        self.assertEqual(len(self.heard(2)), 2)

    def test_words_that_no_shell_can_be_told(self):
        for word in ("a\0b", "\ud800"):
            start = (self.sim, "sim"), PULSE
            self.assertEqual(self.shell.ask([start, ((self.sim, word), PULSE), start]), 1)
            self.assertEqual(len(self.heard(1)), 1)

    def test_what_is_withdrawn_is_not_begun(self):
        gate, told = self.folder / "gate", self.folder / "told"
        os.mkfifo(gate)
        waiting, telling = ("/bin/sh", "-c", f"cat '{gate}'"), ("/bin/sh", "-c", f"echo x >> '{told}'")
        self.assertEqual(self.shell.ask([(telling, b""), (waiting, b""), (telling, b"")]), 3)
        # It is opened once the second one reads from it.
        with open(gate, "wb"):
            self.shell.withdraw()
        self.shell.close()
        self.assertEqual(told.read_text(), "x\n")


if __name__ == "__main__":
    unittest.main()
