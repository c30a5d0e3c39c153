"""What the benchmarks share: the built program beside python3, which reads the same text."""

import os
import resource
import subprocess
import sys
import tempfile
import time

ROOT = os.path.dirname(os.path.dirname(os.path.abspath(__file__)))
SIM = [os.path.join(ROOT, "bin", "artiq_sim"), "sim"]
PROGRAM = os.path.join(ROOT, "crates", "artiq_sim", "out", "artiq_sim")
PARSE = [sys.executable, "-c", "import ast, sys; ast.parse(sys.stdin.read())"]
COMPILE = [sys.executable, "-c", "import sys; compile(sys.stdin.read(), 'text', 'exec')"]
ROUNDS = 20


def processor_time():
    """The processor time of all runs so far, in seconds."""
    spent = resource.getrusage(resource.RUSAGE_CHILDREN)
    return spent.ru_utime + spent.ru_stime


def best_time(argv, path, status=0):
    """The best time of some runs on a file, in milliseconds."""
    best = float("inf")
    for _ in range(ROUNDS):
        with open(path, "rb") as text:
            start = time.perf_counter()
            run = subprocess.run(argv, stdin=text, stdout=subprocess.DEVNULL, stderr=subprocess.DEVNULL, check=False)
            best = min(best, time.perf_counter() - start)
        if run.returncode != status:
            sys.exit(f"{argv[0]} ended with status {run.returncode}")
    return best * 1000


def best_times(commands, text):
    """The best times of the program under each of some commands, on a text of bytes, in milliseconds."""
    with tempfile.TemporaryDirectory() as folder:
        path = os.path.join(folder, "text")
        with open(path, "wb") as file:
            file.write(text)
        return [best_time([PROGRAM, command], path) for command in commands]


def memory_needed(argv, path, status=0):
    """The least address space in MB, code and libraries included, in which a run on a file succeeds."""
    for limit in range(1, 128):

        def limited():
            resource.setrlimit(resource.RLIMIT_AS, (limit << 20, limit << 20))

        with open(path, "rb") as text:
            run = subprocess.run(
                argv,
                stdin=text,
                stdout=subprocess.DEVNULL,
                stderr=subprocess.DEVNULL,
                preexec_fn=limited,
                check=False,
            )
        if run.returncode == status:
            return limit
    return None


def compare(texts, command="sim", beside=PARSE):
    """Prints a line for each of some (name, text, status) under a command, after the program is built."""
    program = [PROGRAM, command]
    with open(os.path.join(ROOT, "examples", "pair_of_pulses.py"), "rb") as text:
        subprocess.run(SIM, stdin=text, stdout=subprocess.DEVNULL, check=True)
    print(f"{'text':28} {'artiq_sim':>10} {'python3':>10} {'python3/artiq_sim':>18} {'memory':>8}")
    with tempfile.TemporaryDirectory() as folder:
        for name, text, status in texts:
            path = os.path.join(folder, "text")
            with open(path, "w", encoding="ascii") as file:
                file.write(text)
            ours, theirs = best_time(program, path, status), best_time(beside, path)
            memory = memory_needed(program, path, status)
            print(f"{name:28} {ours:7.2f} ms {theirs:7.1f} ms {theirs / ours:18.1f} {memory:5} MB")
