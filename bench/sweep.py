#!/usr/bin/env python3
"""A sweep of the Python package: many points on all processors, beside the same on one.

    python3 bench/sweep.py [POINTS [SHOTS]]

A point is a Ramsey scan of SHOTS shots (400 without it) at a waiting time of its own; there are 1,000 points without the word.
Programs are started by shells, as a sweep does it, by Python itself, as in a pool of plain threads, and by plain shells, each
of which has its share of the points in a script: that is what the machine can do. Printed are the seconds of each, points a
second, how many times as fast it is as in the same way on one processor, in all and for each processor, and how many ms of
processor time Python itself took for a point. All sweeps have to give the same rows. The last line says for how many
milliseconds a start by Python held all of its threads, on all processors: the median, and what nine tenths of the starts
stayed below.
"""

import concurrent.futures
import os
import shlex
import statistics
import subprocess
import sys
import tempfile
import time
from unittest import mock

from timing import ROOT

sys.path.insert(0, os.path.join(ROOT, "python"))

from buszlogem import programs, sweep  # noqa: E402  (the package lies in another folder)
from buszlogem.kernels import read_kernel  # noqa: E402
from buszlogem.shells import SHELL, ShellThreads  # noqa: E402
from buszlogem.sweep import processors  # noqa: E402

KERNEL = """\
def half_pi():
    ttl1.pulse_mu(2_500)

def scan(wait: int64, shots: int32):
    for shot in range(shots):
        core.break_realtime()
        ttl0.pulse_mu(20_000)
        delay_mu(1_000)
        half_pi()
        delay_mu(wait)
        half_pi()
        delay_mu(1_000)
        end = in0.gate_rising_mu(10_000)
        set_dataset("photons", in0.count(end))
"""
POOLS = {"shells": ShellThreads, "python": concurrent.futures.ThreadPoolExecutor}


def timed(points, workers, by="shells"):
    """The seconds of a sweep with so many programs at once, Python's own among them, and its reports."""
    start, own = time.perf_counter(), time.process_time()
    with POOLS[by](workers) as pool:
        table = sweep(KERNEL, points, pool, progress=False, call="scan")
    return time.perf_counter() - start, time.process_time() - own, [row.finished.text for row in table]


def plain(points, workers):
    """The seconds of so many plain shells, each with its share of the points."""
    program = shlex.quote(os.fspath(programs.find("artiq_sim")))
    with tempfile.TemporaryDirectory() as folder:
        for place, point in enumerate(points):
            with open(os.path.join(folder, f"text{place}"), "wb") as text:
                text.write(read_kernel(KERNEL, "scan", [point["wait"], point["shots"]]).data)
        for worker in range(workers):
            with open(os.path.join(folder, f"script{worker}"), "w", encoding="utf-8") as script:
                script.writelines(f"{program} sim <text{at} >out{worker}\n" for at in range(worker, len(points), workers))
        start = time.perf_counter()
        running = [subprocess.Popen([SHELL, f"script{worker}"], cwd=folder) for worker in range(workers)]
        if any([shell.wait() for shell in running]):
            raise SystemExit("a plain shell failed")
        return time.perf_counter() - start


def held(points, workers):
    """For how many milliseconds each start by Python held its threads."""
    found, original = [], subprocess._fork_exec

    def measured(*arguments):
        start = time.perf_counter()
        number = original(*arguments)
        found.append((time.perf_counter() - start) * 1000)
        return number

    with mock.patch.object(subprocess, "_fork_exec", measured):
        timed(points, workers, "python")
    return found


def main():
    count = int(sys.argv[1]) if len(sys.argv) > 1 else 1_000
    shots = int(sys.argv[2]) if len(sys.argv) > 2 else 400
    points = [{"wait": 1_000 + 8 * place, "shots": shots} for place in range(count)]
    timed(points[:8], processors())
    print(f"{count} points of {shots} shots")
    print(f"{'processors':>10} {'started by':>12} {'seconds':>8} {'points/s':>9} {'times one':>10} {'each':>5} {'own ms':>7}")
    alone, first = {}, None
    for workers in sorted({1, 2, processors()}):
        for by in (*POOLS, "plain shells"):
            own = None
            if by in POOLS:
                seconds, own, reports = timed(points, workers, by)
                first = first or reports
                if reports != first:
                    raise SystemExit(f"{workers} processors give other rows than one")
            else:
                seconds = plain(points, workers)
            faster = alone.setdefault(by, seconds) / seconds
            spent = "" if own is None else f"{own / count * 1000:.2f}"
            print(
                f"{workers:10} {by:>12} {seconds:8.2f} {count / seconds:9.0f} {faster:10.2f} {faster / workers:5.2f} {spent:>7}",
                flush=True,
            )
    times = held(points, processors())
    print(f"a start by Python held it {statistics.median(times):.2f} ms, nine tenths below {sorted(times)[len(times) * 9 // 10]:.2f}")


if __name__ == "__main__":
    main()
