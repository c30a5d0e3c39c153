#!/usr/bin/env python3
"""The first run of a launcher, with a stand-in for rt: how near its build comes to the longest chain of crates.

    python3 bench/first_run.py [PROGRAM [LANES [PACE]]]      artiq_sim, a lane for each processor, ten times as fast

In place of proving a crate the stand-in waits as long as launch/times.txt says, divided by PACE, and keeps to what rt does
besides: it locks the crate and all that it stands on, and refuses to begin where one of these isn't built. Prints the
time by the clock beside the longest chain and beside the work shared out evenly, and the same of a build that is interrupted
half way and begun again, with what was begun twice. What it can't show is how checks hinder each other on one machine.
"""

import os
import pathlib
import shutil
import signal
import subprocess
import sys
import tempfile
import time

ROOT = pathlib.Path(__file__).resolve().parent.parent
sys.path.insert(0, str(ROOT / "launch"))
import build  # noqa: E402  (it stands in another folder)

STAND_IN = '''#!{python}
import fcntl, os, pathlib, sys, time
sys.path.insert(0, "{launch}")
import build
name = pathlib.Path.cwd().name
needs = build.crates_needed(name)
below = build.all_below(needs)[name]
held = [os.open(pathlib.Path.cwd().parent / it, os.O_RDONLY) for it in [*below, name]]
for it in held:
    fcntl.flock(it, fcntl.LOCK_EX)
lacking = [it for it in below if not (pathlib.Path.cwd().parent / it / "out/rlib/stamp").exists()]
with open("{log}", "a") as log:
    print(name, *lacking, file=log)
if lacking:
    sys.exit(1)
time.sleep(build.seconds_known(needs)[name] / {pace})
if sys.argv[1] == "run":
    program = pathlib.Path("out") / name
    program.write_text("#!/bin/sh\\n")
    program.chmod(0o755)
    print(pathlib.Path("stdout").read_text(), end="")
else:
    pathlib.Path("out/rlib").mkdir(exist_ok=True)
    pathlib.Path("out/rlib/stamp").write_text(name)
'''


def checkout(room, lanes, pace):
    """Makes a checkout with the crates and launchers of this one, and returns it with the environment that has the stand-in."""
    top, tools, log = room / "checkout", room / "tools", room / "log"
    for name in ("bin", "launch", "crates"):
        shutil.copytree(ROOT / name, top / name, ignore=shutil.ignore_patterns("out", "proofs", "__pycache__"))
    for name in ("crates.txt", "HANDLES"):
        shutil.copy2(ROOT / name, top / name)
    (top / ".git").mkdir()
    tools.mkdir()
    stand_in = STAND_IN.format(python=sys.executable, launch=top / "launch", log=log, pace=pace)
    (tools / "rt").write_text(stand_in)
    (tools / "rt").chmod(0o755)
    log.touch()
    whole = (top / "launch" / "build.py").read_text()
    line = "def lanes_that_fit():\n"
    (top / "launch" / "build.py").write_text(whole.replace(line, f"{line}    return {lanes}\n\n\ndef lanes_of_this_machine():\n"))
    return top, log, {**os.environ, "PATH": f"{tools}:{os.environ['PATH']}"}


def begin(top, name, env):
    """Begins the launcher of a program."""
    how = {"stdin": subprocess.DEVNULL, "stdout": subprocess.DEVNULL, "stderr": subprocess.DEVNULL}
    return subprocess.Popen([top / "bin" / name], env=env, start_new_session=True, **how)


def seconds_of(top, name, env, limit=None):
    """Returns how long a launcher ran; with a limit it is interrupted then, as by Ctrl-C."""
    start = time.monotonic()
    run = begin(top, name, env)
    try:
        run.wait(limit)
    except subprocess.TimeoutExpired:
        os.killpg(run.pid, signal.SIGINT)
        run.wait()
    else:
        if run.returncode != 0 or limit is not None:
            sys.exit(f"{name} ended with status {run.returncode}")
    return time.monotonic() - start


def main():
    # (started in the background by a shell, it and the launchers would ignore the interruption)
    signal.signal(signal.SIGINT, signal.default_int_handler)
    name = sys.argv[1] if len(sys.argv) > 1 else "artiq_sim"
    lanes = int(sys.argv[2]) if len(sys.argv) > 2 else len(os.sched_getaffinity(0))
    pace = int(sys.argv[3]) if len(sys.argv) > 3 else 10
    needs = build.crates_needed(name)
    seconds = build.seconds_known(needs)
    longest, work = max(build.chains(needs, seconds).values()) / pace, sum(seconds.values()) / pace
    print(f"{name}: {len(needs)} crates, {lanes} side by side; longest chain {longest:.1f} s, work shared out {work / lanes:.1f} s")
    least = max(longest, work / lanes)
    for limit in (None, least / 2):
        with tempfile.TemporaryDirectory() as folder:
            top, log, env = checkout(pathlib.Path(folder), lanes, pace)
            took = seconds_of(top, name, env, limit) + (seconds_of(top, name, env) if limit else 0)
            begun = [line.split() for line in log.read_text().splitlines()]
            twice = len(begun) - len({line[0] for line in begun})
            lacking = [line for line in begun if len(line) > 1]
        what = "interrupted once" if limit else "at a stretch"
        print(f"{what:18} {took:6.1f} s, {took / longest:.2f} of the longest chain; begun twice: {twice}; begun too early: {len(lacking)}")


if __name__ == "__main__":
    main()
