#!/usr/bin/env python3
"""A laboratory as one writes it in python for a simulation, with threads for workers: it reads a session, serves it with
`simulated_scheduler` and `simulated_board`, and writes the report of the program artiq_lab. Kernels are compiled and run by
python itself, so they have no parallel blocks here, and numbers without wrapping.

    python3 bench/threads_laboratory.py < SESSION
"""

import json
import sys
import threading

from simulated_board import Board, Output, RTIOUnderflow
from simulated_scheduler import Scheduler


class BudgetEnd(Exception):
    """No units are left."""


class Core:
    """The core of a pipeline."""

    def __init__(self, units):
        self.board = Board()
        self.units = units
        self.left = 0
        self.sets = []
        output = self.board.output

        def counted(channel, address, value):
            self.take_unit()
            output(channel, address, value)

        self.board.output = counted
        self.names = {f"ttl{channel}": Output(self.board, channel) for channel in range(16)}
        self.names.update(core=self, delay_mu=self.board.delay_mu, at_mu=self.board.at_mu, now_mu=self.board.now_mu)
        self.names.update(range=self.turns, int64=int, set_dataset=lambda name, value: self.sets.append((name, value)))

    def take_unit(self):
        """Takes one unit of the session."""
        if self.left == 0:
            raise BudgetEnd
        self.left -= 1

    def turns(self, *bounds):
        """The turns of a loop, each of which takes a unit."""
        for turn in range(*bounds):
            self.take_unit()
            yield turn

    def reset(self):
        """The kernel's `core.reset()`."""
        self.take_unit()
        self.board.reset()

    def break_realtime(self):
        """The kernel's `core.break_realtime()`."""
        self.take_unit()
        self.board.break_realtime()

    def session(self, code, name, arguments):
        """Runs a function of a compiled kernel: how it ended, and what it set."""
        self.left, self.sets = self.units, []
        names = dict(self.names)
        exec(code, names)
        try:
            names[name](*arguments)
        except BudgetEnd:
            return "budget", self.sets
        except RTIOUnderflow:
            return "raised RTIOUnderflow", self.sets
        except ZeroDivisionError:
            return "raised ZeroDivisionError", self.sets
        return "returned", self.sets

    def report(self):
        """The lines of the core in the report."""
        lines = self.board.report("ok")
        return [line for line in lines if not line.startswith(("lanes", "end"))]


class Laboratory:
    """The scheduler behind a lock, and the cores, each of which one worker at a time has."""

    def __init__(self, session):
        self.session = session
        self.scheduler = Scheduler(session)
        self.changed = threading.Condition()
        self.codes = {}
        self.cores = [Core(session.get("budget", 20000)) for _ in session["pipelines"]]

    def work(self):
        """Does jobs until nothing is left to do."""
        while True:
            with self.changed:
                kind, run = self.scheduler.next()
                while kind == "idle":
                    self.changed.wait()
                    kind, run = self.scheduler.next()
            if kind == "finished":
                return
            report = self.done(kind, run)
            with self.changed:
                report()
                self.changed.notify_all()

    def done(self, kind, run):
        """Does a job; what is given reports it."""
        if kind == "analyze":
            return lambda: self.scheduler.analyzed(run.rid)
        experiment = self.session["experiments"][run.experiment]
        if kind == "prepare":
            self.codes[run.rid] = compile(self.session["sources"][experiment["source"]], "source", "exec")
            return lambda: self.scheduler.prepared(run.rid)
        step = experiment["run"][run.pos]
        if "kernel" not in step:
            return lambda: self.scheduler.step_done(run.rid)
        outcome, sets = self.cores[run.pipeline].session(self.codes[run.rid], step["kernel"], step["args"])
        return lambda: self.scheduler.step_done(run.rid, outcome, sets)

    def report(self):
        """The report's lines."""
        lines = self.scheduler.steps + [f"run {run.rid} {run.status}" for run in self.scheduler.runs]
        lines += [f"data {name} {flags} {text_of(value)}" for name, (flags, value) in self.scheduler.datasets.items()]
        for number, core in enumerate(self.cores):
            lines += [f"core {number}"] + core.report()
        return lines + ["end"]


def text_of(value):
    """A value as the report writes it."""
    return "[" + ",".join(map(str, value)) + "]" if isinstance(value, list) else str(value)


def main():
    session = json.load(sys.stdin)
    laboratory = Laboratory(session)
    workers = [threading.Thread(target=laboratory.work) for _ in range(session.get("workers", 1))]
    for worker in workers:
        worker.start()
    for worker in workers:
        worker.join()
    sys.stdout.write("\n".join(laboratory.report()) + "\n")


if __name__ == "__main__":
    main()
