#!/usr/bin/env python3
"""Works out anew what the tables of `crates/sched_histories/data` answer, by the scheduler of `simulated_scheduler`, which goes by
the rules of docs/SCHEDULER.md and knows nothing of the crates, and prints each line that has another answer, as it would
stand. Of the sessions in `crates/program_rows/data/crew` it works out the lines `step` and `run` so; their kernels and their
preparations end as the row says. Words: the tables (all but those that are wrong on purpose without one). Ends with status 1
where a line has another answer.

How tables are written stands at the heads of `crates/sched_histories/src/main.rt` and `crates/program_rows/src/main.rt`."""

import json
import pathlib
import sys

from simulated_scheduler import Scheduler

CRATES = pathlib.Path(__file__).resolve().parent.parent / "crates"
FOLDER = CRATES / "sched_histories" / "data"
CREW = CRATES / "program_rows" / "data" / "crew"
# What becomes of a kernel's step, by the call that reports it.
OUTCOMES = {"step": "returned", "raised": "raised", "budget": "budget", "horizon": "horizon"}
KINDS = {"prepared": "prepare", "failed": "prepare", "analyzed": "analyze", **dict.fromkeys(OUTCOMES, "step")}


class Counting(Scheduler):
    """A scheduler that counts the entries of its history, and may be halted."""

    def __init__(self, session):
        self.entries, self.halted_by = 0, None
        super().__init__(session)

    def source(self, run):
        """The source that the run's experiment names."""
        return self.experiment(run)["source"]

    def next_job(self):
        """What `next` answers. Each jump of the clock is an entry, and the job that is taken."""
        if self.halted_by is not None:
            return f"stopped by {self.halted_by}"
        taken, arrive = [], self.arrive
        self.arrive = lambda: (taken.append(None), arrive())
        kind, run = self.next()
        del self.arrive
        self.entries += len(taken) + (run is not None)
        if kind == "prepare":
            return f"prepare {run.rid} of source {self.source(run)}"
        if kind == "step":
            return f"step {run.rid} {run.pos} on {run.pipeline} by {self.source(run)}"
        return kind if run is None else f"analyze {run.rid}"

    def report(self, words, source):
        """What a report answers whose kit is of this source."""
        name, numbers = words[0], [int(it) for it in words[1:]]
        rid = numbers[0]
        why = self.late(rid, KINDS[name], *numbers[1:])
        if why:
            return why
        if name not in ("failed", "analyzed") and source != self.source(self.runs[rid]):
            return f"foreign to {self.source(self.runs[rid])}"
        self.entries += 1
        if name in OUTCOMES:
            return self.step_done(rid, OUTCOMES[name], [("k", 7)])
        getattr(self, name)(rid)
        return "ok"

    def data(self, name):
        """The value of a dataset."""
        if name not in self.datasets:
            return "none"
        value = self.datasets[name][1]
        return "list" + "".join(f" {it}" for it in value) if isinstance(value, list) else str(value)

    def answer(self, call):
        """What a call answers."""
        words = call.split()
        source = int(words[0] == "by_1")
        words = words[source:]
        if words == ["next"]:
            return self.next_job()
        if words[0] == "data":
            return self.data(words[1])
        if words[0] == "stop":
            if self.halted_by is None:
                self.halted_by, self.entries = int(words[1]), self.entries + 1
            return "ok"
        return self.report(words, source) if words[0] in KINDS else "no call"

    def line(self, call):
        """A call's line: its answer, what the history and the clock are then, and the runs that stand elsewhere."""
        seen = [run.status for run in self.runs]
        answer = self.answer(call)
        moved = [run for run in self.runs if seen[run.rid : run.rid + 1] != [run.status]]
        return f"{call} | {answer} | {self.entries} {self.clock} |" + "".join(f" {run.rid} {run.status}" for run in moved)


def session_of(experiments, lines):
    """The session of a history, whose arrivals stand behind `+`, or behind `+62` so often."""
    arrivals = []
    for line in lines:
        if line.startswith("+"):
            often, _, arrival = line[1:].partition(" ")
            arrivals += [json.loads(arrival) for _ in range(int(often or 1))]
    return {"pipelines": [{}, {}], "experiments": experiments, "arrivals": arrivals}


def of_calls(name, experiments):
    """Goes through a table of calls: the lines as they stand, and as they would."""
    for paragraph in (FOLDER / name).read_text(encoding="utf-8").split("\n\n"):
        lines = paragraph.splitlines()
        if lines and lines[0].startswith("="):
            scheduler = Counting(session_of(experiments, lines))
            for line in lines:
                call, parted, _ = line.partition(" | ")
                if parted:
                    yield lines[0], line, scheduler.line(call)


def served(session, words, unprepared):
    """The lines `step` and `run` of a session that one worker serves, whose kernels end with these words, and of whose runs the
    preparation of these fails."""
    scheduler = Scheduler(session)
    while True:
        kind, run = scheduler.next()
        if kind == "finished":
            return scheduler.steps, [f"run {run.rid} {run.status}" for run in scheduler.runs]
        if kind == "prepare":
            (scheduler.failed if run.rid in unprepared else scheduler.prepared)(run.rid)
        elif kind == "analyze":
            scheduler.analyzed(run.rid)
        else:
            word = words.get((run.rid, run.pos), "ok")
            scheduler.step_done(run.rid, "returned" if word in ("ok", "deleted") else word)


def grouped(steps, apart):
    """The lines `step` as a row tells them, whose runs stand apart in these groups of keys: by group, without their clocks."""
    if apart is None:
        return steps
    group_of = {key: number for number, group in enumerate(apart) for key in group.split(",")}
    words = sorted((line.split() for line in steps), key=lambda it: group_of[it[2]])
    return [" ".join(["step", *it[2:]]) for it in words]


def of_crew(name):
    """Goes through a table of sessions: the lines `step` and `run` of each report as they stand, and as they would."""
    for paragraph in (CREW / name).read_text(encoding="utf-8").split("\n\n"):
        lines = paragraph.splitlines()
        if not lines or not lines[0].startswith("== ") or "= 1-8: 0" not in lines:
            continue
        text = "".join(line[3:] if line.startswith("|-") else line[2:] + "\n" for line in lines if line.startswith("|"))
        session = json.loads('{"workers":1,' + text)
        apart = next((line.split()[1:] for line in lines if line.startswith("apart ")), None)
        told = [line[2:] for line in lines if line.startswith(("> step ", "> run "))]
        steps = [line.split() for line in told if line.startswith("step ")]
        at = 1 if apart else 2
        words = {(int(it[at]), int(it[at + 1])): " ".join(it[at + 2 :]) for it in steps}
        failed = {int(line.split()[1]) for line in told if line.startswith("run ") and line.endswith(" failed")}
        unprepared = failed - {rid for rid, _ in words}
        done, ends = served(session, words, unprepared)
        yield lines[0], "\n  ".join(told), "\n  ".join(grouped(done, apart) + ends)


def main():
    """Goes through the tables, and tells how many lines or reports there are and how many have another answer."""
    experiments = json.loads((FOLDER / "experiments.json").read_text(encoding="utf-8"))
    tables = [*sorted(FOLDER.glob("*.calls")), *sorted(CREW.glob("*.rows"))]
    names = sys.argv[1:] or [it.name for it in tables if it.stem != "wrong"]
    wrong = 0
    for name in names:
        found = [*(of_calls(name, experiments) if name.endswith(".calls") else of_crew(name))]
        for title, line, other in found:
            if line != other:
                wrong += 1
                print(f"{name}: {title}\n- {line}\n+ {other}")
        print(f"{name}: {len(found)} gone through")
    print(f"{wrong} with another answer")
    sys.exit(1 if wrong else 0)


if __name__ == "__main__":
    main()
