"""The scheduler as one writes it in python for a simulation: runs, stacks, orders and the lab clock by the rules of
docs/SCHEDULER.md. A session is the value of its JSON text, and is taken to be right."""

STARTED = ("preparing", "prepared", "running", "paused", "rundone", "analyzing")
ENDED = ("done", "failed", "terminated", "deleted")
MOST_RUNS = 64


def wrapped(value):
    """The low 64 bits of a number, signed."""
    return ((value + 2**63) & (2**64 - 1)) - 2**63


def flags_of(step):
    """The flags of a set, by their letters. What persists is broadcast too."""
    persist = step.get("persist", False)
    flags = (("b", persist or step.get("broadcast", False)), ("p", persist), ("a", step.get("archive", True)))
    return "".join(letter if is_set else "-" for letter, is_set in flags)


class Run:
    """A run, as it was submitted and where it stands."""

    def __init__(self, rid, asked):
        self.rid = rid
        self.pipeline = asked["pipeline"]
        self.experiment = asked["experiment"]
        self.priority = asked.get("priority", 0)
        self.due = asked.get("due", 0)
        self.flush = asked.get("flush", False)
        self.pos = 0
        self.terminate = False
        self.doomed = False
        self.status = "pending"

    def key(self):
        """The greater one goes first."""
        return (self.priority, -self.due, -self.rid)


class Scheduler:
    """The runs of a session."""

    def __init__(self, session):
        self.session = session
        self.pipelines = len(session["pipelines"])
        self.arrivals = list(session["arrivals"])
        self.runs = []
        self.stacks = [[] for _ in range(self.pipelines)]
        self.flying = {}
        self.clock = 0
        self.datasets = {}
        self.steps = []
        self.arrive()

    def experiment(self, run):
        """What the run's experiment is."""
        return self.session["experiments"][run.experiment]

    def in_flight(self, rid, kind="step"):
        """Whether a job of this kind is in flight for the run."""
        return rid in self.flying and self.flying[rid][0] == kind

    # ---- what arrives

    def arrive(self):
        """Takes the arrivals up to the clock."""
        while self.arrivals and self.arrivals[0]["at"] <= self.clock:
            arrival = self.arrivals.pop(0)
            if "submit" in arrival:
                self.submit(arrival["submit"])
            elif "delete" in arrival:
                self.delete(arrival["delete"])
            else:
                self.terminate(arrival["terminate"])

    def submit(self, asked):
        """A run more."""
        self.runs.append(Run(len(self.runs), asked))

    def delete(self, rid):
        """Deletes a run, at its report if a job of it is in flight."""
        if rid >= len(self.runs) or self.runs[rid].status in ENDED:
            return
        if rid in self.flying:
            self.runs[rid].doomed = True
        else:
            self.end(self.runs[rid], "deleted")

    def terminate(self, rid):
        """Asks a run to end."""
        if rid >= len(self.runs):
            return
        run = self.runs[rid]
        if run.status in ("running", "paused"):
            run.terminate = True
        elif run.status in ("pending", "preparing", "prepared"):
            self.delete(rid)

    def end(self, run, status):
        """The run leaves its stack."""
        run.status = status
        stack = self.stacks[run.pipeline]
        if run.rid in stack:
            stack.remove(run.rid)

    # ---- which job is due

    def best(self, pipeline, status):
        """The run of greatest key that stands so."""
        runs = [run for run in self.runs if run.pipeline == pipeline and run.status == status]
        return max(runs, key=Run.key, default=None)

    def is_due(self, run):
        """Whether a Pending run may begin."""
        return run.status == "pending" and run.due <= self.clock

    def higher(self, run, statuses=("pending", "preparing", "prepared")):
        """Whether a run of the pipeline is higher."""
        return any(
            other.pipeline == run.pipeline
            and other.priority > run.priority
            and other.status in statuses
            and (other.status != "pending" or self.is_due(other))
            for other in self.runs
        )

    def step_due(self, pipeline):
        """The run whose step is due."""
        if any(self.in_flight(rid) for rid in self.flying if self.runs[rid].pipeline == pipeline):
            return None
        if not self.stacks[pipeline]:
            return self.best(pipeline, "prepared")
        top = self.runs[self.stacks[pipeline][-1]]
        if top.status == "running":
            return top
        if self.higher(top, ("prepared",)):
            return self.best(pipeline, "prepared")
        return None if self.higher(top) else top

    def preparation_due(self, pipeline):
        """The run that is to be prepared."""
        if self.best(pipeline, "preparing"):
            return None
        due = [run for run in self.runs if run.pipeline == pipeline and self.is_due(run)]
        candidate = max(due, key=Run.key, default=None)
        if candidate and candidate.flush and self.is_held(candidate):
            return None
        return candidate

    def is_held(self, run):
        """Whether another run of the pipeline, of at least its priority, is started and not ended."""
        return any(
            other is not run and other.pipeline == run.pipeline and other.priority >= run.priority and other.status in STARTED
            for other in self.runs
        )

    def analysis_due(self, pipeline):
        """The run that is to be analyzed."""
        return None if self.best(pipeline, "analyzing") else self.best(pipeline, "rundone")

    def pick(self):
        """The job that is due, with its run."""
        for kind, due in (("step", self.step_due), ("prepare", self.preparation_due), ("analyze", self.analysis_due)):
            for pipeline in range(self.pipelines):
                run = due(pipeline)
                if run:
                    return kind, run
        return None

    def next(self):
        """Takes the job that is due: its kind and run, or "idle" or "finished"."""
        while True:
            if not self.arrivals and all(run.status in ENDED for run in self.runs):
                return "finished", None
            found = self.pick()
            if found:
                return self.take(*found)
            if self.flying:
                return "idle", None
            dates = [run.due for run in self.runs if run.status == "pending" and run.due > self.clock]
            dates += [arrival["at"] for arrival in self.arrivals[:1]]
            self.clock = min(dates)
            self.arrive()

    def take(self, kind, run):
        """The job is in flight."""
        if kind == "step":
            run.status = "running"
            if run.rid not in self.stacks[run.pipeline]:
                self.stacks[run.pipeline].append(run.rid)
        else:
            run.status = "preparing" if kind == "prepare" else "analyzing"
        self.flying[run.rid] = (kind, run.pos)
        return kind, run

    # ---- reports

    def late(self, rid, kind, pos=None):
        """Why a report is refused, or nothing."""
        if rid >= len(self.runs):
            return "no run"
        flight = self.flying.get(rid)
        if flight is None or flight[0] != kind or (kind == "step" and flight[1] != pos):
            return f"wrong status {self.runs[rid].status}"
        return None

    def stage_done(self, rid, stage, status):
        """The steps of a stage, up to the first that fails."""
        run = self.runs[rid]
        del self.flying[rid]
        if run.doomed:
            run.status = "deleted"
            return
        run.status = status
        for step in self.experiment(run)[stage]:
            if not self.store(step):
                run.status = "failed"
                break

    def prepared(self, rid):
        """Reports a preparation."""
        self.stage_done(rid, "prepare", "prepared")

    def analyzed(self, rid):
        """Reports an analysis."""
        self.stage_done(rid, "analyze", "done")

    def failed(self, rid):
        """Reports that a source is refused."""
        run = self.runs[rid]
        del self.flying[rid]
        run.status = "deleted" if run.doomed else "failed"

    def step_done(self, rid, outcome="returned", sets=()):
        """Reports a step, and gives its word."""
        run = self.runs[rid]
        step = self.experiment(run)["run"][run.pos]
        self.clock += 1
        self.arrive()
        position = run.pos
        run.pos += 1
        word, status = self.stepped(run, step, outcome, sets)
        del self.flying[rid]
        run.status = status
        if status in ENDED:
            self.end(run, status)
        elif status == "running" and run.pos == len(self.experiment(run)["run"]):
            self.end(run, "rundone")
        self.steps.append(f"step {self.clock} {rid} {position} {word}")
        return word

    def stepped(self, run, step, outcome, sets):
        """The word of a step, and where its run stands then."""
        if run.doomed:
            return "deleted", "deleted"
        if "kernel" in step:
            for name, value in sets:
                self.set(name, value, "--a")
            return ("ok", "running") if outcome == "returned" else (outcome, "failed")
        if "submit" in step:
            coming = sum("submit" in arrival for arrival in self.arrivals)
            if len(self.runs) + coming >= MOST_RUNS:
                return "failed", "failed"
            self.submit(step["submit"])
            return "ok", "running"
        if "pause" in step or "check_termination" in step:
            if run.terminate:
                return "terminated", "terminated"
            if "pause" in step and run.pos < len(self.experiment(run)["run"]) and self.higher(run):
                return "paused", "paused"
            return "ok", "running"
        return ("ok", "running") if self.store(step) else ("failed", "failed")

    # ---- datasets

    def set(self, name, value, flags):
        """Sets a dataset, which keeps its place."""
        self.datasets[name] = (flags, list(value) if isinstance(value, list) else value)

    def store(self, step):
        """Applies a step on datasets, unless it fails."""
        if "set" in step:
            self.set(step["set"], step["value"], flags_of(step))
            return True
        name = step["append"] if "append" in step else step["sum"]
        if name not in self.datasets:
            return False
        value = self.datasets[name][1]
        if "append" in step:
            if not isinstance(value, list):
                return False
            value.append(step["value"])
            return True
        self.set(step["into"], wrapped(sum(value)) if isinstance(value, list) else value, "--a")
        return True
