"""A run of a kernel and its trace, as python works them out: by the tree and the lines of python3's own parser, on a core with
the rules of docs/TIMELINE.md, docs/DISPATCH.md and docs/TRACE.md. It has what the kernels of `random_traces` have: functions,
loops, branches, blocks, recordings, exceptions, inputs that see no edge; lockstep, and no last cycle."""

import ast
import collections
import operator

KINDS = (("ttl", 0, 16), ("raw", 16, 8), ("in", 24, 8))
CHANNELS = {f"{kind}{number}": first + number for kind, first, count in KINDS for number in range(count)}
OPERATORS = {
    ast.Add: operator.add,
    ast.Sub: operator.sub,
    ast.Mult: operator.mul,
    ast.FloorDiv: operator.floordiv,
    ast.Lt: operator.lt,
    ast.GtE: operator.ge,
    ast.Eq: operator.eq,
}
DEPTH, AHEAD = 128, 125_000
Event = collections.namedtuple("Event", "number place stamp channel")


class Raised(Exception):
    """An exception of a kernel: its name, and where it was raised first."""

    def __init__(self, name, place):
        super().__init__(name)
        self.name, self.place = name, place


class NoUnits(Exception):
    """No unit is left: where one more was wanted."""

    def __init__(self, place):
        super().__init__()
        self.place = place


class FullLane(Exception):
    """A lane is full: how long an output waits isn't worked out here."""


class Leave(Exception):
    """A `break`, a `continue` or a `return`, by its word."""


class Core:
    """A core in lockstep, without a last cycle."""

    def __init__(self, cost, lanes, holds):
        self.cost, self.holds = cost, holds
        self.counter = self.limit = self.current = 0
        # Of each lane the cycles of its events, and the last one that it took.
        self.lanes = [[] for _ in range(lanes)]
        self.last = [-(2**62)] * lanes
        self.accepted, self.why = [], {}

    def reading(self):
        return 8 * self.counter

    def go_on(self):
        """Before a request the counter goes as far as the limit lets it."""
        self.counter = max(self.counter, self.limit // 8)

    def answered(self):
        self.limit = max(self.limit, self.reading()) + self.cost

    def wait(self, until):
        self.counter = max(self.counter, -(-until // 8))

    def output(self, event):
        """Answers an output: ok, late or seq."""
        cycle = event.stamp // 8
        if self.counter >= cycle:
            self.why[event.number] = "late"
            return "late"
        for lane in dict.fromkeys((self.current, (self.current + 1) % len(self.lanes))):
            is_full = sum(1 for other in self.lanes[lane] if other > self.counter) >= DEPTH
            if self.last[lane] < cycle and not is_full:
                self.lanes[lane].append(cycle)
                self.last[lane], self.current = cycle, lane
                self.accepted.append(event)
                return "ok"
            if is_full:
                raise FullLane
        self.why[event.number] = "seq"
        return "seq"

    def reset(self):
        for event in self.accepted:
            if event.stamp // 8 > self.counter:
                self.why.setdefault(event.number, "rst")
        count = len(self.lanes)
        self.lanes, self.last, self.current = [[] for _ in range(count)], [-(2**62)] * count, 0

    def settle(self):
        """Everything is put out: what becomes of the events that were accepted and not cleared."""
        groups = collections.defaultdict(list)
        for event in self.accepted:
            if event.number not in self.why:
                groups[event.channel, event.stamp // 8].append(event)
        busy_from = {}
        for (channel, cycle), events in sorted(groups.items(), key=lambda item: (item[0][1], item[0][0])):
            if 16 <= channel < 24:
                same, others = events[:1], events[1:]
            else:
                same = [event for event in events if event.stamp == events[0].stamp]
                others = [event for event in events if event.stamp != events[0].stamp]
            self.why.update((event.number, "col") for event in others)
            self.why.update((event.number, f"over {later.number}") for event, later in zip(same, same[1:]))
            if channel in busy_from and cycle - busy_from[channel] < self.holds.get(channel, 0):
                self.why[same[-1].number] = "busy"
            else:
                busy_from[channel] = cycle


class Run:
    """A run of a kernel, and its trace."""

    def __init__(self, text, cost=0, lanes=8, holds=None, budget=1_000_000):
        self.functions = {function.name: function for function in ast.parse(text).body}
        self.core = Core(cost, lanes, holds or {})
        self.cursor, self.units, self.budget = 0, budget, budget
        self.lines, self.outputs, self.recordings, self.recorded = [], [], {}, None
        self.line, self.main, self.depth = 0, None, 0

    def trace(self):
        """The lines of the trace, and the status."""
        try:
            self.call("main", [])
            end, status = "end ok", 0
        except Raised as raised:
            end, status = f"end raised {raised.name} line {raised.place}", 6
        except NoUnits as none:
            end, status = f"end budget {self.budget} line {none.place}", 7
        self.core.settle()
        why = self.core.why
        lost = [event for event, _ in self.outputs if event.number in why]
        for event in lost:
            self.lines.append(f"lost {event.number} {event.place} {event.stamp} {event.channel} {why[event.number]}")
        if self.outputs:
            event, slack = min(self.outputs, key=lambda output: output[1])
            self.lines.append(f"least {slack} {event.place} {event.number}")
        count = len(self.outputs)
        self.lines += [end, f"asked {count} out {count - len(lost)} lost {len(lost)}"]
        if status == 0 and any(why[event.number].split()[0] not in ("late", "over") for event in lost):
            status = 7
        return self.lines, status

    def place(self):
        return f"{self.line}" if self.main is None else f"{self.line}<{self.main}"

    def unit(self):
        if self.units == 0:
            raise NoUnits(self.place())
        self.units -= 1

    def ask(self, words, until=None):
        """A request that is no output; the answer is what the counter reads."""
        self.unit()
        self.core.go_on()
        if until is not None:
            self.core.wait(until)
        reading = self.core.reading()
        self.lines.append(f"{self.place()} {reading} {words}")
        self.core.answered()
        return reading

    def output(self, channel, address, data):
        if self.recorded is not None:
            self.unit()
            self.recorded.append((channel, address, data, self.cursor))
        else:
            self.submit(channel, address, data, self.cursor)

    def submit(self, channel, address, data, stamp):
        self.unit()
        self.core.go_on()
        event = Event(len(self.outputs), self.place(), stamp, channel)
        slack = stamp - self.core.reading()
        how = self.core.output(event)
        self.outputs.append((event, slack))
        told = f"out {event.number} {stamp} {channel} {address} {data} {slack} {how}"
        self.lines.append(f"{event.place} {self.core.reading()} {told}")
        self.core.answered()
        if how == "late":
            raise Raised("RTIOUnderflow", self.place())

    def call(self, name, arguments):
        function = self.functions[name]
        names = dict(zip((argument.arg for argument in function.args.args), arguments))
        outer = self.line, self.main
        if self.depth == 1:
            self.main = self.line
        self.depth += 1
        try:
            self.block(function.body, names)
        except Leave:
            pass
        finally:
            self.depth -= 1
        # (where an exception passes, whoever takes it sets the line and the call)
        self.line, self.main = outer

    def block(self, statements, names):
        for statement in statements:
            self.line = statement.lineno
            self.statement(statement, names)

    def statement(self, statement, names):
        if isinstance(statement, ast.Expr):
            self.value(statement.value, names)
        elif isinstance(statement, ast.Assign) and isinstance(statement.targets[0], ast.Subscript):
            raise Raised("IndexError", self.place())
        elif isinstance(statement, ast.Assign):
            names[statement.targets[0].id] = self.value(statement.value, names)
        elif isinstance(statement, ast.AugAssign):
            names[statement.target.id] += self.value(statement.value, names)
        elif isinstance(statement, ast.If):
            taken = self.value(statement.test, names)
            self.block(statement.body if taken else statement.orelse, names)
        elif isinstance(statement, (ast.For, ast.While)):
            self.loop(statement, names)
        elif isinstance(statement, ast.With):
            self.with_block(statement, names)
        elif isinstance(statement, ast.Try):
            self.tried(statement, names)
        elif isinstance(statement, (ast.Break, ast.Continue, ast.Return)):
            raise Leave(type(statement).__name__)

    def loop(self, statement, names):
        line = self.line
        is_for = isinstance(statement, ast.For)
        bounds = [self.value(bound, names) for bound in statement.iter.args] if is_for else None
        turns = iter(range(*bounds)) if is_for else None
        while True:
            self.line = line
            if is_for:
                turn = next(turns, None)
                if turn is None:
                    return
                self.unit()
                names[statement.target.id] = turn
            else:
                if not self.value(statement.test, names):
                    return
                self.unit()
            try:
                self.block(statement.body, names)
            except Leave as word:
                if str(word) == "Break":
                    return
                if str(word) == "Return":
                    raise

    def with_block(self, statement, names):
        line, item = self.line, statement.items[0].context_expr
        if isinstance(item, ast.Name) and item.id == "sequential":
            self.block(statement.body, names)
        elif isinstance(item, ast.Name):
            start = end = self.cursor
            for part in statement.body:
                self.cursor = start
                self.block([part], names)
                end = max(end, self.cursor)
            self.cursor = end
        else:
            before, self.cursor, self.recorded = self.cursor, 0, []
            self.block(statement.body, names)
            name, length, events = item.args[0].value, self.cursor, self.recorded
            self.line, self.cursor, self.recorded = line, before, None
            self.ask(f"save {name} {len(events)} {length} ok")
            self.recordings[name] = events, length

    def tried(self, statement, names):
        depth, main = self.depth, self.main
        try:
            self.block(statement.body, names)
        except Raised as raised:
            self.depth, self.main = depth, main
            for handler in statement.handlers:
                if handler.type.id == raised.name:
                    self.block(handler.body, names)
                    return
            raise

    def play(self, name):
        if name not in self.recordings:
            self.ask(f"fetch {name} none")
            raise Raised("DMAError", self.place())
        events, length = self.recordings[name]
        self.ask(f"fetch {name} {len(events)} {length}")
        start = self.cursor
        for channel, address, data, stamp in events:
            self.submit(channel, address, data, start + stamp)
        self.cursor = start + length

    def value(self, expression, names):
        if isinstance(expression, ast.Constant):
            return expression.value
        if isinstance(expression, ast.Name):
            return names[expression.id]
        if isinstance(expression, ast.List):
            return [self.value(item, names) for item in expression.elts]
        if isinstance(expression, ast.UnaryOp):
            value = self.value(expression.operand, names)
            return not value if isinstance(expression.op, ast.Not) else -value
        if isinstance(expression, ast.BinOp):
            left, right = self.value(expression.left, names), self.value(expression.right, names)
            if isinstance(expression.op, ast.FloorDiv) and right == 0:
                raise Raised("ZeroDivisionError", self.place())
            return OPERATORS[type(expression.op)](left, right)
        if isinstance(expression, ast.Compare):
            left, right = self.value(expression.left, names), self.value(expression.comparators[0], names)
            return OPERATORS[type(expression.ops[0])](left, right)
        arguments = [self.value(argument, names) for argument in expression.args]
        if isinstance(expression.func, ast.Attribute):
            return self.method(expression.func.value.id, expression.func.attr, arguments)
        return self.named(expression.func.id, arguments)

    def named(self, name, arguments):
        if name == "now_mu":
            return self.cursor
        if name == "at_mu":
            self.cursor = arguments[0]
        elif name == "delay_mu":
            self.cursor += arguments[0]
        elif name == "set_dataset":
            self.ask(f"data {arguments[0]} {arguments[1]}")
        else:
            self.unit()
            self.call(name, arguments)
        return None

    def method(self, owner, name, arguments):
        channel = CHANNELS.get(owner)
        if name in ("on", "off"):
            self.output(channel, 0, int(name == "on"))
        elif name == "write":
            self.output(channel, arguments[0] % 256, arguments[1])
        elif name in ("pulse_mu", "gate_rising_mu"):
            address = 2 if owner.startswith("in") else 0
            self.output(channel, address, 1)
            self.cursor += arguments[0]
            self.output(channel, address, 0)
            return self.cursor
        elif name in ("count", "timestamp_mu"):
            self.ask(f"edge {channel} {arguments[0]} none", arguments[0])
            return 0 if name == "count" else -1
        elif name == "get_rtio_counter_mu":
            return self.ask("counter")
        elif name == "break_realtime":
            # (the cursor is read before the counter)
            self.cursor = max(self.cursor, self.ask("counter") + AHEAD)
        elif name == "reset":
            reading = self.ask("reset")
            self.core.reset()
            self.cursor = reading + AHEAD
        elif name == "wait_until_mu":
            self.ask(f"wait {arguments[0]}", arguments[0])
        elif name == "playback":
            self.play(arguments[0])
        return None
