"""A core as one writes it in python for a simulation: lanes, a counter, the merge, inputs left out. It has the rules of the
project's core with a cost of 0, so that a kernel gives the same report on both."""

import heapq
from bisect import bisect_right

LANES = 8
DEPTH = 128
AHEAD = 125_000


class RTIOUnderflow(Exception):
    """An output came too late."""


class Lane:
    """The cycles of the events that a lane has taken, and the most that it held."""

    def __init__(self):
        self.cycles = []
        self.gone = 0
        self.peak = 0

    def held(self, counter):
        """How many events of the lane are still to come."""
        self.gone = bisect_right(self.cycles, counter, self.gone)
        return len(self.cycles) - self.gone

    def is_behind(self, cycle):
        """Whether an event of the cycle is later than all of the lane."""
        return not self.cycles or self.cycles[-1] < cycle

    def take(self, cycle, counter):
        """Takes an event."""
        self.cycles.append(cycle)
        self.peak = max(self.peak, self.held(counter))

    def frees(self):
        """The cycle in which the full lane has room again."""
        return self.cycles[-DEPTH]


class Board:
    """The core and its timeline."""

    def __init__(self):
        self.cursor = 0
        self.counter = 0
        self.lanes = [Lane() for _ in range(LANES)]
        self.current = 0
        self.number = 0
        self.waiting = []
        self.lines = []
        self.missed = []

    def now_mu(self):
        return self.cursor

    def at_mu(self, time):
        self.cursor = time

    def delay_mu(self, time):
        self.cursor += time

    def break_realtime(self):
        """Moves the cursor ahead of the counter, unless it is there."""
        self.cursor = max(self.cursor, 8 * self.counter + AHEAD)

    def reset(self):
        """Clears what is still to come, and moves the cursor ahead of the counter."""
        for stamp, channel, number, _, _ in sorted(self.waiting, key=lambda event: event[2]):
            self.missed.append(("rst", number, stamp, channel))
        self.waiting = []
        for lane in self.lanes:
            lane.cycles, lane.gone = [], 0
        self.current = 0
        self.cursor = 8 * self.counter + AHEAD

    def output(self, channel, address, value):
        """Submits an event at the cursor."""
        stamp = self.cursor
        cycle = stamp >> 3
        number = self.number
        self.number += 1
        if cycle <= self.counter:
            raise RTIOUnderflow
        place = self.current
        lane = self.lanes[place]
        if lane.held(self.counter) >= DEPTH or not lane.is_behind(cycle):
            place = (place + 1) % LANES
            following = self.lanes[place]
            if not following.is_behind(cycle):
                self.missed.append(("seq", number, stamp, channel))
                return
            if following.held(self.counter) >= DEPTH:
                frees = [following.frees()]
                if lane.is_behind(cycle):
                    frees.append(lane.frees())
                self.go_on(min(frees))
                if lane.is_behind(cycle) and lane.held(self.counter) < DEPTH:
                    place, following = self.current, lane
            lane = following
        self.current = place
        lane.take(cycle, self.counter)
        heapq.heappush(self.waiting, (stamp, channel, number, address, value))

    def go_on(self, counter):
        """Lets time pass, and puts out what comes up to a cycle."""
        self.counter = max(self.counter, counter)
        group = {}
        cycle = None
        while self.waiting and self.waiting[0][0] >> 3 <= self.counter:
            event = heapq.heappop(self.waiting)
            if event[0] >> 3 != cycle:
                self.put_out(group)
                group, cycle = {}, event[0] >> 3
            group.setdefault(event[1], []).append(event)
        self.put_out(group)

    def put_out(self, group):
        """Puts out the events of a cycle, by their channels."""
        kept = []
        for events in group.values():
            events.sort(key=lambda event: event[2])
            same = [event for event in events if event[0] == events[0][0]]
            kept.append(same[-1])
            self.missed += [("col", event[2], event[0], event[1]) for event in events if event[0] != events[0][0]]
        for stamp, channel, _, address, value in sorted(kept):
            self.lines.append(f"out {stamp} {channel} {address} {value}")

    def report(self, end):
        """The lines of the report, but for the one on code."""
        if self.waiting:
            self.go_on(max(event[0] for event in self.waiting) >> 3)
        order = {"seq": 0, "col": 1, "rst": 2}
        missed = sorted(self.missed, key=lambda line: order[line[0]])
        lines = self.lines + [" ".join(map(str, line)) for line in missed]
        peaks = " ".join(str(lane.peak) for lane in self.lanes)
        return lines + [f"lanes {peaks}", f"end {end}", f"cursor {self.cursor}", f"counter {8 * self.counter}"]


class Output:
    """An output of the board, `ttl0` to `ttl15`."""

    def __init__(self, board, channel):
        self.board = board
        self.channel = channel

    def on(self):
        self.board.output(self.channel, 0, 1)

    def off(self):
        self.board.output(self.channel, 0, 0)

    def pulse_mu(self, length):
        self.on()
        self.board.delay_mu(length)
        self.off()
