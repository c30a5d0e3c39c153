#!/usr/bin/env python3
"""Works out anew what tables of `crates/program_rows/data/faults` answer to damaged images and recordings, and prints each row that
has other answers, as it would stand. Words: the tables (images.rows and recordings.rows without one). Ends with status 1
where a row has other answers.

It reads the formats of docs/MACHINE.md ("The image", "Marks") and docs/INPUTS_AND_DMA.md (the bytes of a recording) and
nothing of the programs. What is another image or recording is run: straight code on a core with no cost, 8 lanes of depth
128 and 134,217,728 cycles."""

import os
import re
import sys

ROOT = os.path.dirname(os.path.dirname(os.path.abspath(__file__)))
TABLES = ("images.rows", "recordings.rows")
USAGE = "usage: artiq_sim sim or check or compile or exec or gen or slack or dump or vcd or sat"
LANES, DEPTH, HORIZON, UNITS = 8, 128, 134_217_728, 1_000_000
MASK = (1 << 64) - 1

# By number: the name, the bytes of the operands, and how many values are taken and left. Call and Return go by their
# function.
NAMES = (
    "Const Load Store LoadAt StoreAt Add Sub Mul Div Mod And Or Xor Shl Shr Neg Inv Wrap32 Eq Ne Lt Le Max Pop Dup Jump "
    "JumpZero Turn Call Return Try EndTry Raise Now At Delay Out OutTo Counter Reset Wait Edge Record Save Play PlayHandle "
    "Handle Erase DataInt DataList Fill"
).split()
WIDTHS = {
    **dict.fromkeys(("Shl", "Shr", "OutTo", "Edge"), (1,)),
    **dict.fromkeys(("Load", "Store", "Call", "Record", "Play", "Handle", "Erase", "DataInt"), (2,)),
    **dict.fromkeys(("LoadAt", "StoreAt", "Fill"), (2, 2)),
    **dict.fromkeys(("Jump", "JumpZero", "Try"), (4,)),
    "Const": (8,),
    "Out": (1, 1),
    "DataList": (2, 2, 2),
}
BINARY = "Add Sub Mul Div Mod And Or Xor Shl Shr Eq Ne Lt Le Max".split()
MOVES = {
    **dict.fromkeys(BINARY, (2, 1)),
    **dict.fromkeys(("Const", "Load", "Now", "Counter", "Reset", "Handle"), (0, 1)),
    **dict.fromkeys(("LoadAt", "Neg", "Inv", "Wrap32", "Edge"), (1, 1)),
    **dict.fromkeys(("StoreAt", "OutTo"), (2, 0)),
    **dict.fromkeys(("Store", "Pop", "JumpZero", "Raise", "At", "Delay", "Out", "Wait"), (1, 0)),
    **dict.fromkeys(("PlayHandle", "DataInt", "Fill"), (1, 0)),
    "Dup": (1, 2),
}
LIVE = "Counter Reset Wait Edge Record Play PlayHandle Handle Erase DataInt DataList".split()


class Wrong(Exception):
    """The first wrong field begins at this place."""


class Bytes:
    """Bytes that are read field by field."""

    def __init__(self, data):
        self.data, self.at = data, 0

    def field(self, size, fits=lambda value: True, signed=False):
        """The number of the next field, of so many bytes, low byte first. Raises Wrong where it is cut off or unfit."""
        begin, end = self.at, self.at + size
        value = int.from_bytes(self.data[begin:end], "little", signed=signed)
        if end > len(self.data) or not fits(value):
            raise Wrong(begin)
        self.at = end
        return value

    def end(self):
        """Raises Wrong where a byte is left."""
        if self.at != len(self.data):
            raise Wrong(self.at)


def signed(value):
    """A number wrapped to 64 bits with a sign."""
    value &= MASK
    return value - (1 << 64) if value >> 63 else value


def is_letter(byte):
    """Whether a name may have this byte."""
    return chr(byte).isalnum() and byte < 128 or byte == ord("_")


def read_image(data):
    """The code of an image: main, how many names, functions (first, parameters, slots, flags) and lines (name, mark,
    operands). Raises Wrong."""
    image = Bytes(data)
    image.field(4, lambda value: value == 0x314D494B)
    functions = image.field(2, lambda value: 1 <= value <= 256)
    main = image.field(2, lambda value: value < functions)
    names = image.field(2)
    lines = image.field(4, lambda value: functions <= value <= 262_144)
    for _ in range(names):
        length = image.field(1, lambda value: 1 <= value <= 32)
        image.field(length, lambda value, length=length: all(map(is_letter, value.to_bytes(length, "little"))))
    heads = []
    for _ in range(functions):
        last = heads[-1][0] if heads else None
        first = image.field(4, lambda value, last=last: value < lines and (value == 0 if last is None else value > last))
        parameters = image.field(1, lambda value: value <= 8)
        slots = image.field(2, lambda value, least=parameters: value >= least)
        heads.append((first, parameters, slots, image.field(1, lambda value: value <= 3)))
    code = []
    for _ in range(lines):
        name = NAMES[image.field(1, lambda value: value <= 50)]
        mark = tuple(image.field(1) for _ in range(3))
        code.append((name, mark, [image.field(width, signed=name == "Const") for width in WIDTHS.get(name, ())]))
    image.end()
    return main, names, heads, code


def on_board(channel, address):
    """Whether an event of this channel and address is of the board."""
    return channel < 16 and address == 0 or 16 <= channel < 24 or 24 <= channel < 32 and address == 2


def speaks_of_what_exists(name, operands, slots, names, functions):
    """Whether slots, arrays, names, functions, channels and widths exist."""
    if name in ("Load", "Store"):
        return operands[0] < slots
    if name in ("LoadAt", "StoreAt", "Fill"):
        return 1 <= operands[1] and sum(operands) <= slots
    if name == "DataList":
        return operands[0] < names and 1 <= operands[2] and operands[1] + operands[2] <= slots
    if name in ("Record", "Play", "Handle", "Erase", "DataInt"):
        return operands[0] < names
    if name == "Call":
        return operands[0] < functions
    if name == "Out":
        return on_board(*operands)
    if name in ("OutTo", "Edge"):
        return 16 <= operands[0] < 24 if name == "OutTo" else 24 <= operands[0] < 32
    return name not in ("Shl", "Shr") or operands[0] in (32, 64)


def is_marked(code, place, head, end):
    """Whether a place of a function that begins with this head and ends at this place is marked rightly."""
    _, names, heads, lines = code
    name, (height, tries, rec), operands = lines[place]
    first, _, slots, flags = head
    value, plain = flags & 1, flags & 2

    def has(to, *mark):
        return first <= to < end and lines[to][1] == mark

    taken, left = MOVES.get(name, (0, 0))
    if name == "Call" and operands[0] < len(heads):
        called = heads[operands[0]]
        taken, left = called[1], called[3] & 1
        if (rec or plain) and not called[3] & 2:
            return False
    if name == "Return":
        return tries == 0 and rec == 0 and height == value
    if place == first and (height, tries, rec) != (0, 0, 0) or height < taken:
        return False
    if not speaks_of_what_exists(name, operands, slots, names, len(heads)):
        return False
    if name in LIVE and (rec or plain) or name == "Save" and plain:
        return False
    if name in ("Jump", "JumpZero"):
        back = operands[0] <= place
        if not has(operands[0], height - taken, tries, rec) or back and lines[operands[0]][0] not in ("Turn", "Edge"):
            return False
    if name in ("Jump", "Raise"):
        return True
    if name == "Try":
        return height == 0 and has(place + 1, 0, tries + 1, rec) and operands[0] > place and has(operands[0], 1, tries, rec)
    if name == "EndTry":
        return tries >= 1 and rec <= tries and has(place + 1, height, tries - 1, rec)
    if name == "Record":
        return has(place + 1, height, tries, tries + 1)
    if name == "Save":
        return rec == tries + 1 and has(place + 1, height, tries, 0)
    return has(place + 1, height - taken + left, tries, rec)


def bad_place(code):
    """The least place that isn't marked rightly; None where there is none and main has no parameters."""
    main, _, heads, lines = code
    ends = [head[0] for head in heads[1:]] + [len(lines)]
    for head, end, is_main in zip(heads, ends, (number == main for number in range(len(heads)))):
        for place in range(head[0], end):
            first_has_mark = place != head[0] or lines[place][1] == (0, 0, 0)
            if not first_has_mark or not is_marked(code, place, head, end) or is_main and head[1] and place == head[0]:
                return place
    return None


class Core:
    """A core with no cost, in lockstep: while a session is open its counter stays at 0."""

    def __init__(self):
        self.lanes = [[] for _ in range(LANES)]
        self.current, self.number, self.accepted, self.errors = 0, 0, [], []

    def take(self, event):
        """Takes an event (stamp in mu, channel, address, data); False where it is too late."""
        cycle, number = event[0] // 8, self.number
        self.number += 1
        if cycle <= 0:
            return False
        following = (self.current + 1) % LANES
        for lane in (self.current, following):
            if lane == following and self.lanes[lane] and self.lanes[lane][-1] >= cycle:
                self.errors.append((number, event))
                return True
            if len(self.lanes[lane]) < DEPTH and (not self.lanes[lane] or self.lanes[lane][-1] < cycle):
                self.lanes[lane].append(cycle)
                self.accepted.append((number, event))
                self.current = lane
                return True
        raise NotImplementedError("a lane is waited for")

    def report(self, code, end, cursor):
        """The lines of the report, and the status."""
        counter = min(HORIZON, max([event[0] // 8 for _, event in self.accepted], default=0))
        groups = {}
        for number, event in self.accepted:
            groups.setdefault((event[0] // 8, event[1]), []).append((number, event))
        out, collisions = [], []
        for (cycle, channel), group in sorted(groups.items()):
            if cycle > counter:
                continue
            same = [item for item in group if item[1][0] == group[0][1][0]]
            replaces = not 16 <= channel < 24
            out.append((same[-1] if replaces else group[0])[1])
            collisions += [item for item in group if item not in same] if replaces else group[1:]
        pending = [event for _, event in self.accepted if event[0] // 8 > counter]
        lines = []
        for word, events in (("out", sorted(out)), ("pend", pending)):
            lines += [" ".join(map(str, (word, *event))) for event in events]
        for word, items in (("seq", self.errors), ("col", collisions)):
            lines += [f"{word} {number} {event[0]} {event[1]}" for number, event in items]
        lines.append("lanes " + " ".join(str(len(lane)) for lane in self.lanes))
        lines += [code, f"end {end}", f"cursor {cursor}", f"counter {8 * counter}"]
        return lines, 6 if end != "ok" else 7 if pending else 0


def run_image(data):
    """The one line of `exec`."""
    try:
        code = read_image(data)
    except Wrong as wrong:
        return f"9, image {wrong}"
    place = bad_place(code)
    if place is not None:
        return f"9, bad code {place}"
    main, _, heads, lines = code
    place, operands, cursor, steps, end, core = heads[main][0], [], 0, 0, None, Core()
    while end is None:
        name, _, of = lines[place]
        steps, place = steps + 1, place + 1
        if name == "Const":
            operands.append(of[0])
        elif name == "At":
            cursor = operands.pop()
        elif name == "Delay":
            cursor = signed(cursor + operands.pop())
        elif name == "Out":
            if not core.take((cursor, of[0], of[1], operands.pop() & 0xFFFFFFFF)):
                end = "raised RTIOUnderflow"
        elif name == "Return":
            end = "ok"
        else:
            raise NotImplementedError(name)
    told, status = core.report(f"code {len(data)} {steps}", end, cursor)
    return f"{status}, " + " / ".join(told)


def read_recording(data):
    """The length of a recording in mu, and its events (stamp, channel, address, data). Raises Wrong."""
    fields = Bytes(data)
    form = fields.field(1, lambda value: value in (1, 2))
    count, length = fields.field(4), fields.field(8, signed=True)
    events, stamp = [], 0
    for _ in range(count):
        channel = fields.field(1, lambda value: value < 32)
        address = fields.field(1, lambda value, of=channel: on_board(of, value))
        if form == 1:
            value, stamp = fields.field(4), fields.field(8, signed=True)
        else:
            widths = fields.field(1, lambda value: value % 16 <= 4 and value // 16 <= 8)
            value, step = (
                fields.field(width, lambda value, width=width: width == 0 or value >> 8 * (width - 1))
                for width in (widths % 16, widths // 16)
            )
            stamp = signed(stamp + (-(step + 1) // 2 if step % 2 else step // 2))
        events.append((stamp, channel, address, value))
    fields.end()
    return length, events


def recording_line(data):
    """The one line of `recording`."""
    try:
        length, events = read_recording(data)
    except Wrong as wrong:
        return f"1, fault {wrong}"
    told = (f" {channel}.{address}={value}@{stamp}" for stamp, channel, address, value in events)
    return f"0, {length}:" + "".join(told)


def shortest(value):
    """The fewest bytes of a number, low byte first."""
    return value.to_bytes((value.bit_length() + 7) // 8, "little")


def written(length, events):
    """The digits of a recording in format 2."""
    data = bytes([2]) + len(events).to_bytes(4, "little") + length.to_bytes(8, "little", signed=True)
    before = 0
    for stamp, channel, address, value in events:
        distance, before = signed(stamp - before), stamp
        low, step = shortest(value), shortest(2 * distance if distance >= 0 else -2 * distance - 1)
        data += bytes([channel, address, len(low) + 16 * len(step)]) + low + step
    return data.hex()


def play_recording(data):
    """The one line of `sim --recordings p:HEX --dma lines` on a kernel that plays it at 1000. Its code has 50 bytes: 14 of
    head, 2 of the name, 8 of the function, and Const, At, Play and Return."""
    try:
        length, events = read_recording(data)
    except Wrong:
        return f"2, {USAGE}"
    core, end = Core(), "ok"
    for stamp, *rest in events:
        if not core.take((signed(stamp + 1000), *rest)):
            end = "raised RTIOUnderflow"
            break
    steps, cursor = (4, signed(1000 + length)) if end == "ok" else (3, 1000)
    told, status = core.report(f"code 50 {steps}", end, cursor)
    return f"{status}, " + " / ".join([*told, f"dma p {written(length, events)}"])


RUNS = {
    "artiq_sim exec": ("|x ", run_image),
    "recording": ("+ ", recording_line),
    "artiq_sim sim --recordings p:HEX --dma lines": ("+ ", play_recording),
}


def damaged(data, how):
    """The bytes, damaged at each place in turn."""
    verb, _, number = how.partition(" ")
    for place, byte in enumerate(data):
        if verb == "cut":
            yield data[:place]
        else:
            yield data[:place] + bytes([int(number) if verb == "set" else byte ^ int(number)]) + data[place + 1 :]


def answers(row, how, words):
    """The lines that answer runs on damaged bytes."""
    mark, answer = RUNS[words]
    data = bytes.fromhex("".join(line[len(mark) :] for line in row if line.startswith(mark)))
    ranges = []
    for number, told in enumerate(map(answer, damaged(data, how))):
        if ranges and ranges[-1][2] == told:
            ranges[-1][1] = number
        else:
            ranges.append([number, number, told])
    return [f"= {first}-{last}: {told}" if first != last else f"= {first}: {told}" for first, last, told in ranges]


def anew(row):
    """A row with its answers to damaged images and recordings worked out anew."""
    lines, keeps = [], True
    for line in row:
        asked = re.fullmatch(r"\$ (cut|set \d+|flip \d+): (.*)", line)
        if asked and asked[2] in RUNS:
            lines += [line, *answers(row, asked[1], asked[2])]
            keeps = False
        elif keeps or not line.startswith("="):
            lines.append(line)
            keeps = True
    return lines


def main():
    others = 0
    for name in sys.argv[1:] or TABLES:
        with open(os.path.join(ROOT, "crates", "program_rows", "data", "faults", name), encoding="utf-8") as file:
            rows = [row.split("\n") for row in file.read().rstrip().split("\n\n")]
        for row in rows:
            if row[0].startswith("== ") and anew(row) != row:
                others += 1
                print("\n".join(anew(row)) + "\n")
    sys.exit(others > 0)


if __name__ == "__main__":
    main()
