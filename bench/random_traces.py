#!/usr/bin/env python3
"""Compares `artiq_trace` with what python works out, on kernels made by chance.

    python3 bench/random_traces.py [--tracer PATH] [--seed N] [KERNELS]
    python3 bench/random_traces.py --cases FOLDER [--seed N] [KERNELS]

Without PATH it runs the program that bin/artiq_trace built. `simulated_traces` works the traces out, by python3's own parser
and the rules of the documents, and by nothing of the programs. The kernels have functions that call one another, loops,
branches, parallel blocks, recordings, exceptions that are taken and that aren't, pulses that are late, collide, are replaced,
cleared, out of sequence or find their channel busy, and too few units. Prints each kernel that has another trace, then how
many there were of each fate and end, and ends with status 1 where a trace is another one. With --cases it writes kernels,
options and traces into a folder, as `rt try --cases` reads them.
"""

import argparse
import collections
import pathlib
import random
import subprocess
import sys

from simulated_traces import FullLane, Run

ROOT = pathlib.Path(__file__).resolve().parent.parent
TRACER = ROOT / "crates" / "artiq_trace" / "out" / "artiq_trace"
class Maker:
    """Makes kernels by chance."""

    def __init__(self, chance):
        self.chance = chance
        self.lines, self.known, self.used = [], [], 0

    def kernel(self):
        """The text of a kernel."""
        for number in range(self.chance.randrange(4)):
            if self.chance.random() < 0.3:
                self.lines.append("@kernel")
            self.lines.append(f"def f{number}():")
            self.body(1, True, False, False, self.chance.randrange(1, 4))
            self.lines += [""] * self.chance.randrange(2)
            self.known.append(f"f{number}")
        self.lines += ["def main():", f"    at_mu({self.chance.choice((0, 8, 1000, 1000, 2000, 5000))})"]
        if self.chance.random() < 0.5:
            self.make_record(1)
        self.body(1, True, False, False, self.chance.randrange(2, 9))
        return "\n".join(self.lines) + "\n"

    def line(self, depth, text):
        if self.chance.random() < 0.08:
            self.lines.append(self.chance.choice(("", "    " * depth + "# a remark", "  # another")))
        self.lines.append("    " * depth + text)

    def name(self):
        self.used += 1
        return f"v{self.used}"

    def body(self, depth, is_live, in_loop, in_block, count):
        for _ in range(count):
            self.statement(depth, is_live, in_loop, in_block)

    def statement(self, depth, is_live, in_loop, in_block):
        """A statement. Live calls stand outside of recordings, and what leaves a loop or a function outside of blocks."""
        forms = ["pulse", "pulse", "pulse", "move", "move"]
        if is_live:
            forms += ["live", "live", "call", "raise", "play"]
        if depth < 5:
            forms += ["if", "for", "while", "parallel"]
            forms += ["try", "try", "record"] if is_live and not in_block else ["try"] if is_live else []
        if in_loop and not in_block:
            forms.append("leave")
        getattr(self, f"make_{self.chance.choice(forms)}")(depth, is_live, in_loop, in_block)

    def make_pulse(self, depth, *_):
        channel = self.chance.choice(("ttl0", "ttl0", "ttl1", "ttl2", "raw0"))
        length = self.chance.choice((0, 1, 4, 8, 24, 100, 1000))
        calls = [f"{channel}.on()", f"{channel}.off()", f"{channel}.pulse_mu({length})"]
        if channel == "raw0":
            calls.append("raw0.write(3, 42)")
        call = self.chance.choice(calls)
        if call.endswith(f"({length})") and self.chance.random() < 0.1:
            call = call.replace("(", "(\n" + "    " * (depth + 2))
        self.line(depth, call)

    def make_move(self, depth, *_):
        length = self.chance.choice((0, 1, 3, 4, 8, 8, 16, 100, 400, 1000, -8, -100))
        self.line(depth, f"delay_mu({length})" if self.chance.random() < 0.9 else f"at_mu({abs(length) * 10})")

    def make_live(self, depth, *_):
        soon = self.chance.choice(("now_mu()", "now_mu() - 8", "now_mu() - 100", "now_mu() + 4", "1500"))
        calls = (
            "core.get_rtio_counter_mu()",
            "core.break_realtime()",
            "core.break_realtime()",
            "core.reset()",
            f"core.wait_until_mu({soon})",
            "in0.count(in0.gate_rising_mu(100))",
            f"in1.timestamp_mu({soon})",
            f'set_dataset("d", {self.chance.randrange(-3, 9)})',
        )
        self.line(depth, self.chance.choice(calls))

    def make_call(self, depth, *_):
        self.line(depth, f"{self.chance.choice(self.known)}()" if self.known else "pass")

    def make_raise(self, depth, *_):
        name = self.name()
        self.line(depth, f"{name} = [0] * 2")
        if self.chance.random() < 0.25:
            self.line(depth, self.chance.choice((f"{name}[2] = 1", f"{self.name()} = 7 // 0")))

    def make_play(self, depth, *_):
        self.line(depth, f'core_dma.playback("{self.chance.choice("pppq")}")')

    def make_record(self, depth, *_):
        self.line(depth, f'with core_dma.record("{self.chance.choice("ppq")}"):')
        self.body(depth + 1, False, False, True, self.chance.randrange(1, 4))

    def condition(self, is_live):
        tests = ["now_mu() < 3000", "not now_mu() < 1000", "1 < 2", "2 < 1"]
        if is_live:
            tests += ["core.get_rtio_counter_mu() < 1000", "core.get_rtio_counter_mu() >= 1000"]
        return self.chance.choice(tests)

    def make_if(self, depth, is_live, in_loop, in_block):
        self.line(depth, f"if {self.condition(is_live)}:")
        self.body(depth + 1, is_live, in_loop, in_block, self.chance.randrange(1, 3))
        for _ in range(self.chance.randrange(3)):
            self.lines.append("    " * depth + f"elif {self.condition(is_live)}:")
            self.body(depth + 1, is_live, in_loop, in_block, 1)
        if self.chance.random() < 0.5:
            self.lines.append("    " * depth + "else:")
            self.body(depth + 1, is_live, in_loop, in_block, 1)

    def make_for(self, depth, is_live, in_loop, in_block):
        bounds = self.chance.choice(("2", "3", "1, 3", "0"))
        if is_live and self.chance.random() < 0.2:
            bounds = "core.get_rtio_counter_mu(), core.get_rtio_counter_mu() + 2"
        self.line(depth, f"for {self.name()} in range({bounds}):")
        self.body(depth + 1, is_live, True, in_block, self.chance.randrange(1, 4))

    def make_while(self, depth, is_live, in_loop, in_block):
        name = self.name()
        self.line(depth, f"{name} = 0")
        self.line(depth, f"while {name} < {self.chance.randrange(3)}:")
        self.line(depth + 1, f"{name} += 1")
        self.body(depth + 1, is_live, True, in_block, self.chance.randrange(1, 3))

    def make_parallel(self, depth, is_live, in_loop, in_block):
        self.line(depth, f"with {self.chance.choice(('parallel', 'parallel', 'sequential'))}:")
        self.body(depth + 1, is_live, False, True, self.chance.randrange(1, 4))

    def make_try(self, depth, is_live, in_loop, in_block):
        self.line(depth, "try:")
        self.body(depth + 1, is_live, in_loop, in_block, self.chance.randrange(1, 4))
        names = ["RTIOUnderflow", "RTIOUnderflow", "DMAError", "ZeroDivisionError", "IndexError", "StackOverflow"]
        for name in dict.fromkeys(self.chance.choices(names, k=self.chance.randrange(1, 3))):
            self.lines.append("    " * depth + f"except {name}:")
            self.body(depth + 1, is_live, in_loop, in_block, self.chance.randrange(1, 3))

    def make_leave(self, depth, *_):
        self.line(depth, f"if {self.condition(False)}:")
        self.line(depth + 1, self.chance.choice(("break", "continue", "return")))


def case(chance):
    """A kernel by chance, its options, its trace and the status."""
    while True:
        maker = Maker(chance)
        text = maker.kernel()
        cost, lanes = chance.choice((0, 0, 8, 100, 400)), chance.choice((8, 8, 2, 1))
        holds = chance.choice(({}, {}, {0: 4}, {0: 30, 16: 3}))
        budget = chance.choice((1_000_000, 1_000_000, chance.randrange(1, 60)))
        words = ["--cost", str(cost), "--lanes", str(lanes), "--budget", str(budget)]
        if holds:
            words += ["--hold", ",".join(f"{channel}:{cycles}" for channel, cycles in holds.items())]
        try:
            lines, status = Run(text, cost, lanes, holds, budget).trace()
        except FullLane:
            continue
        # (a function has at most 64 names)
        if len(lines) < 2000 and maker.used < 60:
            return text, words, "".join(f"{line}\n" for line in lines), status


def main():
    parser = argparse.ArgumentParser(description=__doc__, formatter_class=argparse.RawDescriptionHelpFormatter)
    parser.add_argument("--tracer", default=TRACER)
    parser.add_argument("--cases", type=pathlib.Path)
    parser.add_argument("--seed", type=int, default=1)
    parser.add_argument("kernels", nargs="?", type=int, default=1000)
    asked = parser.parse_args()
    chance, wrong, fates = random.Random(asked.seed), 0, collections.Counter()
    for number in range(asked.kernels):
        text, words, trace, status = case(chance)
        fates.update(line.split()[5] for line in trace.splitlines() if line.startswith("lost"))
        fates.update(line.split()[2 if "raised" in line else 1] for line in trace.splitlines() if line.startswith("end "))
        if asked.cases:
            asked.cases.mkdir(exist_ok=True)
            for ending, written in (("", text), (".args", "\n".join(words) + "\n"), (".stdout", trace)):
                (asked.cases / f"k{number}{ending}").write_text(written)
            continue
        run = subprocess.run([asked.tracer, *words], input=text, capture_output=True, text=True, check=False)
        if (run.stdout, run.stderr, run.returncode) != (trace, "", status):
            wrong += 1
            print(f"{' '.join(words)}\n{text}wanted {status}\n{trace}found {run.returncode}\n{run.stdout}{run.stderr}")
    print(f"{asked.kernels} kernels, {wrong} with another trace; lost and ended: {dict(sorted(fates.items()))}")
    return 1 if wrong else 0


if __name__ == "__main__":
    sys.exit(main())
