#!/usr/bin/env python3
"""Compares `artiq_sim sat` with what python works out, on outputs and links made by chance.

    python3 bench/random_links.py [--program PATH] [--seed N] [KERNELS]

Without PATH it runs the program that bin/artiq_sim built. What is sent over a link is what `sim` reports of the same kernel
under the same lanes and depth. The link here goes by the rules of docs/SATELLITE.md, and by nothing of the program. Prints each
kernel that has other lines or another status, then how many events there were of each fate and how many credits were left
somewhere in the end, and ends with status 1 where lines are others.
"""

import argparse
import collections
import random
import subprocess
import sys

from timing import PROGRAM

LETTERS = "sdtga"


class Link:
    """A link by the rules of docs/SATELLITE.md. Events are cycles; a fate has its word and its number."""

    def __init__(self, lanes, depth):
        self.credits, self.freed, self.grants = depth, 0, []
        self.sent, self.fates, self.counter = [], [], 0
        # Of each lane the cycles of the events that it took.
        self.lanes, self.current = [[] for _ in range(lanes)], 0

    def held(self):
        return sum(cycle > self.counter for lane in self.lanes for cycle in lane)

    def send(self, cycle):
        if self.credits:
            self.credits -= 1
            self.sent.append(cycle)

    def deliver(self):
        if len(self.fates) < len(self.sent):
            self.fates.append(self.take(self.sent[len(self.fates)]))

    def take(self, cycle):
        """The fate of an event, whose lane takes it; where no lane does its credit is freed."""
        following = (self.current + 1) % len(self.lanes)
        if cycle > self.counter:
            for number in (self.current, following):
                if not self.lanes[number] or self.lanes[number][-1] < cycle:
                    self.lanes[number].append(cycle)
                    self.current = number
                    return "lane", number
        self.freed += 1
        return ("seq", self.lanes[following][-1]) if cycle > self.counter else ("late", 8 * self.counter)

    def tick(self):
        self.counter += 1
        self.freed += sum(cycle == self.counter for lane in self.lanes for cycle in lane)

    def grant(self):
        if self.freed:
            self.grants.append(self.freed)
            self.freed = 0

    def absorb(self):
        if self.grants:
            self.credits += self.grants.pop(0)

    def go(self, word, cycles):
        """Makes the rounds of a word until all of the events were taken and none is held."""
        steps = {"d": self.deliver, "t": self.tick, "g": self.grant, "a": self.absorb}
        while True:
            for letter in word:
                if letter != "s":
                    steps[letter]()
                elif len(self.sent) < len(cycles):
                    self.send(cycles[len(self.sent)])
            if len(self.fates) == len(cycles) and not self.held():
                return

    def lines(self):
        told = [f"sat {number} {kind} {what}\n" for number, (kind, what) in enumerate(self.fates)]
        return "".join(told) + f"credit {self.credits}\ncounter {8 * self.counter}\n"


def kernel(chance):
    """The text of a kernel with some outputs, close to one another; now and then one is too late, or replaced, or collides."""
    lines = ["def main():", f"    at_mu({chance.choice((8, 40, 100, 1000))})"]
    nearby = chance.choice(((0, 1, 8), (0, 8, 16), (8, 8, 8, 24, 100), (80, 160, 400)))
    for _ in range(chance.randrange(25)):
        lines += [f"    ttl{chance.randrange(6)}.{chance.choice(('on', 'off'))}()", f"    delay_mu({chance.choice(nearby)})"]
        if chance.random() < 0.05:
            lines.append(f"    delay_mu({chance.choice((-8, -100, 2000))})")
    return "\n".join(lines) + "\n"


def word_by_chance(chance):
    """A word of rounds: each letter once, and up to seven more."""
    letters = [*LETTERS, *chance.choices(LETTERS, k=chance.choice((0, 0, 1, 3, 7)))]
    chance.shuffle(letters)
    return "".join(letters)


def run(program, command, words, text):
    found = subprocess.run([program, command, *words], input=text, capture_output=True, text=True, check=False)
    return found.stdout, found.stderr, found.returncode


def main():
    parser = argparse.ArgumentParser(description=__doc__, formatter_class=argparse.RawDescriptionHelpFormatter)
    parser.add_argument("--program", default=PROGRAM)
    parser.add_argument("--seed", type=int, default=1)
    parser.add_argument("kernels", nargs="?", type=int, default=1000)
    asked = parser.parse_args()
    chance, wrong, counts = random.Random(asked.seed), 0, collections.Counter()
    for _ in range(asked.kernels):
        text, word = kernel(chance), word_by_chance(chance)
        lanes, depth = chance.choice((1, 2, 3, 8)), chance.choice((1, 1, 2, 3, 8, 128))
        words = ["--lanes", str(lanes), "--depth", str(depth)]
        report, _, status = run(asked.program, "sim", words, text)
        link = Link(lanes, depth)
        link.go(word, [int(line.split()[1]) // 8 for line in report.splitlines() if line.startswith("out ")])
        wanted, found = (link.lines(), "", status), run(asked.program, "sat", [*words, "--link", word], text)
        counts.update(kind for kind, _ in link.fates)
        counts.update({"not back": depth - link.credits})
        if found != wanted:
            wrong += 1
            print(f"{' '.join(words)} --link {word}\n{text}wanted {wanted}\nfound {found}")
    print(f"{asked.kernels} kernels, {wrong} with other lines; events and credits: {dict(sorted(counts.items()))}")
    return 1 if wrong else 0


if __name__ == "__main__":
    sys.exit(main())
