#!/usr/bin/env python3
"""Times the dump of a core that put 100,000 events out, and the dump's waveform: how many MB a second are written, read and
drawn. Beside it stands a plain python3 program that writes and reads the same bytes, and writes the same text, from a list of
tuples. Needs crates/analyzer_bench built (rt run in its folder)."""

import os
import struct
import subprocess
import sys
import time

from timing import processor_time

ROOT = os.path.dirname(os.path.dirname(os.path.abspath(__file__)))
ANALYZER = os.path.join(ROOT, "crates", "analyzer_bench", "out", "analyzer_bench")
OUTPUTS = 100_000
ROUNDS = 200
PLAIN_ROUNDS = 5
TRIES = 5
MU_BETWEEN, FIRST_MU = 80, 8
NAMES = [f"ttl{n}" for n in range(16)] + [f"raw{n}" for n in range(8)] + [f"in{n}" for n in range(8)]


def events():
    """The events that the program's core puts out: stamp, channel and data."""
    return [(FIRST_MU + MU_BETWEEN * number, 0, 1 - number % 2) for number in range(OUTPUTS)]


def write_plain(put_out):
    """The bytes of a dump without log lines."""
    counter = put_out[-1][0] // 8
    parts = [b"DUM1", struct.pack("<QI", counter, len(put_out))]
    parts += [struct.pack("<BBIq", channel, 0, data, stamp) for stamp, channel, data in put_out]
    return b"".join(parts) + struct.pack("<I", 0)


def read_plain(dump):
    """The events of such bytes."""
    (count,) = struct.unpack_from("<I", dump, 12)
    fields = struct.iter_unpack("<BBIq", dump[16 : 16 + 14 * count])
    return [(stamp, channel, data) for channel, _, data, stamp in fields]


def draw_plain(put_out):
    """The text of the waveform."""
    lines = ["$timescale 1ns $end", "$scope module artiq $end"]
    lines += [f"$var wire 32 {chr(33 + channel)} {name} $end" for channel, name in enumerate(NAMES)]
    lines += ["$upscope $end", "$enddefinitions $end", "#0"]
    lines += [f"b0 {chr(33 + channel)}" for channel in range(32)]
    before = 0
    for stamp, channel, data in put_out:
        if stamp != before:
            lines.append(f"#{stamp}")
        lines.append(f"b{data:b} {chr(33 + channel)}")
        before = stamp
    return ("\n".join(lines) + "\n").encode("ascii")


def best_time(work, rounds, expected):
    """The best processor time of some runs, in seconds. Ends where the program prints something else."""
    best = float("inf")
    for _ in range(TRIES):
        start = processor_time()
        run = subprocess.run([ANALYZER, str(OUTPUTS), str(rounds), work], stdout=subprocess.PIPE, check=True)
        best = min(best, processor_time() - start)
        if run.stdout != expected:
            sys.exit(f"{ANALYZER}: {run.stdout!r}, but {expected!r} is expected")
    return best


def best_plain_time(work):
    """The best processor time of a plain function, in seconds."""
    best = float("inf")
    for _ in range(PLAIN_ROUNDS):
        start = time.process_time()
        work()
        best = min(best, time.process_time() - start)
    return best


def main():
    if not os.path.exists(ANALYZER):
        sys.exit("build it first: cd crates/analyzer_bench && rt run")
    put_out = events()
    dump = write_plain(put_out)
    waveform = draw_plain(put_out)
    expected = f"{len(dump)} bytes of a dump, {len(waveform)} of its waveform\n".encode("ascii")
    print(f"{OUTPUTS} events: {len(dump)} bytes of a dump, {len(waveform)} of its waveform")
    for work, size, plain in (
        ("write", len(dump), lambda: write_plain(put_out)),
        ("read", len(dump), lambda: read_plain(dump)),
        ("draw", len(waveform), lambda: draw_plain(put_out)),
    ):
        spent = (best_time(work, ROUNDS, expected) - best_time(work, 0, expected)) / ROUNDS
        beside = best_plain_time(plain)
        print(f"{work:5} {size / spent / 1e6:8.1f} MB/s, {beside / spent:6.1f} times python3's {size / beside / 1e6:.1f} MB/s")


if __name__ == "__main__":
    main()
