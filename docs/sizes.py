#!/usr/bin/env python3
"""Prints how large each crate is: lines of code, of its tests, of definitions and of proofs, and the numbers of its
must-fail edits that the gate tries, and of those that stand aside. Lines that are empty don't count.

    python3 docs/sizes.py             # a row a crate, in the sections of crates.txt, with the sum of each
    python3 docs/sizes.py --house     # the picture of docs/ARCHITECTURE.md with lines of code, definitions and proofs
    python3 docs/sizes.py --plain     # the picture alone

Edits that the gate tries stand in a crate's `must-fail/`, those aside in `edits/NAME/` at the top. What the section of tests
has counts as tests.
"""
import collections
import pathlib
import signal
import sys
import textwrap

ROOT = pathlib.Path(__file__).resolve().parent.parent
COLUMNS = ("code", "tests", "specs", "proofs", "edits", "aside")
WIDTH = 100


class Crate:
    """A line of crates.txt: its name, the crates that it names, and the section and group that it stands in."""

    def __init__(self, name, needs, section, group):
        self.name = name
        self.needs = needs
        self.section = section
        self.group = group


def crates():
    """The crates of this repository by their names, in the order of crates.txt. What a crate needs of the kit is left out."""
    found, section, group = {}, ("crates", ""), ""
    for line in (ROOT / "crates.txt").read_text().splitlines():
        if line.startswith("# ---- "):
            name, _, says = line[7:].partition(": ")
            section, group = (name, says), ""
        elif line.startswith("#"):
            group = line[1:].strip()
        elif line.strip():
            head, _, needs = line.partition(":")
            found[head.split()[0]] = Crate(head.split()[0], needs.split(), section, group)
    for crate in found.values():
        crate.needs = [name for name in crate.needs if name in found]
    return found


def below(all_crates, name):
    """The crates that a crate stands on, all the way down."""
    met, waiting = set(), [name]
    while waiting:
        for need in all_crates[waiting.pop()].needs:
            if need not in met:
                met.add(need)
                waiting.append(need)
    return met


def nearest(all_crates, name):
    """The crates that a crate names, less those that others of them stand on."""
    needs = all_crates[name].needs
    return [need for need in needs if not any(need in below(all_crates, other) for other in needs)]


def lines(files):
    return sum(1 for file in files for line in file.read_text().splitlines() if line.strip())


def sizes_of(crate):
    """How large a crate is, by COLUMNS."""
    folder = ROOT / "crates" / crate.name
    code = lines(folder.glob("src/**/*.rt"))
    is_of_tests = crate.section[0] == "tests"
    return (
        0 if is_of_tests else code,
        code if is_of_tests else 0,
        lines(folder.glob("specs/*.antt")),
        lines(folder.glob("proofs/**/*.antt")),
        len(list(folder.glob("must-fail/*.edit"))),
        len(list((ROOT / "edits" / crate.name).glob("*.edit"))),
    )


def added(rows):
    return tuple(sum(column) for column in zip(*rows)) or (0,) * len(COLUMNS)


def in_sections(all_crates):
    """The crates by section, and in a section by group."""
    sections = collections.defaultdict(lambda: collections.defaultdict(list))
    for crate in all_crates.values():
        sections[crate.section][crate.group].append(crate.name)
    return sections


def table(all_crates):
    """A row a crate, and the sums."""
    row = lambda name, numbers: f"{name:26}" + "".join(f"{number:9}" for number in numbers)
    yield f"{'':26}" + "".join(f"{column:>9}" for column in COLUMNS)
    for (section, _), groups in in_sections(all_crates).items():
        names = [name for group in groups.values() for name in group]
        yield row(section, added([sizes_of(all_crates[name]) for name in names]))
        for name in names:
            yield row(f"    {name}", sizes_of(all_crates[name]))
    yield row("all", added([sizes_of(crate) for crate in all_crates.values()]))


def house(all_crates, has_sizes):
    """The picture: a box a layer, a row a group."""
    def numbers(names):
        if not has_sizes:
            return ""
        code, tests, specs, proofs, *_ = added([sizes_of(all_crates[name]) for name in names])
        return f"{code + tests:8}{specs:8}{proofs:8}"

    if has_sizes:
        yield f"{'':{WIDTH + 1}}{'code':>8}{'specs':>8}{'proofs':>8}"
    for (section, says), groups in in_sections(all_crates).items():
        everyone = [name for group in groups.values() for name in group]
        yield f"+-- {section}: {says} ".ljust(WIDTH, "-") + "+" + numbers(everyone)
        for group, names in groups.items():
            for place, words in enumerate(textwrap.wrap(" ".join(names), WIDTH - 36)):
                row = f"| {'' if place else group:32} {words}".ljust(WIDTH) + "|"
                yield row + (numbers(names) if place == 0 else "")
    yield "+" + "-" * (WIDTH - 1) + "+"


def main():
    words = sys.argv[1:]
    if words not in ([], ["--house"], ["--plain"]):
        sys.exit(__doc__)
    printed = house(crates(), words == ["--house"]) if words else table(crates())
    print("\n".join(line.rstrip() for line in printed))


if __name__ == "__main__":
    signal.signal(signal.SIGPIPE, signal.SIG_DFL)
    main()
