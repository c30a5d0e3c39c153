#!/usr/bin/env python3
"""Tries must-fail edits, those too that the gate doesn't try: wrong bodies, each of which the prover must refuse.

    python3 bench/try_edits.py --check [NAME..]    whether the edits of these crates still apply, or of all; proves nothing
    python3 bench/try_edits.py NAME..              tries all edits of these crates
    python3 bench/try_edits.py --aside NAME..      tries only those that the gate doesn't try

The edits of the gate stand in a crate's folder must-fail/, the others in edits/NAME. A try copies the crates that are named,
and those below them, to a temporary folder, with the libraries and the work that `rt check` left beside them, and runs `rt
must-fail` there; RT_JOBS=2 keeps it from more than two checks at a time. Libraries that aren't there are built first, which
takes as long as proving what they are made of. What rt says of each edit is printed when all were tried, and last how many
were refused, weren't, and couldn't be applied or tried. The status is 0 where each was refused, or with --check where each
applies, 1 where not, and 2 where the words make no sense.
"""

import collections
import pathlib
import re
import shutil
import subprocess
import sys
import tempfile

ROOT = pathlib.Path(__file__).resolve().parent.parent
# The most edits of the gate: each costs it from ten seconds to more than a minute.
MOST_IN_GATE = 310
# What rt says of an edit, by how it counts.
COUNTS = {": refused,": "refused", ": NOT REFUSED": "not refused", ": BAD EDIT": "bad", ": NOT TRIED": "bad"}


def below():
    """Returns each crate's line of crates.txt and the names on it, by the crate's name, lowest first."""
    lines = [line for line in (ROOT / "crates.txt").read_text().splitlines() if line[:1] not in ("", "#")]
    return {line.split(":")[0].split()[0]: (line, line.split(":")[1].split()) for line in lines}


def edits_of(name, only_aside=False):
    """Returns the paths of a crate's edits: those of the gate, unless they are left out, and those kept aside."""
    in_gate = [] if only_aside else sorted((ROOT / "crates" / name / "must-fail").glob("*.edit"))
    return in_gate + sorted((ROOT / "edits" / name).glob("*.edit"))


def why_wrong(edit, name):
    """Returns what is wrong with an edit of a crate, or nothing where it applies and says what it does."""
    lines = edit.read_text().splitlines()
    if not re.match(r"# \S+( \S+){3}", lines[0]):
        return "its first line doesn't say what it does"
    texts, path, old, pairs = {}, None, None, 0
    for line in lines[1:]:
        word, _, said = line.partition(": ") if not line.startswith("new:") else ("new", "", line[len("new:") :].removeprefix(" "))
        if word == "file":
            path = ROOT / "crates" / name / said.strip()
            if not said.startswith("src/") or not path.is_file():
                return f"there is no {said} that it may change"
            texts.setdefault(path, path.read_text())
        elif word == "old":
            old = said
        elif word == "new" and path and old:
            if texts[path].count(old) != 1:
                return f"{path.name} has its line 'old:' {texts[path].count(old)} times: {old.strip()[:60]}"
            texts[path], pairs = texts[path].replace(old, said), pairs + 1
        elif line:
            return f"a line is not read: {line[:60]}"
    return None if pairs and any(path.read_text() != text for path, text in texts.items()) else "it changes nothing"


def check(names, crates):
    """Prints which edits don't apply, and returns the status."""
    counts = collections.Counter()
    stray = [it.name for it in (ROOT / "edits").iterdir() if it.name not in crates]
    for name in stray:
        print(f"edits/{name}: no crate has this name")
    for name in names:
        edits = edits_of(name)
        for twice in {it.name for it in edits if [other.name for other in edits].count(it.name) > 1}:
            print(f"{name}: {twice} stands in must-fail and in edits")
            counts["wrong"] += 1
        for edit in edits:
            why = why_wrong(edit, name)
            counts["wrong" if why else "good"] += 1
            counts["gate"] += edit.parent.name == "must-fail"
            if why:
                print(f"{edit.relative_to(ROOT)}: {why}")
    if counts["gate"] > MOST_IN_GATE:
        print(f"the gate has {counts['gate']} edits, and {MOST_IN_GATE} at most")
    print(f"{counts['good']} edits apply, {counts['gate']} of all stand in the gate; {counts['wrong']} are wrong")
    return 1 if stray or counts["wrong"] or counts["gate"] > MOST_IN_GATE else 0


def copy(names, crates, only_aside, to):
    """Copies crates and those below them to a folder, with what checks kept of them, and the edits of the crates named."""
    wanted, left = set(), list(names)
    while left:
        name = left.pop()
        if name in crates and name not in wanted:
            wanted.add(name)
            left += crates[name][1]
    (to / "crates.txt").write_text("".join(f"{line}\n" for name, (line, _) in crates.items() if name in wanted))
    shutil.copy2(ROOT / "HANDLES", to)
    for name in wanted:
        here, there = ROOT / "crates" / name, to / "crates" / name
        shutil.copytree(here, there, ignore=lambda at, found: [it for it in found if it in ("out", "must-fail")])
        for kept in ("rlib", "incremental") if name in names else ("rlib",):
            if (here / "out" / kept).is_dir():
                shutil.copytree(here / "out" / kept, there / "out" / kept)
    for name in names:
        (to / "crates" / name / "must-fail").mkdir()
        for edit in edits_of(name, only_aside):
            shutil.copy2(edit, to / "crates" / name / "must-fail")


def try_all(names, crates, only_aside):
    """Tries the edits of the crates in a copy, prints what came of each, and returns the status."""
    counts = collections.Counter()
    with tempfile.TemporaryDirectory(prefix="edits-") as folder:
        copy(names, crates, only_aside, pathlib.Path(folder))
        words = {"cwd": folder, "stdout": subprocess.PIPE, "stderr": subprocess.STDOUT, "text": True}
        with subprocess.Popen(["rt", "must-fail", *names], **words) as run:
            for line in run.stdout:
                print(line, end="", flush=True)
                counts[next((of for said, of in COUNTS.items() if "must-fail " in line and said in line), None)] += 1
    missing = sum(len(edits_of(name, only_aside)) for name in names) - sum(counts[it] for it in set(COUNTS.values()))
    print(f"{counts['refused']} refused, {counts['not refused']} not refused, {counts['bad'] + missing} bad")
    return 0 if not run.returncode and not counts["not refused"] and not counts["bad"] + missing else 1


def main():
    words, crates = sys.argv[1:], below()
    flags, names = [it for it in words if it.startswith("-")], [it for it in words if not it.startswith("-")]
    lacking = [it for it in names if it not in crates]
    if len(flags) > 1 or flags not in ([], ["--check"], ["--aside"]) or lacking or not (names or flags == ["--check"]):
        print(f"crates.txt has no {lacking[0]}" if lacking else __doc__, file=sys.stderr)
        return 2
    if flags == ["--check"]:
        return check(names or list(crates), crates)
    return try_all(names, crates, bool(flags))


if __name__ == "__main__":
    sys.exit(main())
