#!/usr/bin/env python3
"""Tries on the built program what the README, the documents and the page of the examples say of it.

    python3 docs/check_documents.py [--program PATH] [--laboratory PATH] [--tracer PATH]

Without PATH it runs bin/artiq_sim, bin/artiq_lab and bin/artiq_trace, which prove and build the programs first. It is run by
hand, ends with status 1 where something is otherwise than written, and says where. What it tries:

- A block "python NAME.py" is a file for the commands behind it. In a block "console" each line behind "$ " is run by bash,
  with the lines behind "> " that follow it, in a folder with these files, bin/ and examples/, and prints what stands below
  it. An indented line that begins with one of these programs, head, or python3 and another script of docs/ is run there too,
  and ends with status 0.
- A block "python COMMAND STATUS" is a text to which the command (sim or check) answers this status. A block "text" behind
  it is what that writes: on standard output, at status 1 on standard error.
- In a table with the columns line, text and mended, the text is refused with the line, and the mended one isn't refused.
  In both, `\\n` is the end of a line, and `\\t` a tab.
- Where a sentence says that a text in backquotes gives, or is told as, a line in backquotes, the text is refused so.
- Each kernel in examples/ gives its report and its trace under the options in its `.words`, and stands with these in a row
  of program_rows, in data/sim and in data/trace. Where it has `.answers`, each line "$ WORDS" there gives the lines below
  it. Each session there that has a report gives it.
- Each path in backquotes is there, in RECIPES.md below crates/ too, but for those with NAME, any crate. ARCHITECTURE.md has
  the picture that sizes.py prints, names each file of definitions or its folder, and lists the crates of crates.txt in
  its order, each with the crates that it stands on and clauses that it has. Each word in backquotes in CONTRACTS.md
  stands in the code of the crate that its heading names, and in the map of BELIEVING.md in the files beside it. The
  numbers of definitions and lines there are those of definitions.py, to a tenth. The edits that WRONG_BODIES.md names
  stand in the gate, or in edits/ where it says so. The files that RECIPES.md names for another number of mu in a cycle have
  as many bare 8s as it says, and it names each file that has the usage line of artiq_sim, or a case of raw outputs.
- The README has at most 12 KB, no cell of a table more than forty words.
- Each script of docs/ runs. What needs a program that isn't installed is told as not tried, at the end.
"""
import os
import pathlib
import re
import shutil
import subprocess
import sys
import tempfile

import sizes

ROOT = pathlib.Path(__file__).resolve().parent.parent
FENCE = re.compile(r"^```(\w*) ?(.*)\n((?:.*\n)*?)```$", re.M)
GIVES = re.compile(r"`([^`\n]+)` (?:gives|is told as) `((?:lex|syntax|type|code) [^`\n]+)`")
COMMAND = re.compile(r"^    ((?:bin/artiq_sim (?:sim|check|compile|exec|gen|slack|dump|vcd|sat)|bin/artiq_lab|bin/artiq_trace|head|python3 docs/(?!check_documents))[^#\n]*)", re.M)
COUNTED = re.compile(r"\| `python3 docs/definitions\.py ?([^`]*)` \| some ([\d,]+) \| ([\d,]+) \|$", re.M)
ROW = re.compile(r"^\| (\w+) \| (.*) \| ?([\w, ]*?) ?\|$", re.M)
# The scripts of docs/ with their words, and the program that each needs beside the built ones.
SCRIPTS = {
    "accepted_by_gtkwave.py": (["--program", "bin/artiq_sim"], "vcd2fst"),
    "definitions.py": ([], None),
    "sizes.py": (["--house"], None),
    "what_stands_on.py": (["rtio_core"], None),
}
# A case of the kind of raw outputs, or of their method.
CASES = re.compile(r"\bOutRaw(?:\)| c\)|,)|(?:\bP\.|Operation::|\()Write[ (]\w+\)")
# Paths, but for those of any crate, NAME.
BELOW_CRATES = re.compile(r"`((?!docs/|bench/|examples/|completions/|python/|launch/|edits/)(?![^`]*NAME)\w+/[\w./-]+)`")
PATH = re.compile(r"`((?![^`]*NAME)(?:docs|crates|examples|bench|bin|launch|completions|python)/[\w./-]+)`")


class Checker:
    def __init__(self, programs, folder):
        self.folder = folder
        self.tried = 0
        self.wrong = 0
        self.not_tried = []
        (folder / "bin").mkdir()
        for name, program in programs.items():
            launcher = folder / "bin" / name
            launcher.write_text(f'#!/bin/sh\nexec "{program}" "$@"\n')
            launcher.chmod(0o755)
        for name in ("examples", "docs", "crates", "python"):
            (folder / name).symlink_to(ROOT / name)
        self.environment = {**os.environ, "BUSZLOGEM_BIN": str(folder / "bin"), "PYTHONPATH": str(ROOT / "python")}

    def expect(self, where, what, found, wanted):
        self.tried += 1
        if found != wanted:
            self.wrong += 1
            print(f"{where}: {what}\n  wanted {wanted!r}\n  found  {found!r}")

    def program(self, command, text, options=(), name="artiq_sim"):
        words = [command, *options] if command else options
        run = subprocess.run([self.folder / "bin" / name, *words], input=text.encode(), capture_output=True)
        return run.returncode, run.stdout.decode(), run.stderr.decode()

    def refused(self, where, text, line):
        self.expect(where, text, self.program("check", text), (1, "", line + "\n"))

    def commands(self, where, block):
        status = 0
        for part in re.split(r"^\$ ", block, flags=re.M)[1:]:
            command, _, wanted = part.partition("\n")
            while wanted.startswith("> "):
                line, _, wanted = wanted[2:].partition("\n")
                command += "\n" + line
            run = subprocess.run(
                ["bash", "-c", f"(exit {status})\n{command}"],
                cwd=self.folder,
                env=self.environment,
                stdout=subprocess.PIPE,
                stderr=subprocess.STDOUT,
                stdin=subprocess.DEVNULL,
            )
            status = run.returncode
            self.expect(where, command, run.stdout.decode(), wanted)

    def blocks(self, where, page):
        fences = list(FENCE.finditer(page))
        for place, fence in enumerate(fences):
            language, words, body = fence.group(1), fence.group(2).split(), fence.group(3)
            if language == "console":
                self.commands(where, body)
            elif language == "python" and len(words) == 1:
                (self.folder / words[0]).write_text(body)
            elif language == "python" and len(words) == 2:
                status, out, err = self.program(words[0], body)
                self.expect(where, body, status, int(words[1]))
                behind = fences[place + 1] if place + 1 < len(fences) else None
                if behind and behind.group(1) == "text" and page[fence.end() : behind.start()].strip() == "":
                    self.expect(where, body, err if status == 1 else out, behind.group(3))

    def tables(self, where, page):
        columns = None
        for line in page.splitlines():
            cells = [cell.strip() for cell in line.strip().strip("|").split("|")] if line.startswith("|") else None
            if cells is None:
                columns = None
            elif columns is None:
                columns = cells
            elif {"line", "text", "mended"} <= set(columns) and not set(line) <= set("|- "):
                plain = (cell.strip("`").replace("\\n", "\n").replace("\\t", "\t") for cell in cells)
                row = dict(zip(columns, plain))
                self.refused(where, row["text"], row["line"])
                status, _, err = self.program("check", row["mended"])
                self.expect(where, row["mended"], (status == 1, err), (False, ""))

    def page(self, path):
        page = path.read_text()
        where = str(path.relative_to(ROOT))
        self.blocks(where, page)
        prose = FENCE.sub("", page)
        self.tables(where, prose)
        for command in COMMAND.findall(prose):
            run = subprocess.run(["bash", "-c", command], cwd=self.folder, capture_output=True)
            self.expect(where, command, run.returncode, 0)
        for text, line in GIVES.findall(prose):
            self.refused(where, text, line)
        for name in PATH.findall(prose):
            self.expect(where, name, (ROOT / name).exists(), True)
        if path.name == "RECIPES.md":
            for name in BELOW_CRATES.findall(prose):
                self.expect(where, name, (ROOT / "crates" / name).exists(), True)

    def examples(self):
        for example in sorted((ROOT / "examples").glob("*.py")):
            text = example.read_text()
            words = example.with_suffix(".words")
            options = words.read_text().split() if words.exists() else []
            self.example(example, "report", self.program("sim", text, options), ["$ sim", *options], "sim")
            self.example(example, "trace", self.program("", text, options, "artiq_trace"), ["$", *options], "trace")

    def example(self, example, kind, answer, words, rows):
        """The report or the trace of an example is what the program answers, and what a row says."""
        written = example.with_suffix(f".{kind}").read_text()
        self.expect(example.name, f"its {kind}", answer[1:], (written, ""))
        question = "".join(f"| {line}".rstrip() + "\n" for line in example.read_text().splitlines())
        lines = "".join(f"> {line}".rstrip() + "\n" for line in written.splitlines())
        tables = "".join(table.read_text() for table in sorted((ROOT / "crates/program_rows/data" / rows).glob("*.rows")))
        row = question + " ".join(words) + "\n" + lines
        self.expect(example.name, f"its row in {rows}", row in tables, True)

    def answers(self):
        for answers in sorted((ROOT / "examples").glob("*.answers")):
            text = answers.with_suffix(".py").read_text()
            for part in re.split(r"^\$ ", answers.read_text(), flags=re.M)[1:]:
                words, _, lines = part.partition("\n")
                command, *options = words.split()
                self.expect(answers.name, words, self.program(command, text, options), (0, lines, ""))

    def sessions(self):
        for report in sorted((ROOT / "examples").glob("*.report")):
            session = report.with_suffix(".json")
            if session.exists():
                run = subprocess.run([self.folder / "bin" / "artiq_lab"], input=session.read_bytes(), capture_output=True)
                self.expect(session.name, "its report", (run.stdout.decode(), run.stderr.decode()), (report.read_text(), ""))

    def scripts(self):
        for path in sorted((ROOT / "docs").glob("*.py")):
            if path.name == pathlib.Path(__file__).name:
                continue
            self.expect("docs/check_documents.py", f"runs {path.name}", path.name in SCRIPTS, True)
            words, needed = SCRIPTS.get(path.name, ([], None))
            if needed and shutil.which(needed) is None:
                self.not_tried.append(f"docs/{path.name}: {needed} isn't installed")
            else:
                run = subprocess.run(["python3", path, *words], cwd=self.folder, capture_output=True)
                self.expect(f"docs/{path.name}", f"{words} {run.stderr.decode()}", run.returncode, 0)

    def readme(self):
        readme = (ROOT / "README.md").read_text()
        self.expect("README.md", "at most 12 KB", len(readme.encode()) <= 12288, True)
        for line in readme.splitlines():
            for cell in line.split("|") if line.startswith("|") else []:
                self.expect("README.md", f"at most forty words: {cell}", len(cell.split()) <= 40, True)

    def edits(self):
        page = re.sub(r"`[^`\n]+`", "", (ROOT / "docs/WRONG_BODIES.md").read_text())
        for aside, crate, edit in re.findall(r"\b(edits/)?(\w+)/(\w+)", page):
            folder = ROOT / "edits" / crate if aside else ROOT / "crates" / crate / "must-fail"
            stands = (folder / f"{edit}.edit").exists()
            self.expect("docs/WRONG_BODIES.md", f"{crate}/{edit}", stands, True)

    def names(self):
        crates = sizes.crates()
        architecture = (ROOT / "docs/ARCHITECTURE.md").read_text()
        self.house(crates, architecture)
        for file in sorted(ROOT.glob("crates/*/specs/*.antt")):
            crate = file.parent.parent.name
            named = f"`{crate}/specs/`" in architecture or file.name in architecture or file.name == "Lib.antt"
            self.expect("docs/ARCHITECTURE.md", f"names {crate}/specs/{file.name}", named, True)
        for section in re.split(r"^##", (ROOT / "docs/CONTRACTS.md").read_text(), flags=re.M):
            heading = re.findall(r"\w+", section.partition("\n")[0]) if section.startswith("#") else []
            folders = [ROOT / "crates" / name for name in heading if (ROOT / "crates" / name).is_dir()]
            if folders:
                self.words(f"docs/CONTRACTS.md: {heading}", section, words_in(folders) | set(crates))

    def words(self, where, text, known):
        """Each word in backquotes that is no path is one of those known."""
        for quoted in re.findall(r"`([^`\n]+)`", text):
            words = [] if "/" in quoted else re.findall(r"[A-Za-z_]\w*", quoted)
            self.expect(where, quoted, [word for word in words if word not in known], [])

    def house(self, crates, architecture):
        """The picture and the list of crates in ARCHITECTURE.md."""
        picture = "\n".join(line.rstrip() for line in sizes.house(crates, False))
        self.expect("docs/ARCHITECTURE.md", "the picture that sizes.py --plain prints", picture in architecture, True)
        listed = architecture.partition("## All crates")[2].partition("\n## ")[0]
        rows = [row for row in ROW.findall(listed) if row[0] != "crate"]
        self.expect("docs/ARCHITECTURE.md", "lists the crates", [row[0] for row in rows], list(crates))
        for name, said, below in rows:
            if name in crates:
                nearest = sizes.nearest(crates, name)
                self.expect("docs/ARCHITECTURE.md", f"what {name} stands on", sorted(re.findall(r"\w+", below)), sorted(nearest))
                self.words(f"docs/ARCHITECTURE.md: {name}", said, words_in([ROOT / "crates" / name]) | set(crates))

    def promises(self):
        """The numbers and the map in BELIEVING.md."""
        page = (ROOT / "docs/BELIEVING.md").read_text()
        for words, definitions, lines in COUNTED.findall(page):
            run = subprocess.run(["python3", ROOT / "docs/definitions.py", "--sums", *words.split()], capture_output=True, text=True)
            printed = re.match(r"(\d+) lines, (\d+) definitions", run.stdout)
            for said, found in zip((lines, definitions), printed.groups() if printed else ("0", "0")):
                number = int(said.replace(",", ""))
                self.expect("docs/BELIEVING.md", f"{words}: {said}, and {found}", abs(number - int(found)) * 10 <= number, True)
        for line in page.partition("## Where each promise stands")[2].partition("\n## ")[0].splitlines():
            cells = line.split("|")
            for name in re.findall(r"`([^`]+\.rt)`", cells[3]) if len(cells) == 5 else []:
                self.expect("docs/BELIEVING.md", name, (ROOT / "crates" / name).exists(), True)
            files = [ROOT / "crates" / name for name in re.findall(r"`([^`]+\.rt)`", cells[3])] if len(cells) == 5 else []
            if files and all(file.exists() for file in files):
                self.words(f"docs/BELIEVING.md: {cells[1]}", cells[2], words_in(files))

    def recipes(self):
        """The bare numbers, and the places of the usage line, that RECIPES.md counts up."""
        page = (ROOT / "docs/RECIPES.md").read_text()
        for cell, times in re.findall(r"^\| (.*) \| a bare 8, in all (\d+) times", page, re.M):
            texts = [(ROOT / "crates" / name).read_text() for name in re.findall(r"`([^`]+)`", cell)]
            found = sum(len(re.findall(r"\b8\b", text)) for text in texts)
            self.expect("docs/RECIPES.md", "bare 8s", found, int(times))
        command = page.partition("## A new command")[2].partition("\n## ")[0]
        usage = re.search(r'b"(usage: artiq_sim [^"\\]*)', (ROOT / "crates/sim_program/src/top.rt").read_text())
        places = ("crates/*/src/*.rt", "crates/*/specs/*.antt", "crates/*/data/**/*.rows", "crates/*/stdout", "docs/*.md", "bench/*.py")
        for path in sorted(path for place in places for path in ROOT.glob(place)):
            if usage and usage[1] in path.read_text():
                name = str(path.relative_to(ROOT)).removeprefix("crates/")
                self.expect("docs/RECIPES.md", f"names {name}, which has the usage line", f"`{name}`" in command, True)
        channel = page.partition("## A new kind of channel")[2].partition("\n## ")[0]
        for path in sorted(path for folder in ("src", "specs", "proofs") for path in ROOT.glob(f"crates/*/{folder}/**/*.*t*")):
            if path.is_file() and CASES.search(path.read_text()):
                name = str(path.relative_to(ROOT / "crates"))
                self.expect("docs/RECIPES.md", f"names {name}, which has a case of raw outputs", f"`{name}`" in channel, True)


def words_in(places):
    """The words of some files, or of all code, definitions and proofs in some folders."""
    files = [file for place in places for file in ([place] if place.is_file() else place.rglob("*.*t*"))]
    return {word for file in files if file.suffix in (".rt", ".antt") for word in re.findall(r"\w+", file.read_text())}


def programs_named(usage):
    """Returns the programs that the words name, else the launchers; ends with the usage at other words."""
    names = {"--program": "artiq_sim", "--laboratory": "artiq_lab", "--tracer": "artiq_trace"}
    programs = {name: ROOT / "bin" / name for name in names.values()}
    words = sys.argv[1:]
    while len(words) >= 2 and words[0] in names:
        programs[names[words[0]]] = pathlib.Path(words[1]).resolve()
        words = words[2:]
    if words:
        sys.exit(usage)
    return programs


def main():
    programs = programs_named(__doc__)
    # The launchers tell of their building on standard error, where a text's line is looked for; so they build now.
    for program in programs.values():
        subprocess.run([program, "check"], stdin=subprocess.DEVNULL, stdout=subprocess.DEVNULL, check=False)
    with tempfile.TemporaryDirectory() as folder:
        checker = Checker(programs, pathlib.Path(folder))
        for path in [ROOT / "README.md", ROOT / "examples/README.md", *sorted((ROOT / "docs").glob("*.md"))]:
            checker.page(path)
        checker.examples()
        checker.answers()
        checker.sessions()
        checker.readme()
        checker.edits()
        checker.names()
        checker.promises()
        checker.recipes()
        checker.scripts()
    for line in checker.not_tried:
        print(f"not tried: {line}")
    print(f"{checker.tried} tried, {checker.wrong} otherwise than written")
    sys.exit(1 if checker.wrong else 0)


if __name__ == "__main__":
    main()
