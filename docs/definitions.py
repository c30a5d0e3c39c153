#!/usr/bin/env python3
"""Prints the definitions that a clause rests on, each with its number of lines and the sentence before it.

    python3 docs/definitions.py [--sums] [--beyond NAME] [NAME..]

Without NAME it begins at all definitions that the clause of `sim_top` cites. NAME is another top call (`lab_top`,
`trace_top`), or a definition, as NAME or CRATE.NAME. With --sums it prints the last line alone: how many definitions there
are, of how many lines, in how many files. With --beyond it leaves out all that another clause or definition rests on.

Definitions are followed through the files of specs/, those too that a crate passes on from one below, in the order in which
a reader meets them from the top, and added up by file. A word counts as citing each definition that the file could mean by
it, so a variable of the same name adds one too many, and none is left out; `do` cites the operators of its file that it
stands for. A type of the code (a Rust enum or struct) is named at the end, and what its own fields and forms are isn't
followed; nor are the definitions of the standard library.
"""
import collections
import pathlib
import re
import signal
import sys

ROOT = pathlib.Path(__file__).resolve().parent.parent
USE = re.compile(r"^\s*(?:pub |ghost )?use Rattle\.(\w+)\.specs\.([\w.]+?)(?:\.\{(.*)\}| as (\w+));?$")
PASSED_ON = re.compile(r"^pub use Rattle\.(\w+)\.specs\.(\w+)$", re.M)
HEAD = re.compile(r"^( *)((?:abbrev |unfoldable )?(?:pub )?)(record |data )?([^\s:({]+)(?=\s*[:({]|\s+where)")
SCOPE = re.compile(r"^( *)(module|mutual|abbrev mutual|infixl|infixr)\b(.*)")
CONSTRUCTORS = re.compile(r"^ *([^:(){}→]+) : ")
WORD = re.compile(r"[^\s(){},;:]+")


class Definition:
    """A definition: its lines, the sentence before it, and the words of the scopes that it stands in."""

    def __init__(self, name, kind, indent, said, around):
        self.name = name
        self.kind = kind
        self.indent = indent
        self.said = said
        self.around = around
        self.lines = []


class File:
    """A file of definitions by the names that they define, and where its other words come from."""

    def __init__(self, text):
        self.definitions = {}
        self.names = {}
        self.aliases = {}
        self.scopes = []
        self.current = None
        for paragraph in re.split(r"\n\s*\n", text):
            self.said, self.is_first = [], True
            for line in paragraph.splitlines():
                self.take(line)
                self.is_first = self.is_first and line.lstrip().startswith("--")

    def take(self, line):
        """One line: a comment, a use, the beginning of a scope or of a definition, or a further line of one."""
        use, scope, head = USE.match(line), SCOPE.match(line), HEAD.match(line)
        indent = len(line) - len(line.lstrip())
        if line.lstrip().startswith("--"):
            self.said.append(line.strip(" -"))
        elif use:
            self.take_use(*use.groups())
        elif scope:
            self.scopes = [s for s in self.scopes if s[0] < indent] + [(indent, scope.group(3))]
            self.current = None
        elif head and self.begins(head, indent):
            self.begin(head, indent, line)
        elif self.current:
            self.said = []
            self.current.lines.append(line)
            found = CONSTRUCTORS.match(line)
            if self.current.kind == "data " and indent == self.current.indent + 2 and found:
                for name in found.group(1).split():
                    self.definitions.setdefault(name, self.current)

    def begins(self, head, indent):
        """Whether a line begins a definition: fields and constructors don't, nor do equations."""
        if self.current and self.current.kind and indent > self.current.indent:
            return False
        return bool(head.group(2)) or (self.is_first and " : " in head.string and " = " not in head.string)

    def begin(self, head, indent, line):
        around = " ".join(words for at, words in self.scopes if at < indent)
        self.current = Definition(head.group(4), head.group(3), indent, " ".join(self.said), around)
        self.current.lines.append(line)
        self.definitions.setdefault(head.group(4), self.current)
        self.said = []

    def take_use(self, crate, module, names, alias):
        if names:
            for name in names.split(", "):
                self.names[name.split(" as ")[-1]] = (crate, module, name.split(" as ")[0])
        else:
            self.aliases[alias] = (crate, module)

    def cited(self, text):
        """What a text may cite, as (crate, module, name); a crate of None is this file."""
        words = WORD.findall(text)
        for word in words + (["◌>>=◌", "◌>>◌"] if "do" in words else []):
            first, _, rest = word.partition(".")
            if first in self.aliases and rest:
                yield (*self.aliases[first], rest.partition(".")[0])
            for name in (word, first, f"◌{word}◌"):
                if name in self.names:
                    yield self.names[name]
                elif name in self.definitions:
                    yield (None, None, name)


def without_comments(lines):
    return "\n".join(line.partition("-- ")[0] for line in lines)


class House:
    """All files of definitions."""

    def __init__(self):
        self.files, self.passed_on = {}, {}
        for path in sorted(ROOT.glob("crates/*/specs/*.antt")):
            crate, text = path.parent.parent.name, path.read_text()
            self.files[(crate, path.stem)] = File(text)
            if path.stem == "Lib":
                self.passed_on.update({(crate, module): (other, module) for other, module in PASSED_ON.findall(text)})

    def where(self, crate, module, name):
        """Where a word is defined that a file has from another one, or a crate's whole file from a crate below."""
        while True:
            file = self.files.get((crate, module))
            if (crate, module) in self.passed_on:
                crate, module = self.passed_on[(crate, module)]
            elif file and name not in file.definitions and name in file.names:
                crate, module, name = file.names[name]
            else:
                return crate, module, name

    def cited_by_call(self, call):
        """The definitions that the clause of a top call cites, or None where no call has this name."""
        for path in sorted(ROOT.glob("crates/*_program/src/top.rt")):
            text = path.read_text()
            begin = re.search(rf"^pub fn {re.escape(call)}\b", text, re.M)
            clause = begin and re.search(r"ensures \{(.*?)\}\n\{", text[begin.start() :], re.S)
            if clause:
                head = "\n".join(line for line in text.splitlines() if line.startswith("ghost use"))
                return [(crate, *rest) for crate, *rest in File(head).cited(clause.group(1)) if crate != "std"]
        return None

    def named(self, name):
        """Where the definitions of this name stand; CRATE.NAME is that of a crate."""
        crate, _, name = name.rpartition(".")
        return [(*key, name) for key, file in self.files.items() if name in file.definitions and crate in ("", key[0])]

    def follow(self, starts):
        """All definitions that these rest on, in the order in which they are met, and the types of the code."""
        waiting = collections.deque(starts)
        met, types = {}, set()
        while waiting:
            crate, module, name = self.where(*waiting.popleft())
            file = self.files.get((crate, module))
            if file is None:
                if module.startswith("declared.") and crate != "std":
                    parts = module.split(".")
                    types.add(f"{crate}::{parts[-2] if parts[-1] == 'TheVariants' else parts[-1]}")
            elif name in file.definitions:
                found = file.definitions[name]
                if (crate, module, found.name) not in met:
                    met[(crate, module, found.name)] = found
                    for other, where, word in file.cited(f"{found.around}\n{without_comments(found.lines)}"):
                        waiting.append((other or crate, where or module, word))
        return met, sorted(types)


def starts_of(house, names):
    for name in names:
        found = house.cited_by_call(name) or house.named(name)
        if not found:
            sys.exit(f"no definition and no top call has the name {name}")
        if len({crate for crate, *_ in found}) > 1 and not house.cited_by_call(name):
            sys.exit(f"say which one: {', '.join(f'{crate}.{name}' for crate, *_ in found)}")
        yield from found


def main():
    words, house = sys.argv[1:], House()
    names = [word for word in words if word != "--sums"]
    known = {}
    if "--beyond" in names[:-1]:
        place = names.index("--beyond")
        known, _ = house.follow(starts_of(house, [names[place + 1]]))
        del names[place : place + 2]
    met, types = house.follow(starts_of(house, names or ["sim_top"]))
    met = {key: definition for key, definition in met.items() if key not in known}
    by_file = collections.defaultdict(list)
    for (crate, module, _), definition in met.items():
        by_file[f"{crate}/specs/{module}.antt"].append(definition)
    if "--sums" not in words:
        for file, definitions in by_file.items():
            print(f"{sum(len(each.lines) for each in definitions):5} {file}")
            for each in definitions:
                print(f"{len(each.lines):10} {each.name}" + (f": {each.said}" if each.said else ""))
        print("types of the code: " + ", ".join(types))
    lines = sum(len(each.lines) for each in met.values())
    print(f"{lines} lines, {len(met)} definitions, {len(by_file)} files")


signal.signal(signal.SIGPIPE, signal.SIG_DFL)
main()
