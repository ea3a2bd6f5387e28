#!/usr/bin/env python3
"""What a reader must believe: the definitions of specs/ that the contract of a public function reaches.

usage: tools/trusted.py [-v] [CRATE::FILE.rt:FUNCTION ...]        (without a function: the program's call)

Prints a line for each file, the lines reached of its lines in all, and the sums. Comments count, blank lines and imports
don't. With -v also the files of which nothing is reached. A definition reaches each name that stands in it; types that the
code declares are counted apart, since their text stands in src/.
"""
import collections
import pathlib
import re
import sys

CRATES = pathlib.Path(__file__).resolve().parent.parent / "crates"
PROGRAMS_CALL = "tlbvm::top.rt:tlbvm_still"

WORDS = r"(?:abbrev|unfoldable|opaque|pub)\s+"
STARTS = re.compile(rf"^(?:{WORDS})*(?:record|data)?\s*([A-Za-z_][\w']*)\s*(?:[:({{]|$|where)")
BEGINS = re.compile(r"^(?:abbrev|unfoldable|opaque|pub|record|data)\b")
CONSTRUCTOR = re.compile(r"^\s+([A-Za-z_][\w']*)\s*:")
NAME = re.compile(r"[A-Za-z_][\w']*(?:\.[A-Za-z_][\w']*)*")
USE = r"use\s+([\w.]+)(?:\.\{([^}]*)\})?(?:\s+as\s+(\w+))?"


class Definition:
    def __init__(self):
        self.lines = 0
        self.names = set()
        self.constructors = set()


class File:
    """A file of specs/: what it imports, its definitions, and its lines."""

    def __init__(self, text):
        self.imports = {}
        self.definitions = {}
        self.lines = 0
        current, comment = None, 0
        for line in text.split("\n"):
            use = re.match(f"^{USE}\\s*$", line)
            if use:
                self.imports.update(imported(*use.groups()))
            elif not line.strip():
                comment = 0
            else:
                self.lines += 1
                if line.startswith("--"):
                    comment += 1
                    continue
                if BEGINS.match(line) and (begun := STARTS.match(line)):
                    current = self.definitions.setdefault(begun.group(1), Definition())
                if current:
                    current.lines += 1 + comment
                    current.names.update(NAME.findall(line))
                    if not BEGINS.match(line) and (made := CONSTRUCTOR.match(line)):
                        current.constructors.add(made.group(1))
                comment = 0
        self.made_by = {k: name for name, d in self.definitions.items() for k in d.constructors}

    def find(self, name):
        """The definition that has this name, or the one that has this constructor."""
        return name if name in self.definitions else self.made_by.get(name)


def imported(module, names, alias):
    """The names that a `use` line brings: each with its module and its name there, None for a whole module."""
    if names is None:
        return {alias or module.split(".")[-1]: (module, None)}
    pairs = (name.strip().split(" as ") for name in names.split(","))
    return {pair[-1].strip(): (module, pair[0].strip()) for pair in pairs}


def files():
    found = {}
    for path in sorted(CRATES.glob("*/specs/**/*.antt")):
        crate, _, *rest = path.relative_to(CRATES).with_suffix("").parts
        found[".".join(["Rattle", crate, "specs", *rest])] = File(path.read_text())
    return found


def cited(names, imports):
    """What dotted names lead to, by these imports: module and name."""
    for dotted in names:
        head, *rest = dotted.split(".")
        if head in imports:
            module, name = imports[head]
            yield module, name or (rest[0] if rest else None)


def cited_by_contract(function):
    """What the contract of a function cites: `CRATE::FILE.rt:FUNCTION`."""
    crate, place = function.split("::")
    file, name = place.split(":")
    source = (CRATES / crate / "src" / file).read_text()
    imports = {}
    for use in re.finditer(f"^ghost {USE};", source, re.M):
        imports.update(imported(*use.groups()))
    contract = re.search(rf"pub fn {name}\b.*?\n\{{", source, re.S).group(0)
    return cited(NAME.findall(contract), imports)


def reached_from(work, specs):
    """All that these names reach, and the types of the code among it."""
    reached, declared = {}, set()
    while work:
        module, name = work.pop()
        if ".declared." in module:
            declared.add((module, name))
            continue
        file = specs.get(module)
        name = file.find(name) if file and name else None
        if name is None or (module, name) in reached:
            continue
        definition = file.definitions[name]
        reached[module, name] = definition.lines
        work += [(module, n.split(".")[0]) for n in definition.names if file.find(n.split(".")[0])]
        work += cited(definition.names, file.imports)
    return reached, declared


def main():
    words = sys.argv[1:]
    functions = [word for word in words if word != "-v"] or [PROGRAMS_CALL]
    specs = files()
    reached, declared = reached_from([c for f in functions for c in cited_by_contract(f)], specs)
    lines = collections.Counter()
    for (module, _), count in reached.items():
        lines[module] += count
    for module, file in specs.items():
        if lines[module] or "-v" in words:
            print(f"{lines[module]:5d} of {file.lines:4d}  {module.removeprefix('Rattle.')}")
    everything = sum(file.lines for file in specs.values())
    print(f"{sum(lines.values())} lines in {len(lines)} files, {len(reached)} definitions; {everything} lines in all of specs/")
    print(f"{len(declared)} names of types that the code declares")


main()
