"""Files of definitions (.antt): their items, and what a name in one of them means."""

import re
from collections import namedtuple
from pathlib import Path

CRATES = Path(__file__).resolve().parents[2] / "crates"

# kind: 'definition' or 'constant' of a module; 'standard', a word of the standard library; 'constructor'; or 'type', which has no value
Meaning = namedtuple("Meaning", "kind module name")

STANDARD_CONSTRUCTORS = {"true", "false", "zero", "suc", "pos", "negsuc", "[]", "Some", "None", "Ok", "Err"}

MARKS = re.compile(r"(?:(?:abbrev|unfoldable|opaque|pub) )+")

loaded = {}


def own_name(module):
    """The name of a module in its own crate: Rattle.A.specs.B.REST is what A passes on of crate B."""
    parts = module.split(".")
    while len(parts) > 4 and parts[2] == "specs" and CRATES.joinpath(parts[3]).is_dir():
        parts = ["Rattle", parts[3], "specs", *parts[4:]]
    return ".".join(parts)


def module_named(name):
    if name not in loaded:
        loaded[name] = Module(name)
    return loaded[name]


class Module:
    def __init__(self, name):
        self.name = name
        self.imports = {}  # name here: (module, name there)
        self.aliases = {}  # name here: module
        self.constructors = set()
        self.clauses = {}  # name: texts of its clauses
        _, crate, *folders = name.split(".")
        path = CRATES.joinpath(crate, *folders).with_suffix(".antt")
        if path.exists():
            for item in items(path.read_text(encoding="utf-8")):
                self.read_item(item)

    def read_item(self, lines):
        first = MARKS.sub("", lines[0], count=1)
        word = first.split()[0]
        if word == "use":
            self.read_use(" ".join(lines))
        elif word == "data":
            self.read_constructors(lines[1:])
        elif word != "record" and not first.startswith(word + " :"):
            self.clauses.setdefault(word, []).append("\n".join(lines))

    def read_use(self, text):
        listed = re.match(r"(?:pub )?use ([\w.]+)\.\{(.*)\}", text)
        alias = re.match(r"(?:pub )?use ([\w.]+) as (\w+)", text)
        if alias:
            self.aliases[alias[2]] = own_name(alias[1])
        if listed:
            for entry in listed[2].split(","):
                there, _, here = entry.strip().partition(" as ")
                self.imports[here or there] = (own_name(listed[1]), there)

    def read_constructors(self, lines):
        for line in lines:
            constructor = re.match(r"\s+([\w']+) :", line)
            if constructor:
                self.constructors.add(constructor[1])

    def meaning(self, name):
        """What the name means in this file, or None."""
        if name in self.clauses:
            return Meaning("definition", self.name, name)
        if name in self.constructors:
            return Meaning("constructor", self.name, name)
        if name in self.imports:
            return meaning_in(*self.imports[name])
        return None


def meaning_in(module, name):
    """What the name means that the module offers."""
    if module.endswith(".TheVariants"):
        return Meaning("constructor", module, name)
    if module.endswith(".TheConstants"):
        return Meaning("constant", module, name)
    if module.startswith(("Rattle.std.", "Rattle.core.")):
        kind = "constructor" if name in STANDARD_CONSTRUCTORS else "standard"
        return Meaning(kind, module, name)
    if ".declared." in module:
        return Meaning("type", module, name)
    return module_named(module).meaning(name) or Meaning("type", module, name)


def constant_value(module, name):
    """The value of a constant of the code: Rattle.CRATE.specs.declared.FILE.TheConstants stands for crates/CRATE/src/FILE.rt, with no FILE for lib.rt."""
    _, crate, _, _, *folders, _ = module.split(".")
    text = CRATES.joinpath(crate, "src", *(folders or ["lib"])).with_suffix(".rt").read_text(encoding="utf-8")
    return int(re.search(rf"const {name}: \w+ = ([\d_]+);", text)[1])


def items(text):
    """The items of a file, each as its lines; those of a `mutual` block stand two columns further in."""
    found = []
    margin = 0
    for line in text.split("\n"):
        words = line.split()
        if not words or words[0].startswith("--"):
            continue
        column = len(line) - len(line.lstrip())
        goes_on = line.lstrip().startswith("}")
        if column == 0 and not goes_on:
            margin = 2 if words[-1] == "mutual" else 0
            if margin:
                continue
        if column == margin and not goes_on:
            found.append([])
        found[-1].append(line[margin:])
    return found
