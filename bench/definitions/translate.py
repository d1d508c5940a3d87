#!/usr/bin/env -S python3 -B
"""Translates definitions of crates/*/specs/*.antt to JavaScript: those of ROOTS and all that they use.

Usage: bench/definitions/translate.py > definitions.js

A definition becomes a function of as many arguments as its clauses have patterns, each clause an `if` in their order.
"""

import re
import sys
from pathlib import Path

import antt_syntax as syntax
from antt_files import constant_value, meaning_in, module_named

# What evaluate.js asks for.
ROOTS = {
    "Rattle.elab_rules.specs.Programs": ["program_of"],
    "Rattle.tx_safety.specs.Safe": ["first_unsafe", "is_safe"],
    "Rattle.src_mean.specs.Links": ["linked", "first_cells", "globals_size"],
    "Rattle.src_mean.specs.Source": ["source", "main_state"],
    "Rattle.tx_events.specs.Memory": ["can_access", "globals_start"],
}

PRELUDE = (Path(__file__).resolve().parent / "prelude.js").read_text(encoding="utf-8")

# The number of arguments of each word of the standard library.
STANDARD = {word: parameters.count(",") + 1 for word, parameters in re.findall(r"^    (\w+): \((.*?)\) =>", PRELUDE, re.MULTILINE)}

# Operators that JavaScript writes otherwise than by their own first character.
OPERATIONS = {
    "==": "({} === {})",
    "≤": "({} <= {})",
    "^": "({} ** {})",
    "-": "minus({}, {})",
    "/": "quotient({}, {})",
    "%": "remainder({}, {})",
    "++": "joined({}, {})",
    "∷": 'data("∷", {}, {})',
    "&&": "({} && {})",
    "||": "({} || {})",
}


class NoValue(Exception):
    pass


class Translation:
    def __init__(self):
        self.functions = []
        self.arities = {}  # by (module, name), of those that are translated or wait for it
        self.waiting = []
        self.parameters = 0

    def translate(self, roots):
        """The names in JavaScript of the roots."""
        exported = {name: self.function(module, name) for module, names in roots.items() for name in names}
        while self.waiting:
            self.functions.append(self.definition(*self.waiting.pop()))
        return exported

    # Definitions

    def function(self, module, name):
        """The name in JavaScript of a definition, which will be translated."""
        if (module, name) not in self.arities:
            file = module_named(module)
            clauses = [syntax.parsed_clause(file, text) for text in file.clauses[name]]
            self.arities[module, name] = len(clauses[0].patterns)
            self.waiting.append((file, name, clauses))
        return script_name(module, name)

    def definition(self, file, name, clauses):
        function = script_name(file.name, name)
        arity = self.arities[file.name, name]
        if arity == 0:
            return f"const {function} = once(() => {self.code(file, clauses[0].body, {})});\n"
        parameters = [f"a{i}" for i in range(arity)]
        cases = "".join(self.case(file, clause, parameters) for clause in clauses)
        return f'function {function}({", ".join(parameters)}) {{\n{cases}    throw new Error("no clause of {function}");\n}}\n'

    def case(self, file, clause, parameters):
        tests = []
        known = {}
        for value, pattern in zip(parameters, clause.patterns):
            match(pattern, value, tests, known)
        return f'    if ({" && ".join(tests) or "true"}) return {self.code(file, clause.body, known)};\n'

    # Expressions: `known` has what the local names stand for

    def code(self, file, expression, known):
        match expression:
            case syntax.Number(digits):
                return digits + "n"
            case syntax.Text(quoted):
                return quoted
            case syntax.Empty():
                return "empty"
            case syntax.Name():
                return self.application(file, expression, [], known)
            case syntax.Application(function, arguments):
                return self.application(file, function, [self.code(file, argument, known) for argument in arguments], known)
            case syntax.Operation(operator, left, right):
                form = OPERATIONS.get(operator, f"({{}} {operator[0]} {{}})")
                return form.format(self.code(file, left, known), self.code(file, right, known))
            case syntax.Choice(test, then, otherwise):
                return choice(*(self.code(file, part, known) for part in (test, then, otherwise)))
            case syntax.Pair(first, second):
                return f"[{self.code(file, first, known)}, {self.code(file, second, known)}]"
            case syntax.Lambda(names, body):
                return self.function_value(file, names, body, known)
            case syntax.Record(base, fields):
                return self.record(file, base, fields, known)
            case syntax.Field(record, name):
                return self.field(file, record, name, known)

    def function_value(self, file, names, body, known):
        """A lambda. Its parameters get names of their own, as it may stand in another one."""
        inner = dict(known)
        head = ""
        for name in names:
            self.parameters += 1
            inner[name] = f"v{self.parameters}"
            head += inner[name] + " => "
        return f"({head}({self.code(file, body, inner)}))"

    def record(self, file, base, fields, known):
        parts = [] if base is None else ["..." + self.code(file, base, known)]
        parts += [f"{name}: {self.code(file, value, known)}" for name, value in fields]
        return f'({{ {", ".join(parts)} }})'

    def field(self, file, record, name, known):
        meaning = named_through_alias(file, record, name, known)
        if meaning:
            return self.value(meaning, [])
        whole = self.code(file, record, known)
        return f"{whole}[{name}]" if name.isdigit() else f'field({whole}, "{name}")'

    def application(self, file, function, arguments, known):
        match function:
            case syntax.Name(name) if name in known:
                return applied(known[name], arguments)
            case syntax.Name(name):
                meaning = file.meaning(name)
                if meaning is None:
                    raise NoValue(f"{file.name}: no `{name}` is known")
                return self.value(meaning, arguments)
            case syntax.Field(record, name):
                meaning = named_through_alias(file, record, name, known)
                if meaning:
                    return self.value(meaning, arguments)
        return applied(self.code(file, function, known), arguments)

    def value(self, meaning, arguments):
        """What a name that is not local stands for, applied to arguments."""
        module, name = meaning.module, meaning.name
        match meaning.kind:
            case "constructor":
                return constructed(name, arguments)
            case "constant":
                return f"{constant_value(module, name)}n"
            case "definition":
                return called(self.function(module, name), self.arities[module, name], arguments)
            case "standard" if name == "cond" and len(arguments) == 3:
                return choice(*arguments)
            case "standard" if name in STANDARD:
                return called("standard." + name, STANDARD[name], arguments)
        raise NoValue(f"{module}: `{name}` has no value here; a word of the standard library has to stand in prelude.js")


def script_name(module, name):
    folders = module.removeprefix("Rattle.").replace(".specs", "").replace(".", "_")
    return f"{folders}__{name}".replace("'", "$")


def named_through_alias(file, alias, name, known):
    """What ALIAS.NAME means where ALIAS stands for a module, else None."""
    if isinstance(alias, syntax.Name) and alias.name not in known and alias.name in file.aliases:
        return meaning_in(file.aliases[alias.name], name)
    return None


def choice(test, then, otherwise):
    return f"({test} ? {then} : {otherwise})"


def applied(function, arguments):
    for argument in arguments:
        function = f"apply({function}, {argument})"
    return function


def called(function, arity, arguments):
    if len(arguments) < arity:
        return f'partial({function}, {arity}, [{", ".join(arguments)}])'
    return applied(f'{function}({", ".join(arguments[:arity])})', arguments[arity:])


# Constructors and patterns: numbers and truth values are those of JavaScript

NUMBERS = {"suc": "({} + 1n)", "pos": "{}", "negsuc": "(-1n - {})"}


def constructed(name, arguments):
    if name in ("true", "false"):
        return name
    if name == "zero":
        return "0n"
    if name in NUMBERS:
        return NUMBERS[name].format(arguments[0]) if arguments else f'(n => {NUMBERS[name].format("n")})'
    return f'data({", ".join([quoted(name), *arguments])})'


def quoted(name):
    return f'"{name}"'


def match(pattern, value, tests, known):
    """Adds the tests of a pattern and what its variables stand for."""
    parts = []
    match pattern:
        case syntax.Variable(name):
            known[name] = value
        case syntax.NumberPattern(digits):
            tests.append(f"{value} === {digits}n")
        case syntax.PairPattern(first, second):
            parts = [(first, f"{value}[0]"), (second, f"{value}[1]")]
        case syntax.Constructor("true" | "false" as name):
            tests.append(f"{value} === {name}")
        case syntax.Constructor("zero"):
            tests.append(f"{value} === 0n")
        case syntax.Constructor("suc", [before]):
            tests.append(f"{value} > 0n")
            parts = [(before, f"({value} - 1n)")]
        case syntax.Constructor("pos", [natural]):
            tests.append(f"{value} >= 0n")
            parts = [(natural, value)]
        case syntax.Constructor("negsuc", [natural]):
            tests.append(f"{value} < 0n")
            parts = [(natural, f"(-1n - {value})")]
        case syntax.Constructor(name, patterns):
            tests.append(f"{value}.name === {quoted(name)}")
            parts = [(inner, f"{value}.parts[{i}]") for i, inner in enumerate(patterns)]
    for inner, part in parts:
        match(inner, part, tests, known)


def main():
    sys.setrecursionlimit(20000)
    translation = Translation()
    exported = translation.translate(ROOTS)
    names = ", ".join(["data", "array", "list", "text", "codes", "apply", "show"] + [f"{name}: {function}" for name, function in exported.items()])
    print(PRELUDE, *translation.functions, f"module.exports = {{ {names} }};", sep="\n")


main()
