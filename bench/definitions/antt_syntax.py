"""Clauses of definitions (.antt) as trees: NAME PATTERN.. = EXPRESSION."""

import re
from dataclasses import dataclass, field

# Expressions


@dataclass
class Number:
    digits: str


@dataclass
class Text:
    quoted: str


@dataclass
class Name:
    name: str


@dataclass
class Empty:
    pass


@dataclass
class Pair:
    first: object
    second: object


@dataclass
class Field:
    record: object
    name: str


@dataclass
class Record:
    base: object  # None: a new record
    fields: list  # (name, expression)


@dataclass
class Choice:
    test: object
    then: object
    otherwise: object


@dataclass
class Lambda:
    names: list
    body: object


@dataclass
class Operation:
    operator: str
    left: object
    right: object


@dataclass
class Application:
    function: object
    arguments: list


# Patterns


@dataclass
class Anything:
    pass


@dataclass
class Variable:
    name: str


@dataclass
class NumberPattern:
    digits: str


@dataclass
class PairPattern:
    first: object
    second: object


@dataclass
class Constructor:
    name: str
    patterns: list = field(default_factory=list)


@dataclass
class Clause:
    patterns: list
    body: object


TOKEN = re.compile(
    r"""\s+ | --[^\n]*                # left out
    | "(?:[^"\\]|\\.)*"               # a text
    | λ | \d+ | [^\W\d][\w']*         # a number, a name
    | \+ℤ | -ℤ | \*ℤ | \+\+ | && | \|\| | == | \[\]
    | .""",
    re.VERBOSE | re.DOTALL,
)

# Each binds tighter than those above it; whether a row groups to the right.
OPERATORS = [
    ({"||"}, True),
    ({"&&"}, True),
    ({"==", "<", "≤"}, False),
    ({"∷", "++"}, True),
    ({"+", "-", "+ℤ", "-ℤ"}, False),
    ({"*", "/", "%", "*ℤ"}, False),
    ({"^"}, True),
]


class SyntaxFault(Exception):
    pass


def parsed_clause(module, text):
    """A clause of a file; the file's names say which words of a pattern are constructors."""
    return Parser(module, text).clause()


class Parser:
    def __init__(self, module, text):
        self.module = module
        self.tokens = []
        self.is_glued = []  # nothing stands between the token and the one before it
        self.next = 0
        behind = 0
        for match in TOKEN.finditer(text):
            if not match[0].isspace() and not match[0].startswith("--"):
                self.tokens.append(match[0])
                self.is_glued.append(match.start() == behind)
                behind = match.end()

    # Tokens

    def peek(self, ahead=0):
        place = self.next + ahead
        return self.tokens[place] if place < len(self.tokens) else ""

    def take(self):
        token = self.peek()
        self.next += 1
        return token

    def takes(self, token):
        """Takes the token if it is the next one."""
        if self.peek() != token:
            return False
        self.next += 1
        return True

    def expect(self, token):
        if not self.takes(token):
            self.fail(f"`{token}` expected")

    def fail(self, what):
        near = " ".join(self.tokens[max(0, self.next - 8) : self.next + 5])
        raise SyntaxFault(f"{self.module.name}: {what} near `{near}`")

    def is_dot(self):
        """A dot that joins what stands on both sides of it."""
        glued = self.is_glued[self.next : self.next + 2]
        return self.peek() == "." and glued == [True, True]

    # Clauses and patterns

    def clause(self):
        self.take()
        patterns = []
        while not self.takes("="):
            patterns.append(self.pattern_atom())
        body = self.expression()
        if self.peek():
            self.fail("the end expected")
        return Clause(patterns, body)

    def pattern(self):
        first = self.pattern_application()
        if self.takes("∷"):
            return Constructor("∷", [first, self.pattern()])
        return first

    def pattern_application(self):
        name = self.constructor()
        if name is None:
            return self.pattern_atom()
        patterns = []
        while self.peek() not in (")", "=", "∷", ","):
            patterns.append(self.pattern_atom())
        return Constructor(name, patterns)

    def pattern_atom(self):
        if self.takes("("):
            inner = self.pattern()
            if self.takes(","):
                inner = PairPattern(inner, self.pattern())
            self.expect(")")
            return inner
        if self.takes("_"):
            return Anything()
        if self.peek().isdigit():
            return NumberPattern(self.take())
        name = self.constructor()
        if name is not None:
            return Constructor(name)
        if not is_word(self.peek()):
            self.fail("a pattern expected")
        return Variable(self.take())

    def constructor(self):
        """Takes the name of a constructor if that is next, and gives the name that it has where it is defined."""
        if self.takes("[]"):
            return "[]"
        if self.peek() in self.module.aliases and self.peek(1) == "." and self.peek(2):
            self.next += 3
            return self.tokens[self.next - 1]
        meaning = self.module.meaning(self.peek())
        if meaning is None or meaning.kind != "constructor":
            return None
        self.take()
        return meaning.name

    # Expressions

    def expression(self, row=0):
        if row == len(OPERATORS):
            return self.application()
        operators, is_right = OPERATORS[row]
        left = self.expression(row + 1)
        while self.peek() in operators:
            operator = self.take()
            left = Operation(operator, left, self.expression(row if is_right else row + 1))
        return left

    def application(self):
        if self.peek() == "λ":
            return self.function()
        if self.peek() == "if":
            return self.choice()
        function = self.atom()
        arguments = []
        while self.begins_atom():
            arguments.append(self.atom())
        if self.peek() in ("λ", "if"):
            arguments.append(self.application())
        return Application(function, arguments) if arguments else function

    def choice(self):
        self.expect("if")
        test = self.expression()
        self.expect("then")
        then = self.expression()
        self.expect("else")
        return Choice(test, then, self.expression())

    def function(self):
        self.expect("λ")
        names = []
        while not self.takes("."):
            if self.takes("("):
                names.append(self.take())
                self.skip_type()
            else:
                names.append(self.take())
        return Lambda(names, self.expression())

    def skip_type(self):
        """The type of a parameter, up to the bracket that closes it."""
        depth = 1
        while depth > 0:
            token = self.take()
            depth += {"(": 1, ")": -1}.get(token, 0)
            if not token:
                self.fail("`)` expected")

    def begins_atom(self):
        token = self.peek()
        if token in ("λ", "if", "then", "else"):
            return False
        return token in ("(", "[]") or token.startswith('"') or is_word(token)

    def atom(self):
        if self.takes("("):
            return self.with_fields(self.bracketed())
        if self.takes("[]"):
            return Empty()
        if self.takes("record"):
            return self.with_fields(self.record())
        token = self.take()
        if token.startswith('"'):
            return Text(token)
        if token.isdigit():
            return Number(token)
        if not is_word(token):
            self.fail("an expression expected")
        return self.with_fields(Name(token))

    def bracketed(self):
        inner = self.expression()
        if self.takes(","):
            inner = Pair(inner, self.expression())
        self.expect(")")
        return inner

    def record(self):
        base = None if self.peek() == "{" else self.atom()
        self.expect("{")
        fields = []
        while not self.takes("}"):
            name = self.take()
            self.expect("=")
            fields.append((name, self.expression()))
            if self.peek() != "}":
                self.expect(";")
        return Record(base, fields)

    def with_fields(self, expression):
        while self.is_dot():
            self.take()
            expression = Field(expression, self.take())
        return expression


def is_word(token):
    return re.match(r"\w", token) is not None
