"""Looks for programs that txcc neither accepts nor refuses: it answers 8, that memory ran out, though there is memory to spare.

Usage: search.py TXCC FIRST LAST [FOLDER]   makes a program from each number, and writes those that TXCC check answers with 8 into FOLDER

The programs put expressions, objects and results of all types, `const` and volatile too, where C++14 lets expressions stand. Most of them are
ill-formed, which is no matter: TXCC has to tell which. The same number makes the same program with each Python.
"""
import collections
import os
import random
import subprocess
import sys
import tempfile

HEAD = """enum E { e0, e1 = 7, e2 }; enum class S { s0, s1 };
struct A { int x; char c; }; struct Z { };
struct D { int x; D() : x(1) { } D(int i) : x(i) { } D(const D& d) : x(d.x) { } ~D() { x = 0; } int m() { return x; } int k() const { return x + 1; } };
struct V { int x; V() : x(2) { } virtual int f() { return x; } virtual ~V() { } };
struct W : V { long y; W() : y(3) { } int f() { return 4; } };
struct B { int b; }; struct G : B { A a; int g[2]; };
struct H { D d; A a[2]; const int n; volatile int v; int* p; D e[2]; H() : n(3), v(1), p(nullptr) { } };
struct R { A a; short s[3]; }; struct C { const A a; const D d[2]; C() : a(A()) { } };
"""
CLASSES = ["A", "D", "V", "W", "B", "G", "H", "Z", "R", "C"]
SCALARS = ["int", "bool", "char", "long", "unsigned", "E", "S", "int*", "unsigned char", "short"]
EXCEPTION = "std::tx_exception<int>"
QUALIFIERS = ["", "", "", "const ", "const ", "volatile ", "const volatile "]
# an lvalue of the first type in a variable of the second
PARTS = [("int", "A", ".x"), ("int", "D", ".x"), ("A", "G", ".a"), ("A", "H", ".a[1]"), ("D", "H", ".d"), ("D", "H", ".e[0]"), ("B", "G", ""), ("V", "W", ""), ("A", "C", ".a")]
# a value of `int` from an object
READS = [("A", ".x"), ("D", ".m()"), ("D", ".k()"), ("V", ".f()"), ("W", ".f()"), (EXCEPTION, ".get()"), ("G", ".a.x"), ("H", ".d.x"), ("H", ".v"), ("R", ".s[1]"), ("C", ".a.x")]
HANDLERS = ["int i", "const A& a", "...", "const E e", EXCEPTION + " t", "A", "volatile int w", "const B& b", "const " + EXCEPTION + "& u"]


class Program:
    def __init__(self, number):
        self.random = random.Random(number)
        self.variables = []  # name, type
        self.functions = []  # name, type of the result, types of the parameters
        self.names = 0

    def one_of(self, choices):
        return self.random.choice(choices)

    def chance(self, percent):
        return self.random.randrange(100) < percent

    def qualified(self, kind):
        return kind if kind.endswith("*") else self.one_of(QUALIFIERS) + kind

    def any_type(self):
        return self.one_of(SCALARS + 2 * CLASSES + [EXCEPTION])

    def lvalue(self, kind, depth):
        found = [name for name, held in self.variables if held == kind]
        found += [name + part for wanted, held, part in PARTS for name, of in self.variables if (wanted, held) == (kind, of)]
        if depth > 0:
            found += [self.call(name, parameters, depth) for name, result, parameters in self.functions if result.endswith(kind + "&")]
        if not found:
            return None
        if depth > 0 and self.chance(20):
            return "(%s ? %s : %s)" % (self.value("bool", depth - 1), self.one_of(found), self.one_of(found + ["throw 1"]))
        if depth > 0 and self.chance(10):
            return "(%s, %s)" % (self.value(self.any_type(), depth - 1), self.one_of(found))
        return self.one_of(found)

    def call(self, name, parameters, depth):
        return "%s(%s)" % (name, ", ".join(self.value(p, max(depth - 1, 0)) for p in parameters))

    # what makes an object or a value of a type by itself
    def made(self, kind, depth):
        if kind == EXCEPTION:
            return "%s(%s)" % (EXCEPTION, self.value("int", max(depth - 1, 0)))
        if kind == "D":
            return "D(%s)" % self.value("int", max(depth - 1, 0))
        if kind in CLASSES:
            return kind + "()"
        if kind == "void":
            return "(void) %s" % self.value(self.any_type(), max(depth - 1, 0))
        return {"int*": "nullptr", "E": "e1", "S": "S::s1", "bool": "true"}.get(kind, "3")

    def number(self, depth):
        held, read = self.one_of(READS)
        lvalue = self.lvalue("int", depth - 1) or "3"
        operator = self.one_of(["+", "-", "*", "<<", "&", "<", "=="])
        return self.one_of([
            "%s%s" % (self.value(held, depth - 1), read),
            "(%s %s %s)" % (self.value(self.one_of(["int", "long", "char", "E"]), depth - 1), operator, self.value("int", depth - 1)),
            "%s%s" % (self.one_of(["++", "-", "~", "!"]), lvalue),
            "(%s %s %s)" % (lvalue, self.one_of(["=", "+=", "<<="]), self.value("long", depth - 1)),
            "sizeof(%s)" % self.value(self.any_type(), depth - 1),
        ])

    def value(self, kind, depth):
        kind = kind.replace("volatile ", "").replace("const ", "").rstrip("&")
        lvalue = self.lvalue(kind, depth)
        if lvalue and self.chance(30):
            return lvalue
        if depth == 0:
            return lvalue or self.made(kind, 0)
        forms = [
            lambda: "(%s ? %s : %s)" % (self.value("bool", depth - 1), self.value(kind, depth - 1), self.value(kind, depth - 1)),
            lambda: "(%s ? %s : throw %s)" % (self.value("bool", depth - 1), self.value(kind, depth - 1), self.value(self.one_of(["int", "A", EXCEPTION]), 0)),
            lambda: "(%s, %s)" % (self.value(self.any_type(), depth - 1), self.value(kind, depth - 1)),
            lambda: "static_cast<%s>(%s)" % (self.qualified(kind), self.value(kind, depth - 1)),
            lambda: "[=]() { return %s; }()" % self.value(kind, depth - 1),
            lambda: self.made(kind, depth),
        ]
        forms += [lambda f=f: self.call(f[0], f[2], depth) for f in self.functions if f[1].split()[-1].rstrip("&") == kind]
        if kind in ("int", "long", "bool", "char"):
            forms += 3 * [lambda: self.number(depth)]
        return self.one_of(forms)()

    def variable(self):
        self.names += 1
        name, kind = "v%d" % self.names, self.any_type()
        typ = self.qualified(kind)
        if self.chance(10):
            kind = self.one_of(["int", "A", "D"])
            return "%s %s[2] = { %s, %s };" % (self.qualified(kind), name, self.value(kind, 2), self.value(kind, 2))
        if self.chance(10):
            return "%sauto %s = [%s]() { return %s; };" % (self.one_of(QUALIFIERS), name, self.one_of("=&"), self.value(kind, 2))
        lvalue = self.lvalue(kind, 2)
        if lvalue and self.chance(20):
            made = "%s& %s = %s;" % (typ, name, lvalue)
        else:
            made = self.one_of(["%s %s = %s;", "%s %s(%s);", "%s %s = %s;"]) % (self.one_of([typ, typ, "auto", "const auto"]), name, self.value(kind, 2))
        self.variables.append((name, kind))
        return made

    def inner(self, result):
        kept = list(self.variables)
        made = self.statement(result)
        self.variables = kept
        return "{ %s }" % made

    def statement(self, result):
        forms = 4 * [self.variable] + [
            lambda: self.value(self.any_type(), 2) + ";",
            lambda: "return %s;" % self.value(result, 2) if result != "void" else "return;",
            lambda: "if (%s) %s else %s" % (self.value("bool", 2), self.inner(result), self.inner(result)),
            lambda: "while (%s) %s" % (self.value("int*", 2), self.inner(result)),
            lambda: "try { %s throw %s; } catch (%s) %s" % (self.inner(result), self.value(self.one_of(["int", "A", EXCEPTION]), 2), self.one_of(HANDLERS), self.inner(result)),
            lambda: "switch (%s) { case 1: %s default: ; }" % (self.value(self.one_of(["int", "E", "char"]), 2), self.inner(result)),
            lambda: "synchronized %s" % self.inner(result),
        ]
        return self.one_of(forms)()

    def function(self, number):
        kind = self.any_type()
        result = self.one_of([kind, self.qualified(kind), self.qualified(kind) + "&"])
        parameters = [self.one_of([p, self.qualified(p), "const %s&" % p, p + "&"]) for p in (self.any_type() for _ in range(self.random.randrange(3)))]
        self.variables = [("p%d" % i, p.replace("const ", "").replace("volatile ", "").rstrip("&")) for i, p in enumerate(parameters)]
        body = " ".join(self.statement(result) for _ in range(self.random.randrange(3)))
        text = "%s f%d(%s) { %s return %s; }\n" % (result, number, ", ".join("%s p%d" % (p, i) for i, p in enumerate(parameters)), body, self.value(result, 2))
        self.functions.append(("f%d" % number, result, parameters))
        return text

    def text(self):
        made = HEAD + "".join(self.function(i) for i in range(self.random.randrange(3)))
        self.variables = []
        return made + "int main() { %s return 0; }\n" % " ".join(self.statement("int") for _ in range(self.random.randrange(1, 5)))


def main(txcc, first, last, folder="."):
    answers = collections.Counter()
    with tempfile.TemporaryDirectory() as place:
        path = os.path.join(place, "made.cc")
        for number in range(int(first), int(last) + 1):
            text = Program(number).text()
            with open(path, "w") as out:
                out.write(text)
            done = subprocess.run([txcc, "check", path], capture_output=True, text=True)
            answers[done.returncode] += 1
            if done.returncode == 8:
                with open(os.path.join(folder, "%d.cc" % number), "w") as out:
                    out.write(text)
    print(" ".join("status %d: %d" % entry for entry in sorted(answers.items())))
    return answers[8] != 0


if __name__ == "__main__":
    sys.exit(main(*sys.argv[1:]))
