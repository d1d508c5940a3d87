"""Writes a source that has one form of the language many times over: forms.py FORM COUNT. `check` should take twice as long for twice the count."""
import sys

form, count = sys.argv[1], int(sys.argv[2])


def each(line):
    return "".join(line.replace("#", str(i)) for i in range(count))


FORMS = {
    "aggregates": lambda: "struct A { int x; int y; };\n" + each("int f#() { A a = {1, #}; return a.y; }\n"),
    "overriders": lambda: "struct B { virtual int f() { return 0; } };\n" + each("struct C# : B { int f() override { return #; } };\n"),
    "members": lambda: "struct M {\n" + each("    int m# = #;\n") + "};\nint f() { M m; return m.m1; }\n",
    "sizes": lambda: "int g(int x) { return x; }\n" + each("int f#(int a) { return sizeof(a + #) + g(#); }\n"),
    "labels": lambda: "int f(int a) {\n    switch (a) {\n" + each("    case # + 1: a = #;\n") + "    }\n    return a;\n}\n",
    "bounds": lambda: each("int f#() { int b[2 + 1]; b[0] = #; return b[0]; }\n"),
    "locals": lambda: "int f() {\n" + each("    char b#[2 + 1];\n") + "    return 0;\n}\n",
    "arrays": lambda: each("int a#[sizeof(int) + 1];\nint f#() { return a#[1]; }\n"),
    "operands": lambda: each("int g#;\nint f#(int a) { return sizeof(a + g#); }\n"),
    "types": lambda: each("int g#;\nint f#() { return sizeof(int[2 + 1]); }\n"),
    "casts": lambda: each("int g#;\nbool f#() { return (int (*)[2 + 1])0 == nullptr; }\n"),
    "aliases": lambda: each("int g#;\nusing T# = int[2 + 1];\n"),
    "parameters": lambda: each("int g#;\nint f#(int a[2 + 1], int (&b)[2 + 1]) { return a[1] + b[1]; }\n"),
    "fields": lambda: each("int g#;\nstruct S# { int a[2 + 1]; };\n"),
    "parts": lambda: each("int g#;\n") + "struct P {\n" + each("    char a#[2 + 1];\n") + "};\n",
    "methods": lambda: each("int g#;\n") + "struct M {\n" + each("    int f#(int (&a)[2 + 1]) { return a[1]; }\n") + "};\n",
    "outside": lambda: each("int g#;\nstruct S# { int f(int (&a)[2 + 1]); };\nint S#::f(int (&a)[2 + 1]) { return a[1]; }\n"),
    "closures": lambda: each("int g#;\nint f#(int x) { int a[3]; auto h = [x](int (&y)[2 + 1]) { return x + y[1]; }; return h(a); }\n"),
    "lambdas": lambda: each("int f#(int x) { auto g = [x](int y) { return x + y; }; return g(#); }\n"),
    "enumerators": lambda: each("enum E# { A# = #, B# };\nconst int c# = A# + 1;\n"),
    "handlers": lambda: each("int f#(int x) { try { throw x; } catch (int e) { return e; } }\n"),
    "constructors": lambda: each("struct K# { int a; K#(int x) : a(x) { } ~K#() { a = 0; } };\nint f#() { K# k(#); return k.a; }\n"),
}
print(FORMS[form]() + "int main() { return 0; }")
