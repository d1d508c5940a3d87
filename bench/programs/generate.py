"""Makes programs of the subset whose behaviour C++14 defines, each from a number: the same with each Python.

Usage: generate.py FOLDER NUMBER..   writes each program as FOLDER/NUMBER.cc
       generate.py NUMBER            prints it

Statements of the programs 1 to 40 nest four deep (about 12,000 bytes a program), those of 41 to 100 two (5,000), the others one (4,000).

What C++14 leaves to the compiler is not in it: of the operands of an operator, and of the arguments of a call, at most one has an effect;
no named local of class type is returned; every scalar has an initialiser. Signed overflow is avoided by small values, and not excluded:
`wanted` leaves out a program in which g++ finds one.
"""
import sys

KINDS = ["bool", "char", "signed char", "unsigned char", "short", "unsigned short", "int", "unsigned", "long", "unsigned long",
         "long long", "unsigned long long"]
RANGES = {"bool": (0, 1), "char": (-100, 100), "signed char": (-100, 100), "unsigned char": (0, 255), "short": (-900, 900),
          "unsigned short": (0, 65535), "int": (-900, 900), "unsigned": (0, 4294967295), "long": (-900, 900),
          "unsigned long": (0, 2**64 - 1), "long long": (-900, 900), "unsigned long long": (0, 2**64 - 1)}
HEAD = """void digits(unsigned long n) { if (n > 9) digits(n / 10); putchar('0' + (int)(n % 10)); }
void show(long n) { putchar(' '); if (n < 0) { putchar('-'); digits(0ul - (unsigned long)n); } else digits((unsigned long)n); }
void show(unsigned long n) { putchar(' '); digits(n); }
void exchange(long& a, long& b) transaction_safe { long t = a; a = b; b = t; }
long total(const short* a, int n) { long s = 0; while (n-- > 0) s += *a++; return s; }
int doubled(int n) transaction_safe { return n * 2; }
int halved(int n) transaction_safe { return n / 2; }
void mark(char c, int n) { putchar(' '); putchar(c); if (n < 0) putchar('-'); digits((unsigned long)(n < 0 ? -(long)n : n)); }
"""


class Choices:
    """Numbers that are the same with each Python (splitmix64)."""

    def __init__(self, seed):
        self.state = seed

    def next(self):
        self.state = (self.state + 0x9E3779B97F4A7C15) % 2**64
        z = self.state
        z = (z ^ (z >> 30)) * 0xBF58476D1CE4E5B9 % 2**64
        z = (z ^ (z >> 27)) * 0x94D049BB133111EB % 2**64
        return z ^ (z >> 31)

    def random(self):
        return self.next() / 2**64

    def randrange(self, count):
        return self.next() % count

    def randint(self, low, high):
        return low + self.next() % (high - low + 1)

    def choice(self, items):
        return items[self.randrange(len(items))]

    def sample(self, items, count):
        left = list(items)
        return [left.pop(self.randrange(len(left))) for _ in range(count)]


class Program:
    def __init__(self, seed, deepest):
        self.deepest = deepest
        self.r = Choices(seed)
        self.lines = []
        self.names = 0
        self.fields = []
        self.arrays = []
        self.pures = []
        self.loud = []
        self.classes = []
        self.depth = 0

    def name(self, head):
        self.names += 1
        return f"{head}{self.names}"

    def literal(self, kind=None):
        r = self.r
        kind = kind or r.choice(KINDS)
        low, high = RANGES[kind]
        value = r.choice([0, 1, 2, 3, 5, 7, r.randint(low, high), r.randint(0, 99)])
        value = min(max(value, low), high)
        if kind == "bool":
            return "true" if value else "false"
        if kind == "char" and 33 <= value <= 90 and value not in (39, 92) and r.random() < 0.6:
            return f"'{chr(value)}'"
        tail = {"unsigned": "u", "long": "L", "unsigned long": "ul", "long long": "ll", "unsigned long long": "ull"}.get(kind, "")
        if value > 2147483647 and not tail:
            tail = "u"
        if value >= 0 and r.random() < 0.15:
            return f"0x{value:x}{tail}"
        return f"{value}{tail}" if value >= 0 else f"(-{-value}{tail})"

    # An expression without effects; its variables are pairs of a name and a kind.
    def value(self, scope, depth=2):
        r = self.r
        if depth <= 0 or r.random() < 0.2:
            return self.atom(scope)
        a = lambda: self.value(scope, depth - 1)
        pick = r.randrange(20)
        if pick < 4:
            return f"({a()} {r.choice(['+', '-', '+', '-', '*'])} {self.atom(scope)})"
        if pick == 4:
            return f"({a()} {r.choice(['/', '%'])} ({self.atom(scope)} | 1))"
        if pick == 5:
            return f"({a()} {r.choice(['&', '|', '^'])} {a()})"
        if pick == 6:
            return f"((unsigned){self.atom(scope)} << ({self.atom(scope)} & {r.choice([3, 7, 31])}))"
        if pick == 7:
            return f"({a()} >> ({self.atom(scope)} & {r.choice([1, 3, 7])}))"
        if pick == 8:
            return f"({a()} {r.choice(['<', '>', '<=', '>=', '==', '!='])} {a()})"
        if pick == 9:
            return f"({self.test(scope, 1)} ? {a()} : {a()})"
        if pick == 10:
            return f"({r.choice(['~', '!', '+'])}{self.atom(scope)})"
        if pick == 11:
            return f"(-(long){self.small(scope)})"
        if pick in (12, 13):
            return f"({r.choice(KINDS)}){self.paren(a())}"
        if pick == 14:
            return f"static_cast<{r.choice(KINDS)}>({a()})"
        if pick == 15:
            return f"sizeof({r.choice(KINDS + ['long*', 'short[7]'])})" if r.random() < 0.6 else f"sizeof({self.atom(scope)})"
        if pick == 16 and self.pures:
            name, count = r.choice(self.pures)
            return f"{name}({', '.join(self.small(scope) for _ in range(count))})"
        if pick == 17:
            return f"({self.atom(scope)}, {a()})"
        if pick == 18:
            return f"({self.test(scope, 1)} {r.choice(['&&', '||'])} {self.test(scope, 1)})"
        return self.atom(scope)

    def paren(self, text):
        return text if text.startswith("(") and self.closes(text) else f"({text})"

    def closes(self, text):
        level = 0
        for index, c in enumerate(text):
            level += (c == "(") - (c == ")")
            if level == 0:
                return index == len(text) - 1
        return False

    def test(self, scope, depth=1):
        r = self.r
        if r.random() < 0.2:
            return f"!{self.atom(scope)}"
        return f"({self.value(scope, depth - 1)} {r.choice(['<', '>', '<=', '>=', '==', '!='])} {self.value(scope, depth - 1)})"

    def atom(self, scope):
        r = self.r
        pick = r.random()
        if pick < 0.45 and scope:
            return r.choice(scope)[0]
        if pick < 0.65 and self.fields:
            return "g." + r.choice(self.fields)[0]
        if pick < 0.75 and self.arrays:
            name, _, count = r.choice(self.arrays)
            index = f"({r.choice(scope)[0]} & {count - 1})" if scope and r.random() < 0.6 else str(r.randrange(count))
            return f"g.{name}[{index}]"
        if pick < 0.8:
            return r.choice(["red", "green", "blue", "limit", f"table[{r.randrange(5)}]", "(int)Side::left", "(int)Side::right"])
        return self.literal()

    # An int of a few hundred at most.
    def small(self, scope):
        return f"(int)({self.value(scope, 1)} % {self.r.choice([7, 11, 100])})"

    def place(self, scope):
        r = self.r
        writable = [s for s in scope if s[2]]
        pick = r.random()
        if pick < 0.6 and writable:
            return r.choice(writable)[:2]
        if pick < 0.85 or not self.arrays:
            name, kind = r.choice(self.fields)
            return "g." + name, kind
        name, kind, count = r.choice(self.arrays)
        return f"g.{name}[{r.randrange(count)}]", kind

    def assignment(self, scope):
        r = self.r
        name, kind = self.place(scope)
        pick = r.random()
        signed = RANGES[kind][0] < 0
        right = f"{self.paren(self.value(scope))} % {r.choice([97, 100, 500])}" if signed else self.value(scope)
        if pick < 0.5:
            return f"{name} = {right}"
        if pick < 0.65 and kind != "bool":
            return r.choice([f"{name}++", f"++{name}", f"{name}--", f"--{name}"])
        if pick < 0.8:
            return f"{name} {r.choice(['+=', '-='])} {self.small(scope)}" if kind != "bool" else f"{name} = !{name}"
        if pick < 0.9 and kind != "bool":
            return f"{name} {r.choice(['&=', '|=', '^='])} {self.small(scope)}"
        if pick < 0.95 and not signed and kind != "bool":
            return f"{name} {r.choice(['<<=', '>>='])} {r.randrange(6)}"
        return f"{name} {r.choice(['/=', '%='])} {r.randint(1, 8)}" if kind != "bool" else f"{name} |= {self.test(scope)}"

    def block(self, scope, how, count=None):
        """A compound statement; `how` has: quiet (in a block of the TS), loop, result, throws, globals (writes to g alone)."""
        self.depth += 1
        inner = list(scope)
        text = []
        for _ in range(count or self.r.randint(1, 4)):
            text.append(self.statement(inner, how))
        self.depth -= 1
        return "{ " + " ".join(text) + " }"

    def shown(self, scope):
        value = self.value(scope)
        return f"show((long)({value}));" if self.r.random() < 0.7 else f"show((unsigned long)({value}));"

    def statement(self, scope, how):
        r = self.r
        deep = self.depth > self.deepest
        pick = r.randrange(31)
        if pick < 5 or (deep and pick > 12):
            return self.assignment([s for s in scope if not how.get("globals") or s[0] in how["own"]]
                                   if how.get("globals") else scope) + ";" if not how.get("globals") else self.own(scope, how)
        if pick < 8:
            kind = r.choice(KINDS)
            name = self.name("v")
            text = f"{r.choice(['', '', 'const '])}{kind} {name}"
            writable = not text.startswith("const")
            value = self.value(scope)
            if RANGES[kind][0] < 0:
                value = f"{self.paren(value)} % {r.choice([50, 90])}"
            text += f"({value});" if r.random() < 0.2 and value[0] in "0123456789" else f" = {value};"
            scope.append((name, kind, writable))
            how.get("own", set()).add(name)
            return text
        if pick < 11:
            return self.shown(scope) if not how.get("quiet") else self.own(scope, how)
        if pick == 11:
            if how.get("loop"):
                return f"if ({self.test(scope)}) {r.choice(['break', 'continue'])};"
            return f"if ({self.test(scope)}) {self.own(scope, how)}"
        if pick == 12:
            if how.get("result") and r.random() < 0.6:
                return f"if ({self.test(scope)} && {self.test(scope)}) return {how['result'](self, scope)};"
            return self.own(scope, how)
        if pick < 16:
            text = f"if ({self.test(scope)}) {self.block(scope, how)}"
            return text + (f" else {self.block(scope, how)}" if r.random() < 0.5 else "")
        if pick < 18:
            name = self.name("i")
            kind = r.choice(["int", "unsigned", "long", "char"])
            inside = scope + [(name, kind, False)]
            how = {**how, "loop": True}
            return f"for ({kind} {name} = 0; {name} < {r.randint(1, 4)}; {r.choice(['++' + name, name + '++', name + ' += 1'])}) {self.block(inside, how)}"
        if pick == 18:
            name = self.name("n")
            how = {**how, "loop": True}
            if r.random() < 0.5:
                return f"{{ int {name} = {r.randint(1, 4)}; while ({name}-- > 0) {self.block(scope, how)} }}"
            return f"{{ int {name} = {r.randint(1, 3)}; do {self.block(scope, how)} while (--{name} > 0); }}"
        if pick < 21:
            labels = r.sample(range(-1, 6), r.randint(1, 4))
            inside = {**how, "loop": False}
            parts = []
            for label in labels:
                parts.append(f"case {label}: {self.block(scope, inside, 2)}" + (" break;" if r.random() < 0.6 else ""))
            if r.random() < 0.7:
                parts.insert(r.randrange(len(parts) + 1), f"default: {self.block(scope, inside, 1)}" + (" break;" if r.random() < 0.6 else ""))
            return f"switch ({self.small(scope)}) {{ {' '.join(parts)} }}"
        if pick < 23:
            return self.caught(scope, how)
        if pick == 23:
            return self.pointers(scope, how)
        if pick == 24 and not how.get("globals"):
            return self.closure(scope, how)
        if pick == 25 and self.classes and not how.get("quiet"):
            return self.object(scope, how)
        if pick == 26 and self.loud and not how.get("quiet"):
            name, count = r.choice(self.loud)
            target, kind = self.place(scope)
            return f"{target} = {name}({', '.join(self.small(scope) for _ in range(count))}) % 50;"
        if pick < 29:
            return self.transaction(scope, how)
        return self.own(scope, how)

    def own(self, scope, how):
        if how.get("globals"):
            return self.assignment([(n, k, w and n in how["own"]) for n, k, w in scope]) + ";"
        return self.assignment(scope) + ";"

    def transaction(self, scope, how):
        r = self.r
        kind = r.choice(["atomic_noexcept", "atomic_commit", "atomic_cancel", "synchronized", "synchronized"])
        if kind == "synchronized" and not how.get("quiet"):
            return f"synchronized {self.block(scope, how)}"
        inner = {**how, "quiet": True, "throws": False}
        if kind == "atomic_cancel" and r.random() < 0.7:
            inner = {"quiet": True, "globals": True, "own": set()}
            body = self.block(scope, inner, 3)
            thrown = f"if ({self.test(scope)}) throw std::tx_exception<int>({self.small(scope)});"
            name = self.name("e")
            after = self.own(scope, how)
            said = f"show((long){name}.get()); " if not how.get("quiet") else ""
            return f"try {{ atomic_cancel {{ {body} {thrown} {self.own(scope, inner)} }} }} catch (const std::tx_exception<int>& {name}) {{ {said}{after} }}"
        if kind == "atomic_commit" and r.random() < 0.5:
            name = self.name("e")
            after = self.own(scope, how)
            return f"try {{ atomic_commit {{ {self.own(scope, how)} if ({self.test(scope)}) throw {self.small(scope)}; {self.own(scope, how)} }} }} catch (int {name}) {{ g.{self.fields[0][0]} = {name} % 2; {after} }}"
        return f"{kind} {self.block(scope, inner)}"

    def caught(self, scope, how):
        r = self.r
        body = self.block(scope, how)
        thrown = r.choice([f"throw {self.small(scope)};", f"throw (char)({self.small(scope)} & 63);", "throw green;", f"throw {self.small(scope)} > 1;",
                           f"throw Plain({self.small(scope)});", f"throw Wider({self.small(scope)});", f"throw std::tx_exception<int>({self.small(scope)});",
                           f"throw {self.paren(self.value(scope, 1))} + 0ul;", "throw Side::right;"])
        handlers = []
        kinds = r.sample(["int", "char", "Hue", "bool", "const Plain&", "Wider", "const std::tx_exception<int>&", "unsigned long", "Side"], r.randint(1, 4))
        if "Wider" in kinds and "const Plain&" in kinds:
            kinds.remove("Wider")
        for kind in kinds:
            name = self.name("e")
            read = {"const Plain&": f"(long){name}.n", "Wider": f"(long)({name}.n + {name}.m)", "const std::tx_exception<int>&": f"(long){name}.get()"}.get(kind, f"(long){name}")
            said = f"show({read}); " if not how.get("quiet") else ""
            again = "" if r.random() < 0.8 or how.get("quiet") else f"if ({self.test(scope)}) throw; "
            handlers.append(f"catch ({kind} {name}) {{ {said}{again}{self.own(scope, how)} }}")
        if not how.get("throws") or r.random() < 0.5 or any("throw;" in h for h in handlers):
            handlers.append(f"catch (...) {{ {self.own(scope, how)} }}")
        text = f"try {{ if ({self.test(scope)}) {thrown} {body} }} {' '.join(handlers)}"
        if any("throw;" in h for h in handlers):
            return f"try {{ {text} }} catch (...) {{ {self.own(scope, how)} }}"
        return text

    def pointers(self, scope, how):
        r = self.r
        name, kind, count = r.choice(self.arrays)
        p = self.name("p")
        if r.random() < 0.25:
            return f"{{ int (*{p})(int) transaction_safe = {self.test(scope)} ? doubled : halved; {self.own([], how)} g.{self.fields[0][0]} = {p}({self.small(scope)}) & 15; }}"
        if r.random() < 0.25:
            q = self.name("q")
            return f"{{ long {p} = {self.small(scope)}; long {q} = {self.small(scope)}; exchange({p}, {q}); g.{self.fields[0][0]} = {p} & 15; g.{self.fields[-1][0]} = ({p} - {q}) & 7; }}"
        if r.random() < 0.2:
            return f"g.{self.fields[0][0]} = total(table + {r.randrange(3)}, {r.randrange(3)}) & 31;"
        ref = self.name("r")
        steps = [f"{kind}* {p} = &g.{name}[{r.randrange(count)}];", f"{kind}& {ref} = g.{name}[{r.randrange(count)}];"]
        small = f"{self.small(scope)}"
        steps.append(r.choice([f"*{p} = {small} & 63;", f"{ref} = {small} & 31;", f"{p}[0] = {ref} & 15;", f"*{p} = ({ref} & 7) + 1;"]))
        if not how.get("quiet"):
            steps.append(f"show((long)({p} - g.{name})); show((long)({p} == &{ref})); show((long)(*{p} & 127));")
        return "{ " + " ".join(steps) + " }"

    def closure(self, scope, how):
        r = self.r
        name = self.name("f")
        seen = [s for s in scope if s[2] and s[1] != "bool"]
        parameter = self.name("k")
        if not seen:
            return f"{{ auto {name} = [](int {parameter}) {{ return {parameter} + {self.literal('int')}; }}; g.{self.fields[0][0]} = {name}({self.small(scope)}) & 31; }}"
        a = r.choice(seen)
        b = r.choice(scope)
        if r.random() < 0.5:
            body = f"{a[0]} = ({a[0]} + {parameter}) % 60; return (int)({a[0]} & 15);"
            capture = r.choice(["&", f"&{a[0]}"])
            tail = "-> int "
        else:
            body = f"{a[0]} = ({a[0]} ^ {parameter}) % 60; return (int)({a[0]} & 31) + ({b[0]} > 3);"
            capture = "=" if a[0] == b[0] or r.random() < 0.5 else f"{a[0]}, {b[0]}"
            tail = "mutable -> int "
        used = f"g.{self.fields[-1][0]} = {name}({self.small(scope)}) & 7;" * r.randint(1, 2)
        said = f" show((long)({a[0]} & 63));" if not how.get("quiet") else ""
        return f"{{ auto {name} = [{capture}](int {parameter}) {tail}{{ {body} }}; {used}{said} }}"

    def object(self, scope, how):
        r = self.r
        c = r.choice(self.classes)
        name = self.name("o")
        pick = r.randrange(8)
        if pick == 7:
            return f"{{ {c} {name}({self.small(scope)}); {self.classes[0]}* {name}p = &{name}; show((long){name}p->f({self.small(scope)})); show((long){name}p->plain()); {self.block(scope, how, 1)} }}"
        if pick == 0:
            return f"{{ {c} {name}({self.small(scope)}); {self.block(scope, how, 2)} show((long){name}.f({self.small(scope)})); }}"
        if pick == 1:
            return f"{{ {c} {name}({self.small(scope)}); {self.classes[0]}& {name}r = {name}; show((long){name}r.f({self.small(scope)})); long {name}v = by_value({name}); show({name}v); }}"
        if pick == 2:
            return f"show((long){c}({self.small(scope)}).f({self.small(scope)}));"
        if pick == 3:
            return f"{{ {c} {name}[2] = {{ {c}({self.small(scope)}), {c}({self.small(scope)}) }}; show((long){name}[{r.randrange(2)}].f(1)); {self.block(scope, how, 1)} }}"
        if pick == 4:
            return f"show((long)by_ref({c}({self.small(scope)})));"
        if pick == 5:
            other = self.name("o")
            return f"{{ {c} {name}({self.small(scope)}); {c} {other} = {name}; {other} = {name}; show((long){other}.n); }}"
        return f"{{ {self.classes[0]} {name}(made({self.small(scope)})); show((long){name}.f(2)); }}"

    def globals(self):
        r = self.r
        items, starts = [], []
        for _ in range(r.randint(3, 6)):
            kind = r.choice(KINDS)
            name = self.name("m")
            self.fields.append((name, kind))
            items.append(f"{kind} {name};")
            low, high = RANGES[kind]
            starts.append(str(min(max(r.randint(-50, 50), low), high)))
        for _ in range(r.randint(1, 2)):
            kind = r.choice([k for k in KINDS if k != "bool"])
            name = self.name("a")
            count = r.choice([2, 4, 8])
            self.arrays.append((name, kind, count))
            items.append(f"{kind} {name}[{count}];")
            low, high = RANGES[kind]
            starts.append("{" + ", ".join(str(min(max(r.randint(-20, 90), low), high)) for _ in range(r.randint(1, count))) + "}")
        self.lines.append("enum Hue { red, green = 5, blue }; enum class Side { left = -1, right = 4 };")
        self.lines.append(f"const int limit = {r.randint(3, 60)}; const short table[5] = {{ {', '.join(str(r.randint(-99, 99)) for _ in range(4))} }};")
        self.lines.append(f"struct Globals {{ {' '.join(items)} }}; Globals g = {{ {', '.join(starts)} }};")
        self.lines.append("struct Plain { int n; Plain(int x) : n(x) { } }; struct Wider : Plain { long m; Wider(int x) : Plain(x + 1), m(x) { } };")

    def functions(self):
        r = self.r
        for _ in range(r.randint(1, 3)):
            name = self.name("pure")
            count = r.randint(1, 3)
            kinds = [r.choice(KINDS) for _ in range(count)]
            scope = [(f"x{k}", kind, True) for k, kind in enumerate(kinds)]
            fields, arrays = self.fields, self.arrays
            result = r.choice(["int", "long", "unsigned", "short", "unsigned char"])
            head = f"{result} {name}({', '.join(f'{kind} x{k}' for k, kind in enumerate(kinds))})"
            steps = " ".join(f"{n} = {self.value(scope) if RANGES[k][0] >= 0 else self.paren(self.value(scope)) + ' % 70'};" for n, k, _ in scope if r.random() < 0.5)
            safe = r.choice(["", " transaction_safe", " noexcept", " transaction_safe noexcept"])
            self.lines.append(f"{head}{safe} {{ {steps} return ({result})({self.paren(self.value(scope))} % 90); }}")
            self.pures.append((name, count))
        if r.random() < 0.6:
            name = self.name("deep")
            self.lines.append(f"int {name}(int n) {{ if (n < 1) return {r.randint(0, 9)}; return ({name}(n / 2) + n * {r.randint(1, 9)}) % 80; }}")
            self.pures.append((name, 1))

    def class_of(self, index):
        r = self.r
        name = f"C{index}"
        base = self.classes[r.randrange(len(self.classes))] if self.classes and r.random() < 0.8 else None
        letter = "abcdefgh"[index]
        own = self.name("z")
        if base is None and index > 0:
            base = self.classes[0]
        scope = [("k", "int", True), ("n", "int", False)]
        noted = f"mark('{letter}', n); "
        if base is None:
            body = f"int n; {name}(int k) : n(k) {{ {noted}}} {name}(const {name}& o) : n(o.n + 1) {{ mark('c', n); }} virtual ~{name}() {{ mark('d', n); }} "
            body += f"virtual int f(int k) const {{ return {self.small(scope)} + n % 9; }} int plain() const {{ return f(2) + 1; }}"
            self.lines.append(f"struct {name} {{ {body} }};")
        else:
            member = f"{self.classes[0]} part; " if r.random() < 0.4 else ""
            start = ", part(k + 1)" if member else ""
            thrown = "if (k == 3) throw 'q'; " if r.random() < 0.5 else ""
            body = f"{member}long {own} = {r.randint(0, 9)}; {name}(int k) : {base}(k){start} {{ {noted}{thrown}{own} = k + 1; }} ~{name}() {{ mark('{letter.upper()}', n); }} "
            if r.random() < 0.8:
                body += f"int f(int k) const {r.choice(['', 'override '])}{{ return {self.small(scope)} + (int){own}; }} "
            if r.random() < 0.4:
                body += f"int plain() const {{ return n + (int){own}; }} "
            self.lines.append(f"struct {name} : {base} {{ {body}}};")
        self.classes.append(name)

    def text(self):
        r = self.r
        self.lines.append(HEAD.rstrip())
        self.globals()
        self.functions()
        for index in range(r.randint(1, min(4, self.deepest + 1))):
            self.class_of(index)
        first = self.classes[0]
        self.lines.append(f"int by_value({first} o) {{ o.n += 2; return o.f(1) + o.plain(); }} int by_ref(const {first}& o) {{ return o.f(3) + o.plain(); }} {first} made(int k) {{ if (k > 2) return {first}(k - 1); return {first}(k); }}")
        self.lines.append(f"int picked(int) {{ return 1; }} int picked(long) {{ return 2; }} int picked(char) {{ return 3; }} int picked(const {first}&) {{ return 4; }} int picked(unsigned) {{ return 5; }}")
        for _ in range(r.randint(1, min(3, self.deepest))):
            name = self.name("loud")
            count = r.randint(1, 3)
            scope = [(f"x{k}", r.choice(["int", "long", "short"]), True) for k in range(count)]
            how = {"result": lambda p, s: f"{p.small(s)}", "throws": True}
            head = f"int {name}({', '.join(f'{kind} x{k}' for k, (_, kind, _) in enumerate(scope))})"
            body = self.block(scope, how, r.randint(2, self.deepest + 1))
            self.lines.append(f"{head} {{ {body} return {self.small(scope)}; }}")
            self.loud.append((name, count))
        body = []
        scope = []
        for _ in range(r.randint(2, self.deepest + 3)):
            body.append("    try " + self.block(scope, {"throws": True}, r.randint(1, 3)) + " catch (...) { putchar('!'); }")
        body.append(f"    show((long)picked({self.literal('int')})); show((long)picked({self.literal('char')})); show((long)picked({self.literal('long')})); show((long)picked((short)3)); show((long)picked({first}(1)));")
        for name, kind in self.fields:
            body.append(f"    show(({'long' if RANGES[kind][0] < 0 else 'unsigned long'})g.{name});")
        for name, kind, count in self.arrays:
            body.append(f"    for (int i = 0; i < {count}; ++i) show(({'long' if RANGES[kind][0] < 0 else 'unsigned long'})g.{name}[i]);")
        self.lines.append("int main() {\n" + "\n".join(body) + f"\n    return {r.randrange(100)};\n}}")
        return "\n".join(self.lines) + "\n"


def program(number):
    return Program(number, 4 if number <= 40 else 2 if number <= 100 else 1).text()


if __name__ == "__main__":
    if len(sys.argv) == 2:
        print(program(int(sys.argv[1])), end="")
    for number in sys.argv[2:]:
        with open(f"{sys.argv[1]}/{number}.cc", "w", encoding="ascii") as file:
            file.write(program(int(number)))
