"""Writes a source of about 1 MiB: classes with a base, a constructor, a destructor, a virtual function and a lambda in it."""
import sys

size = int(sys.argv[1])
parts, length, n = ["struct C0 { int m; virtual int f(int x) { return x; } virtual ~C0() { } };\n"], 0, 1
while length < size - 400:
    part = f"""struct C{n} : C{n - n % 8 if n % 8 else 0} {{
    int m{n};
    C{n}() : m{n}({n}) {{ }}
    ~C{n}() {{ m{n} = 0; }}
    int f(int x) override {{
        auto add = [this, x](int y) {{ return x + y + m{n}; }};
        return add({n});
    }}
}};
int use{n}(int x) {{ C{n} c; C0& b = c; return b.f(x); }}
"""
    parts.append(part)
    length += len(part)
    n += 1
print("".join(parts) + "int main() { return use1(3); }")
