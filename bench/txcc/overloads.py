"""Writes a source: N overloads of one name, which differ in a pointer's class, and calls of them, each in a statement. Usage: overloads.py N CALLS"""
import sys

count, calls = int(sys.argv[1]), int(sys.argv[2])
print("".join(f"struct S{k} {{ int m; }};\nint f(S{k}*) {{ return {k}; }}\n" for k in range(count)))
print("int x;")
each = 100
for part in range((calls + each - 1) // each):
    print(f"void call{part}() {{")
    for k in range(part * each, min(calls, (part + 1) * each)):
        print(f"    {{ S{k % count} s; x = f(&s); }}")
    print("}")
print("int main() { call0(); return x; }")
