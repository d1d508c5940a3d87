"""Writes a source of about 1 MiB: functions with a loop, an `if` and an atomic block each, and a global for each."""
import sys

size = int(sys.argv[1])
parts, length, n = [], 0, 0
while length < size - 400:
    part = f"""int g{n};
int f{n}(int a, int b) {{
    int s = 0;
    for (int i = 0; i < a; ++i) {{
        if (i % 3 == 1) s += b * i; else s = s - i;
        atomic_noexcept {{ g{n} = g{n} + s; }}
    }}
    return s + g{n};
}}
"""
    parts.append(part)
    length += len(part)
    n += 1
print("".join(parts) + "int main() { return f0(3, 4); }")
