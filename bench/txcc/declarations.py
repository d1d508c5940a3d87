"""Writes a source of about SIZE bytes without a body: globals, arrays, functions that are declared, classes, enums and aliases, and `main`. Usage: declarations.py SIZE"""
import sys

size = int(sys.argv[1])
parts, length, n = [], 0, 0
while length < size - 600:
    part = f"""enum E{n} {{ low{n}, high{n} = low{n} + {n % 50 + 1} }};
const int limit{n} = high{n} * 2;
struct P{n} {{ int a; long b[2]; const char* name; E{n} kind; }};
using T{n} = P{n}*;
extern int later{n}[3];
int one{n} = {n}, *at{n} = &one{n};
short table{n}[4] = {{ 1, 2, limit{n} }};
int f{n}(int a, T{n} p, const P{n}& r) transaction_safe;
void g{n}(int (*callback)(long), unsigned char c, long long big[]) noexcept;
"""
    parts.append(part)
    length += len(part)
    n += 1
print("".join(parts) + "int main() { return 0; }")
