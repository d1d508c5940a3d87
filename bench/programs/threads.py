"""Runs made programs of several threads, whose output no schedule changes, under pickers, policies and --fold.

Threads add to shared counters in blocks of each kind, some of which cancel and add nothing; what is printed behind the joins is known
beforehand. A run may end with `steps out` (some slots let threads keep each other out for ever), and then has written nothing; `races`
has to find none. Usage: threads.py PROGRAM FIRST LAST
"""
import subprocess
import sys
import tempfile

from generate import Choices

PICKS = ["round:1", "round:2", "round:3", "round:7", "round:97", "round:1000", "clash"]


def made(number):
    r = Choices(number + 1000000)
    counters = r.randint(2, 5)
    sums = [0] * counters
    threads = r.randint(2, 5)
    kinds = [r.choice(["unsigned short", "short", "int", "long", "unsigned", "unsigned char"]) for _ in range(counters)]
    lines = [f"struct Shared {{ {' '.join(f'{kind} c{k};' for k, kind in enumerate(kinds))} }}; Shared s;"]
    lines.append("struct Step { int n; Step(int k) : n(k) { } ~Step() { n = 0; } virtual int by() const transaction_safe { return n; } };")
    lines.append("struct Twice : Step { Twice(int k) : Step(k) { } int by() const transaction_safe { return 2 * n; } };")
    for t in range(threads):
        rounds = r.randint(1, 3)
        parts = []
        for _ in range(r.randint(1, 4)):
            a, b = r.randrange(counters), r.randrange(counters)
            x, y = r.randint(0, 4), r.randint(0, 4)
            pick = r.randrange(6)
            if pick == 0:
                parts.append(f"atomic_noexcept {{ s.c{a} = s.c{a} + {x}; s.c{b} += {y}; }}")
            elif pick == 1:
                parts.append(f"try {{ atomic_commit {{ s.c{a} += {x}; s.c{b} += {y}; throw {x}; }} }} catch (int) {{ }}")
            elif pick == 2:
                parts.append(f"try {{ atomic_cancel {{ s.c{a} = {x}; s.c{b} = {y}; throw std::tx_exception<int>({x}); }} }} catch (const std::tx_exception<int>&) {{ }}")
            elif pick == 3:
                parts.append(f"synchronized {{ s.c{a} += {x}; s.c{b} = s.c{b} + {y}; }}")
            elif pick == 4:
                parts.append(f"atomic_cancel {{ Twice u({x}); Step v({y}); const Step& w = u; s.c{a} += w.by(); s.c{b} += v.by(); }}")
                x *= 2
            else:
                parts.append(f"{{ int k = {x}; auto add = [&](int j) transaction_safe {{ s.c{a} += j; k = k + 1; return k; }}; atomic_noexcept {{ add({x}); s.c{b} += {y}; try {{ atomic_cancel {{ s.c{b} = 99; throw std::tx_exception<int>(1); }} }} catch (...) {{ }} }} }}")
            if pick != 2:
                sums[a] += x * rounds
                sums[b] += y * rounds
        lines.append(f"void w{t}(long) {{ for (int i = 0; i < {rounds}; ++i) {{ {' '.join(parts)} }} }}")
    lines.append("void show(long n) { if (n > 9) show(n / 10); putchar('0' + n % 10); }")
    starts = " ".join(f"int t{t} = __txcc_spawn(w{t}, {t});" for t in range(threads))
    joins = " ".join(f"__txcc_join(t{t});" for t in range(threads))
    lines.append(f"int main() {{ {starts} {joins} {' '.join(f'show(s.c{k}); putchar(32);' for k in range(counters))} return 0; }}")
    return "\n".join(lines) + "\n", "".join(f"{total % 256 if kind == 'unsigned char' else total} " for kind, total in zip(kinds, sums))


def main():
    program, first, last = sys.argv[1], int(sys.argv[2]), int(sys.argv[3])
    ended = cut = failed = 0
    with tempfile.TemporaryDirectory() as room:
        for number in range(first, last + 1):
            text, wanted = made(number)
            with open(room + "/a.cc", "w", encoding="ascii") as file:
                file.write(text)
            r = Choices(number)
            for words in [["run", "--pick", p, "--policy", r.choice(["older", "yield", "polite"])] + r.choice([[], ["--fold"]]) for p in PICKS] + [["races", "--report", room + "/report"]]:
                done = subprocess.run([program, *words, "--steps", "200000", room + "/a.cc"], capture_output=True, check=False)
                end = done.stderr.decode().split("\n")[0]
                if end == "steps out" and done.stdout == b"":
                    cut += 1
                elif end == "exit 0" and done.stdout.decode() == wanted:
                    ended += 1
                else:
                    failed += 1
                    print(number, *words, end, done.stdout, "wanted", wanted)
            with open(room + "/report", encoding="ascii") as file:
                if file.read() != '{"races":[]}\n':
                    failed += 1
                    print(number, "has races")
    print(f"{ended} runs ended, {cut} were cut off, {failed} failed")
    sys.exit(failed != 0)


main()
