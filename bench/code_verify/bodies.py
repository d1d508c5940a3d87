"""Writes the text of an object whose `main` is one long body: bodies.py KIND INSTRUCTIONS ROWS FILE.
straight: no rows. far: each jump leads half the body on, and back. disjoint: each row covers its own part. wide: each
covers all. nested: each covers the next. blocks: one synchronized block after another, each with its edge."""
import sys

kind, count, rows_wanted, path = sys.argv[1], int(sys.argv[2]), int(sys.argv[3]), sys.argv[4]
code, rows = [], []
part = max(count // max(rows_wanted, 1), 2) // 2 * 2
if kind == "far":
    third = count // 3
    code = [f"jump {third + 1}"] + [f"jump {third + 1 + 2 * (k + 1)}" for k in range(third)]
    for k in range(third):
        code += ["push 0", f"jzero {k + 1}"]
elif kind == "blocks":
    for _ in range(rows_wanted):
        code.append("bsync")
        begin = len(code)
        code += ["push 1", "drop"] * max(part // 2 - 1, 1)
        rows.append((begin, len(code) + 1, 6))
        code.append("esync")
else:
    code = ["push 1", "drop"] * (count // 2)
    for k in range(rows_wanted):
        if kind == "disjoint" and (k + 1) * part <= count:
            rows.append((k * part, (k + 1) * part, 0))
        elif kind == "wide":
            rows.append((0, count, 0))
        elif kind == "nested":
            half, off = count // 2, (k + 1) * (count // 2) // rows_wanted
            rows.append((half - off, half + off, 0))
pad = len(code) + 2
lines = ["txob 1", 'name "int()"', 'name "main()"', "func 1 0 0 1 0 16", "plain"] + code + ["push 0", "ret 1", "resume"]
lines += [f"row {begin} {end} {pad} {what} 0 0" for begin, end, what in rows] + ["end"]
with open(path, "w") as file:
    file.write("\n".join(lines) + "\n")
