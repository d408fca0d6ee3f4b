#!/usr/bin/env python3
"""Tries `nfold point`, `solve` and `check` on folders with one damaged file, and compares with a reading of its own.

    python3 trials/files.py [--program FILE]

The folder is examples/t. Each file of its program, and its point, is cut at each byte, and each of its tokens is left out,
doubled, exchanged with the next one, or replaced by one of a list. What the grammar in docs/FORMATS.md says of the file is
worked out here anew, and what is to be printed of an accepted program comes from trials/plain_solver.py and
trials/check.py. The answers that differ are printed, and the status is 1 where there are any. The gate does not run it.
"""
import argparse
import os
import re
import subprocess
import sys
import tempfile

import check
import plain_solver as plain

ROOT = os.path.dirname(os.path.dirname(os.path.abspath(__file__)))
LARGEST = 2**62
FILES = ["link.mat", "brick.mat", "lb", "ub", "rhs", "cost", "pt"]
SMALL = "x * 0 -0 1 -1 2 3 +1 01 1.0 - 17 33 2147483648 -9223372036854775808".split()
WIDE = SMALL + "4 5 4611686018427387904 4611686018427387905 -4611686018427387904 10001 p q".split()


class Refused(Exception):
    """The file, and what is wrong with it."""


class File:
    def __init__(self, name, text):
        self.name, self.end = name, len(text)
        self.tokens = [(match.start(), match.group()) for match in re.finditer(r"[^\t\n\x0b\x0c\r ]+", text)]

    def refuse(self, kind):
        raise Refused(f"input: t.{self.name}: {kind}\n")

    def number(self, largest):
        if not self.tokens:
            self.refuse(f"ends-early at {self.end}")
        at, token = self.tokens.pop(0)
        if token == "*":
            self.refuse(f"no-bound at {at}")
        if not re.fullmatch(r"[+-]?[0-9]+", token):
            self.refuse(f"not-number at {at}")
        if abs(int(token)) > largest:
            self.refuse(f"too-big at {at}")
        return at, int(token)

    def matrix(self, rows, columns, largest):
        """The number of columns, and the rows; `rows` and `columns` are the least and the most that are allowed."""
        sizes = []
        for least, most in (rows, columns):
            at, size = self.number(LARGEST)
            if not least <= size <= most:
                self.refuse(f"shape at {at}")
            sizes.append(size)
        entries = [[self.number(largest)[1] for _ in range(sizes[1])] for _ in range(sizes[0])]
        if self.tokens:
            self.refuse(f"extra at {self.tokens[0][0]}")
        return sizes[1], entries

    def syntax(self, wanted, low=None, high=None):
        """The next token of a cost file, where it is as wanted, and its value within the range."""
        at, token = self.tokens.pop(0) if self.tokens else (self.end, "")
        if not re.fullmatch(wanted, token) or (low is not None and not low <= int(token) <= high):
            self.refuse(f"syntax at {at}")
        return token

    def costs(self, bricks, columns):
        count = lambda low, high: int(self.syntax(r"\+?[0-9]+", low, high))
        number = lambda: int(self.syntax(r"[+-]?[0-9]+", -LARGEST, LARGEST))
        count(bricks, bricks)
        count(columns, columns)
        found = []
        for _ in range(bricks * columns):
            if self.syntax(r"[qp]") == "q":
                found.append(("q", number(), number(), number()))
            else:
                found.append(("p", [(number(), number()) for _ in range(count(1, 1000))]))
        if self.tokens:
            self.refuse(f"syntax at {self.tokens[0][0]}")
        return [found[i : i + columns] for i in range(0, len(found), columns)]


def cost_fault(cost, low, high):
    """The kind, and the breakpoint that it is at, if it has one."""
    if cost[0] == "q":
        _, a, b, c = cost
        widest = max(abs(low), abs(high))
        if a < 0:
            return "not-convex", 0
        return ("too-large", None) if abs(a) * widest**2 + abs(b) * widest + abs(c) > 2**120 else None
    points, slopes = cost[1], []
    for j, (before, after) in enumerate(zip(points, points[1:]), 2):
        if after[0] <= before[0]:
            return "not-rising", j
    for j, (before, after) in enumerate(zip(points, points[1:]), 2):
        if (after[1] - before[1]) % (after[0] - before[0]):
            return "slope-not-whole", j
        slopes.append((after[1] - before[1]) // (after[0] - before[0]))
    for j, (before, after) in enumerate(zip(slopes, slopes[1:]), 3):
        if after < before:
            return "not-convex", j
    return ("not-covered", None) if low < points[0][0] or points[-1][0] < high else None


def read_program(texts):
    file = lambda name: File(name, texts[name])
    t, link = file("link.mat").matrix((0, 16), (1, 32), 2**31 - 1)
    _, brick = file("brick.mat").matrix((0, 16), (t, t), 2**31 - 1)
    _, lower = file("lb").matrix((1, 10_000), (t, t), LARGEST)
    n, r, s = len(lower), len(link), len(brick)
    _, upper = file("ub").matrix((n, n), (t, t), LARGEST)
    _, [right] = file("rhs").matrix((1, 1), (r + n * s, r + n * s), LARGEST)
    costs = file("cost").costs(n, t)
    for i in range(n):
        for j in range(t):
            if lower[i][j] > upper[i][j]:
                file("ub").refuse(f"crossed at brick {i + 1} column {j + 1}")
    for i in range(n):
        for j in range(t):
            fault = cost_fault(costs[i][j], lower[i][j], upper[i][j])
            if fault:
                point = "" if fault[1] is None else f" point {fault[1]}"
                file("cost").refuse(f"{fault[0]} at brick {i + 1} column {j + 1}{point}")
    bricks = [right[r + i * s : r + (i + 1) * s] for i in range(n)]
    return plain.Program(link, brick, t, lower, upper, right[:r], bricks, [plain.EQUAL] * r, costs)


def pointed(program, texts):
    n, t = len(program.lower), program.columns
    x = File("pt", texts["pt"]).matrix((n, n), (t, t), LARGEST)[1]
    for i, v in enumerate(x):
        for j, (low, a, high) in enumerate(zip(program.lower[i], v, program.upper[i])):
            if not low <= a <= high:
                return 1, f"broken {'below' if a < low else 'above'} brick {i + 1} column {j + 1}\n"
    for i, v in enumerate(x):
        for j, row in enumerate(program.brick):
            if plain.dot(row, v) != program.right_brick[i][j]:
                return 1, f"broken brick {i + 1} row {j + 1}\n"
    for j, rest in enumerate(program.rests(x)):
        if rest:
            return 1, f"broken link row {j + 1}\n"
    return 0, f"feasible\ncost {program.cost(x)}\n"


def wanted(command, texts):
    """The status and both outputs."""
    try:
        program = read_program(texts)
        if command == "point":
            return pointed(program, texts) + ("",)
    except Refused as fault:
        return 3, "", fault.args[0]
    if command == "solve":
        return 0, plain.solve(program)[0], ""
    line = check.checked_on_all(program, check.certificate(texts["cert"]))
    return (0 if line.startswith("yes") else 1), line + "\n", ""


def damaged(whole, others):
    tokens = whole.split()
    found = {whole[:end] for end in range(len(whole) + 1)}
    for i, token in enumerate(tokens):
        for other in [[], [token, token]] + [[o] for o in others]:
            found.add(" ".join(tokens[:i] + other + tokens[i + 1 :]) + "\n")
        found.add(" ".join(tokens[:i] + tokens[i + 1 : i + 2] + [token] + tokens[i + 2 :]))
    return sorted(found)


def call(binary, folder, command):
    words = [binary, command, "t"] + (["--trace"] if command == "solve" else [])
    run = subprocess.run(words, cwd=folder, capture_output=True, text=True, check=False)
    return run.returncode, run.stdout, run.stderr


def main():
    parser = argparse.ArgumentParser(description="Compares nfold on damaged files with another reading of its formats.")
    parser.add_argument("--program", default=os.path.join(ROOT, "crates", "nfold", "out", "nfold"))
    binary, differ, count = os.path.abspath(parser.parse_args().program), 0, 0
    with tempfile.TemporaryDirectory() as folder:
        texts = {}
        for name in FILES + ["cert"]:
            with open(os.path.join(ROOT, "examples", "t", "t." + name), encoding="ascii") as file:
                texts[name] = file.read()
        for name in FILES:
            for text in damaged(texts[name], SMALL if name.endswith("mat") else WIDE):
                now = {**texts, name: text}
                for command in ("point", "solve", "check"):
                    for kind in now:
                        with open(os.path.join(folder, "t." + kind), "w", encoding="ascii") as file:
                            file.write(now[kind])
                    got, want = call(binary, folder, command), wanted(command, now)
                    count += 1
                    if got != want:
                        differ += 1
                        print(f"{command}, t.{name} = {text!r}:\n  got    {got}\n  wanted {want}")
    print(f"{count} runs, {differ} differ")
    return 1 if differ else 0


if __name__ == "__main__":
    sys.exit(main())
