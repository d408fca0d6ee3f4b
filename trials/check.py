#!/usr/bin/env python3
"""Tries `nfold check` on many texts that are nearly a certificate, and compares each answer with a reading of its own.

    python3 trials/check.py [--program FILE] [--example NAME ..]

The program is that of crates/nfold/out unless another is given. The texts are the certificates of examples/brick, of a
claim on one brick, and of examples/t, that its point is best: cut at each byte, and with each token left out, doubled,
exchanged with the next one, replaced by one of a list, or, where it is a number, raised and lowered by one. What the
grammar and the rules in docs/FORMATS.md say of a text is worked out here anew, with no part of the program. The answers
that differ are printed, and the status is 1 where there are any.
"""
import argparse
import os
import re
import shutil
import subprocess
import sys
import tempfile

import plain_solver as plain

ROOT = os.path.dirname(os.path.dirname(os.path.abspath(__file__)))
OTHERS = """x 0 -1 1 2 3 4 * +1 01 99999999999999999999999999999999999999999999 4611686018427387905 4611686018427387904
2147483648 2147483647 10001 2001 33 49 optimal infeasible-link infeasible-brick none end""".split()
COSTS = [[("q", 1, 0, 0), ("q", 0, 0, 0)]] * 2
TWO = [[0, 0], [0, 0]], [[4, 4], [4, 4]]
# the programs of the examples, and the name of their files
PROGRAMS = {
    "brick": ("b", plain.Program([[1, 0]], [[1, 1]], 2, *TWO, [3], [[9], [4]], [plain.EQUAL], COSTS)),
    "t": ("t", plain.Program([[1, 0]], [[1, 1]], 2, *TWO, [3], [[4], [4]], [plain.EQUAL], COSTS)),
}


class Refused(Exception):
    """The kind of the fault, and the byte that it is at."""


class Reader:
    def __init__(self, text):
        self.tokens = [(match.start(), match.group()) for match in re.finditer(r"[^\t\n\x0b\x0c\r ]+", text)]
        self.end = len(text)

    def next(self):
        if not self.tokens:
            raise Refused("ends-early", self.end)
        return self.tokens.pop(0)

    def word(self, *wanted):
        at, token = self.next()
        if token not in wanted:
            raise Refused("word", at)
        return token

    def number(self, largest, signed=True, past="too-big", none=False):
        at, token = self.next()
        if none and token == "none":
            return None
        if not re.fullmatch(r"[+-]?[0-9]+" if signed else r"\+?[0-9]+", token):
            raise Refused("not-number", at)
        if abs(int(token)) > largest:
            raise Refused(past, at)
        return int(token)

    def size(self, rows, columns, most=None):
        height = self.number(rows, False, "too-many")
        at = self.tokens[0][0] if self.tokens else self.end
        width = self.number(columns, False, "too-many")
        if most is not None and height * width > most:
            raise Refused("too-many", at)
        return height, width

    def matrix(self, rows, columns, largest, most=None, none=False):
        height, width = self.size(rows, columns, most)
        return width, [[self.number(largest, none=none) for _ in range(width)] for _ in range(height)]

    def sums(self):
        height, width = self.size(20_000, 33)
        row = lambda: [self.number(2**62 if j == 0 else 2**47, j > 0) for j in range(width)]
        return width, [row() for _ in range(height)]


def certificate(text):
    reader, parts = Reader(text), {}
    for wanted in ("nfold-certificate", "1", "claim"):
        reader.word(wanted)
    parts["claim"] = reader.word("optimal", "infeasible-link", "infeasible-brick")
    if parts["claim"] == "infeasible-brick":
        parts["brick"] = reader.number(10_000, False)
    reader.word("point")
    parts["point"] = reader.matrix(10_000, 32, 2**62)
    reader.word("bricks")
    parts["bricks"] = reader.matrix(2_000, 48, 2**31 - 1)
    if parts["claim"] != "infeasible-brick":
        reader.word("links")
        parts["links"] = reader.matrix(2_000, 2_016, 2**31 - 1)
        reader.word("bound")
        parts["bound"] = reader.number(2**62, False)
        reader.word("sums")
        parts["sums"] = reader.sums()
        reader.word("potentials")
        parts["potentials"] = reader.matrix(10_001, 20_000, 2**124, 2**20, True)
    reader.word("end")
    if reader.tokens:
        raise Refused("extra", reader.tokens[0][0])
    return parts


def reduces(elements, z):
    while any(z):
        signed = (e for member in elements for e in (member, [-a for a in member]))
        below = next((e for e in signed if plain.below(e, z)), None)
        if below is None:
            return False
        times = min(abs(b) // abs(a) for a, b in zip(below, z) if a)
        z = [b - times * a for a, b in zip(below, z)]
    return True


def is_complete(matrix, columns, elements):
    image = lambda v: [plain.dot(row, v) for row in matrix]
    for z in elements:
        if not plain.leads_positive(z) or z[columns:] != image(z[:columns]):
            return False
    if any(not a < b for a, b in zip(elements, elements[1:])):
        return False
    units = [[int(i == j) for i in range(columns)] for j in range(columns)]
    sums = [[p + sign * q for p, q in zip(a, b)] for a in elements for b in elements for sign in (1, -1)]
    return all(reduces(elements, z) for z in [v + image(v) for v in units] + sums)


def checked_on_brick(program, parts):
    brick, point, elements = parts["brick"], parts["point"], parts["bricks"]
    t, s = program.columns, len(program.brick)
    if not 1 <= brick <= len(program.lower) or point[0] != t or len(point[1]) != 1 or elements[0] != t + s:
        return "no B1"
    x, i = point[1][0], brick - 1
    if not program.within(i, x):
        return "no B1"
    if not is_complete(program.brick, t, elements[1]):
        return "no C2"
    for z in elements[1]:
        for sign in (1, -1):
            y = plain.add(x, z[:t], sign)
            if program.within(i, y) and program.residual(i, y) < program.residual(i, x):
                return "no B2"
    residual = program.residual(i, x)
    return f"yes infeasible brick {brick} residual {residual}" if residual else "no C7"


def potentials_hold(program, phase, x, rests, sums, layers):
    at_most = lambda a, b: b is None or (a is not None and a <= b)
    place = {w: j for j, w in enumerate(sums)}

    def end(w):
        missed = program.miss(tuple(a - b for a, b in zip(rests, program.image(w))))
        if phase == "closed":
            return 0 if missed == 0 else None
        return missed - program.miss(rests)

    if not all(at_most(layers[-1][j], end(w)) for j, w in enumerate(sums)):
        return False
    for i, v in enumerate(x):
        for h in sums:
            u = plain.add(v, h)
            if not program.within(i, u):
                continue
            change = program.brick_cost(i, u) - program.brick_cost(i, v) if phase == "closed" else 0
            for j, w in enumerate(sums):
                to = place.get(plain.add(w, h))
                if to is not None:
                    behind = layers[i + 1][to]
                    if not at_most(layers[i][j], None if behind is None else change + behind):
                        return False
    first = layers[0][place[(0,) * program.columns]]
    return first is None or first >= 0


def checked_on_all(program, parts):
    phase = "closed" if parts["claim"] == "optimal" else "counted"
    t, s, n, r = program.columns, len(program.brick), len(program.lower), len(program.link)
    x, elements = parts["point"][1], parts["bricks"][1]
    if parts["point"][0] != t or len(x) != n or parts["bricks"][0] != t + s:
        return "no C1"
    generators = [z[:t] for z in elements if not any(z[t:])]
    p, listed, layers = len(generators), parts["sums"], parts["potentials"]
    if parts["links"][0] != p + r or listed[0] != 1 + t or len(layers[1]) != n + 1 or layers[0] != len(listed[1]):
        return "no C1"
    if not all(program.within(i, v) and program.residual(i, v) == 0 for i, v in enumerate(x)):
        return "no C1"
    rests = program.rests(x)
    if phase == "closed" and program.miss(rests):
        return "no C1"
    if not is_complete(program.brick, t, elements):
        return "no C2"
    matrix = [[plain.dot(row, g) for g in generators] for row in program.link]
    if not is_complete(matrix, p, parts["links"][1]):
        return "no C3"
    if parts["bound"] < plain.complexity(program, (matrix, parts["links"][1]), p, phase):
        return "no C4"
    levels = {tuple(row[1:]): row[0] for row in listed[1]}
    sums = [tuple(row[1:]) for row in listed[1]]
    closed = all(a < b for a, b in zip(sums, sums[1:])) and levels.get((0,) * t) == 0
    for w, level in levels.items():
        for g in generators if level < parts["bound"] else []:
            for sign in (1, -1):
                closed = closed and levels.get(plain.add(w, g, sign), 2**63) <= level + 1
    if not closed:
        return "no C5"
    if not potentials_hold(program, phase, x, rests, sums, layers[1]):
        return "no C6"
    if phase == "closed":
        return f"yes optimal cost {program.cost(x)}"
    return f"yes infeasible link residual {program.miss(rests)}" if program.miss(rests) else "no C7"


def wanted(program, name, text):
    """The status and both outputs."""
    try:
        parts = certificate(text)
    except Refused as fault:
        kind, at = fault.args
        return 3, "", f"input: {name}.cert: {kind} at {at}\n"
    line = checked_on_brick(program, parts) if "brick" in parts else checked_on_all(program, parts)
    return (0 if line.startswith("yes") else 1), line + "\n", ""


def texts(whole):
    tokens = whole.split()
    found = {whole[:end] for end in range(len(whole) + 1)}
    for i, token in enumerate(tokens):
        near = [str(int(token) + d) for d in (1, -1)] if re.fullmatch(r"-?[0-9]+", token) else []
        for other in [[], [token, token]] + [[o] for o in OTHERS + near]:
            found.add(" ".join(tokens[:i] + other + tokens[i + 1 :]) + "\n")
        found.add(" ".join(tokens[:i] + tokens[i + 1 : i + 2] + [token] + tokens[i + 2 :]))
    return sorted(found)


def compared(binary, example):
    """How many texts there are, and how many are answered otherwise."""
    name, program = PROGRAMS[example]
    with tempfile.TemporaryDirectory() as parent:
        folder = os.path.join(parent, example)
        shutil.copytree(os.path.join(ROOT, "examples", example), folder)
        path = os.path.join(folder, name + ".cert")
        with open(path, encoding="ascii") as file:
            cases = texts(file.read())
        differ = 0
        for text in cases:
            with open(path, "w", encoding="ascii") as file:
                file.write(text)
            run = subprocess.run([binary, "check", name], cwd=folder, capture_output=True, text=True, check=False)
            got = (run.returncode, run.stdout, run.stderr)
            if got != wanted(program, name, text):
                differ += 1
                print(repr(text), got, wanted(program, name, text))
    print(f"{example}: {len(cases)} texts, {differ} differ")
    return differ


def main():
    parser = argparse.ArgumentParser(description="Compares nfold check with another reading of its rules.")
    parser.add_argument("--program", default=os.path.join(ROOT, "crates", "nfold", "out", "nfold"))
    parser.add_argument("--example", nargs="*", choices=sorted(PROGRAMS), default=sorted(PROGRAMS))
    options = parser.parse_args()
    binary = os.path.abspath(options.program)
    return 1 if sum(compared(binary, example) for example in options.example) else 0


if __name__ == "__main__":
    sys.exit(main())
