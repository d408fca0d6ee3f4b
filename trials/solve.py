#!/usr/bin/env python3
"""Compares `nfold solve --trace` and its certificate, byte for byte, with a plain reading of the rules in Python.

    python3 trials/solve.py [--program FILE] [--count N] [--seed S]

The programs are small, a few with up to 40 bricks, and made at random, with costs that tie often, with and without
relations. For each of them the printed text and the stored certificate are compared with those of
trials/plain_solver.py, `check` has to say yes, and where there are few points all of them are tried: none may be better
than the one that was printed. What differs is printed, and the status is 1 where anything does. The gate does not run
it.
"""
import argparse
import itertools
import os
import random
import subprocess
import sys
import tempfile

import plain_solver as plain

ROOT = os.path.dirname(os.path.dirname(os.path.abspath(__file__)))


def random_cost(chance, lower, upper):
    kind = chance.random()
    if kind < 0.6:
        return ("q", chance.choice([0, 0, 1, 1, 2]), chance.randint(-4, 4), chance.randint(-2, 2))
    points, at, value, slope = [], lower - chance.randint(0, 2), chance.randint(-3, 3), chance.randint(-4, 1)
    while True:
        points.append((at, value))
        if at >= upper:
            return ("p", points)
        wide = chance.randint(1, 3)
        at, value, slope = at + wide, value + slope * wide, slope + chance.randint(0, 2)


def random_program(chance):
    t, r, s = chance.randint(1, 3), chance.randint(0, 2), chance.randint(0, 2)
    n = chance.randint(1, 4)
    if chance.random() < 0.15:
        # more than one block of bricks
        t, n = min(t, 2), chance.randint(16, 40)
    entry = lambda: chance.choice([-1, 0, 1, 1, 1, 2]) if chance.random() < 0.7 else chance.choice([0, 1])
    link = [[entry() for _ in range(t)] for _ in range(r)]
    brick = [[entry() for _ in range(t)] for _ in range(s)]
    lower = [[chance.choice([0, 0, 0, -1, 1]) for _ in range(t)] for _ in range(n)]
    upper = [[l + chance.randint(0, 4) for l in row] for row in lower]
    planted = [[chance.randint(l, u) for l, u in zip(ls, us)] for ls, us in zip(lower, upper)]
    wrong = lambda: chance.choice([-1, 1, 3]) if chance.random() < 0.08 else 0
    right_brick = [[plain.dot(row, v) + wrong() for row in brick] for v in planted]
    right_link = [sum(plain.dot(row, v) for v in planted) + chance.choice([0, 0, 0, 1, -2]) for row in link]
    relations = [chance.choice([plain.EQUAL, plain.LESS, plain.GREATER]) for _ in range(r)]
    if chance.random() < 0.4:
        relations = [plain.EQUAL] * r
    costs = [[random_cost(chance, l, u) for l, u in zip(ls, us)] for ls, us in zip(lower, upper)]
    return plain.Program(link, brick, t, lower, upper, right_link, right_brick, relations, costs)


def cost_text(cost):
    if cost[0] == "q":
        return "q " + " ".join(map(str, cost[1:]))
    return f"p {len(cost[1])} " + " ".join(f"{at} {value}" for at, value in cost[1])


def write(folder, program):
    t, n = program.columns, len(program.lower)
    right = program.right_link + [b for row in program.right_brick for b in row]
    texts = {
        "link.mat": plain.matrix_text(program.link, t),
        "brick.mat": plain.matrix_text(program.brick, t),
        "lb": plain.matrix_text(program.lower, t),
        "ub": plain.matrix_text(program.upper, t),
        "rhs": plain.matrix_text([right], len(right)),
        "cost": f"{n} {t}\n" + "".join(cost_text(c) + "\n" for row in program.costs for c in row),
        "rel": f"1 {len(program.link)}\n" + " ".join(program.relations) + "\n",
    }
    for kind, text in texts.items():
        with open(os.path.join(folder, "t." + kind), "w", encoding="ascii") as file:
            file.write(text)


def best_by_all_points(program, most):
    ranges = [range(l, u + 1) for ls, us in zip(program.lower, program.upper) for l, u in zip(ls, us)]
    count = 1
    for r in ranges:
        count *= len(r)
    if count > most:
        return "too many"
    best, t = None, program.columns
    for flat in itertools.product(*ranges):
        x = [flat[i : i + t] for i in range(0, len(flat), t)]
        if program.miss(program.rests(x)) == 0 and all(program.residual(i, v) == 0 for i, v in enumerate(x)):
            cost = program.cost(x)
            best = cost if best is None else min(best, cost)
    return best


def call(binary, folder, *words):
    done = subprocess.run([binary, *words], cwd=folder, capture_output=True, check=False)
    return done.returncode, done.stdout.decode("ascii"), done.stderr.decode("ascii")


def differences(binary, folder, program):
    for name in ("t.cert",):
        if os.path.exists(os.path.join(folder, name)):
            os.remove(os.path.join(folder, name))
    write(folder, program)
    text, certificate = plain.solve(program)
    flags = ["--rel"] if any(r != plain.EQUAL for r in program.relations) else []
    status, out, err = call(binary, folder, "solve", "t", "--trace", *flags)
    if status == 4:
        return None
    if (status, out) != (0, text):
        return f"status {status} {err}wanted:\n{text}got:\n{out}"
    with open(os.path.join(folder, "t.cert"), encoding="ascii") as file:
        if file.read() != certificate:
            return "another certificate than:\n" + certificate
    verdict = text.split("optimal\n")[-1].split("\n")[0] if "optimal\n" in text else text.strip().split("\n")[-1]
    wanted = "yes optimal " + verdict if "optimal\n" in text else "yes " + verdict
    answer = call(binary, folder, "check", "t", *flags)
    if answer[:2] != (0, wanted + "\n"):
        return f"check says {answer}, wanted {wanted}"
    best = best_by_all_points(program, 4000)
    if best != "too many" and (f"cost {best}\n" in text) != (best is not None):
        return f"the least cost of all points is {best}"
    return ""


def main():
    parser = argparse.ArgumentParser(description="Compares nfold solve with a plain reading of its rules.")
    parser.add_argument("--program", default=os.path.join(ROOT, "crates", "nfold", "out", "nfold"))
    parser.add_argument("--count", type=int, default=1000)
    parser.add_argument("--seed", type=int, default=1)
    options = parser.parse_args()
    binary, chance, bad, limits, steps = os.path.abspath(options.program), random.Random(options.seed), 0, 0, 0
    with tempfile.TemporaryDirectory() as folder:
        for number in range(options.count):
            program = random_program(chance)
            difference = differences(binary, folder, program)
            limits += difference is None
            steps += plain.solve(program)[0].count(" gain ")
            if difference:
                bad += 1
                print(f"program {number}:\n{difference}")
    print(f"{options.count} programs, {steps} steps of phases, {limits} past a limit, {bad} differ")
    return 1 if bad else 0


if __name__ == "__main__":
    sys.exit(main())
