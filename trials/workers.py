#!/usr/bin/env python3
"""Compares `nfold solve` by 1 to 16 workers, byte for byte, on small programs made at random.

    python3 trials/workers.py [--program FILE] [--count N] [--seed S] [--repeat R] [--widest W]

Each program is solved without the option and then by each number of workers, as often as --repeat says, half of them
with a trace. The status, both texts and the stored certificate have to be the same every time. The programs have up to
44 step lengths, so that workers share them in many ways; with bounds at most W apart they have fewer, and a run takes a
few milliseconds. What differs is printed, and the status is 1 where anything does. The gate does not run it.
"""
import argparse
import os
import random
import sys
import tempfile
import time

import plain_solver as plain
import solve as small

WIDTHS = [1, 4, 30, 1000, 10**6, 2**44]


def random_program(chance, widest):
    """A program with bounds up to a random width, of `widest` at most, and quadratic costs, around a planted point."""
    t, r, s = chance.randint(1, 3), chance.randint(0, 2), chance.randint(0, 1)
    n, width = chance.randint(1, 6), chance.choice([width for width in WIDTHS if width <= widest])
    entries = lambda: [chance.choice([-1, 0, 1, 1, 1, 2]) for _ in range(t)]
    link, brick = [entries() for _ in range(r)], [entries() for _ in range(s)]
    lower = [[-chance.randint(0, width) for _ in range(t)] for _ in range(n)]
    upper = [[l + chance.randint(0, width) for l in row] for row in lower]
    planted = [[chance.randint(l, u) for l, u in zip(ls, us)] for ls, us in zip(lower, upper)]
    right_brick = [[plain.dot(row, v) for row in brick] for v in planted]
    right_link = [sum(plain.dot(row, v) for v in planted) + chance.choice([0, 0, 0, 1]) for row in link]
    relations = [chance.choice([plain.EQUAL, plain.EQUAL, plain.LESS, plain.GREATER]) for _ in range(r)]
    cost = lambda: ("q", chance.choice([0, 0, 1, 2]), chance.randint(-2 * width, 2 * width), 0)
    costs = [[cost() for _ in range(t)] for _ in range(n)]
    return plain.Program(link, brick, t, lower, upper, right_link, right_brick, relations, costs)


def answer(binary, folder, words):
    """The status, the texts and the certificate of one run."""
    stored = os.path.join(folder, "t.cert")
    if os.path.exists(stored):
        os.remove(stored)
    told = small.call(binary, folder, *words)
    if not os.path.exists(stored):
        return told, None
    with open(stored, "rb") as file:
        return told, file.read()


def main():
    parser = argparse.ArgumentParser(description="Compares nfold solve by 1 to 16 workers.")
    parser.add_argument("--program", default=os.path.join(small.ROOT, "crates", "nfold", "out", "nfold"))
    parser.add_argument("--count", type=int, default=1000)
    parser.add_argument("--seed", type=int, default=1)
    parser.add_argument("--repeat", type=int, default=1)
    parser.add_argument("--widest", type=int, default=WIDTHS[-1])
    options = parser.parse_args()
    binary, chance, bad, runs, steps = os.path.abspath(options.program), random.Random(options.seed), 0, 0, 0
    statuses, begin = {}, time.monotonic()
    with tempfile.TemporaryDirectory() as folder:
        for number in range(options.count):
            program = random_program(chance, options.widest)
            small.write(folder, program)
            words = ["solve", "t", "--rel"] + ["--trace"] * (number % 2)
            wanted = answer(binary, folder, words)
            statuses[wanted[0][0]] = statuses.get(wanted[0][0], 0) + 1
            steps += wanted[0][1].count(" gain ")
            for workers in list(range(1, 17)) * options.repeat:
                runs += 1
                got = answer(binary, folder, words + ["--workers", str(workers)])
                if got != wanted:
                    bad += 1
                    print(f"program {number} by {workers} workers:\nwanted {wanted}\ngot {got}", flush=True)
    seconds = time.monotonic() - begin
    print(f"{options.count} programs {statuses}, {steps} traced steps, {runs} runs in {seconds:.0f} s, {bad} differ")
    return 1 if bad else 0


if __name__ == "__main__":
    sys.exit(main())
