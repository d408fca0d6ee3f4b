#!/usr/bin/env python3
"""Writes a large program with a feasible point, runs `nfold point` on it, and prints the time and peak memory.

    python3 bench/point.py [--program FILE] [--bricks N] [--columns T] [--breakpoints M] [--runs R] [--keep]

The program is that of crates/nfold/out unless another is given. Costs are quadratic; with --breakpoints each has
M breakpoints, and there are only as many bricks as a cost file of 2^26 bytes has room for. The files lie in a new
temporary folder, which goes again unless it is to be kept. What is printed is what was measured in this run on this
machine, and nothing more.
"""
import argparse
import os
import resource
import shutil
import subprocess
import sys
import tempfile
import time

LONGEST = 1 << 26
HIGHEST = 10
ROOT = os.path.dirname(os.path.dirname(os.path.abspath(__file__)))


def cost_text(breakpoints):
    """The cost v * v: as such, or by breakpoints at 0, 1, 2 and so on, of which the last reaches the upper bound."""
    if not breakpoints:
        return "q 1 0 0"
    places = range(breakpoints)
    return " ".join(["p", str(breakpoints), *(f"{at} {at * at}" for at in places)])


def entry(brick, column):
    """An entry of the point, 0 to HIGHEST."""
    return (7 * brick + 3 * column) % (HIGHEST + 1)


def write_matrix(name, columns, rows):
    with open(name, "w", encoding="ascii") as file:
        file.write(f"{len(rows)} {columns}\n")
        file.writelines(" ".join(map(str, row)) + "\n" for row in rows)


def write_program(folder, bricks, columns, breakpoints):
    """One linking row and one brick row; the right sides are those that the point meets."""
    name = os.path.join(folder, "big")
    link = [1 + column % 3 for column in range(columns)]
    brick = [1] * columns
    point = [[entry(i, j) for j in range(columns)] for i in range(bricks)]
    total = sum(a * b for row in point for a, b in zip(link, row))
    write_matrix(name + ".link.mat", columns, [link])
    write_matrix(name + ".brick.mat", columns, [brick])
    write_matrix(name + ".lb", columns, [[0] * columns] * bricks)
    write_matrix(name + ".ub", columns, [[HIGHEST] * columns] * bricks)
    write_matrix(name + ".rhs", 1 + bricks, [[total, *map(sum, point)]])
    write_matrix(name + ".pt", columns, point)
    line = cost_text(breakpoints) + "\n"
    with open(name + ".cost", "w", encoding="ascii") as file:
        file.write(f"{bricks} {columns}\n")
        file.writelines(line for _ in range(bricks * columns))
    cost = sum(a * a for row in point for a in row)
    return f"feasible\ncost {cost}\n"


def size_of(folder):
    return sum(os.path.getsize(os.path.join(folder, name)) for name in os.listdir(folder))


def measure(program, folder):
    """The seconds of one run, what it wrote, and its status."""
    began = time.monotonic()
    ran = subprocess.run([program, "point", "big"], cwd=folder, stdout=subprocess.PIPE, text=True)
    return time.monotonic() - began, ran.stdout, ran.returncode


def words():
    parse = argparse.ArgumentParser(description=__doc__.splitlines()[0])
    parse.add_argument("--program", default=os.path.join(ROOT, "crates", "nfold", "out", "nfold"))
    parse.add_argument("--bricks", type=int, default=10_000, help="1 to 10000")
    parse.add_argument("--columns", type=int, default=32, help="1 to 32")
    parse.add_argument("--breakpoints", type=int, default=0, help=f"0 for quadratic costs, or {HIGHEST + 1} to 1000")
    parse.add_argument("--runs", type=int, default=3)
    parse.add_argument("--keep", action="store_true", help="keep the files, and say where they are")
    given = parse.parse_args()
    if not 1 <= given.bricks <= 10_000 or not 1 <= given.columns <= 32 or given.runs < 1:
        parse.error("1 to 10000 bricks, 1 to 32 columns, and one run or more")
    if given.breakpoints and not HIGHEST < given.breakpoints <= 1_000:
        parse.error(f"breakpoints: 0, or {HIGHEST + 1} to 1000")
    return given


def main():
    given = words()
    if not os.access(given.program, os.X_OK):
        print(f"no program at {given.program}: build it by 'rt run' in crates/nfold, or give --program", file=sys.stderr)
        return 2
    room = (LONGEST - 16) // (given.columns * (len(cost_text(given.breakpoints)) + 1))
    bricks = min(given.bricks, room)
    folder = tempfile.mkdtemp(prefix="nfold-bench-")
    try:
        wanted = write_program(folder, bricks, given.columns, given.breakpoints)
        size = size_of(folder)
        print(f"{bricks} bricks of {given.columns} columns, files of {size} bytes in all")
        for run in range(1, given.runs + 1):
            seconds, text, status = measure(os.path.abspath(given.program), folder)
            if (text, status) != (wanted, 0):
                print(f"run {run}: status {status}, wrote {text!r} in place of {wanted!r}")
                return 1
            print(f"run {run}: {seconds:.3f} seconds, {size / seconds / 1e6:.1f} MB a second")
        peak = resource.getrusage(resource.RUSAGE_CHILDREN).ru_maxrss
        print(f"peak memory {peak} kilobytes")
        return 0
    finally:
        if given.keep:
            print(f"the files are in {folder}")
        else:
            shutil.rmtree(folder)


if __name__ == "__main__":
    sys.exit(main())
