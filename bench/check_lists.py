#!/usr/bin/env python3
"""Times `nfold check` on certificates whose lists are long.

    python3 bench/check_lists.py [--program FILE]

The program is that of crates/nfold/out unless another is given. Each case is a program of one brick with a claim that the
brick cannot meet its rows, and a list of up to 2,000 rows: slack bases as 4ti2's `graver` finds them, where that program
is installed, the same less one row, and lists that are padded with rows that are not minimal. The point is at its bounds,
0 and 0, so that what is timed is the rule on complete lists. The files lie in a new temporary folder, which goes again.
What is printed is what was measured in this run on this machine, and nothing more.
"""
import argparse
import os
import shutil
import subprocess
import sys
import tempfile
import time

from graver import MAGIC_SQUARE, ROOT, write_matrix

LARGEST = 2**31 - 1


def element(matrix, vector):
    """The vector with its product with the matrix."""
    return tuple(vector) + tuple(sum(a * x for a, x in zip(row, vector)) for row in matrix)


def leading(vector):
    """The one of a vector and its opposite that leads positive."""
    first = next((x for x in vector if x), 1)
    return vector if first > 0 else tuple(-x for x in vector)


def slack_basis(other, folder, matrix):
    """The slack basis of the matrix by 4ti2."""
    wide = [row + [-1 if i == j else 0 for j in range(len(matrix))] for i, row in enumerate(matrix)]
    write_matrix(os.path.join(folder, "wide.mat"), wide)
    subprocess.run([other, "-q", "wide"], cwd=folder, check=True, capture_output=True)
    with open(os.path.join(folder, "wide.gra"), encoding="ascii") as file:
        lines = file.read().splitlines()[1:]
    return sorted(leading(tuple(map(int, line.split()))) for line in lines if line.strip())


def long_row():
    """The slack basis of the row (1 1998): the units, and the differences that take 1998 down to 0 by 1."""
    units = [(0, 1), (1, 0)]
    return sorted(element([[1, 1998]], vector) for vector in units + [(k, -1) for k in range(1, 1999)])


def padded(sizes):
    """For the row (1 -1) the multiples of both units of these sizes, with the three rows that all sums need."""
    vectors = {(0, 1), (1, 0), (1, 1)} | {(0, k) for k in sizes} | {(k, 0) for k in sizes}
    return sorted(element([[1, -1]], vector) for vector in vectors)


def cases(other, folder):
    """The name, the matrix, the list and whether it is complete, of each case."""
    row = long_row()
    yield "row 1 1998", [[1, 1998]], row, True
    yield "row 1 1998, less the last but one", [[1, 1998]], row[:-2] + row[-1:], False
    yield "row 1 -1, padded", [[1, -1]], padded(range(1, 999)), True
    yield "row 1 -1, padded, huge entries", [[1, -1]], padded(range(LARGEST - 998, LARGEST)), True
    if other:
        eight = [list(range(1, 9))]
        basis = slack_basis(other, folder, eight)
        yield "row 1 2 .. 8", eight, basis, True
        yield "row 1 2 .. 8, less one", eight, basis[:500] + basis[501:], False
        yield "magic square, 3 by 3", MAGIC_SQUARE, slack_basis(other, folder, MAGIC_SQUARE), True


def table(rows, columns):
    """A matrix as the files and the certificate have it."""
    return f"{len(rows)} {columns}\n" + "".join(" ".join(map(str, row)) + "\n" for row in rows)


def write_program(folder, matrix, basis):
    """The files of the program P of one brick, whose right sides no point within its bounds meets, and the certificate."""
    rows, cols = len(matrix), len(matrix[0])
    zeros = [[0] * cols]
    parts = {
        "P.brick.mat": table(matrix, cols),
        "P.link.mat": table([], cols),
        "P.rhs": table([[1] * rows], rows),
        "P.lb": table(zeros, cols),
        "P.ub": table(zeros, cols),
        "P.cost": f"1 {cols}\n" + "q 0 0 0\n" * cols,
        "P.cert": "nfold-certificate 1\nclaim infeasible-brick 1\npoint\n"
        + table(zeros, cols)
        + "bricks\n"
        + table(basis, cols + rows)
        + "end\n",
    }
    for name, text in parts.items():
        with open(os.path.join(folder, name), "w", encoding="ascii") as file:
            file.write(text)


def main():
    parser = argparse.ArgumentParser(description="Times nfold check on long lists.")
    parser.add_argument("--program", default=os.path.join(ROOT, "crates", "nfold", "out", "nfold"))
    parser.add_argument("--other", default=shutil.which("4ti2-graver") or shutil.which("graver"))
    parser.add_argument("--keep", help="writes the files of the cases below this folder, and runs nothing")
    args = parser.parse_args()
    with tempfile.TemporaryDirectory() as folder:
        for number, (name, matrix, basis, complete) in enumerate(cases(args.other, folder)):
            if args.keep:
                kept = os.path.join(args.keep, str(number))
                os.makedirs(kept, exist_ok=True)
                write_program(kept, matrix, basis)
                continue
            write_program(folder, matrix, basis)
            begin = time.monotonic()
            done = subprocess.run([os.path.abspath(args.program), "check", "P"], cwd=folder, capture_output=True, text=True)
            seconds = time.monotonic() - begin
            print(f"{name:36}  {len(basis):5} rows  {seconds:8.3f} s  {done.stdout.strip()}", flush=True)
            if ("C2" in done.stdout) == complete:
                print(f"{name}: the answer is wrong", file=sys.stderr)
                return 1
    return 0


if __name__ == "__main__":
    sys.exit(main())
