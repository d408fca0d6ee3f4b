#!/usr/bin/env python3
"""Runs `nfold graver` on the matrices of one row (1 2 .. k) for growing k, and prints the time and peak memory.

    python3 bench/graver.py [--program FILE] [--from K] [--to K] [--limit B]
    python3 bench/graver.py --cases [--program FILE] [--other FILE] [--limit B]

The program is that of crates/nfold/out unless another is given. It ends at the first k whose slack basis passes the
limit, which is 2,000 members unless another is given. With --cases it runs a few matrices A whose slack bases have
from 1,000 to 2,000 members or pass the limit, and beside it 4ti2's `graver` on (A | -I), whose Graver basis is the
slack basis of A, where that program is installed. The files lie in a new temporary folder, which goes again. What is
printed is what was measured in this run on this machine, and nothing more.
"""
import argparse
import os
import shutil
import subprocess
import sys
import tempfile
import time

ROOT = os.path.dirname(os.path.dirname(os.path.abspath(__file__)))
LIMIT_STATUS = 4


# The lines of a 3 by 3 square, of which all but the first have the sum of the first in a magic square.
LINES = ["111000000", "000111000", "000000111", "100100100", "010010010", "001001001", "100010001", "001010100"]
MAGIC_SQUARE = [[int(a) - int(b) for a, b in zip(LINES[0], line)] for line in LINES[1:]]
CASES = [
    ("row 1 2 .. 8", [list(range(1, 9))]),
    ("row 1 1998", [[1, 1998]]),
    ("rows 944 972 262 and 457 373 334", [[944, 972, 262], [457, 373, 334]]),
    ("magic square, 3 by 3", MAGIC_SQUARE),
    ("row 1 2 .. 9, past the limit", [list(range(1, 10))]),
]
OTHER_SECONDS = 600


def write_matrix(path, matrix):
    """Writes the matrix as both programs read it."""
    with open(path, "w", encoding="ascii") as file:
        file.write(f"{len(matrix)} {len(matrix[0])}\n")
        file.writelines(" ".join(map(str, row)) + "\n" for row in matrix)


def run(program, folder, matrix, limit):
    """The status, the number of printed vectors, the seconds and the peak memory in MB of one run."""
    write_matrix(os.path.join(folder, "m.mat"), matrix)
    with open(os.path.join(folder, "out"), "wb") as out:
        begin = time.monotonic()
        child = subprocess.Popen(
            [program, "graver", "m", "--max-basis", str(limit)], cwd=folder, stdout=out, stderr=subprocess.DEVNULL
        )
        _, status, usage = os.wait4(child.pid, 0)
        seconds = time.monotonic() - begin
    with open(os.path.join(folder, "out"), "rb") as out:
        first = out.readline().split()
    vectors = int(first[0]) if first else None
    return os.waitstatus_to_exitcode(status), vectors, seconds, usage.ru_maxrss / 1024


def run_other(program, folder, matrix):
    """How many members the Graver basis of (A | -I) has, and the seconds of one run, or None past the time."""
    wide = [row + [-1 if i == j else 0 for j in range(len(matrix))] for i, row in enumerate(matrix)]
    write_matrix(os.path.join(folder, "wide.mat"), wide)
    begin = time.monotonic()
    try:
        subprocess.run([program, "-q", "wide"], cwd=folder, check=True, capture_output=True, timeout=OTHER_SECONDS)
    except subprocess.TimeoutExpired:
        return None
    seconds = time.monotonic() - begin
    with open(os.path.join(folder, "wide.gra"), encoding="ascii") as file:
        return int(file.readline().split()[0]), seconds


def run_cases(program, other, limit):
    """Prints a line for each case, and the status for the system."""
    with tempfile.TemporaryDirectory() as folder:
        for name, matrix in CASES:
            status, vectors, seconds, memory = run(program, folder, matrix, limit)
            if status not in (0, LIMIT_STATUS):
                print(f"{name}: ended with status {status}", file=sys.stderr)
                return 1
            shown = "limit" if status == LIMIT_STATUS else f"{vectors} in the kernel"
            line = f"{name:34}  {shown:16}  {seconds:8.3f} s  {memory:6.1f} MB"
            if other:
                found = run_other(other, folder, matrix)
                line += f"   4ti2: {found[0]} members  {found[1]:8.3f} s" if found else "   4ti2: past its time"
            print(line, flush=True)
    return 0


def main():
    parser = argparse.ArgumentParser(description="Times nfold graver on the rows (1 2 .. k).")
    parser.add_argument("--program", default=os.path.join(ROOT, "crates", "nfold", "out", "nfold"))
    parser.add_argument("--from", dest="first", type=int, default=2)
    parser.add_argument("--to", dest="last", type=int, default=32)
    parser.add_argument("--limit", type=int, default=2000)
    parser.add_argument("--cases", action="store_true", help="runs the matrices named in this file instead")
    parser.add_argument("--other", default=shutil.which("4ti2-graver") or shutil.which("graver"))
    args = parser.parse_args()
    if args.cases:
        return run_cases(os.path.abspath(args.program), args.other, args.limit)
    with tempfile.TemporaryDirectory() as folder:
        for columns in range(args.first, args.last + 1):
            row = list(range(1, columns + 1))
            status, vectors, seconds, memory = run(os.path.abspath(args.program), folder, [row], args.limit)
            shown = "limit" if status == LIMIT_STATUS else f"{vectors} vectors"
            print(f"k {columns:2}  {shown:14}  {seconds:8.3f} s  {memory:6.1f} MB", flush=True)
            if status == LIMIT_STATUS:
                return 0
            if status != 0:
                print(f"ended with status {status}", file=sys.stderr)
                return 1
    return 0


if __name__ == "__main__":
    sys.exit(main())
