#!/usr/bin/env python3
"""Runs `nfold solve` and `nfold check` on generated programs that grow, and prints their time, memory and steps.

    python3 bench/steps.py [--program FILE] [--family NAME ..] [--most N] [--workers W ..] [--peer]

The program is that of crates/nfold/out unless another is given. The families are

- allocation: n people choose how much of one budget they take, at costs of their own (5 brick sums);
- transport-2, -3, -4, -5: so many depots serve n customers, at costs that grow with the amount (5, 37, 309 and 2,751
  brick sums);
- wide-2, -3, -4: the same with amounts up to some millions, so that workers have 24 step lengths to share.

Each is run for n = 30, 100, 300, 1,000, 3,000 and 10,000, as far as --most and the table of layers allow, by each
number of workers; the processor time is that of all of them together, the elapsed time what a user waits. The growth is
the power of n with which the processor time grew from the size before, and that of a step beside it. With --peer
the program of a family that is not wide is given to `glpsol` too, where it is installed; it is a yardstick and nothing
of the program needs it. The files lie in a new temporary folder, which goes again. What is printed is what was measured
in this run on this machine, and nothing more.
"""
import argparse
import math
import os
import random
import shutil
import subprocess
import sys
import tempfile
import time

ROOT = os.path.dirname(os.path.dirname(os.path.abspath(__file__)))
SIZES = [30, 100, 300, 1000, 3000, 10000]
SUMS = {"allocation": 5, "transport-2": 5, "transport-3": 37, "transport-4": 309, "transport-5": 2751}
SUMS |= {"wide-2": 5, "wide-3": 37, "wide-4": 309}
WIDE = 1 << 20


def allocation(n, chance):
    """Two columns: what is taken, and what is left of 8; the first is what counts against the budget."""
    costs = [[f"q {chance.randint(1, 4)} {-chance.randint(0, 60)} 0", "q 0 0 0"] for _ in range(n)]
    return {"link": [[1, 0]], "brick": [[1, 1]], "upper": [[8, 8]] * n, "right": [3 * n] + [8] * n, "costs": costs}


def transport(depots, n, chance, unit_size=1):
    """A column for each depot: what the customer gets from there; each depot has just what is asked of it."""
    demands = [chance.randint(2, 9) for _ in range(n)]
    served = [0] * depots
    for demand in demands:
        for _ in range(demand):
            served[chance.randrange(depots)] += 1
    demands, served = [unit_size * d for d in demands], [unit_size * s for s in served]
    slope = lambda: chance.randint(1, 30 * unit_size)
    costs = [[f"q {chance.randint(0, 2)} {slope()} 0" for _ in range(depots)] for _ in range(n)]
    unit = [[int(i == j) for j in range(depots)] for i in range(depots)]
    upper = [[demand] * depots for demand in demands]
    return {"link": unit, "brick": [[1] * depots], "upper": upper, "right": served + demands, "costs": costs}


def matrix_text(rows, columns):
    return f"{len(rows)} {columns}\n" + "".join(" ".join(map(str, row)) + "\n" for row in rows)


def write(folder, parts):
    t, n = len(parts["brick"][0]), len(parts["upper"])
    texts = {
        "link.mat": matrix_text(parts["link"], t),
        "brick.mat": matrix_text(parts["brick"], t),
        "lb": matrix_text([[0] * t] * n, t),
        "ub": matrix_text(parts["upper"], t),
        "rhs": matrix_text([parts["right"]], len(parts["right"])),
        "cost": f"{n} {t}\n" + "".join(" ".join(row) + "\n" for row in parts["costs"]),
    }
    for kind, text in texts.items():
        with open(os.path.join(folder, "b." + kind), "w", encoding="ascii") as file:
            file.write(text)


def run(words, folder):
    """The status, the printed bytes, the processor time in s, the peak memory in MB and the elapsed time of one run."""
    begin = time.monotonic()
    with open(os.path.join(folder, "out"), "wb") as out:
        child = subprocess.Popen(words, cwd=folder, stdout=out, stderr=subprocess.DEVNULL)
        _, status, usage = os.wait4(child.pid, 0)
    elapsed = time.monotonic() - begin
    with open(os.path.join(folder, "out"), "rb") as out:
        text = out.read().decode("ascii")
    took = usage.ru_utime + usage.ru_stime
    return os.waitstatus_to_exitcode(status), text, took, usage.ru_maxrss / 1024, elapsed


def peer(folder, parts):
    """Seconds of processor time of `glpsol` on the same program, each unit of a column a variable of its own."""
    t, n, lines = len(parts["brick"][0]), len(parts["upper"]), ["Minimize", " obj:"]
    unit_names = {}
    for i in range(n):
        for j in range(t):
            _, a, b, _ = parts["costs"][i][j].split()
            names = []
            for v in range(parts["upper"][i][j]):
                name = f"x{i}_{j}_{v}"
                slope = int(a) * (2 * v + 1) + int(b)
                lines.append(f" {'+' if slope >= 0 else '-'} {abs(slope)} {name}")
                names.append(name)
            unit_names[i, j] = names
    lines.append("Subject To")
    for number, row in enumerate(parts["link"]):
        terms = [f"+ {row[j]} {name}" for i in range(n) for j in range(t) if row[j] for name in unit_names[i, j]]
        lines.append(f" l{number}: " + "\n ".join(terms) + f" = {parts['right'][number]}")
    for i in range(n):
        terms = [f"+ {name}" for j in range(t) for name in unit_names[i, j]]
        lines.append(f" b{i}: " + "\n ".join(terms) + f" = {parts['right'][len(parts['link']) + i]}")
    lines += ["Bounds"] + [f" 0 <= {name} <= 1" for names in unit_names.values() for name in names]
    lines += ["Generals"] + [f" {name}" for names in unit_names.values() for name in names] + ["End"]
    with open(os.path.join(folder, "b.lp"), "w", encoding="ascii") as file:
        file.write("\n".join(lines) + "\n")
    return run(["glpsol", "--lp", "b.lp", "-o", "b.sol"], folder)[2]


def made(family, n):
    """The program of a family with n bricks; it is the same each time."""
    chance = random.Random(n)
    if family == "allocation":
        return allocation(n, chance)
    return transport(int(family[-1]), n, chance, WIDE if family.startswith("wide") else 1)


def growth(before, n, seconds, steps):
    """The powers of n with which the time of a run and of a step grew; nothing for the first size."""
    if before is None or min(seconds, before[1], steps, before[2]) <= 0:
        return " " * 14
    times = math.log(n / before[0])
    whole = math.log(seconds / before[1]) / times
    return f"{whole:7.2f}{whole - math.log(steps / before[2]) / times:7.2f}"


def measure(program, family, n, counts, with_peer, before):
    """Prints a line for each number of workers; `before` has the sizes before, and gets this one."""
    parts, with_peer = made(family, n), with_peer and not family.startswith("wide")
    with tempfile.TemporaryDirectory() as folder:
        write(folder, parts)
        for workers in counts:
            words = [program, "solve", "b", "--trace", "--workers", str(workers)]
            status, text, seconds, memory, elapsed = run(words, folder)
            steps = sum(line.startswith(("counted length", "closed length")) for line in text.split("\n"))
            checked = run([program, "check", "b"], folder) if status == 0 else (status, "", 0.0, 0.0, 0.0)
            end = f"{checked[2]:9.3f}" if checked[0] == 0 else f"status {status}, {checked[0]}"
            last = f"  {peer(folder, parts):9.3f}" if with_peer else ""
            times = f"{seconds:10.3f}{elapsed:11.3f}"
            grew = growth(before.get(workers), n, seconds, steps)
            before[workers] = (n, seconds, steps)
            print(f"{family:12}{n:7}{workers:9}{steps:9}{times}{grew}{memory:8.0f} {end}{last}", flush=True)


def main():
    parser = argparse.ArgumentParser(description="Times nfold solve and check on generated programs that grow.")
    parser.add_argument("--program", default=os.path.join(ROOT, "crates", "nfold", "out", "nfold"))
    families = ["allocation", "transport-2", "transport-3", "transport-4"]
    parser.add_argument("--family", nargs="*", choices=sorted(SUMS), default=families)
    parser.add_argument("--most", type=int, default=3000)
    parser.add_argument("--workers", nargs="*", type=int, default=[1])
    parser.add_argument("--peer", action="store_true")
    options = parser.parse_args()
    with_peer = options.peer and shutil.which("glpsol")
    head = "family            n  workers    steps   solve s  elapsed s growth a step      MB   check s"
    print(head + ("   glpsol s" if with_peer else ""))
    for family in options.family:
        before = {}
        for n in [n for n in SIZES if n <= options.most and (n + 1) * SUMS[family] <= 2**20]:
            measure(os.path.abspath(options.program), family, n, options.workers, with_peer, before)
    return 0


if __name__ == "__main__":
    sys.exit(main())
