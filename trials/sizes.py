#!/usr/bin/env python3
"""Runs `nfold` at the limits of docs/FORMATS.md and one past them, and looks at its answers, its memory and its time.

    python3 trials/sizes.py [--program FILE] [--only WORD] [--seconds S] [--large]

Programs with 10,000 bricks, with 32 columns and 16 and 16 rows, with bounds of 2^62 and matrices of 2^31 - 1; costs
whose magnitudes reach 2^120; files and certificates of the greatest size and with the largest parts; each option at its
least and its greatest; and of nearly all of them the next one, which is refused. Status and texts are compared with
what follows from the rules, in whole numbers: by hand, by trials/plain_solver.py, or, where that would take too long,
by the facts that `point` and `check` confirm. Each run has a time limit, and its peak of memory has to stay within what
docs/FORMATS.md says. With --large, runs are tried too that take minutes or gigabytes. What is otherwise is printed, and
the status is 1 where anything is. The gate does not run it.
"""
import argparse
import os
import signal
import subprocess
import sys
import tempfile
import time
from dataclasses import dataclass, field

import plain_solver as plain
import solve as small

WIDE, ENTRY, MAGNITUDE = 2**62, 2**31 - 1, 2**120
FILE, CERTIFICATE, CELLS = 2**26, 2**27, 2**20
ZERO = ("q", 0, 0, 0)


# ---- what is run


@dataclass
class Run:
    """Words, and what has to be answered; a text that is None may be anything. `stored` is the certificate's text."""

    words: str
    status: int = 0
    out: str = ""
    err: str = ""
    stored: str = None


@dataclass
class Case:
    """A folder, and what is run in it, one after the other; what is printed first is handed to `then`."""

    name: str
    files: dict
    runs: list
    then: object = None
    nodes: int = 0  # (n + 1) times the number of brick sums
    sums: int = 0
    members: int = 64  # of the largest slack basis
    lengths: int = 1
    workers: int = 1
    large: bool = False
    seen: list = field(default_factory=list)


def text_of(program, prefix="t."):
    """The files of a program."""
    t, n = program.columns, len(program.lower)
    right = program.right_link + [b for row in program.right_brick for b in row]
    return {
        prefix + "link.mat": plain.matrix_text(program.link, t),
        prefix + "brick.mat": plain.matrix_text(program.brick, t),
        prefix + "lb": plain.matrix_text(program.lower, t),
        prefix + "ub": plain.matrix_text(program.upper, t),
        prefix + "rhs": plain.matrix_text([right], len(right)),
        prefix + "cost": f"{n} {t}\n" + "".join(small.cost_text(c) + "\n" for row in program.costs for c in row),
        prefix + "rel": f"1 {len(program.link)}\n" + " ".join(program.relations) + "\n",
    }


def program_of(link, brick, t, lower, upper, right_link, right_brick, costs, relations=None):
    relations = relations or [plain.EQUAL] * len(link)
    return plain.Program(link, brick, t, lower, upper, right_link, right_brick, relations, costs)


def solved(name, program, options="", verdict=None, **sizes):
    """A small program: what is printed and stored is worked out plainly, and `check` confirms it."""
    text, certificate = plain.solve(program)
    best = "optimal\n" in text
    last = "optimal " + text.split("optimal\n")[1].split("\n")[0] if best else text.strip().split("\n")[-1]
    assert verdict in (None, last), (verdict, last)
    runs = [
        Run("solve t --trace" + options, out=text, stored=certificate),
        Run("check t" + (" --rel" if "--rel" in options else ""), out=f"yes {last}\n"),
    ]
    widest = max(u - l for ls, us in zip(program.lower, program.upper) for l, u in zip(ls, us))
    return Case(name, text_of(program), runs, lengths=max(1, widest).bit_length(), sums=64, nodes=1024, **sizes)


def refused(name, files, command, line, status=3):
    return Case(name, files, [Run(command, status, err=line + "\n")])


def worked():
    """The program of examples/t."""
    costs = [[("q", 1, 0, 0), ZERO]] * 2
    return program_of([[1, 0]], [[1, 1]], 2, [[0, 0]] * 2, [[4, 4]] * 2, [3], [[4], [4]], costs)


# ---- numbers at their limits


def one_variable(low, high, cost):
    return program_of([], [], 1, [[low]], [[high]], [], [[]], [[cost]])


def numbers():
    """Bounds, right sides and matrix entries as large as they may be, and past that."""
    free = lambda costs: program_of([], [[1, 1]], 2, [[-WIDE] * 2], [[WIDE] * 2], [], [[0]], [costs])
    text = (
        f"closed length {WIDE} gain {WIDE} at 1 -1 1\nclosed made 1 factor 4 digits 63\n"
        f"optimal\ncost {-WIDE}\n1 2\n{-WIDE} {WIDE}\n"
    )
    yield Case(
        "a range of 2^63",
        text_of(free([("q", 0, 1, 0), ZERO])),
        [Run("solve t --trace", out=text), Run("check t", out=f"yes optimal cost {-WIDE}\n")],
        lengths=64, sums=3, nodes=6,
    )
    yield solved("a range of 2^63, flat", free([ZERO, ZERO]), " --workers 16", workers=16)
    tall = program_of([], [[ENTRY, ENTRY]], 2, [[0, 0]], [[WIDE] * 2], [], [[WIDE]], [[ZERO, ZERO]])
    yield solved("a right side that the greatest entries miss by 1", tall, verdict="infeasible brick 1 residual 1")
    rows = [[0, 0]] * 16
    zeros = program_of(rows, rows, 2, [[0, 0]], [[1, 1]], [WIDE] * 16, [[0] * 16], [[ZERO, ZERO]])
    yield solved("linking rows of zeros", zeros, verdict=f"infeasible link residual {16 * WIDE}")
    signs, right = ["<", "=", ">", "<"] * 4, [-1, 0, 1, 0] * 4
    related = program_of([[0]] * 16, [], 1, [[0]], [[1]], right, [[]], [[("q", 1, -2, 0)]], signs)
    yield solved("sixteen relations", related, " --rel", verdict="infeasible link residual 8")
    none = program_of([], [], 1, [[0]], [[9]], [], [[]], [[("q", 1, -8, 0)]])
    yield solved("no rows at all", none, verdict="optimal cost -16")
    files = text_of(one_variable(-WIDE, WIDE, ZERO))
    low, high = f"1 1\n{-WIDE - 1}\n", f"1 1\n{WIDE + 1}\n"
    yield refused("a lower bound past 2^62", {**files, "t.lb": low}, "solve t", "input: t.lb: too-big at 4")
    yield refused("an upper bound past 2^62", {**files, "t.ub": high}, "solve t", "input: t.ub: too-big at 4")
    yield refused("a point past 2^62", {**files, "t.pt": high}, "point t", "input: t.pt: too-big at 4")
    wide = f"1 1\nq 0 {WIDE + 1} 0\n"
    yield refused("a cost past 2^62", {**files, "t.cost": wide}, "point t", "input: t.cost: syntax at 8")
    yield refused("a width of 33", {"t.link.mat": "0 33\n"}, "point t", "input: t.link.mat: shape at 2")
    yield refused("17 rows", {"t.link.mat": "17 1\n"}, "point t", "input: t.link.mat: shape at 0")
    yield refused("10,001 bricks", {**files, "t.lb": "10001 1\n"}, "point t", "input: t.lb: shape at 0")
    yield refused("no brick", {**files, "t.lb": "0 1\n"}, "point t", "input: t.lb: shape at 0")


def magnitudes():
    """Costs whose magnitudes are 2^120, alone or together, and one more."""
    half = 2**60
    falling = one_variable(0, half, ("q", 0, -half, 0))
    yield solved("a magnitude of 2^120", falling, verdict=f"optimal cost {-MAGNITUDE}")
    yield solved("a square of 2^120", one_variable(-half, half, ("q", 1, 0, 0)), verdict="optimal cost 0")
    past = text_of(one_variable(0, half, ("q", 0, -half, 1)))
    yield refused("a magnitude past 2^120", past, "solve t", "input: t.cost: too-large at brick 1 column 1")
    bricks = lambda last: text_of(program_of([], [], 1, [[0]] * 4, [[half]] * 4, [], [[]] * 4,
                                             [[("q", 0, half // 4, 0)]] * 3 + [[("q", 0, half // 4, last)]]))
    point = {"t.pt": plain.matrix_text([[half]] * 4, 1)}
    text = f"feasible\ncost {MAGNITUDE}\n"
    yield Case("magnitudes that add up to 2^120", {**bricks(0), **point}, [Run("point t", out=text)])
    yield refused("magnitudes past 2^120", {**bricks(-1), **point}, "point t", "input: t.cost: cost-sum")
    ends = ("p", [(-WIDE, WIDE), (0, -WIDE), (WIDE, WIDE)])
    yield Case(
        "breakpoints at the ends",
        {**text_of(one_variable(-WIDE, WIDE, ends)), "t.pt": "1 1\n1\n"},
        [Run("point t", out=f"feasible\ncost {2 - WIDE}\n"), Run("solve t", out=f"optimal\ncost {-WIDE}\n1 1\n0\n")],
        lengths=64, sums=3, nodes=6,
    )


# ---- matrices and settings


def bases():
    """`graver` on the greatest matrices, and at its limit exactly."""
    for sign, member in ((1, "1 -1"), (-1, "1 1")):
        files = {"m.mat": f"1 2\n{ENTRY} {sign * ENTRY}\n"}
        yield Case(f"entries of {ENTRY} and {sign * ENTRY}", files, [Run("graver m", out=f"1 2\n{member}\n")])
    for text, at in ((f"1 1\n{ENTRY + 1}\n", 4), (f"1 1\n{-ENTRY - 1}\n", 4)):
        yield refused("an entry past 2^31 - 1", {"m.mat": text}, "graver m", f"input: m.mat: too-big at {at}")
    # all columns equal: the unit vectors, and the differences of two of them
    whole = {"m.mat": plain.matrix_text([[ENTRY] * 32] * 16, 32)}
    unit = lambda i, j: [int(k == i) - int(k == j) for k in range(32)]
    pairs = sorted(unit(i, j) for i in range(32) for j in range(i + 1, 32))
    yield Case("16 equal rows of 32 columns", whole, [
        Run("graver m --max-basis 528", out=plain.matrix_text(pairs, 32)),
        Run("graver m --max-basis 527", 4, err="limit: basis\n"),
        Run("graver m", 4, err="limit: basis\n"),
    ], members=528)
    zeros = {"m.mat": plain.matrix_text([[0] * 32] * 16, 32)}
    units = plain.matrix_text(sorted([int(k == i) for k in range(32)] for i in range(32)), 32)
    yield Case("a matrix of zeros", zeros, [Run("graver m --max-basis 32", out=units)])
    # the basis of the row `1 c` has c + 2 members
    for c, status in ((1998, 0), (1999, 4)):
        out, err = (f"1 2\n{c} -1\n", "") if status == 0 else ("", "limit: basis\n")
        run = Run("graver m --max-basis 2000", status, out, err)
        yield Case(f"a basis of {c + 2}", {"m.mat": f"1 2\n1 {c}\n"}, [run], members=2000)
    yield Case("a basis of 1", {"m.mat": "0 1\n"}, [Run("graver m --max-basis 1", out="1 1\n1\n")])
    yield refused("a basis of 2 where 1 is allowed", {"m.mat": "0 2\n"}, "graver m --max-basis 1", "limit: basis", 4)
    many = {"m.mat": f"1 2\n{ENTRY} 1\n"}, {"m.mat": f"2 3\n{ENTRY} {ENTRY - 1} 1\n1 {ENTRY} {1 - ENTRY}\n"}
    for files in many:
        run = Run("graver m --max-basis 2000", 4, err="limit: basis\n")
        yield Case("billions of members", files, [run], members=2000)


def settings():
    """Each option at its least and its greatest, and past both."""
    usage = "usage: nfold point P, graver M, solve P, check P, trial NUMBER N"
    program = worked()
    yield solved("the greatest settings", program, " --workers 16 --max-basis 2000 --max-sums 20000", workers=16)
    yield solved("the settings that are just met", program, " --max-basis 3 --max-sums 5")
    bounds, rights = (program.lower, program.upper), [[1, 3], [2, 2]]
    alone = program_of([[1, 0]], [[1, 0], [0, 1]], 2, *bounds, [3], rights, program.costs)
    yield solved("the least sums", alone, " --workers 1 --max-basis 2 --max-sums 1")
    files = text_of(program)
    yield refused("a basis of 3 where 2 are allowed", files, "solve t --max-basis 2", "limit: brick-basis", 4)
    yield refused("5 sums where 4 are allowed", files, "solve t --max-sums 4", "limit: sums counted", 4)
    for words in ("solve t --workers 0", "solve t --workers 17", "solve t --max-basis 0", "solve t --max-basis 2001",
                  "solve t --max-sums 0", "solve t --max-sums 20001", "solve t --max-sums 0000005000",
                  "graver t --max-basis 0", "graver t --max-basis 2001", "trial 65536 1", "trial 0 0", "trial 0 10001",
                  "trial -1 1", "point " + "t" * 201, "point -t", "point", ""):
        yield refused("words that are no form", files, words, usage, 2)
    name = "t" * 200
    yield Case("a prefix of 200 bytes", text_of(program, name + "."), [Run(f"solve {name}", out=plain_text(program))])


def plain_text(program):
    """What is printed without a trace."""
    text = plain.solve(program)[0]
    return text[text.index("optimal\n"):] if "optimal\n" in text else text.strip().split("\n")[-1] + "\n"


# ---- tables


def ball(radius):
    """How many vectors of two whole numbers have so small a sum of absolute values."""
    return 2 * radius * radius + 2 * radius + 1


def tables():
    """As many nodes as a table may have, and one layer more; as many sums as there may be."""

    def program(bricks, c, moving):
        """One linking row `1 c`, whose complexity is c + 1; only the first bricks can move, by one."""
        upper = [[1, 1] if i < moving else [0, 0] for i in range(bricks)]
        costs = [[("q", 0, -1, 0), ZERO]] * bricks
        return program_of([[1, c]], [], 2, [[0, 0]] * bricks, upper, [0], [[]] * bricks, costs)

    most = " --max-sums 20000"
    for c, bricks, options, large in ((6, 9278, "", False), (48, 212, "", False), (98, 51, most, True)):
        count = ball(c + 1)
        assert (bricks + 1) * count <= CELLS < (bricks + 2) * count
        zeros = plain.matrix_text([[0, 0]] * bricks, 2)
        yield Case(
            f"{bricks} bricks and {count} sums", text_of(program(bricks, c, 1)),
            [Run("solve t" + options, out=f"optimal\ncost 0\n{zeros}"), Run("check t", out="yes optimal cost 0\n")],
            nodes=(bricks + 1) * count, sums=count, members=c + 2, large=large,
        )
        past = Run("solve t" + options, 4, err="limit: table closed\n")
        yield Case(f"{bricks + 1} bricks and {count} sums", text_of(program(bricks + 1, c, 1)), [past], sums=200)
    yield refused("5,101 sums", text_of(program(1, 49, 1)), "solve t", "limit: sums closed", 4)
    yield refused("20,201 sums", text_of(program(1, 99, 1)), "solve t" + most, "limit: sums closed", 4)
    wide = program_of([[ENTRY, -1]], [[1, 1]], 2, [[0, 0]], [[1, 1]], [0], [[0]], [[ZERO, ZERO]])
    line = "limit: link-entry row 1 column 1"
    yield refused("an entry of 2^31 in the link matrix", text_of(wide), "solve t", line, 4)
    last = program_of([[ENTRY, 0]], [[1, 1]], 2, [[0, 0]], [[1, 1]], [0], [[0]], [[ZERO, ZERO]])
    yield solved("an entry of 2^31 - 1 in the link matrix", last, verdict="optimal cost 0")


# ---- all at once


def confirmed(cost):
    """Whether the point that was printed is feasible and has this cost: `point` says so."""

    def then(case, call):
        lines = case.seen[0][1].split("\n", 2)
        if lines[:2] != ["optimal", f"cost {cost}"]:
            return f"wanted cost {cost}, got {lines[:2]}"
        answer = call("point t", {"t.pt": lines[2]})
        return "" if answer == (0, f"feasible\ncost {cost}\n", "") else f"point says {answer}"

    return then


def many_bricks():
    """10,000 bricks of one column and one linking row: the cheapest units are taken."""
    n, units = 10_000, 300
    costs = [[("q", 1, (7919 * i) % 1000, 0)] for i in range(n)]
    least = sum(sorted((2 * v + 1) + cost[0][2] for cost in costs for v in range(3))[:units])
    program = program_of([[1]], [], 1, [[0]] * n, [[3]] * n, [units], [[]] * n, costs)
    # the sums are -2 to 2
    sizes = {"nodes": 5 * (n + 1), "sums": 5, "lengths": 2}
    for options, workers in (("", 1), (" --workers 16", 16)):
        runs = [Run("solve t" + options, out=None), Run("check t", out=f"yes optimal cost {least}\n")]
        name = f"10,000 bricks of one column{options}"
        yield Case(name, text_of(program), runs, confirmed(least), workers=workers, **sizes)


def every_limit():
    """10,000 bricks of 32 columns, 16 and 16 rows, bounds of 2^62, matrices of 2^31 - 1, magnitudes of 2^120.

    All bricks but one are fixed at their bounds. The row of a pair of columns is 2^31 - 1 times their sum, so that the
    generators are the pairs' differences, and the linking rows are zeros, or do not tell the two columns apart.
    """
    n, t, place = 10_000, 32, 4999
    pairs = [[ENTRY if j // 2 == row else 0 for j in range(t)] for row in range(16)]
    zeros, firsts = [[0] * t] * 16, [[ENTRY if j == 2 * row else 0 for j in range(t)] for row in range(16)]
    fixed = [WIDE, -WIDE] * 16
    lower = [[-WIDE] * t if i == place else fixed for i in range(n)]
    upper = [[WIDE] * t if i == place else fixed for i in range(n)]
    # one column can still fall from 0 to -2^62, with another that rises; the first brick has all the rest of 2^120
    costs = [[ZERO] * t for _ in range(n)]
    costs[place] = [("q", 0, 1, 0)] + [ZERO] * (t - 1)
    costs[0] = [("q", 0, 2**58 - 1, 0)] + [ZERO] * (t - 1)
    make = lambda link, right_link, right: program_of(link, pairs, t, lower, upper, right_link, right, costs)
    met = [[0] * 16] * n
    cost = (2**58 - 1) * WIDE - WIDE
    # the sums are 0 and each pair's difference with either sign
    sizes = {"nodes": 33 * (n + 1), "sums": 33, "lengths": 64}
    optimum = Run("check t", out=f"yes optimal cost {cost}\n")

    def ends(name, program, line):
        """A program that cannot be met, as this line says."""
        runs = [Run("solve t", out=line + "\n"), Run("check t", out=f"yes {line}\n")]
        return Case(name, text_of(program), runs, **sizes)

    files = text_of(make(zeros, [0] * 16, met))
    for workers in (1, 16):
        run = Run(f"solve t --workers {workers}", out=None)
        name = f"every limit at once, workers {workers}"
        yield Case(name, files, [run, optimum], confirmed(cost), workers=workers, **sizes)
    equal = make([[ENTRY] * t] * 16, [0] * 16, met)
    runs = [Run("solve t", out=None), optimum]
    yield Case("every limit, equal links", text_of(equal), runs, confirmed(cost), **sizes)
    more = {"t.cost": files["t.cost"].rsplit("q 0 0 0", 1)[0] + "q 0 0 1\n"}
    yield refused("every limit, a magnitude more", {**files, **more}, "solve t", "input: t.cost: cost-sum")
    missed = make(zeros, [WIDE, -WIDE] * 8, met)
    yield ends("every limit, links missed", missed, f"infeasible link residual {16 * WIDE}")
    stuck = make(zeros, [0] * 16, [[WIDE] * 16 if i == place else [0] * 16 for i in range(n)])
    yield ends("every limit, a brick stuck", stuck, f"infeasible brick {place + 1} residual 16")
    # sums of two differences: 1, twice 16, twice 16 and four times 120, too many for so many layers
    single = text_of(make(firsts, [1] * 16, met))
    yield refused("every limit, links of single columns", single, "solve t", "limit: table counted", 4)


def breakpoints():
    """1,000 breakpoints for each cost, and 1,001."""
    n = 300
    curve = ("p", [(v, v * v) for v in range(-499, 501)])
    lower, upper = [[-499]] * n, [[500]] * n
    best = program_of([], [], 1, lower, upper, [], [[]] * n, [[curve]] * n)
    files = {**text_of(best), "t.pt": plain.matrix_text([[v - 150] for v in range(n)], 1)}
    cost = sum((v - 150) ** 2 for v in range(n))
    yield Case("1,000 breakpoints", files, [
        Run("point t", out=f"feasible\ncost {cost}\n"),
        Run("solve t", out=f"optimal\ncost 0\n" + plain.matrix_text([[0]] * n, 1)),
    ], nodes=3 * (n + 1), sums=3, lengths=10)
    n = 6_000
    many = program_of([], [], 1, [[-499]] * n, [[500]] * n, [], [[]] * n, [[curve]] * n)
    files = {**text_of(many), "t.pt": plain.matrix_text([[-499]] * n, 1)}
    assert FILE * 9 // 10 < len(files["t.cost"]) <= FILE
    yield Case("6,000,000 breakpoints", files, [Run("point t", out=f"feasible\ncost {499 * 499 * n}\n")])
    files = text_of(one_variable(0, 1, ZERO))
    longer = "1 1\np 1001 " + " ".join(f"{v} 0" for v in range(1001)) + "\n"
    yield refused("1,001 breakpoints", {**files, "t.cost": longer}, "point t", "input: t.cost: syntax at 6")


# ---- files


def padded(text, size):
    return text + " " * (size - len(text))


def files():
    """Files of the greatest size, and one byte more."""
    program = worked()
    certificate = plain.solve(program)[1]
    whole = {**text_of(program), "t.pt": "2 2\n1 3\n2 2\n", "t.cert": certificate}
    command = {"pt": ("point t", "feasible\ncost 5\n"), "cert": ("check t", "yes optimal cost 5\n")}
    for kind in ("link.mat", "brick.mat", "lb", "ub", "rhs", "rel", "cost", "pt", "cert"):
        name, most = "t." + kind, CERTIFICATE if kind == "cert" else FILE
        words, answer = command.get(kind, ("point t --rel", "feasible\ncost 5\n"))
        yield Case(f"{name} of {most} bytes", {**whole, name: padded(whole[name], most)}, [Run(words, out=answer)])
        longer = {**whole, name: padded(whole[name], most + 1)}
        yield refused(f"{name} of {most + 1} bytes", longer, words, f"input: {name}: too-long")
    zeros = "0" * (FILE - len("1 1\n7\n"))
    yield Case("a number of 2^26 digits", {"m.mat": f"1 1\n{zeros}7\n"}, [Run("graver m", out="0 1\n")])


def certificates():
    """Certificates with parts of the greatest size, and past each of the limits of reading."""
    whole = text_of(worked())
    sizes = {"point": (10_000, 32, WIDE), "bricks": (2_000, 48, ENTRY), "links": (2_000, 2_016, ENTRY),
             "sums": (20_000, 33, 2**47), "potentials": (52, 20_000, 2**124)}

    def text(changed=None, rows=0, cols=0, entry=None):
        """All parts full of their largest entries, or one of them with more rows or columns, or another entry."""
        parts = ["nfold-certificate 1\nclaim optimal\n"]
        for name, (height, width, largest) in sizes.items():
            if name == changed:
                height, width, largest = height + rows, width + cols, largest if entry is None else entry
            if name == "sums":
                parts.append(f"bound {WIDE}\n")
            row = f"{WIDE} " * (name == "sums") + f"{largest} " * (width - (name == "sums"))
            parts.append(f"{name}\n{height} {width}\n" + (row + "\n") * height)
        return "".join(parts) + "end\n"

    yield Case("a certificate of the greatest parts", {**whole, "t.cert": text()}, [Run("check t", 1, "no C1\n")])
    for name, (height, width, largest) in sizes.items():
        for more, kind in (({"rows": 1}, "too-many"), ({"cols": 1}, "too-many"), ({"entry": largest + 1}, "too-big")):
            if name == "potentials" and "rows" in more:
                # 53 rows are allowed by themselves: the product is refused, at the number of columns
                place = f"{name}\n53 "
            elif kind == "too-big":
                place = f"{name}\n{height} {width}\n" + f"{WIDE} " * (name == "sums")
            else:
                place = f"{name}\n" + (f"{height} " if "cols" in more else "")
            broken = text(name, **more)
            at = broken.index(place) + len(place)
            [what] = more
            line = f"input: t.cert: {kind} at {at}"
            yield refused(f"{name} with more: {what}", {**whole, "t.cert": broken}, "check t", line)
    claim = "nfold-certificate 1\nclaim infeasible-brick 10001\n"
    yield refused("a claim on brick 10,001", {**whole, "t.cert": claim}, "check t", "input: t.cert: too-big at 43")
    bound = text().replace(f"bound {WIDE}", f"bound {WIDE + 1}")
    line = f"input: t.cert: too-big at {bound.index('bound') + 6}"
    yield refused("a bound past 2^62", {**whole, "t.cert": bound}, "check t", line)


def trials():
    """Trials of many customers."""
    for number, customers, large in ((0, 1, False), (65535, 200, False), (65535, 2000, True), (1, 10_000, True)):
        def then(case, call, head=f"trial number {number} bricks {customers} optimal cost "):
            out = case.seen[0][1]
            return "" if out.startswith(head) and out.endswith(" check yes\n") else f"got {out!r}"

        out = "trial number 0 bricks 1 optimal cost 12 made 1 check yes\n" if customers == 1 else None
        yield Case(f"a trial of {customers} customers", {}, [Run(f"trial {number} {customers}", out=out)], then,
                   nodes=37 * (customers + 1), sums=37, lengths=3, large=large)


GROUPS = [
    numbers, magnitudes, bases, settings, tables, many_bricks, every_limit, breakpoints, files, certificates, trials,
]


# ---- running

# A small process starts each run: until it has a program of its own, a process counts the memory of who started it.
LAUNCHER = """
import os, signal, sys
child = os.fork()
if not child:
    for number, path in ((1, sys.argv[2]), (2, sys.argv[3])):
        os.dup2(os.open(path, os.O_WRONLY | os.O_CREAT | os.O_TRUNC), number)
    signal.alarm(int(sys.argv[1]))
    os.execv(sys.argv[4], sys.argv[4:])
_, status, usage = os.wait4(child, 0)
print(status, usage.ru_maxrss)
"""


def held(folder):
    """How many bytes what the files spell may take, in lists with twice the room, and the longest while it is read."""
    longest = entries = 0
    for name in os.listdir(folder):
        if name.startswith("."):
            continue
        longest = max(longest, os.path.getsize(os.path.join(folder, name)))
        each = 64 if name.endswith(".cert") else 16
        with open(os.path.join(folder, name), encoding="ascii") as file:
            for line in file:
                entries += each * len(line.split())
                if name.endswith(".cost"):
                    entries += 192 * (line.count("q") + line.count("p"))
    return 3 * longest + entries


def allowed(case, folder):
    """How many bytes a run may take by docs/FORMATS.md, and 16 MB for the process and a MB for each worker."""
    bases = 48 * case.members**2
    kept = 64 * min(2**22, case.nodes * case.lengths)
    workers = (96 * case.nodes + 2**20) * case.workers
    return 2**24 + held(folder) + bases + 8 * case.sums**2 * (case.sums <= 5000) + max(kept + workers, 320 * case.nodes)


def call(binary, folder, words, seconds):
    """The status, both texts, the peak of memory in bytes and the elapsed seconds; status None where time ran out."""
    begin = time.monotonic()
    paths = [os.path.join(folder, name) for name in (".out", ".err")]
    launch = [sys.executable, "-I", "-S", "-c", LAUNCHER, str(seconds), *paths, binary, *words.split()]
    told = subprocess.run(launch, cwd=folder, capture_output=True, check=True, text=True).stdout
    status, peak = map(int, told.split())
    elapsed, texts = time.monotonic() - begin, []
    for path in paths:
        with open(path, encoding="ascii", errors="replace") as file:
            texts.append(file.read())
    status = None if os.WIFSIGNALED(status) and os.WTERMSIG(status) == signal.SIGALRM else status
    return status if status is None else os.waitstatus_to_exitcode(status), *texts, peak * 1024, elapsed


def put(folder, files):
    for name, text in files.items():
        with open(os.path.join(folder, name), "w", encoding="ascii") as file:
            file.write(text)


def shown(text):
    return repr(text if len(text) < 300 else text[:200] + " .. " + text[-60:])


def fault_of(run, got, folder):
    """What differs from what is wanted."""
    status, out, err = got[:3]
    if status is None:
        return "time ran out"
    if status != run.status:
        return f"status {status}, wanted {run.status}; {shown(err)}"
    for is_now, wanted in ((out, run.out), (err, run.err)):
        if wanted is not None and is_now != wanted:
            return f"got {shown(is_now)}, wanted {shown(wanted)}"
    if run.stored is not None:
        with open(os.path.join(folder, "t.cert"), encoding="ascii") as file:
            stored = file.read()
        if stored != run.stored:
            return f"stored {shown(stored)}, wanted {shown(run.stored)}"
    return ""


def tried(binary, case, seconds):
    """How many runs there were and what was wrong; prints a line on each."""
    bad = runs = 0
    with tempfile.TemporaryDirectory() as folder:
        put(folder, case.files)

        def again(words, files):
            put(folder, files)
            return call(binary, folder, words, seconds)[:3]

        for run in case.runs:
            got = call(binary, folder, run.words, seconds)
            case.seen.append(got)
            runs += 1
            fault = fault_of(run, got, folder)
            most = allowed(case, folder)
            if not fault and got[3] > most:
                fault = f"more memory than {most / 1e6:.0f} MB"
            bad += bool(fault)
            words = run.words if len(run.words) < 40 else run.words[:37] + ".."
            used = f"{got[4]:8.2f} s {got[3] / 1e6:8.1f} of {most / 1e6:8.1f} MB"
            print(f"{case.name:44} {words:40} {used} {fault}", flush=True)
        fault = case.then(case, again) if case.then and not bad else ""
        if fault:
            bad += 1
            print(f"{case.name}: {fault}", flush=True)
    return runs, bad


def main():
    parser = argparse.ArgumentParser(description="Runs nfold at its limits and past them.")
    parser.add_argument("--program", default=os.path.join(small.ROOT, "crates", "nfold", "out", "nfold"))
    parser.add_argument("--only", default="", help="only cases, or groups of them, with this word in their name")
    parser.add_argument("--seconds", type=int, default=600)
    parser.add_argument("--large", action="store_true")
    options = parser.parse_args()
    binary, runs, bad = os.path.abspath(options.program), 0, 0
    for group in GROUPS:
        for case in group():
            if (options.only in case.name or options.only in group.__name__) and (options.large or not case.large):
                count, wrong = tried(binary, case, options.seconds)
                runs, bad = runs + count, bad + wrong
    print(f"{runs} runs, {bad} otherwise")
    return 1 if bad else 0


if __name__ == "__main__":
    sys.exit(main())
