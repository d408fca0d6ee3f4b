#!/usr/bin/env python3
"""Counts what the steps of a solve take: sweeps, menus read, layers kept and moves tried, for each step of a run.

    python3 bench/sweeps.py [--program FILE] [--family NAME ..] [--most N]

The counts are those of a mirror in Python of how one worker of the program seeks a step, on the families of
bench/steps.py for n = 30, 100 and 300. The steps of the mirror are compared with those that `nfold solve --trace`
prints for the same program, from crates/nfold/out unless another is given; where a line differs, or the program
is not there, that is said, and the status is 1 where one differs. A sweep is the search for a step of one length; a
menu is read for each brick that is not passed in a block; a layer is kept for each brick that changes one.
"""
import argparse
import os
import sys
import tempfile

ROOT = os.path.dirname(os.path.dirname(os.path.abspath(__file__)))
sys.path += [os.path.join(ROOT, "trials"), os.path.join(ROOT, "bench")]
import plain_solver as plain
import steps as families

SIZES, BLOCK = [30, 100, 300], 16


class Fold:
    """The sums of a phase, and where each leads from each."""

    def __init__(self, program, phase, sums):
        self.program, self.phase, self.sums = program, phase, sums
        places = {w: at for at, w in enumerate(sums)}
        self.to = [[places.get(plain.add(w, h)) for w in sums] for h in sums]
        self.zero = places[(0,) * program.columns]

    def menu(self, i, at, k):
        """The moves of a brick by their places, each with what it changes the phase cost by."""
        program, moves = self.program, {}
        for place, h in enumerate(self.sums):
            v = plain.add(at, h, 2**k)
            if program.within(i, v):
                closed = self.phase == "closed"
                moves[place] = program.brick_cost(i, v) - program.brick_cost(i, at) if closed else 0
        return moves

    def ends(self, x, k):
        """The last layer: what walks cost that end at each sum, and none where none may end."""
        program, rests = self.program, self.program.rests(x)
        before, layer = program.miss(rests), []
        for w in self.sums:
            after = program.miss(tuple(a - 2**k * b for a, b in zip(rests, program.image(w))))
            layer.append((0 if after == 0 else None) if self.phase == "closed" else after - before)
        return layer


class Sweep:
    """A search for the best step of one length."""

    def __init__(self, fold, menus, ends, need, counts):
        self.fold, self.menus, self.need, self.counts = fold, menus, need, counts
        self.layer, self.tops, self.layers = ends, [None] * len(fold.sums), [ends]
        self.least = [min(0, min(menu.values())) for menu in menus]

    def is_idle(self, place, change, limit):
        if self.tops[place] is None or self.tops[place] > change:
            self.tops[place] = self.top(place, limit)
        return self.tops[place] is not None and self.tops[place] <= change

    def top(self, place, limit):
        most = -(1 << 127)
        for cost, to in zip(self.layer, self.fold.to[place]):
            if to is not None and self.layer[to] is not None and self.layer[to] <= limit:
                if cost is None:
                    return None
                most = max(most, cost - self.layer[to])
        return most

    def block_is_idle(self, brick, limit):
        changes = {}
        for menu in self.menus[brick - BLOCK:brick]:
            for place, change in menu.items():
                changes[place] = min(change, changes.get(place, change))
        return all(self.is_idle(place, changes[place], limit) for place in sorted(changes))

    def add_layer(self, menu, limit):
        self.counts["menus"] += 1
        fresh, differs = list(self.layer), False
        for place, change in sorted(menu.items()):
            if self.is_idle(place, change, limit):
                continue
            for w, to in enumerate(self.fold.to[place]):
                if to is not None and self.layer[to] is not None and self.layer[to] <= limit:
                    self.counts["moves"] += 1
                    cost = change + self.layer[to]
                    if fresh[w] is None or cost < fresh[w]:
                        fresh[w], differs = cost, True
        if differs:
            self.counts["layers"] += 1
            spread = self.spread(fresh, limit)
            self.tops = [None if top is None or spread is None else top + spread for top in self.tops]
            self.layer = fresh
        self.layers.append(self.layer)

    def spread(self, fresh, limit):
        most, least = -(1 << 127), 1 << 127
        for before, after in zip(self.layer, fresh):
            if after is not None and after <= limit:
                if before is None or before > limit:
                    return None
                most = max(most, before - after)
            if before is not None:
                least = min(least, before - after)
        return most - least

    def best(self):
        """The gain and the moves of the best step that gains what is needed; none where there is none."""
        self.counts["sweeps"] += 1
        floor, brick = sum(self.least), len(self.menus)
        while brick:
            limit = -self.need - floor
            if not any(cost is not None and cost <= limit for cost in self.layer):
                return None
            if brick % BLOCK == 0 and self.block_is_idle(brick, limit):
                self.layers += [self.layer] * BLOCK
                floor -= sum(self.least[brick - BLOCK:brick])
                brick -= BLOCK
            else:
                floor -= self.least[brick - 1]
                self.add_layer(self.menus[brick - 1], limit)
                brick -= 1
        total = self.layer[self.fold.zero]
        return None if total is None or total > -self.need else (-total, self.read(total))

    def read(self, cost):
        w, moves, n = self.fold.zero, [], len(self.menus)
        for i, menu in enumerate(self.menus):
            behind = self.layers[n - i - 1]
            for place, change in sorted(menu.items()):
                to = self.fold.to[place][w]
                if to is not None and behind[to] is not None and change + behind[to] == cost:
                    moves.append(place)
                    w, cost = to, behind[to]
                    break
        return moves


def run(fold, x, counts):
    """The lines of the steps from a point, and where they end."""
    program, lines = fold.program, []
    lengths = list(program.lengths())
    menus = {k: [fold.menu(i, v, k) for i, v in enumerate(x)] for k in lengths}
    while True:
        best = None
        for k in lengths:
            need = 1 if best is None else best[0] + 1
            found = Sweep(fold, menus[k], fold.ends(x, k), need, counts).best()
            if found:
                best = (found[0], k, found[1])
            elif k == 0:
                break
        if best is None:
            return lines, x
        gain, k, moves = best
        counts["steps"] += 1
        parts = [(i, fold.sums[place]) for i, place in enumerate(moves) if place != fold.zero]
        ats = "".join(f" at {i + 1} " + " ".join(map(str, h)) for i, h in parts)
        lines.append(f"{fold.phase} length {2**k} gain {gain}{ats}")
        for i, h in parts:
            x[i] = plain.add(x[i], h, 2**k)
            for j in lengths:
                menus[j][i] = fold.menu(i, x[i], j)


def mirror(parts, counts):
    """The lines of all steps of both phases."""
    t, r = len(parts["brick"][0]), len(parts["link"])
    n, s = len(parts["upper"]), len(parts["brick"])
    costs = [[("q", *map(int, cost.split()[1:])) for cost in row] for row in parts["costs"]]
    rights = [parts["right"][r + i * s:r + (i + 1) * s] for i in range(n)]
    lower = [[0] * t for _ in range(n)]
    program = plain.Program(
        parts["link"], parts["brick"], t, lower, parts["upper"], parts["right"][:r], rights, [plain.EQUAL] * r, costs
    )
    bricks = plain.slack_basis(program.brick, t)
    generators = plain.first_parts(bricks, t, True)
    x = [plain.settle_brick(program, i, plain.first_parts(bricks, t))[0] for i in range(n)]
    matrix = [[plain.dot(row, g) for g in generators] for row in program.link]
    links = plain.slack_basis(matrix, len(generators))
    lines = []
    for phase in ["counted", "closed"]:
        bound = plain.complexity(program, (matrix, links), len(generators), phase)
        sums = sorted(plain.brick_sums(generators, t, bound))
        more, x = run(Fold(program, phase, sums), x, counts)
        lines += more
    return lines


def told(program, parts):
    """The lines of steps that the program prints; none where it is not there."""
    if not os.path.exists(program):
        return None
    with tempfile.TemporaryDirectory() as folder:
        families.write(folder, parts)
        text = families.run([program, "solve", "b", "--trace"], folder)[1]
    return [line for line in text.split("\n") if line.startswith(("counted length", "closed length"))]


def main():
    parser = argparse.ArgumentParser(description="Counts what the steps of a solve take, in a mirror.")
    parser.add_argument("--program", default=os.path.join(ROOT, "crates", "nfold", "out", "nfold"))
    parser.add_argument("--family", nargs="*", default=["allocation", "transport-2", "transport-3"])
    parser.add_argument("--most", type=int, default=300)
    options = parser.parse_args()
    print("for each step        n    steps   sweeps    menus   layers     moves   as the program")
    differ = 0
    for family in options.family:
        for n in [n for n in SIZES if n <= options.most]:
            counts = dict.fromkeys(["steps", "sweeps", "menus", "layers", "moves"], 0)
            parts = families.made(family, n)
            lines = mirror(parts, counts)
            printed = told(os.path.abspath(options.program), parts)
            same = "not there" if printed is None else "yes" if printed == lines else "no"
            differ += same == "no"
            each = [counts[name] / counts["steps"] for name in ["sweeps", "menus", "layers", "moves"]]
            row = "{:9.1f}{:9.1f}{:9.1f}{:10.1f}".format(*each)
            print(f"{family:14}{n:8}{counts['steps']:9}{row}   {same}", flush=True)
    return 1 if differ else 0


if __name__ == "__main__":
    sys.exit(main())
