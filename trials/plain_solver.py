"""A plain reading of the solver's rules in Python, with no part of the program, for small n-fold programs.

It knows definitions alone: slack bases by completion over all pairs, brick sums level by level, the rule's step as the
least of all walks. It is slow on purpose, and keeps no table from one step to the next.
"""
from dataclasses import dataclass
from functools import lru_cache

EQUAL, LESS, GREATER = "=", "<", ">"


def dot(u, v):
    return sum(a * b for a, b in zip(u, v))


def add(u, v, times=1):
    return tuple(a + times * b for a, b in zip(u, v))


def below(u, v):
    return all(a * b >= 0 and abs(a) <= abs(b) for a, b in zip(u, v))


def leads_positive(v):
    for a in v:
        if a:
            return a > 0
    return False


def slack_basis(rows, columns):
    """One of each pair of signs of the minimal elements of all (v, A·v), those that lead positive, in order.

    By completion over all rows at once, and then a filter of what is minimal: not the way of the program.
    """
    def element(v):
        return tuple(v) + tuple(dot(row, v) for row in rows)

    found = set()
    for j in range(columns):
        found.add(element(tuple(int(i == j) for i in range(columns))))

    def reduce(z):
        again = True
        while any(z) and again:
            again = False
            for e in found:
                for sign in (1, -1):
                    s = tuple(sign * a for a in e)
                    if below(s, z):
                        z = add(z, s, -1)
                        again = True
                        break
                if again:
                    break
        return z

    pairs = [(a, b) for a in found for b in found]
    while pairs:
        a, b = pairs.pop()
        for z in (add(a, b), add(a, b, -1)):
            z = reduce(z)
            if any(z):
                z = z if leads_positive(z) else tuple(-x for x in z)
                found.add(z)
                pairs += [(z, c) for c in found]
    signed = [tuple(s * a for a in e) for e in found for s in (1, -1)]
    return sorted(z for z in found if not any(e != z and below(e, z) for e in signed))


def first_parts(basis, columns, image_zero=False):
    return [z[:columns] for z in basis if not image_zero or not any(z[columns:])]


@dataclass
class Program:
    link: list
    brick: list
    columns: int
    lower: list
    upper: list
    right_link: list
    right_brick: list
    relations: list
    costs: list  # of bricks, each a list of ("q", a, b, c) or ("p", [(at, value), ..])

    def value(self, cost, v):
        if cost[0] == "q":
            _, a, b, c = cost
            return a * v * v + b * v + c
        points = cost[1]
        for (x, f), (y, g) in zip(points, points[1:]):
            if v <= y:
                return f + (g - f) // (y - x) * (v - x)
        return points[-1][1]

    def brick_cost(self, i, v):
        return sum(self.value(c, a) for c, a in zip(self.costs[i], v))

    def cost(self, x):
        return sum(self.brick_cost(i, v) for i, v in enumerate(x))

    def within(self, i, v):
        return all(l <= a <= u for l, a, u in zip(self.lower[i], v, self.upper[i]))

    def residual(self, i, v):
        return sum(abs(b - dot(row, v)) for row, b in zip(self.brick, self.right_brick[i]))

    def rests(self, x):
        return tuple(b - sum(dot(row, v) for v in x) for row, b in zip(self.link, self.right_link))

    def miss(self, rests):
        total = 0
        for relation, rest in zip(self.relations, rests):
            total += abs(rest) if relation == EQUAL else max(0, -rest if relation == LESS else rest)
        return total

    def phase_cost(self, phase, x):
        return self.cost(x) if phase == "closed" else self.miss(self.rests(x))

    def lengths(self):
        widest = max((u - l for ls, us in zip(self.lower, self.upper) for l, u in zip(ls, us)), default=0)
        return [k for k in range(64) if 2**k <= max(1, widest)]

    def image(self, w):
        return tuple(dot(row, w) for row in self.link)


def settle_brick(program, i, parts):
    v = tuple(min(max(0, l), u) for l, u in zip(program.lower[i], program.upper[i]))
    trace = []
    while True:
        best = None
        for part in parts:
            for signed in (part, tuple(-a for a in part)):
                for k in program.lengths():
                    y = add(v, signed, 2**k)
                    if program.within(i, y) and program.residual(i, y) < program.residual(i, v):
                        key = (program.residual(i, y), k, signed)
                        best = min(best, key) if best else key
        if not best:
            return v, trace
        trace.append((2 ** best[1], best[2]))
        v = add(v, best[2], 2 ** best[1])


def brick_sums(generators, columns, bound):
    levels = {(0,) * columns: 0}
    last, level = [(0,) * columns], 0
    while last and level < bound:
        level += 1
        fresh = []
        for w in last:
            for g in generators:
                for s in (1, -1):
                    u = add(w, g, s)
                    if u not in levels:
                        levels[u] = level
                        fresh.append(u)
        last = fresh
    return levels


def complexity(program, links, width, phase):
    bound = 2 if any(any(row) for row in links[0]) else 1
    for z in links[1]:
        image = z[width:]
        if phase == "closed" and any(a for a, r in zip(image, program.relations) if r == EQUAL):
            continue
        bound = max(bound, sum(map(abs, z[:width])))
    return bound


def least_walks(program, phase, sums, x, k):
    """For each layer and sum the least (cost, move of each further brick) of a walk to the end; None where none ends."""
    step, rests = 2**k, program.rests(x)
    start = program.miss(rests)

    def end(w):
        after = tuple(a - step * b for a, b in zip(rests, program.image(w)))
        if phase == "closed":
            return 0 if program.miss(after) == 0 else None
        return program.miss(after) - start

    layer = {w: (None if end(w) is None else (end(w), ())) for w in sums}
    layers = [layer]
    for i in reversed(range(len(x))):
        moves = [(h, program.brick_cost(i, add(x[i], h, step)) - program.brick_cost(i, x[i]) if phase == "closed" else 0)
                 for h in sums if program.within(i, add(x[i], h, step))]
        fresh = {}
        for w in sums:
            best = None
            for h, change in moves:
                behind = layer.get(add(w, h))
                if behind is not None:
                    offer = (change + behind[0], (h,) + behind[1])
                    best = min(best, offer) if best else offer
            fresh[w] = best
        layer = fresh
        layers.append(layer)
    return layers[::-1]


def run(program, phase, sums, x):
    steps, zero = [], (0,) * program.columns
    while True:
        best = None
        for k in program.lengths():
            found = least_walks(program, phase, sums, x, k)[0][zero]
            if found and found[0] < 0:
                key = (found[0], k, found[1])
                best = min(best, key) if best else key
        if not best:
            return steps, x
        change, k, move = best
        steps.append((2**k, -change, move))
        x = [add(v, h, 2**k) for v, h in zip(x, move)]


def matrix_text(rows, columns):
    return "".join(" ".join(map(str, row)) + "\n" for row in [(len(rows), columns)] + list(rows))


def solve(program):
    """The text that `nfold solve --trace` is to print, and the text of its certificate."""
    t, n = program.columns, len(program.lower)
    bricks = slack_basis(program.brick, t)
    parts = first_parts(bricks, t)
    lines, x = [], []
    for i in range(n):
        v, trace = settle_brick(program, i, parts)
        lines += [f"brick {i + 1} length {length} vector " + " ".join(map(str, part)) for length, part in trace]
        x.append(v)
        residual = program.residual(i, v)
        if residual:
            lines.append(f"infeasible brick {i + 1} residual {residual}")
            certificate = f"nfold-certificate 1\nclaim infeasible-brick {i + 1}\npoint\n" + matrix_text([v], t)
            certificate += "bricks\n" + matrix_text(bricks, t + len(program.brick)) + "end\n"
            return "\n".join(lines) + "\n", certificate
    generators = first_parts(bricks, t, True)
    p = len(generators)
    link_matrix = [[dot(row, g) for g in generators] for row in program.link]
    links = slack_basis(link_matrix, p) if p else []

    def phase_run(phase, x):
        bound = complexity(program, (link_matrix, links), p, phase)
        levels = brick_sums(generators, t, bound)
        sums = sorted(levels)
        steps, y = run(program, phase, sums, x)
        for length, gain, move in steps:
            ats = "".join(f" at {i + 1} " + " ".join(map(str, h)) for i, h in enumerate(move) if any(h))
            lines.append(f"{phase} length {length} gain {gain}" + ats)
        widest = max(max([abs(a) for a in w + program.image(w)], default=0) for w in sums)
        factor = 2 * (n * t + len(program.link)) * widest
        digits = sum(gain for _, gain, _ in steps).bit_length()
        lines.append(f"{phase} made {len(steps)} factor {factor} digits {digits}")
        return y, bound, levels

    def certificate(claim, phase, x, bound, levels):
        sums = sorted(levels)
        layers = least_walks(program, phase, sums, x, 0)
        text = f"nfold-certificate 1\nclaim {claim}\npoint\n" + matrix_text(x, t)
        text += "bricks\n" + matrix_text(bricks, t + len(program.brick))
        text += "links\n" + matrix_text(links, p + len(program.link)) + f"bound {bound}\n"
        text += "sums\n" + matrix_text([(levels[w],) + w for w in sums], 1 + t)
        cells = [["none" if layer[w] is None else layer[w][0] for w in sums] for layer in layers]
        return text + "potentials\n" + matrix_text(cells, len(sums)) + "end\n"

    if program.miss(program.rests(x)):
        x, bound, levels = phase_run("counted", x)
        left = program.miss(program.rests(x))
        if left:
            lines.append(f"infeasible link residual {left}")
            return "\n".join(lines) + "\n", certificate("infeasible-link", "counted", x, bound, levels)
    x, bound, levels = phase_run("closed", x)
    lines += ["optimal", f"cost {program.cost(x)}"]
    return "\n".join(lines) + "\n" + matrix_text(x, t), certificate("optimal", "closed", x, bound, levels)
