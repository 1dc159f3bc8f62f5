#!/usr/bin/env python3
"""Makes the stored cases of the crate `vectors_weight`: sort, weights, choice of the table, tables, generated tables, exact integrals, products.

    vectors_weight.py DRIVER CRATE_FOLDER [SEED]

Writes CRATE_FOLDER/stdin and CRATE_FOLDER/stdout. The answer of an accepted call is the Rust's. Whether a call is accepted, and its
number where it is not, comes from the questions of document 01 (scope.py, and below). The exact integrals come from neither: they are
divided differences in fractions, and the Rust's own answers are held against them too. The generated tables come from the words of request
6, and must be the Rust's as collections.
"""
import itertools
import math
from fractions import Fraction

import records
from records import Rng, down, line, request, unhexed, up
from scope import point_ok, small

NAN = math.nan


# ---- document 01: the questions

def weight_refusal(omega, vertices):
    if len(vertices) not in (96, 192, 288, 384):
        return 7
    return 0 if all(map(point_ok, vertices)) and point_ok(omega) else 11


def lattice_refusal(entries):
    return 0 if all(abs(x) <= 2.0**30 for x in entries) else 2


def product_refusal(entries, vector):
    return lattice_refusal(entries) or (0 if small(vector) else 7)


# ---- exact integrals

def derivative(omega, x, power, k):
    """The k-th derivative by x of (omega - x)^power where x is at most omega, and of 0 above it, divided by k!."""
    if x > omega or k > power:
        return Fraction(0)
    return Fraction((-1)**k * math.comb(power, k)) * (omega - x)**(power - k)


def divided_difference(nodes, omega, power):
    """[nodes] of that function; nodes may be equal."""
    x = sorted(nodes)
    if x[0] == x[-1]:
        return derivative(omega, x[0], power, len(x) - 1)
    return (divided_difference(x[1:], omega, power) - divided_difference(x[:-1], omega, power)) / (x[-1] - x[0])


def exact_weight(function, omega, row):
    """The part of a tetrahedron's density (I) or number of states (J) that belongs to its first vertex, by Hermite and Genocchi."""
    o, v = Fraction(omega), [Fraction(x) for x in row]
    if function == "J":
        return divided_difference(v + v[:1], o, 4) / 4
    return divided_difference(v + v[:1], o, 3)


def exact_whole(function, omega, row):
    """The density of states (I) or the number of states (J) of a whole tetrahedron."""
    o, v = Fraction(omega), [Fraction(x) for x in row]
    return -divided_difference(v, o, 3) if function == "J" else -3 * divided_difference(v, o, 2)


def around(x, width):
    """Floats that enclose x by at most the width."""
    low, high = float(x - width), float(x + width)
    while Fraction(low) < x - width:
        low = up(low)
    while Fraction(high) > x + width:
        high = down(high)
    return low, high


# ---- cases

class Cases(records.Cases):
    worst = 0.0

    def group(self, *given):
        self.groups.append(list(given))

    def weight_request(self, function, omega, vertices, make):
        """A record made of the Rust's weight."""
        self.wait([request("vertices", *vertices), request("?weight", function, omega)], lambda answer: make(unhexed(answer[0][0])))

    def sort(self, row):
        self.group()
        self.counts["sort"].append(0)
        self.wait([request("?sort", *row)], lambda a: line(1, *row, int(a[0][0]), *map(unhexed, a[0][1:])))

    def weight(self, record, function, omega, vertices, *spelled):
        """A weight; its record is of that kind and spells these vertices."""
        no = weight_refusal(omega, vertices)
        self.counts["weight"].append(no)
        head = (record, "IJ".index(function), no, omega, *spelled)
        if no:
            self.put(line(*head, 0.0))
        else:
            self.weight_request(function, omega, vertices, lambda w: line(*head, w))

    def row(self, function, omega, row):
        """A weight over 24 equal rows."""
        self.group()
        self.weight(4, function, omega, list(row) * 24, *row)

    def vertices(self, vertices, calls):
        """Weights over one list of vertices; calls: function and omega of each."""
        self.group(line(2, vertices))
        for function, omega in calls:
            self.weight(3, function, omega, vertices)

    def lattice(self, entries):
        self.group()
        no = lattice_refusal(entries)
        self.counts["lattice"].append(no)
        if no:
            self.put(line(5, *entries, no, 0))
        else:
            self.wait([request("?lattice", *entries)], lambda a: line(5, *entries, 0, int(a[0][0])))

    def exact(self, function, omega, row):
        """24 equal rows give four times one row's weight: their sum is divided by rows / 4."""
        self.group()
        assert weight_refusal(omega, list(row) * 24) == 0
        self.counts["exact"].append(0)
        exact = 4 * exact_weight(function, omega, row)
        low, high = around(exact, Fraction(10)**-12)
        def made(w):
            self.worst = max(self.worst, abs(float(Fraction(w) - exact)))
            assert low <= w <= high, (function, omega, row, w, float(exact))
            return line(7, "IJ".index(function), omega, *row, low, high)
        self.weight_request(function, omega, list(row) * 24, made)
        if row == tuple(sorted(row)):                   # once for each set of four values
            self.counts["whole"].append(0)
            whole = 4 * exact_whole(function, omega, row)
            parts = sum(4 * exact_weight(function, omega, (row[k],) + row[:k] + row[k + 1:]) for k in range(4))
            assert parts == whole, (function, omega, row)
            self.put(line(8, "IJ".index(function), omega, *row, *around(whole, 4 * Fraction(10)**-12)))

    def product(self, entries, vector):
        self.group()
        no = product_refusal(entries, vector)
        self.counts["product"].append(no)
        if no:
            self.put(line(9, *entries, *vector, no, 0.0, 0.0, 0.0))
        else:
            self.wait([request("?product", *entries, *vector)], lambda a: line(9, *entries, *vector, 0, *map(unhexed, a[0])))


def sort_cases(r, c):
    for p in itertools.product([0.0, 1.0, 2.0, 3.0], repeat=4):          # every pattern of ties
        c.sort(p)
    for p in itertools.product([0.0, -0.0], repeat=4):
        c.sort(p)
    for _ in range(40):
        c.sort([r.unit() - 0.5 for _ in range(4)])
    odd = [NAN, math.inf, -math.inf, 0.0, -0.0, 1.0, -1.0, 5e-324, 1.7976931348623157e308]
    for _ in range(60):
        c.sort([r.pick(odd) for _ in range(4)])
    for k in range(4):
        for p in itertools.permutations([1.0, 2.0, 3.0]):
            c.sort(list(p[:k]) + [NAN] + list(p[k:]))


POINTS = [((0, 4, 4, 4), 2), ((0, 4, 4, 4), -1), ((0, 4, 4, 4), 0), ((0, 4, 4, 4), 4), ((4, 0, 4, 4), 2), ((4, 0, 0, 0), 2),
          ((0, 0, 0, 5e-11), 0), ((0, 0, 4, 4), 0), ((0, 0, 4, 4), 4), ((4, 4, 0, 0), 0), ((0, 4, 0, 4), 0), ((4, 0, 4, 0), 0)]


def weight_cases(r, c):
    for f in "IJ":
        for v, o in POINTS:
            c.row(f, float(o), tuple(float(x) for x in v))
        for p in itertools.product(range(4), repeat=4):                  # every pattern of ties, on and between vertices
            c.row(f, r.pick([0.0, 0.5, 1.1, 1.25, 2.2, 2.75, 3.3000000000000003]), tuple(x * 1.1 for x in p))
        for _ in range(120):
            v = tuple(r.unit() * 10 for _ in range(4))
            c.row(f, r.pick([r.pick(v), r.unit() * 10, min(v) + (max(v) - min(v)) * r.unit()]), v)
        for _ in range(100):                                             # between and at equal vertices
            a, b = r.unit() * 4, 4 + r.unit() * 4
            v = tuple(r.pick([a, b, b, 5.0]) for _ in range(4))
            c.row(f, r.pick([a, b, 5.0, (a + b) / 2, up(a), down(b)]), v)
        for _ in range(160):                                             # differences around 1e-10
            b = r.pick([0.0, 5.0, 1000.0, -3.0])
            v = tuple(b + r.pick([0.0, 0.5e-10, 1e-10, up(1e-10), down(1e-10), 2e-10, 3e-10]) for _ in range(4))
            c.row(f, r.pick([r.pick(v), b + r.unit() * 3e-10]), v)
        for v in itertools.product([0.0, 1e-11, 2e-11, 4.0], repeat=4):  # almost all vertices at omega: the guards, each place
            if 4.0 in v and v.count(4.0) < 3:
                c.row(f, r.pick([1e-11, 2e-11, 3e-11]), v)
        for _ in range(120):                                             # extreme exponents
            ends = [0.0, -0.0, 2.0**-660, -2.0**-660, 2.0**31, -2.0**31, 1.0, 2.0**-600, up(2.0**-660), down(2.0**31), 2.0**30]
            v = tuple(r.pick(ends) for _ in range(4))
            c.row(f, r.pick([r.pick(v), r.pick(ends), r.unit()]), v)
        for _ in range(200):                                             # the two upper branches, where J's order of operations shows least
            v = tuple(r.unit() * 10 for _ in range(4))
            a, b, d = sorted(v)[1:]
            c.row(f, r.pick([b + (d - b) * r.unit(), b + (d - b) * r.unit(), a + (b - a) * r.unit()]), v)
        for _ in range(200):                                             # between the two middle vertices
            v = tuple(r.unit() * 10 for _ in range(4))
            a, b = sorted(v)[1:3]
            c.row(f, a + (b - a) * r.unit(), v)
    for _ in range(500):                                                 # J below the last vertex: another order of n shows in 1 of 100
        v = tuple(r.unit() * 10 for _ in range(4))
        b, d = sorted(v)[2:]
        c.row("J", b + (d - b) * r.unit(), v)
    for rows in (24, 48, 72, 96):
        for k in range(3):
            if k < 2:
                vs = [r.unit() * 10 for _ in range(4 * rows)]
            else:
                vs = [r.pick([1.0, 2.0, 2.0 + 1e-10, 3.0, 0.0]) for _ in range(4 * rows)]
            c.vertices(vs, [(f, o) for f in "IJ" for o in (vs[0], vs[-1], r.unit() * 10, 5.0, 2.0, 0.0, 11.0)])


def refused_weights(r, c):
    good = [r.unit() * 4 for _ in range(400)]
    for n in (0, 1, 3, 4, 91, 92, 93, 95, 96, 97, 99, 100, 188, 191, 192, 196, 284, 288, 292, 380, 383, 384, 385, 388, 400):
        c.vertices(good[:n], [("I", 2.0), ("J", 2.0), ("I", math.inf)])  # with the last both 7 and 11 say no
    bad = [math.inf, -math.inf, NAN, up(2.0**31), -up(2.0**31), down(2.0**-660), -down(2.0**-660), 5e-324, 1e300]
    ends = [2.0**31, -2.0**31, 2.0**-660, -2.0**-660, 0.0, -0.0]
    for f in "IJ":
        for x in bad + ends:
            c.row(f, x, (0.0, 1.0, 2.0, 3.0))
            for k in range(4):
                v = [0.0, 1.0, 2.0, 3.0]
                v[k] = x
                c.row(f, 1.5, tuple(v))
    for x in bad:                                                        # one vertex of many
        for n, k in ((96, 95), (384, 0), (384, 200), (192, 191)):
            vs = good[:n]
            vs[k] = x
            c.vertices(vs, [("J", 2.0)])


def lattice_cases(r, c):
    whole = [[1, 0, 0, 0, 1, 0, 0, 0, 1], [1, 1, 0, 0, 1, 0, 0, 0, 1], [0] * 9, [2**20] * 9, [-2**20, 2**20, 2**20] * 3,
             [1, 0, 0, 1, 1, 0, 0, 0, 1], [1, 0, 1, 0, 1, 0, 0, 0, 1], [1, -1, 0, 0, 1, 0, 0, 0, 1], [1, 0, 0, 0, 1, 1, 0, 0, 1]]
    for l in whole:
        c.lattice([float(x) for x in l])
    for k in range(240):
        w = k % 6
        if w in (0, 1):                                                  # small whole entries: many ties
            l = [float(r.between(-2 - w, 2 + w)) for _ in range(9)]
        elif w == 2:
            l = [r.unit() * 4 - 2 for _ in range(9)]
        elif w == 3:
            l = [float(r.between(-2**20, 2**20)) for _ in range(9)]
        elif w == 4:
            l = [r.pick([2.0**30, -2.0**30, 0.0, 1.0, 5e-324, -0.0, 1e-200, 2.0**-600]) for _ in range(9)]
        else:
            a = r.unit()
            l = [a if i % 4 == 0 else 0.0 for i in range(9)]
            l[r.below(9)] += r.pick([0, 1e-16, 1e-9, -1e-9])
        c.lattice(l)
    for i in range(9):
        for x in (math.inf, -math.inf, NAN, up(2.0**30), -up(2.0**30), 1e308, 2.0**30, -2.0**30):
            l = [1.0, 0.0, 0.0, 0.0, 1.0, 0.0, 0.0, 0.0, 1.0]
            l[i] = x
            c.lattice(l)


def exact_cases(r, c):
    fixed = [(0.0, 4.0, 4.0, 4.0), (0.0, 0.0, 4.0, 4.0), (0.0, 0.0, 0.0, 4.0), (0.0, 1.0, 2.0, 3.0), (0.0, 0.0, 1.0, 3.0),
             (0.0, 1.0, 1.0, 3.0), (0.0, 1.0, 3.0, 3.0)]
    for v in fixed:
        for p in sorted(set(itertools.permutations(v))):
            for o in (0.5, 1.5, 2.5):
                for f in "IJ":
                    c.exact(f, o, p)
    for k in range(160):
        v = [r.unit() * 10 for _ in range(4)]
        if k % 4 == 1:
            v[r.below(4)] = v[r.below(4)]
        if k % 4 == 2:                                                   # on a vertex: the limit from above
            o = r.pick(v)
        else:
            o = min(v) + (max(v) - min(v)) * r.unit()
        if min(abs(a - b) for a in v for b in v if a != b) < 0.01:
            continue
        for p in (tuple(v), tuple(sorted(v))):
            for f in "IJ":
                c.exact(f, o, p)


def product_cases(r, c):
    ends = [4096, -4096, 4095, -4095, 1, -1, 0]
    beyond = [4097, -4097, 2**63 - 1, -2**63]
    for k in range(60):
        if k % 3 == 0:                                                   # sums that round by their order
            l = [r.unit() * 2.0**r.between(-30, 30) * r.pick([1, -1]) for _ in range(9)]
        elif k % 3 == 1:
            l = [r.unit() - 0.5 for _ in range(9)]
        else:
            l = [r.pick([2.0**30, -2.0**30, 0.0, -0.0, 1.0, 5e-324, 0.1]) for _ in range(9)]
        c.product(l, [r.pick(ends) if k % 2 else r.between(-4096, 4096) for _ in range(3)])
    unit = [1.0, 0.0, 0.0, 0.0, 1.0, 0.0, 0.0, 0.0, 1.0]
    for i in range(3):
        for x in beyond:
            b = [1, 2, 3]
            b[i] = x
            c.product(unit, b)
    for i in range(9):
        for x in (math.inf, -math.inf, NAN, up(2.0**30), -up(2.0**30), 2.0**30, -2.0**30):
            l = list(unit)
            l[i] = x
            c.product(l, [1, -2, 3])
            c.product(l, [1, -2, r.pick(beyond)])                        # 2 is asked before 7


DIAGONALS = [(1, 1, 1), (-1, 1, 1), (1, -1, 1), (1, 1, -1)]


def places(diagonal, axes):
    """The vertices of the cell that a way passes, from one end of the diagonal to the other, an edge along each axis."""
    out = [tuple(int(d < 0) for d in diagonal)]
    for axis in axes:
        out.append(tuple(p + d * (k == axis) for k, (p, d) in enumerate(zip(out[-1], diagonal))))
    return out


def generated_rows(diagonal):
    """The 24 rows of request 6. Ways: an axis first, then the others going round forwards, then backwards; of each way the four places
    in turn at zero; a row has the place at zero first, then those after it, then those before it."""
    ways = [[(first + turn * n) % 3 for n in range(3)] for first in range(3) for turn in (1, -1)]
    for passed in (places(diagonal, axes) for axes in ways):
        for s in range(4):
            yield [tuple(a - b for a, b in zip(passed[(s + c) % 4], passed[s])) for c in range(4)]


def generated(tables):
    """The numbers of all four; as collections of sets of corners they must be the Rust's tables."""
    made = [list(generated_rows(d)) for d in DIAGONALS]
    for rows, table in zip(made, tables):
        corners = [tuple(table[3 * k:3 * k + 3]) for k in range(96)]
        theirs = [frozenset(corners[4 * k:4 * k + 4]) for k in range(24)]
        ours = [frozenset(row) for row in rows]
        assert len(set(ours)) == len(set(theirs)) == 24 and set(ours) == set(theirs)
    return [x for rows in made for row in rows for corner in row for x in corner]


NAMES = {"sort": "sort", "weight": "weight", "lattice": "choice of the table", "tables": "tables",
         "generated": "generated tables", "exact": "exact integral", "whole": "exact sum of the four vertices", "product": "lattice times vector"}


def make(driver, crate, seed):
    r, c = Rng(seed), Cases(driver, NAMES)
    tables = records.tables(driver)
    c.counts["tables"].append(0)
    c.counts["generated"].append(0)
    c.group(line(6, records.flat(tables)))
    c.group(line(10, generated(tables)))
    sort_cases(r, c)
    weight_cases(r, c)
    refused_weights(r, c)
    lattice_cases(r, c)
    exact_cases(r, c)
    product_cases(r, c)
    c.write(crate, seed)
    print("the Rust's greatest distance from an exact integral:", c.worst)


if __name__ == "__main__":
    records.main(__doc__, make)
