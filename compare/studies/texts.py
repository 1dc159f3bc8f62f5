"""Texts for the program `weights`, by chance: accepted studies of every kind, texts at each limit and one step beyond it, and texts with
one fault or several.

`texts(seed)` gives some 570 pairs: the number that the maker wants (0: accepted) and the text. The checker must give that number too.
"""
import math

import checker
from damage import joined, lines_of
from records import Rng, bits, down, flat, real, up
from scope import CHANNELS, index, neighbour, place, point_ok, size

ONE = bits(1.0)


class Study:
    """Still to be damaged. Addresses and triplets are rows of three; floats are kept as bits."""

    def grid(self):
        return self.kind, self.mesh, flat(self.addr), self.map

    def text(self):
        rows = [("grid", self.kind, *self.mesh), ("diag", self.diag), ("type", self.type), ("bands", self.b1, self.b2)]
        rows += [("addr", *a) for a in self.addr] + [("map", v) for v in self.map]
        rows += [(tag, "%016x" % x) for tag, xs in (("f1", self.f1), ("f2", self.f2), ("point", self.points)) for x in xs]
        rows += [("triplet", *t) for t in self.triplets]
        return "".join("\t".join(map(str, row)) + "\n" for row in rows).encode()


# ---- grids

def image(r, a, d, far=1):
    return [x + n * r.between(-far, far) for x, n in zip(a, d)]


def at_edge(r):
    return [r.pick([-4096, 4096, -4095, 4095, 0]) for _ in range(3)]


def group(r, c, d, style, room):
    """Kind 2: the addresses of one grid point; at most `room` beyond the first."""
    if style == "one":
        return [c]
    if style == "far":
        return [image(r, c, d, 20)]
    if style == "edge":
        return [at_edge(r)]
    if style == "wild":
        return [[r.between(-2, 2) for _ in range(3)] for _ in range(min(r.between(1, 3), 1 + room))]
    count = min(8 if style == "full" else 1 if r.chance(0.4) else r.between(2, 8), 1 + room)
    if style == "equal":
        return [image(r, c, d) for _ in range(count)]
    near = [[c[0] - d[0] * x, c[1] - d[1] * y, c[2] - d[2] * z] for x in (0, 1) for y in (0, 1) for z in (0, 1)]
    return [near.pop(r.below(len(near))) for _ in range(count)]


def dense_grid(r, s, style, room):
    """Kind 2."""
    s.addr, s.map = [], [0]
    for i in range(size(s.mesh)):
        made = group(r, place(i, s.mesh), s.mesh, style, room)
        room -= len(made) - 1
        s.addr += made
        s.map.append(len(s.addr))


def sparse_grid(r, s, style, room):
    """Kind 1."""
    d = s.mesh
    n = size(d)
    first, more = [place(i, d) for i in range(n)], []
    if style == "far":
        first = [image(r, c, d, 20) for c in first]
    elif style == "edge":
        first = [at_edge(r) for _ in first]
    elif style == "wild":
        first = [[r.between(-3, 3) for _ in range(3)] for _ in first]
    elif style in ("groups", "full", "equal"):
        first = [image(r, c, d) for c in first]
        for c in first:
            more += [image(r, c, d) for _ in range(min(7 if style == "full" else r.between(0, 3), room - len(more)))]
    s.addr = first + more
    s.map = [8 * n] * (8 * n)
    if style == "wild":
        s.map = [r.pick([8 * n, r.below(len(s.addr))]) for _ in s.map]
    elif style != "missing":
        for i, a in enumerate(s.addr):
            s.map[index(a, [2 * x for x in d])] = i


def make_grid(r, s, style, room):
    """Addresses and map; at most `room` addresses beyond N. What lies behind the needed part of a map is not looked at."""
    (sparse_grid if s.kind == 1 else dense_grid)(r, s, style, room)
    if r.chance(0.15):
        s.map += [r.pick([0, -1, 7, 2**63 - 1, -2**63]) for _ in range(r.between(1, 3))]


# ---- frequencies and points

STYLES = ["lcg", "uniform", "small", "equal", "signed", "near", "nearzero", "tiny", "huge", "bits", "mixed", "dyadic", "flatbands"]


def frequencies(r, style, count, bands):
    x, base = r.next() % 2**32, r.unit() * 10

    def lcg():
        nonlocal x
        x = (1664525 * x + 1013904223) % 2**32
        return (x >> 16) / 4096.0

    value = {
        "lcg": lambda i: lcg(),
        "uniform": lambda i: r.unit() * 20,
        "small": lambda i: float(r.below(4)),
        "equal": lambda i: 2.5,
        "signed": lambda i: r.unit() * 8 - 4,
        "near": lambda i: base + r.pick([0, 1, 2, 3, 5, 10, 20, 50]) * 1e-11 * r.pick([1, 1, 1, 10]),
        "nearzero": lambda i: r.pick([0.0, 5e-11, 1e-10, up(1e-10), down(1e-10), 2e-10, 3e-11, 9.9e-11, 1.01e-10]),
        "tiny": lambda i: r.pick([0.0, 2.0**-600, up(2.0**-600), 2.0**-599, 2.0**-300, 2.0**-40]),
        "huge": lambda i: r.pick([2.0**30, down(2.0**30), 2.0**29, 1.0, -2.0**30, 2.0**-600, 0.0]),
        "bits": lambda i: 2.0**r.between(-600, 29) * (1 + r.unit()) * r.pick([1, 1, -1]),
        "mixed": lambda i: r.pick([0.0, -0.0, 1.0, -1.0, r.unit(), 4.0, 4.0 + 1e-10, 4.0 - 1e-10, 1e-10, -3.5]),
        "dyadic": lambda i: r.below(64) / 8.0,
        "flatbands": lambda i: float(i % bands) + (r.unit() if r.chance(0.3) else 0),
    }[style]
    return [bits(value(i)) for i in range(count)]


def corners(diag):
    """All places of a table: zero and its seven steps, both signs."""
    sign = [-1 if diag == c + 1 else 1 for c in range(3)]
    steps = [[x * f for x, f in zip(v, sign)] for v in ((1, 0, 0), (0, 1, 0), (0, 0, 1), (1, 1, 0), (1, 0, 1), (0, 1, 1), (1, 1, 1))]
    return [[0, 0, 0]] + [[x * f for x in v] for v in steps for f in (1, -1)]


def channels(s, t, b1, b2):
    """The corner values of each channel, for a triplet and a pair of bands."""
    grid, sign, out = s.grid(), 1 if s.type == 4 else -1, []
    for c in corners(s.diag):
        f1 = real(s.f1[neighbour(grid, t[1], c) * s.b1 + b1])
        f2 = real(s.f2[neighbour(grid, t[2], [sign * x for x in c]) * s.b2 + b2])
        if s.type != 4:
            f1, f2 = (0.0 if f < 0 else f for f in (f1, f2))
        out.append((-f1 + f2, f1 - f2, f1 + f2))
    return list(zip(*out))[:1 if s.type == 4 else 3]


def point(r, values, low, high):
    """Among a channel's values, on one, on an end of their box, a bit beside, or anywhere."""
    least, greatest = min(values), max(values)
    kind = r.below(12)
    if kind < 3:
        return least + r.unit() * (greatest - least)
    if kind < 6:
        return r.pick(values)
    if kind < 8:
        return greatest if kind == 6 else least
    if kind == 8:
        return r.pick([up, down])(r.pick([greatest, least, r.pick(values)]))
    if kind == 9:
        return (least + greatest) / 2
    if kind == 10:
        return r.pick([0.0, -0.0, 1e-10, -1.0, low - 1.0, 2 * high + 1.0, r.unit() * 3])
    a, b = r.pick(values), r.pick(values)
    return a + (b - a) * r.unit()


def make_points(r, s, count):
    every = [real(x) for x in s.f1 + s.f2]
    low, high = min(every), max(every)
    s.points = []
    for _ in range(count):
        t = r.pick(s.triplets) if s.triplets else (0, 0, 0)
        x = point(r, r.pick(channels(s, t, r.below(s.b1), r.below(s.b2))), low, high)
        if not point_ok(x):
            x = 0.0 if abs(x) < 1 else math.copysign(2.0**31, x)
        s.points.append(bits(x))


# ---- accepted studies

MESHES = [(1, 1, 1), (2, 1, 1), (1, 2, 1), (1, 1, 2), (2, 2, 1), (1, 3, 2), (2, 2, 2), (3, 2, 1), (3, 3, 1), (2, 3, 2), (3, 3, 3), (4, 3, 2),
          (5, 1, 1)]


def drawn(r, kind, tp_type, diag, mesh, grid, style, bands, points, triplets):
    s = Study()
    s.kind, s.type, s.diag = kind, tp_type, diag
    s.mesh = mesh or r.pick(MESHES)
    s.b1, s.b2 = bands or (r.between(1, 3), r.between(1, 3))
    n = size(s.mesh)
    grid = grid or r.pick(["one", "far", "groups", "groups", "equal", "wild", "missing" if kind == 1 else "full"])
    make_grid(r, s, grid, max(0, min(7 * n, 11000 // (20 * (s.b1 + s.b2)) - n)))
    p = len(s.addr)
    first = style or r.pick(STYLES)
    s.f1 = frequencies(r, first, p * s.b1, s.b1)
    s.f2 = frequencies(r, first if style or r.chance(0.7) else r.pick(STYLES), p * s.b2, s.b2)
    count = r.pick([1, 1, 2, 3, 4]) if triplets is None else triplets
    s.triplets = [[r.below(p) for _ in range(3)] for _ in range(count)]
    make_points(r, s, points or r.between(1, 6))
    return s


def study(r, kind, tp_type, diag, mesh=None, grid=None, style=None, bands=None, points=None, triplets=None):
    """An accepted study; what is not told is drawn. One too large is drawn again."""
    while True:
        s = drawn(r, kind, tp_type, diag, mesh, grid, style, bands, points, triplets)
        weights = CHANNELS[tp_type] * len(s.triplets) * len(s.points) * s.b1 * s.b2
        if weights <= 4096 and len(s.text()) <= 16384:
            return s


def least(r, **told):
    """The smallest study, but for what is told."""
    given = dict(kind=2, tp_type=2, diag=0, mesh=(1, 1, 1), grid="one", style="uniform", bands=(1, 1), points=1, triplets=1)
    return study(r, **{**given, **told})


def any_study(r, meshes, bands):
    return study(r, r.pick([1, 2]), r.pick([2, 3, 4]), r.below(4), mesh=r.pick(meshes), bands=bands())


def example():
    """The study of document 01."""
    s = Study()
    s.kind, s.mesh, s.diag, s.type, s.b1, s.b2 = 2, (1, 1, 1), 0, 2, 1, 1
    s.addr, s.map, s.f1, s.f2, s.points, s.triplets = [[0, 0, 0]], [0, 1], [ONE], [ONE], [bits(2.0), bits(3.0)], [(0, 0, 0)]
    return s


def accepted(r):
    yield 0, example()
    turn = 0
    for _ in range(5):                                  # every kind, type and table, the frequencies in turn
        for kind in (1, 2):
            for tp_type in (2, 3, 4):
                for diag in range(4):
                    yield 0, study(r, kind, tp_type, diag, style=STYLES[turn % len(STYLES)])
                    turn += 1
    for kind, grids in ((1, ["one", "far", "groups", "full", "equal", "wild", "missing", "edge"]),
                        (2, ["one", "far", "groups", "full", "equal", "wild", "edge"])):
        for grid in grids:
            for _ in range(2):
                yield 0, study(r, kind, r.pick([2, 3, 4]), r.below(4), mesh=r.pick([(2, 2, 2), (2, 3, 2), (3, 3, 1), (2, 1, 1)]), grid=grid,
                               style=r.pick(["lcg", "uniform", "dyadic"]), bands=(1, r.between(1, 2)), points=4, triplets=2)
    for style in STYLES:                                # more points on values and on the ends of boxes
        for tp_type in (2, 3, 4):
            yield 0, study(r, r.pick([1, 2]), tp_type, r.below(4), mesh=r.pick([(2, 2, 2), (3, 2, 1), (4, 3, 2), (3, 3, 3)]), grid="one",
                           style=style, bands=(r.between(1, 2), r.between(1, 2)), points=12, triplets=3)
    # larger meshes: all corners differ
    for j, mesh in enumerate([(4, 4, 4), (5, 4, 3), (6, 6, 5), (8, 5, 4), (128, 1, 1), (1, 128, 1), (1, 1, 128), (3, 5, 7)]):
        yield 0, study(r, 2, 2 + j % 3, j % 4, mesh, "one", ["lcg", "uniform", "signed"][j % 3], (1, 1), 8, 3)
    for j, mesh in enumerate([(3, 3, 3), (4, 4, 4), (16, 2, 2), (1, 1, 64), (3, 4, 5)]):
        yield 0, study(r, 1, 2 + j % 3, j % 4, mesh, ["one", "groups"][j % 2], "lcg", (1, 1), 8, 3)


# ---- limits

def padded(s, count):
    """With more map entries, until the text has so many bytes."""
    while True:
        room = count - len(s.text())
        if room == 0:
            return s
        if room >= 30:
            s.map.append(2**63 - 1)
        else:                                           # one or two lines of 6 to 23 bytes
            s.map.append(int("1" * ((room if room <= 23 else room - 10) - 5)))


def sizes(r):
    """The greatest text, and the greatest count of weights."""
    for kind in (1, 2):
        yield 0, study(r, kind, 2, 1, (2, 2, 1), "one", "lcg", (1, 1), 2, 0)
        for no, count in ((0, 16384), (1, 16385)):
            yield no, padded(study(r, kind, 2, 1, (1, 1, 1), "one", "lcg", (1, 1), 2, 2), count)
    for tp_type, bands, points, triplets in ((4, (64, 64), 1, 1), (2, (8, 8), 32, 1), (2, (1, 1), 16, 128), (4, (64, 1), 64, 1),
                                             (3, (5, 7), 39, 1), (4, (1, 2), 512, 4)):
        yield 0, study(r, 2, tp_type, r.below(4), (1, 1, 1), "one", "uniform", bands, points, triplets)
    # 4,097 weights are 17 by 241; the count is not asked where 8 or 9 says no
    s = study(r, 2, 4, 0, (1, 1, 1), "one", "uniform", (17, 1), 240, 1)
    s.points.append(bits(1.5))
    for no, kind, tp_type, b2 in ((1, 2, 4, 1), (1, 3, 4, 1), (3, 3, 5, 1), (8, 2, 5, 1), (9, 2, 4, 65), (1, 2, 3, 64)):
        s.kind, s.type, s.b2 = kind, tp_type, b2
        yield no, s


def odd_but_accepted(r):
    for kind, needed in ((2, 2), (1, 8)):               # a map longer than needed may go on with anything
        s = study(r, kind, 2, 0, (1, 1, 1), "one", "lcg", (1, 1), 1, 1)
        s.map = s.map[:needed] + [2**63 - 1, -2**63, -1]
        yield 0, s
    s = study(r, 2, 3, 2, (2, 1, 1), "full", "uniform", (1, 1), 3, 2)
    assert len(s.addr) == 16
    yield 0, s
    s = study(r, 2, 2, 0, (2, 2, 1), "one", "tiny", (1, 1), 1, 1)
    s.points = [bits(x) for x in (2.0**-660, up(2.0**-660), -2.0**-660, 2.0**31, -2.0**31, down(2.0**31), 0.0, -0.0)]
    yield 0, s
    s = study(r, 2, 4, 0, (2, 2, 1), "one", "huge", (1, 1), 1, 1)
    s.points = [bits(x) for x in (2.0**30, -2.0**30, 2.0**31, -2.0**31, 0.0, 2.0**29, 1.0)]
    yield 0, s


def count_limits(r):
    """Counts of weights, bands and points, one step beyond their limits."""
    for tp_type, bands in ((2, (64, 33)), (3, (37, 37)), (4, (64, 64))):
        s = least(r, tp_type=4, bands=bands)
        s.type = tp_type
        if tp_type == 4:
            s.points.append(ONE)
        yield 1, s
    for b, f, wide in (("b1", "f1", (64, 1)), ("b2", "f2", (1, 64))):
        s = least(r, bands=wide)
        setattr(s, b, 65)
        setattr(s, f, getattr(s, f) + [ONE])
        yield 9, s
        s = least(r)
        setattr(s, b, 0)
        setattr(s, f, [])
        yield 9, s
    s = least(r)
    s.points = []
    yield 9, s


def alone(c, x, other):
    return [x if k == c else other for k in range(3)]


def component_limits(r):
    """Mesh numbers, addresses and triplets, component by component."""
    for c in range(3):
        s = least(r)
        s.mesh = alone(c, 0, 1)
        yield 4, s
        least(r)                                        # drawn and not used: the stored sample has the numbers that follow
        s = least(r, mesh=tuple(alone(c, 128, 1)))
        s.mesh, s.map = alone(c, 129, 1), list(range(130))
        s.addr.append([0, 0, 0])
        s.f1.append(ONE)
        s.f2.append(ONE)
        yield 4, s
        for sign in (1, -1):
            s = least(r)
            for no, x in ((5, 4097), (0, 4096)):
                s.addr = [alone(c, sign * x, 0)]
                yield no, s
        for x in (1, -1):
            s = least(r)
            s.triplets = [alone(c, x, 0)]
            yield 10, s


def grid_limits(r):
    """The count of addresses, and maps."""
    s = least(r)
    for no, p in ((5, 9), (0, 8)):
        s.addr, s.map, s.f1, s.f2 = [[0, 0, 0]] * p, [0, p], [ONE] * p, [ONE] * p
        yield no, s
    s = least(r, mesh=(2, 1, 1))
    s.addr, s.f1, s.f2 = s.addr[:1], s.f1[:1], s.f2[:1]
    yield 5, s
    for gp_map in ([0, 1], [0, 2], [0, 2, 2], [0, 0, 2], [1, 2, 2], [0, 1, 3], [0, 1, 1], [0, -1, 2], [0, 3, 2], [-1, 1, 2]):
        s = least(r, mesh=(2, 1, 1))
        s.map = gp_map
        yield 6, s
    for i, v in ((0, 2), (15, 2), (0, 17), (15, 17), (0, 15), (7, -1), (15, -1), (15, None)):
        s = least(r, kind=1, mesh=(2, 1, 1))
        s.map = s.map[:16]
        s.map[i:i + 1] = [] if v is None else [v]
        yield 6, s


NANS = [0x7FF8000000000000, 0xFFF8000000000000, 0x7FF0000000000001, 0x7FFFFFFFFFFFFFFF]


def float_limits(r):
    for name, low, high in (("f1", 2.0**-600, 2.0**30), ("f2", 2.0**-600, 2.0**30), ("points", 2.0**-660, 2.0**31)):
        bad = [down(low), -down(low), up(high), -up(high), 5e-324, math.inf, -math.inf]
        for x in [bits(x) for x in bad] + NANS:
            s = least(r)
            setattr(s, name, [x])
            yield 11, s
        for x in (low, -low, high, -high, 0.0, -0.0):
            s = least(r, tp_type=4)
            setattr(s, name, [bits(x)])
            yield 0, s
        if name != "points":
            s = least(r)
            for values in (getattr(s, name) * 2, []):
                setattr(s, name, values)
                yield 11, s


# ---- faults of the text

def first(tag, change):
    """With the tag's first line changed."""
    def fault(r, text):
        ls = lines_of(text)
        i = next(i for i, l in enumerate(ls) if l.startswith(tag + b"\t"))
        ls[i] = change(ls[i])
        return joined(ls)
    return fault


def field(tag, k, new):
    def change(line):
        fields = line.split(b"\t")
        fields[k] = new
        return b"\t".join(fields)
    return first(tag, change)


def replaced(tag, old, new):
    return first(tag, lambda line: line.replace(old, new, 1))


def shortened(tag):
    return first(tag, lambda line: line.rsplit(b"\t", 1)[0])


def lengthened(tag, more):
    return first(tag, lambda line: line + more)


def repeated(tag, times):
    """Each line with the tag so many times."""
    return lambda r, text: joined([l for l in lines_of(text) for _ in range(times if l.startswith(tag + b"\t") else 1)])


def exchanged(a, b):
    """The last line of one tag and the first of another."""
    def fault(r, text):
        ls = lines_of(text)
        i = max(i for i, l in enumerate(ls) if l.startswith(a + b"\t"))
        j = min(i for i, l in enumerate(ls) if l.startswith(b + b"\t"))
        ls[i], ls[j] = ls[j], ls[i]
        return joined(ls)
    return fault


def inserted(line, at):
    def fault(r, text):
        ls = lines_of(text)
        ls.insert(at(r, len(ls)), line)
        return joined(ls)
    return fault


TEXT_FAULTS = [
    lambda r, t: t[:-1], lambda r, t: t + b"\n", lambda r, t: b"", lambda r, t: b"\n",
    lambda r, t: t.replace(b"\n", b"\r\n"), lambda r, t: t.replace(b"\n", b"\r\n", 1), lambda r, t: t + b"\x00", lambda r, t: b"\xef\xbb\xbf" + t,
    replaced(b"diag", b"diag", b"di\xe4g"), replaced(b"grid", b"\t", b" "), replaced(b"grid", b"\t", b"\t\t"),
    lengthened(b"type", b"\t"), lengthened(b"type", b" "), first(b"type", lambda l: b" " + l), first(b"map", lambda l: b"\t" + l),
    field(b"type", 1, b"+2"), field(b"type", 1, b"02"), field(b"diag", 1, b"00"), field(b"diag", 1, b"-0"), field(b"addr", 1, b"-0"),
    field(b"addr", 2, b"-01"), field(b"addr", 2, b"-"), field(b"addr", 3, b""), field(b"map", 1, b"x"), field(b"map", 1, b"1.0"),
    field(b"map", 1, b"0x1"), field(b"map", 1, b"1_0"), field(b"map", 1, "٣".encode()), field(b"map", 1, b"9223372036854775808"),
    field(b"addr", 1, b"-9223372036854775809"), field(b"map", 1, b"18446744073709551616"), field(b"addr", 1, b"1" * 400),
    field(b"grid", 1, b"99999999999999999999"), field(b"diag", 1, b"4"), field(b"diag", 1, b"-1"), field(b"diag", 1, b"9223372036854775807"),
    field(b"f1", 1, b"3FF0000000000000"), field(b"f2", 1, b"3ff000000000000A"), field(b"f1", 1, b"3ff000000000000"),
    field(b"f2", 1, b"3ff00000000000000"), field(b"point", 1, b"3ff000000000000g"), field(b"point", 1, b""),
    field(b"point", 1, b"-ff0000000000000"), field(b"point", 1, b"0x3ff00000000000"),
    shortened(b"grid"), lengthened(b"grid", b"\t1"), shortened(b"bands"), lengthened(b"map", b"\t0"), shortened(b"addr"),
    lengthened(b"triplet", b"\t0"), lengthened(b"f1", b"\t3ff0000000000000"),
    *(repeated(tag, times) for times in (0, 2) for tag in (b"grid", b"diag", b"type", b"bands")),
    exchanged(b"diag", b"type"), exchanged(b"addr", b"map"), exchanged(b"f1", b"f2"), exchanged(b"point", b"triplet"),
    lambda r, t: joined(lines_of(t)[1:] + lines_of(t)[:1]),
    replaced(b"grid", b"grid", b"Grid"), replaced(b"addr", b"addr", b"addrs"), replaced(b"f2", b"f2", b"f3"),
    inserted(b"note\t1", lambda r, n: r.below(n + 1)), inserted(b"", lambda r, n: 3), inserted(b"# x", lambda r, n: 0),
    inserted(b"triplet", lambda r, n: n),
]


# ---- faults of the records, by the question that is to say no

def hurt_kind(r, s):
    s.kind = r.pick([0, 3, -1, 12, 2**63 - 1, -2**63])


def hurt_mesh(r, s):
    s.mesh = list(s.mesh)
    s.mesh[r.below(3)] = r.pick([0, 129, -1, 256, 2**62, -2**63])


def hurt_addresses(r, s):
    n, kind = size(s.mesh), r.below(5)
    if kind == 0:
        a = list(s.addr[r.below(len(s.addr))])
        i = r.below(len(s.addr))
        a[r.below(3)] = r.pick([4097, -4097, 2**63 - 1, -2**63, 10000])
        s.addr[i] = a
    elif kind == 1:
        s.addr = s.addr[:n - 1]
    elif kind == 2:
        s.addr = []
    elif kind == 3:
        s.mesh = list(s.mesh)
        s.mesh[r.below(3)] = 128
    elif n > 8:
        hurt_addresses(r, s)
    else:
        s.addr = (s.addr * (8 * n))[:8 * n + 1]


def hurt_map(r, s):
    n, p = size(s.mesh), len(s.addr)
    if s.kind == 1:
        kind = r.below(4)
        if kind == 0:
            s.map = s.map[:8 * n - 1]
        elif kind == 1:
            s.map[r.below(8 * n)] = r.pick([-1, 8 * n + 1, 2**63 - 1, -2**63])
        elif kind == 2:
            s.map[r.below(8 * n)] = p if p < 8 * n else -1
        else:
            s.map[8 * n - 1] = 8 * n + 1
        return
    kind = r.below(6)
    if kind == 0:
        s.map = s.map[:n]
    elif kind == 1:
        s.map[0] = r.pick([1, -1])
    elif kind == 2:
        s.map[n] = r.pick([p + 1, p - 1, 0])
    elif kind == 3 and n >= 2:
        i = r.between(1, n - 1)
        s.map[i] = s.map[i - 1] if r.chance(0.5) else s.map[i + 1]
    elif kind == 4 and n >= 2:
        s.map[r.between(1, n - 1)] = r.pick([-5, p + 3, 2**63 - 1, -2**63])
    else:
        s.map = []


def hurt_type(r, s):
    s.type = r.pick([0, 1, 5, -2, 22, 2**63 - 1, -2**63])


def hurt_counts(r, s):
    kind = r.below(5)
    if kind == 0:
        s.b1 = r.pick([0, 65, -1, 2**63 - 1])
    elif kind == 1:
        s.b2 = r.pick([0, 65, -1, -2**63])
    elif kind == 2:
        s.points = []
    else:
        s.b1 = s.b2 = 65 if kind == 3 else -1


def hurt_triplets(r, s):
    i = r.below(len(s.triplets))
    s.triplets[i][r.below(3)] = r.pick([len(s.addr), -1, len(s.addr) + 5, 2**63 - 1, -2**63])


BAD = [bits(down(2.0**-600)), bits(up(2.0**30)), 0x7FF0000000000000, 0xFFF0000000000000, 0x7FF8000000000000, 0x7FF0000000000001, 1,
       0x8000000000000001, bits(-up(2.0**30)), bits(-down(2.0**-600)), 0xFFFFFFFFFFFFFFFF]
BAD_POINT = [bits(down(2.0**-660)), bits(up(2.0**31)), 0x7FF0000000000000, 0xFFF0000000000000, 0x7FF8000000000000, 1, bits(-up(2.0**31)),
             bits(-down(2.0**-660))]


def hurt_floats(r, s):
    kind = r.below(8)
    if kind == 0:
        s.f1 = s.f1[:-1]
    elif kind == 1:
        s.f2 = s.f2[:-1]
    elif kind == 2:
        s.f1 = s.f1 + [ONE]
    elif kind == 3:
        s.f2 = []
    elif kind < 6:
        f = r.pick([s.f1, s.f2])
        f[r.below(len(f))] = r.pick(BAD)
    else:
        s.points[r.below(len(s.points))] = r.pick(BAD_POINT)


HURTS = {3: (hurt_kind, 10), 4: (hurt_mesh, 14), 5: (hurt_addresses, 18), 6: (hurt_map, 26), 8: (hurt_type, 10), 9: (hurt_counts, 14),
         10: (hurt_triplets, 14), 11: (hurt_floats, 30)}


def hurt_once(r):
    for no, (hurt, count) in HURTS.items():
        while count:
            s = any_study(r, [(1, 1, 1), (2, 1, 1), (2, 2, 1), (1, 3, 2)], lambda: (r.between(1, 2), r.between(1, 2)))
            hurt(r, s)
            if checker.number(s.text()) == no:
                yield no, s
                count -= 1


def hurt_often(r):
    """Two or three faults: the first no wins. A fault that another has made impossible is drawn again with its study."""
    hurts = [hurt for hurt, _ in HURTS.values()]
    count = 30
    while count:
        s = any_study(r, [(1, 1, 1), (2, 1, 1), (2, 2, 1)], lambda: (1, r.between(1, 2)))
        try:
            for hurt in dict.fromkeys([r.pick(hurts), r.pick(hurts), r.pick(hurts)]):
                hurt(r, s)
        except (IndexError, OverflowError, ZeroDivisionError):
            continue
        no = checker.number(s.text())
        if no > 1:
            yield no, s
            count -= 1


def texts(seed):
    """Pairs of number and text; the checker gives the same number."""
    r, out = Rng(seed), []
    for part in (accepted, sizes, odd_but_accepted, count_limits, component_limits, grid_limits, float_limits):
        out += [(no, s.text()) for no, s in part(r)]
    base = study(r, 2, 2, 0, (2, 1, 1), "one", "lcg", (1, 1), 2, 1).text()
    out += [(1, fault(r, base)) for fault in TEXT_FAULTS]
    for part in (hurt_once, hurt_often):
        out += [(no, s.text()) for no, s in part(r)]
    for no, text in out:
        assert checker.number(text) == no, (no, text)
    return out
