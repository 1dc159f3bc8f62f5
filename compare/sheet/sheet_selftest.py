#!/usr/bin/env python3
"""Random studies, starts and calls for the model of the run sheet; self-test.

    python3 sheet_selftest.py [LISTS] [SEED]
"""
import math
import random
import sys

from sheet_model import (
    SIGN, WORKERS, Sheet, Study, answer_table, average_flags, average_weights, bits, blocks_of,
    book, built_in, check_step, div, do, grid_index, neighbour, open_count, piece, power, program,
    sort_omegas, swap_law, value, weight, weight_place, within)

INFINITY = 0x7FF << 52

# ---------------------------------------------------------------- makers

MESHES = ((1, 1, 1), (2, 1, 1), (1, 2, 1), (1, 1, 2), (2, 2, 1), (2, 1, 2), (1, 3, 1),
          (3, 2, 1), (2, 2, 2))


def canonical(n, mesh):
    return [n % mesh[0], n // mesh[0] % mesh[1], n // (mesh[0] * mesh[1])]


def random_grid(rng, kind, mesh, extra):
    """Addresses and map. Mostly a true grid, sometimes any content that passes."""
    n = mesh[0] * mesh[1] * mesh[2]
    wild = rng.random() < 0.25

    def image(i):
        if wild and rng.random() < 0.5:
            return [rng.choice((rng.randint(-4, 4), -4096, 4096)) for _ in range(3)]
        return [a + d * rng.choice((0, 0, -1, 1)) for a, d in zip(canonical(i, mesh), mesh)]

    tail = [rng.choice((0, -1, 7, 1 << 62, -1 << 63)) for _ in range(rng.choice((0, 0, 0, 1, 3)))]
    if kind == 1:
        addresses = [image(i) for i in range(n)]
        addresses += [image(rng.randrange(n)) for _ in range(min(extra, 7 * n))]
        p = len(addresses)
        table = [8 * n] * (8 * n)
        if wild:
            table = [rng.choice((8 * n, rng.randrange(p))) for _ in table]
        else:
            for i, a in enumerate(addresses):
                table[grid_index(a, [2 * d for d in mesh])] = i
    else:
        sizes = [1] * n
        for _ in range(min(extra, 7 * n)):
            sizes[rng.randrange(n)] += 1
        addresses = [image(i) for i in range(n) for _ in range(sizes[i])]
        table = [0]
        for size in sizes:
            table.append(table[-1] + size)
    return [x for a in addresses for x in a], table + tail


def random_frequencies(rng, count):
    """Patterns of one style: quarters, reals, near equal, or any magnitude."""
    style = rng.choice(("quarter", "quarter", "real", "near", "wide"))
    base = rng.choice((0.0, 1.0, 5.0))
    out = []
    for _ in range(count):
        if style == "quarter":
            x = rng.randint(-4, 12) / 4.0
        elif style == "real":
            x = rng.uniform(-1.0, 6.0)
        elif style == "near":
            x = base + rng.randint(-6, 6) * rng.choice((2.5e-11, 5e-11, 1e-10))
        else:
            x = rng.choice((0.0, -0.0, 2.0 ** -600, -2.0 ** -600, 2.0 ** 30, -2.0 ** 30,
                            rng.choice((-1.0, 1.0)) * 2.0 ** rng.uniform(-600, 30)))
            if not within(bits(x), -600, 30):
                x = 1.0
        out.append(bits(x))
    return out


def random_points(rng, count, f1, f2):
    """On a corner value, between two, on the box's ends, or anywhere."""
    out = []
    for _ in range(count):
        a, b, c = (value(rng.choice(f)) if f else 0.0 for f in (f1, f2, f1 + f2))
        x = rng.choice((a + b, b - a, a - b, max(a, 0.0) + max(b, 0.0), (a + b) / 2.0,
                        max(a, 0.0) - max(b, 0.0), rng.uniform(-2.0, 7.0), c, -c,
                        (a + b + c) / 3.0, 0.0, -0.0, rng.choice(
                            (2.0 ** 31, -2.0 ** 31, 2.0 ** -660, -2.0 ** -660, 1.0, 2.0))))
        out.append(bits(x) if within(bits(x), -660, 31) else bits(1.0))
    return out


def random_study(rng):
    """An accepted study."""
    kind = rng.choice((1, 2))
    mesh = rng.choice(MESHES)
    addresses, table_map = random_grid(rng, kind, mesh, rng.choice((0, 0, 1, 2, 5)))
    p = len(addresses) // 3
    b1 = rng.randint(1, 3)
    bands = (b1, b1 if rng.random() < 0.75 else rng.randint(1, 3))
    sets = rng.choice((1, 1, 1, 1, 2, 3, 4))
    table = built_in(*(rng.randrange(4) for _ in range(sets)))
    if rng.random() < 0.15:
        table = [rng.randint(-3, 3) for _ in table]
    if rng.random() < 0.1:
        table[rng.randrange(len(table))] = rng.choice((-4096, 4096))
    f1 = random_frequencies(rng, p * bands[0])
    f2 = random_frequencies(rng, p * bands[1])
    t = rng.choice((0, 1, 1, 2, 2, 2, 3, 3))
    return Study(kind=kind, mesh=mesh, type=rng.choice((2, 3, 4)), bands=bands,
                 addresses=addresses, map=table_map, table=table, frequencies1=f1,
                 frequencies2=f2, points=random_points(rng, rng.randint(1, 3), f1, f2),
                 triplets=[rng.randrange(p) for _ in range(3 * t)])


STRANGE = (0, SIGN, INFINITY, INFINITY | SIGN, 0x7FF8000000000000,
           0xFFF8000000000001, 0x7FF0000000000001, 0x7FF4DEADBEEF0123,
           0xFFFFFFFFFFFFFFFF, 0x7FFFFFFFFFFFFFFF, 1, SIGN | 1, power(60),
           power(60) | SIGN, power(60) + 1, 0x7FEFFFFFFFFFFFFF, bits(1.0), bits(-2.5))

FULL = 1 << 63
COUNTS = (0,) * 8 + (1, 5, FULL - 30, FULL - 8, FULL - 3, FULL - 2, FULL - 1, FULL, FULL + 1,
          2 * FULL - 1)


def alone(worker, count, others=0):
    """Sixteen counts: one worker's, and that of all others."""
    return [count if w == worker else others for w in range(WORKERS)]


def random_tally(rng):
    """All 0, all small, one worker's of any sort beside 0 or full ones, or all of any sort."""
    how = rng.randrange(6)
    if how < 2:
        return [0] * WORKERS
    if how == 2:
        return [rng.randrange(1000) for _ in range(WORKERS)]
    if how == 5:
        return [rng.choice(COUNTS) for _ in range(WORKERS)]
    return alone(random_worker(rng, 0), rng.choice(COUNTS), 0 if how == 3 else rng.choice(COUNTS))


def lengths(s):
    """Lengths of weights, flags, marks of an accepted study."""
    pieces = s.t * s.bands[0] * s.bands[1]
    return s.channels * s.f * pieces, s.f * pieces, pieces


def random_start(rng, s, marks=None, tally=None):
    """Old content of every sort; marks all 0 unless given."""
    nw, nf, nm = lengths(s)
    if marks is None:
        marks = [0] * nm
    return Sheet([rng.choice(STRANGE) if rng.random() < 0.7 else rng.getrandbits(64)
                  for _ in range(nw)],
                 [rng.choice((0, 1, -1, 2, 127, -128)) for _ in range(nf)], marks,
                 random_tally(rng) if tally is None else tally)


def random_marks(rng, s):
    """Any marks: a triplet computed, averaged, begun, or as question 13 forbids."""
    nbb = s.bands[0] * s.bands[1]
    marks = []
    for _ in range(s.t):
        k = rng.randrange(6)
        marks += ([1] * nbb if k < 3 else [2] * nbb if k == 3 else
                  [rng.choice((0, 1)) for _ in range(nbb)] if k == 4 else
                  [rng.choice((0, 1, 2, 3, 255)) for _ in range(nbb)])
    return marks


def begun(rng, s):
    """A start with any marks; often with weights that question 19 lets pass, all or all but one."""
    start = random_start(rng, s, random_marks(rng, s))
    if rng.random() < 0.6:
        start.weights = [rng.choice((0, 1, power(60), power(60) | SIGN, bits(0.1), bits(-7.3)))
                         for _ in start.weights]
        if start.weights and rng.random() < 0.5:
            start.weights[rng.randrange(len(start.weights))] = rng.choice(
                (SIGN, INFINITY, INFINITY + 1, power(60) + 1, (power(60) + 1) | SIGN))
    return start


def random_ids(rng, count):
    ids = []
    for i in range(count):
        ids.append(i if i == 0 or rng.random() < 0.5 else ids[-1])
    return tuple(ids)


FAR = (1 << 63) - 1
DEEP = -(1 << 63)


def wrong_ids(rng, count):
    """Mostly wrong; the questions judge."""
    ids = list(random_ids(rng, count))
    how = rng.randrange(5)
    if how == 0:
        ids = ids[:-1]
    elif how == 1:
        ids.append(count)
    elif how == 2:
        ids = []
    else:
        i = rng.randrange(count)
        ids[i] = rng.choice((i + 1, -1, ids[i] - 1, FAR, DEEP, count, 0, 1))
    return tuple(ids)


# What is no worker: next to the range, and what narrower numbers take for one.
NO_WORKERS = (-1, WORKERS, WORKERS + 1, 256, 1 << 32, (1 << 32) + 3, DEEP, FAR)


def random_worker(rng, wrong=0.05):
    """Of all sixteen, the first three more often; with some chance none."""
    if rng.random() < wrong:
        return rng.choice(NO_WORKERS)
    return rng.randrange(rng.choice((3, WORKERS)))


def random_call(rng, s, wrong=0.15):
    """Of an accepted study; with some chance with a wrong argument."""
    kind = rng.choice(("run", "run", "run", "carry_on", "average", "average"))
    worker = random_worker(rng, wrong / 3)
    if kind == "carry_on":
        return ("carry_on", worker)
    bad = rng.random() < wrong or s.t == 0

    def one(count):
        if bad and rng.random() < 0.5:
            return rng.choice((-1, count, count + 1, FAR, DEEP))
        return rng.randrange(count) if count else 0

    if kind == "run":
        return ("run", worker, one(s.t), one(s.bands[0]), one(s.bands[1]))
    t = one(s.t)
    ids1, ids2 = random_ids(rng, s.bands[0]), random_ids(rng, s.bands[1])
    if bad and rng.random() < 0.5:
        ids1 = wrong_ids(rng, s.bands[0])
    if bad and rng.random() < 0.3:
        ids2 = wrong_ids(rng, s.bands[1])
    return ("average", t, ids1, ids2)


def with_other_workers(rng, calls):
    """The same calls; every name of a worker exchanged for another, or each call's drawn anew."""
    names = rng.sample(range(WORKERS), WORKERS)
    anew = rng.random() < 0.5

    def other(call):
        if call[0] == "average":
            return call
        w = call[1]
        return call[:1] + (random_worker(rng) if anew else names[w] if 0 <= w < WORKERS else w,) + call[2:]

    return [other(call) for call in calls]


def spoil_study(rng, s):
    """One or two changes that may make a study wrong; the questions judge."""
    any_number = (0, -1, 1, 2, 3, 5, 65, 129, 4097, -4097, FAR, DEEP)
    for _ in range(rng.choice((1, 1, 2))):
        field = rng.choice(Study.FIELDS)
        v = getattr(s, field)
        if field in ("kind", "type"):
            v = rng.choice(any_number)
        elif field in ("mesh", "bands"):
            v = list(v)
            v[rng.randrange(len(v))] = rng.choice(any_number)
        elif field in ("frequencies1", "frequencies2", "points"):
            v = list(v)
            if v and rng.random() < 0.7:
                v[rng.randrange(len(v))] = rng.choice(STRANGE)
            elif v and rng.random() < 0.5:
                v.pop()
            else:
                v.append(0)
        else:
            v = list(v)
            if v and rng.random() < 0.7:
                v[rng.randrange(len(v))] = rng.choice(any_number)
            elif v and rng.random() < 0.5:
                v = v[:-rng.choice((1, 2, 3))]
            else:
                v += [0] * rng.choice((1, 2, 3))
        s = s.but(**{field: v})
    return s


def spoil_lengths(rng, start):
    name = rng.choice(("weights", "flags", "marks"))
    v = getattr(start, name)
    if v and rng.random() < 0.6:
        v.pop()
    else:
        v.append(0)


# ---------------------------------------------------------------- self-test

def workers_to_check(s, sheet):
    """Request 2, on a sheet with one piece."""
    def after(tally, mark, *calls):
        now = Sheet(sheet.weights, sheet.flags, [mark], tally)
        answers = [do(s, now, call) for call in calls]
        assert all(a[0] == "done" for a in answers) or now.tally == tally
        return [a[1] if a[0] == "refused" else 0 for a in answers], now.tally

    # A run and a carry-on move their worker's count only, repeats included.
    assert after([0] * 16, 0, ("run", 3, 0, 0, 0), ("run", 15, 0, 0, 0), ("run", 3, 0, 0, 0),
                 ("carry_on", 1)) == ([0] * 4, [0, 0, 0, 2] + [0] * 11 + [1])
    assert after([7] * 16, 0, ("carry_on", 0), ("carry_on", 1)) == ([0, 0], alone(0, 8, 7))
    # Whoever is not 0 to 15 is 21, also with nothing open; 20 is of the named count alone.
    for w in NO_WORKERS:
        for mark in (0, 1):
            for tally in ([0] * 16, [FULL] * 16):
                assert after(tally, mark, ("run", w, 0, 0, 0), ("carry_on", w))[0] == [21, 21]
        assert after([FULL] * 16, 2, ("run", w, 0, 0, 0), ("carry_on", w))[0] == [15, 21]
        assert after([FULL] * 16, 3, ("run", w, 0, 0, 0), ("carry_on", w))[0] == [13, 13]
        assert after([FULL] * 16, 1, ("run", w, 1, 0, 0), ("run", w, 0, -1, 0))[0] == [14, 14]
    for w in range(16):
        for mark in (0, 1):
            for others in (0, FULL, 2 * FULL - 1):
                for count, want in ((FULL - 2, [0, 0]), (FULL - 1, [20, 0 if mark else 20]),
                                    (FULL, [20, 20]), (2 * FULL - 1, [20, 20])):
                    tally = alone(w, count, others)
                    assert [after(tally, mark, c)[0][0] for c in (("run", w, 0, 0, 0), ("carry_on", w))] == want
    # The averaging asks neither, and leaves all counts.
    full = list(range(FULL, FULL + 16))
    assert after(full, 1, ("average", 0, (0,), (0,))) == ([0], full)


def open_counts_to_check(s, sheet):
    """Request 4; the study is the document's example: its first point is the top of
    a box, with flag 0 and weights 0."""
    now = Sheet([INFINITY] * 4, sheet.flags, [0], sheet.tally)
    assert open_count(2, (1, 1, 2, 1), now.weights, 0) == ("done", 2)
    assert do(s, now, ("run", 0, 0, 0, 0)) == ("done",) and now.flags == [0, 1]
    assert open_count(2, (1, 1, 2, 1), now.weights, 0) == ("done", 0)
    # Each pattern alone in each output of the second of three entries.
    for type, outputs in ((2, 2), (3, 3), (4, 1)):
        for b in STRANGE:
            for o in range(outputs):
                weights = [SIGN, 0, SIGN] * outputs
                weights[3 * o + 1] = b
                assert open_count(type, (3, 1, 1, 1), weights, 0) == ("done", int(b not in (0, SIGN)))
    # Two triplets of two entries, the second closed, the first open in all three outputs
    # and in the last two; the same weights by other counts.
    nan, one = SIGN | INFINITY | 1, bits(1.0)
    weights = [nan, 0, 0, SIGN, one, SIGN, one, 0, one, 0, nan, SIGN]
    assert open_count(3, (1, 2, 1, 2), weights, 0) == ("done", 1)
    assert open_count(3, (2, 1, 1, 2), weights, 1) == ("done", 1)
    assert open_count(2, (1, 1, 3, 2), weights, 0) == ("done", 2)
    assert open_count(2, (1, 1, 3, 2), weights, 1) == ("done", 1)
    assert open_count(4, (3, 2, 1, 2), weights, 1) == ("done", 3)
    # 8, 9, 12, 14.
    right = (3, (1, 2, 1, 2), weights, 1)
    wrong = {8: 5, 9: (1, 2, 0, 2), 12: weights[1:], 14: 2}
    for noes in range(1, 16):
        asked = [n for i, n in enumerate(wrong) if noes >> i & 1]
        call = [wrong[n] if n in asked else x for n, x in zip(wrong, right)]
        assert open_count(*call) == ("refused", asked[0])
    for type in (1, 5, -2, 1 << 32 | 2):
        assert open_count(type, (1, 1, 1, 0), [], 0) == ("refused", 8)
    for counts in ((1, 1, 1, -1), (1, 1, 1, 65537), (65, 1, 1, 0), (1, 65, 1, 0), (1, 1, 1025, 0),
                   (1 << 32, 1 << 32, 1, 0), (-1, -1, 1, 0)):
        assert open_count(2, counts, [], 0) == ("refused", 9)
    assert open_count(2, (64, 64, 1024, 65536), [], 65536) == ("refused", 12)
    assert open_count(2, (64, 64, 1024, 0), [], 0) == ("refused", 14)


def points_to_check():
    """The points of document 01 that concern this model."""
    def same(four, omega):
        return weight(omega, [list(map(float, four))] * 24)

    assert same((0, 4, 4, 4), 2.0) == 0.375
    assert same((0, 4, 4, 4), -1.0) == 0.0
    assert same((0, 4, 4, 4), 0.0) == 0.0
    assert same((0, 4, 4, 4), 4.0) == 0.0
    assert same((4, 0, 0, 0), 2.0) == 0.375
    assert same((0, 0, 0, 5e-11), 0.0) == 0.0
    assert same((0, 0, 4, 4), 0.0) == 0.0
    assert sort_omegas([4.0, 0.0, 4.0, 4.0])[1] == 2
    assert sort_omegas([4.0, 0.0, 0.0, 0.0])[1] == 3
    for n in range(4):
        flat = built_in(n)
        assert len(flat) == 288
        for i in range(0, 288, 12):
            a, b, c = flat[i + 3:i + 6], flat[i + 6:i + 9], flat[i + 9:i + 12]
            det = (a[0] * (b[1] * c[2] - b[2] * c[1]) - a[1] * (b[0] * c[2] - b[2] * c[0])
                   + a[2] * (b[0] * c[1] - b[1] * c[0]))
            assert det in (-1, 1)
    one = bits(1.0)
    s = Study(kind=2, mesh=(2, 1, 1), type=2, bands=(1, 1), map=(0, 1, 3),
              addresses=(0, 0, 0, 1, 0, 0, -1, 0, 0), table=built_in(0),
              frequencies1=[one] * 3, frequencies2=[one] * 3, points=[one], triplets=[0] * 3)
    assert neighbour(s, 0, (-1, 0, 0)) == 2
    assert neighbour(s, 0, (3, 0, 0)) == 1
    # The study of the document's example.
    s = Study(kind=2, mesh=(1, 1, 1), type=2, bands=(1, 1), addresses=(0, 0, 0), map=(0, 1),
              table=built_in(0), frequencies1=[one], frequencies2=[one],
              points=[bits(2.0), bits(3.0)], triplets=(0, 0, 0))
    assert piece(s, 0, 0, 0) == [((0, 0), 0), ((0, 0), 1)]
    # Averaging: ids 0,0 and 0,1.
    w = [bits(x) for x in (1.0, 2.0, 3.0, 5.0)]
    z = [1, 0, 1, 1]
    blocks = blocks_of((0, 0), (0, 1))
    average_weights(w, blocks, 2)
    average_flags(z, blocks, 2)
    assert [value(b) for b in w] == [2.0, 3.5, 2.0, 3.5] and z == [1, 0, 1, 0]
    # 23 rows, mesh 128 and 129, counts.
    sheet = Sheet([0] * 4, [0] * 2, [0], [0] * WORKERS)
    carry_on = ("carry_on", 5)
    assert do(s, sheet.copy(), carry_on) == ("done",)
    assert do(s.but(table=built_in(0)[:276]), sheet.copy(), carry_on) == ("refused", 7)
    for d, want in ((128, ("done",)), (129, ("refused", 4))):
        big = s.but(mesh=(1, d, 1), addresses=[0, 0, 0] * d, map=range(d + 1),
                    frequencies1=[one] * d, frequencies2=[one] * d)
        assert do(big, sheet.copy(), carry_on) == want
    for count, want in ((65536, 12), (65537, 9)):
        big = s.but(triplets=[0] * (3 * count))
        assert do(big, sheet.copy(), carry_on) == ("refused", want)
    assert do(s.but(triplets=[0] * (3 * 65536 + 1)), sheet.copy(), carry_on) == ("refused", 9)
    for count, want in ((1024, 12), (1025, 9)):
        big = s.but(points=[one] * count)
        assert do(big, sheet.copy(), carry_on) == ("refused", want)
    workers_to_check(s, sheet)
    open_counts_to_check(s, sheet)
    # Division.
    assert div(1.0, 0.0) == math.inf and div(-1.0, 0.0) == -math.inf
    assert div(1.0, -0.0) == -math.inf and div(0.0, 0.0) != div(0.0, 0.0)


def check_open_counts(s, sheet):
    """The open count of each triplet against its entries, named by their places and
    compared as floats. How many there are."""
    for t in range(s.t):
        entries = {(p, b1, b2) for p in range(s.f) for b1 in range(s.bands[0])
                   for b2 in range(s.bands[1]) for c in range(s.channels)
                   if value(sheet.weights[weight_place(s, c, t, p, b1, b2)]) != 0.0}
        assert open_count(s.type, (*s.bands, s.f, s.t), sheet.weights, t) == ("done", len(entries))
    return s.t


def self_test(count, seed):
    """Program against book (marks all 0 at the start), program against the patch
    of each call (any marks at the start), lists with their workers swapped (any
    marks at the start), and the open counts of the sheets in which these end."""
    points_to_check()
    rng = random.Random(seed)
    seen = {}
    calls_made = patches = lists = swaps = counts = 0
    while lists < count:
        s = random_study(rng)
        how = rng.random()
        for _ in range(3):
            study = spoil_study(rng, s) if how < 0.25 else s
            start = random_start(rng, s)
            if 0.25 < how < 0.3:
                spoil_lengths(rng, start)
            calls = [random_call(rng, s) for _ in range(rng.randint(0, 14))]
            if calls and rng.random() < 0.4:
                calls[rng.randrange(min(3, len(calls)))] = ("carry_on", random_worker(rng))
            a, b = program(study, start, calls), book(study, start, calls)
            before = start
            for call, (answer, sheet), (answer2, sheet2) in zip(calls, a, b):
                assert answer == answer2, (call, answer, answer2)
                assert sheet.content() == sheet2.content(), (call, answer)
                check_step(study, before, call, answer, sheet)
                before = sheet
                key = (call[0],) + ((answer[1],) if answer[0] == "refused" else ("done",))
                seen[key] = seen.get(key, 0) + 1
            if how > 0.3:
                counts += check_open_counts(s, before)
            calls_made += len(calls)
            lists += 1
            swaps += swap_law(study, start, calls, with_other_workers(rng, calls))
        # Any marks at the start: no book, each call against its patch.
        before = begun(rng, s)
        calls = [random_call(rng, s) for _ in range(rng.randint(1, 8))]
        swaps += swap_law(s, before, calls, with_other_workers(rng, calls))
        for call in calls:
            sheet = before.copy()
            answer = do(s, sheet, call)
            check_step(s, before, call, answer, sheet)
            before = sheet
            patches += 1
            key = (call[0],) + ((answer[1],) if answer[0] == "refused" else ("done",))
            seen[key] = seen.get(key, 0) + 1
        counts += check_open_counts(s, before)
    return lists, calls_made, patches, swaps, counts, seen


if __name__ == "__main__":
    want = int(sys.argv[1]) if len(sys.argv) > 1 else 3000
    lists, made, patches, swaps, counts, seen = self_test(want, int(sys.argv[2]) if len(sys.argv) > 2 else 1)
    print("%d lists, %d calls: program and book agree; %d calls on any marks agree with their patch"
          % (lists, made, patches))
    print("%d lists agree with other workers in all but the counts" % swaps)
    print("%d open counts agree with the entries" % counts)
    print(answer_table(seen))
