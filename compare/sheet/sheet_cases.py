#!/usr/bin/env python3
"""Stored test of the run sheet: lists of calls with every answer and content.

    python3 sheet_cases.py [SEED]      prints the tables of what the lists hold

cases(seed) yields dicts:
    number      from 0
    group       work, cut, tally, worker, swap, argument, edge, single, pair, later
    name        what the list is for
    table       name of the study's table in TABLES
    study       kind, mesh, type, bands, addresses, map, table, frequencies1,
                frequencies2, points, triplets (flat lists; floats as patterns)
    start       weights (patterns), flags, marks, tally (sixteen counts)
    calls       ("run", worker, triplet, b1, b2), ("carry_on", worker),
                ("average", triplet, ids1, ids2)
    steps       for each call: answer ("done",) or ("refused", number), and the
                whole weights, flags, marks and the tally afterwards
    shows       for each call: the numbers of all questions known to say "no"
open_count_cases(seed) yields dicts: type, counts (b1, b2, points, triplets), weights
(patterns), triplet, answer ("done", number) or ("refused", number), and shows: the
numbers that were planted.
"""
import random
import sys

import sheet_model as m
import sheet_selftest as r
from sheet_model import SIGN, Sheet, Study, bits, power
from sheet_selftest import DEEP, FAR, FULL, NO_WORKERS, STRANGE, alone

SEED = 20261115
WIDE = 1 << 32
TOP = (1 << 64) - 1
NONE = (0,) * m.WORKERS


# ---------------------------------------------------------------- the fixed tables

def fixed_tables():
    t0 = m.built_in(0)
    rng = random.Random(24)
    odd = [rng.randint(-2, 2) for _ in t0]
    odd[0], odd[100], odd[287] = 4096, -4096, 4096

    def with_number(place, x):
        return t0[:place] + [x] + t0[place + 1:]

    return {
        # accepted
        "t0": t0, "t1": m.built_in(1), "t2": m.built_in(2), "t3": m.built_in(3),
        "t01": m.built_in(0, 1), "t230": m.built_in(2, 3, 0), "t3210": m.built_in(3, 2, 1, 0),
        "odd": odd,
        # refused with 7
        "none": [], "one": t0[:12], "cut": t0[:-1], "more": t0 + [0], "rows23": t0[:276],
        "rows25": t0 + t0[:12], "rows36": t0 + t0[:144], "rows120": m.built_in(0, 1, 2, 3, 0),
        "over": with_number(287, 4097), "under": with_number(0, -4097),
        "max": with_number(140, FAR), "min": with_number(141, DEEP),
    }


TABLES = fixed_tables()
USUAL = ("t0", "t1", "t2", "t3")


def table_name(table):
    for name, flat in TABLES.items():
        if tuple(flat) == tuple(table):
            return name
    raise KeyError("no fixed table")


# ---------------------------------------------------------------- studies and starts

def base(rng, kind=None, mesh=(2, 1, 1), bands=(2, 2), triplets=2, points=1, type=None,
         table=None, extra=1):
    """An accepted study of the given sizes."""
    kind = kind or rng.choice((1, 2))
    addresses, grid_map = r.random_grid(rng, kind, mesh, extra)
    p = len(addresses) // 3
    f1 = r.random_frequencies(rng, p * bands[0])
    f2 = r.random_frequencies(rng, p * bands[1])
    return Study(kind=kind, mesh=mesh, type=type or rng.choice((2, 3, 4)), bands=bands,
                 addresses=addresses, map=grid_map, table=TABLES[table or rng.choice(USUAL)],
                 frequencies1=f1, frequencies2=f2,
                 points=r.random_points(rng, points, f1, f2),
                 triplets=[rng.randrange(p) for _ in range(3 * triplets)])


CLEAN = (0, 1, SIGN | 1, power(60), power(60) | SIGN, bits(0.1), bits(-0.3), bits(7.7),
         bits(1.0 / 3.0), bits(1e-17), bits(-5.25), bits(2.0 ** 53))


def start_with(rng, s, states, tally=NONE):
    """A sheet whose triplets stand as told: open, part, computed, averaged,
    dirty (computed, but with entries that question 19 turns away)."""
    nw, nf, nm = r.lengths(s)
    nbb = s.bands[0] * s.bands[1]
    weights = [rng.choice(STRANGE) for _ in range(nw)]
    marks = []
    for t, state in enumerate(states):
        if state == "part":
            one = [0, 1] + [rng.choice((0, 1)) for _ in range(nbb)]
            marks += one[:nbb]
        else:
            marks += [{"open": 0, "averaged": 2}.get(state, 1)] * nbb
        if state == "computed":
            for c in range(s.channels):
                i = m.weight_place(s, c, t, 0, 0, 0)
                for k in range(i, i + s.f * nbb):
                    weights[k] = rng.choice(CLEAN)
        if state == "dirty":
            weights[m.weight_place(s, s.channels - 1, t, s.f - 1, 0, 0)] = rng.choice(
                (SIGN, STRANGE[2], STRANGE[7], power(60) + 1))
    assert len(marks) == nm
    return Sheet(weights, [rng.choice((0, 1, 1, -1, 2, 127, -128)) for _ in range(nf)], marks,
                 tally)


# ---------------------------------------------------------------- one case

def later_noes(s, sheet, call):
    """Which of 14 to 21 say "no", each asked by itself where it can be; for what is
    no worker 20 is asked of the worker that its lowest four bits name."""
    out = []
    for n in m.ASKED[call[0]]:
        if n < 14:
            continue
        if n in (15, 18, 19) and not 0 <= m.triplet_of(call) < s.t:
            continue
        asked = call[:1] + (call[1] % m.WORKERS,) + call[2:] if n == 20 else call
        if not m.QUESTIONS[n](s, sheet, asked):
            out.append(n)
    return out


def case(name, s, start, calls, planted=(), plain=None):
    """Run the list. planted: numbers among 3 to 13 put in by the maker, who also
    gives the study and start without them (plain); then the answer is known."""
    calls = [tuple(c) for c in calls]
    steps = m.program(s, start, calls)
    if all(x == 0 for x in start.marks):
        other = m.book(s, start, calls)
        assert [(a, x.content()) for a, x in steps] == [(a, x.content()) for a, x in other], name
    shows, before, out = [], start, []
    for call, (answer, sheet) in zip(calls, steps):
        m.check_step(s, before, call, answer, sheet)
        study, state = plain if planted else (s, before)
        no = sorted(set(planted) | set(later_noes(study, state, call)))
        no = [n for n in m.ASKED[call[0]] if n in no]
        assert answer == (("refused", no[0]) if no else ("done",)), (name, call, answer, no)
        shows.append(no)
        out.append({"answer": answer, "weights": list(sheet.weights), "flags": list(sheet.flags),
                    "marks": list(sheet.marks), "tally": list(sheet.tally)})
        before = sheet
    return {"name": name, "table": table_name(s.table), "study": s.as_dict(),
            "start": {"weights": list(start.weights), "flags": list(start.flags),
                      "marks": list(start.marks), "tally": list(start.tally)},
            "calls": calls, "steps": out, "shows": shows}


# ---------------------------------------------------------------- faults of study and start

def put(values, place, x):
    out = list(values)
    out[place] = x
    return out


def refit(s, p, addresses):
    """The study with P addresses and everything else made to fit."""
    grid_map = list(s.map)
    if s.kind == 1:
        grid_map = [8 * s.n] * (8 * s.n)
    else:
        grid_map = list(range(s.n)) + [p]
    return {"addresses": addresses, "map": grid_map,
            "frequencies1": (s.frequencies1 * 20)[:p * s.bands[0]],
            "frequencies2": (s.frequencies2 * 20)[:p * s.bands[1]],
            "triplets": [x % p for x in s.triplets]}


def faults(k, s, start):
    """(label, changes of the study, changes of the start); the base has two
    triplets, bands 2,2, one extra address and P below 8N."""
    out = []

    def study(label, **changes):
        out.append((label, changes, {}))

    def sheet(label, **changes):
        out.append((label, {}, changes))

    n, p, a, mp = s.n, s.p, list(s.addresses), list(s.map)
    f1, f2, points, tr = s.frequencies1, s.frequencies2, s.points, s.triplets
    w, z, marks = start.weights, start.flags, start.marks
    if k == 3:
        for v in (0, 3, -1, -2, FAR, DEEP, WIDE + 1, WIDE + 2):
            study("kind %d" % v, kind=v)
    elif k == 4:
        for i, v in ((0, 0), (1, 0), (2, -1), (0, 129), (1, 129), (2, 129), (0, FAR), (2, DEEP),
                     (1, WIDE + 1)):
            study("mesh %d at %d" % (v, i), mesh=put(s.mesh, i, v))
        study("mesh -2,-1,1", mesh=(-2, -1, 1))
        study("mesh 2^32,2^32,1", mesh=(WIDE, WIDE, 1))
    elif k == 5:
        study("addresses one more", addresses=a + [0])
        study("addresses two more", addresses=a + [0, 0])
        study("addresses one less", addresses=a[:-1])
        study("addresses none", addresses=[])
        if n > 1:
            study("P is N-1", **refit(s, n - 1, a[:3 * (n - 1)]))
        study("P is 8N+1", **refit(s, 8 * n + 1, (a * 20)[:3 * (8 * n + 1)]))
        for i, v in ((0, 4097), (1, -4097), (3 * p - 1, 4097), (2, FAR), (4, DEEP),
                     (5, WIDE)):
            study("address %d at %d" % (v, i), addresses=put(a, i, v))
    elif k == 6:
        study("map none", map=[])
        if s.kind == 1:
            study("map one short", map=mp[:8 * n - 1])
            for i, v in ((0, p), (8 * n - 1, 8 * n + 1), (3, -1), (1, FAR), (2, DEEP),
                         (5, WIDE), (8 * n - 1, 8 * n - 1)):
                study("map %d at %d" % (v, i), map=put(mp, i, v))
        else:
            study("map one short", map=mp[:n])
            study("map starts at 1", map=put(mp, 0, 1))
            study("map starts at -1", map=put(mp, 0, -1))
            study("map ends at P-1", map=put(mp, n, p - 1))
            study("map ends at P+1", map=put(mp, n, p + 1))
            study("map equal pair", map=put(mp, 1, 0))
            study("map falls", map=put(mp, 1, p + 1))
            study("map equal at the end", map=put(mp, n - 1, p))
            study("map deep", map=put(mp, 1, DEEP))
            study("map far", map=put(mp, n, FAR))
    elif k == 7:
        for name in ("none", "one", "cut", "more", "rows23", "rows25", "rows36", "rows120",
                     "over", "under", "max", "min"):
            study("table " + name, table=TABLES[name])
    elif k == 8:
        for v in (0, 1, 5, -2, FAR, DEEP, WIDE + 2, WIDE + 4):
            study("type %d" % v, type=v)
    elif k == 9:
        for v in ((0, 2), (2, 0), (-1, 2), (2, -1), (65, 2), (2, 65), (FAR, 2), (2, DEEP),
                  (WIDE + 2, 2), (2, WIDE + 2), (-2, -2), (WIDE, WIDE), (0, 0)):
            study("bands %d,%d" % v, bands=v)
        study("no point", points=[])
        study("1025 points", points=[0] * 1025)
        study("65,1 with its frequencies", bands=(65, 1), frequencies1=(f1 * 65)[:65 * p],
              frequencies2=f2[:p])
    elif k == 10:
        for i, v in ((0, -1), (1, p), (2, p), (3, p), (4, -1), (5, FAR), (0, DEEP), (1, WIDE)):
            study("triplet number %d at %d" % (v, i), triplets=put(tr, i, v))
        study("triplets one more", triplets=tr + (0,))
        study("triplets two more", triplets=tr + (0, 0))
        study("triplets one less", triplets=tr[:-1])
        study("triplets two less", triplets=tr[:-2])
    elif k == 11:
        study("frequencies1 one less", frequencies1=f1[:-1])
        study("frequencies2 one less", frequencies2=f2[:-1])
        study("frequencies1 one more", frequencies1=f1 + (0,))
        study("frequencies2 one more", frequencies2=f2 + (0,))
        study("frequencies1 none", frequencies1=[])
        for label, b in (("nan", 0x7FF8000000000000), ("nan payload", 0xFFF0000000000001),
                         ("infinity", 0x7FF << 52), ("-infinity", 0xFFF << 52),
                         ("above 2^30", power(30) + 1), ("below -2^30", SIGN | (power(30) + 1)),
                         ("below 2^-600", power(-600) - 1), ("above -2^-600", SIGN | (power(-600) - 1)),
                         ("least subnormal", 1)):
            study("frequencies1 " + label, frequencies1=put(f1, 0, b))
            study("frequencies2 " + label, frequencies2=put(f2, len(f2) - 1, b))
        for label, b in (("nan", 0x7FF0000000000002), ("infinity", 0x7FF << 52),
                         ("above 2^31", power(31) + 1), ("below -2^31", SIGN | (power(31) + 1)),
                         ("below 2^-660", power(-660) - 1), ("-subnormal", SIGN | 1)):
            study("point " + label, points=put(points, len(points) - 1, b))
    elif k == 12:
        sheet("weights one less", weights=w[:-1])
        sheet("weights one more", weights=w + [0])
        sheet("weights none", weights=[])
        sheet("weights twice", weights=w + w)
        sheet("flags one less", flags=z[:-1])
        sheet("flags one more", flags=z + [1])
        sheet("flags none", flags=[])
        sheet("marks one less", marks=marks[:-1])
        sheet("marks one more", marks=marks + [0])
        sheet("marks none", marks=[])
        sheet("weights less, flags more", weights=w[:-1], flags=z + [0])
        sheet("all none", weights=[], flags=[], marks=[])
    elif k == 13 and len(marks) == 8:
        for label, i, v in (("3 in the named triplet", 0, 3), ("255", 1, 255), ("128", 2, 128),
                            ("254", 3, 254), ("2 among 1", 3, 2), ("2 first among 1", 0, 2),
                            ("3 in the other", 4, 3), ("2 among 0", 7, 2), ("255 at the end", 7, 255)):
            sheet("mark " + label, marks=put(marks, i, v))
        sheet("marks 1 and 2 mixed", marks=[1, 2, 1, 2] + marks[4:])
        sheet("marks 2 but one 0", marks=marks[:4] + [2, 2, 0, 2])
        sheet("marks 2 but one 1", marks=marks[:4] + [1, 2, 2, 2])
        sheet("marks all 3", marks=[3] * 8)
    return out


def apply(s, start, *changes):
    new = start.copy()
    for of_study, of_start in changes:
        s = s.but(**of_study)
        for name, v in of_start.items():
            setattr(new, name, list(v))
    return s, new


# Calls on a sheet of two triplets with bands 2,2, the first computed, the second
# open: three that are accepted, and the same with a wrong argument.
RIGHT = (("run", 3, 1, 0, 1), ("carry_on", 3), ("average", 0, (0, 0), (0, 1)))
WRONG_RUNS = (("run", 3, 2, 0, 0), ("run", 3, 0, -1, 0), ("run", 16, 1, 0, 2),
              ("run", WIDE + 3, 1, 0, 1), ("run", -1, 0, 0, 1))
WRONG_CARRIES = (("carry_on", WIDE + 3), ("carry_on", 16))
WRONG_AVERAGES = (("average", 2, (0, 0), (0, 1)), ("average", 0, (0, 2), (0, 1)),
                  ("average", 1, (0, 1), (0, 0)))


def single_faults(rng):
    """Each fault alone; all three calls would be accepted without it, unless the
    start is all open (then the averaging is too early besides)."""
    for k in range(3, 14):
        for kind in (1, 2) if k == 6 else (rng.choice((1, 2)),):
            mesh = (2, 1, 1) if k in (5, 6) else rng.choice(((1, 1, 1), (2, 1, 1)))
            s = base(rng, kind=kind, mesh=mesh)
            half = start_with(rng, s, ("computed", "open"), alone(3, rng.choice((0, 7))))
            none = half.copy()
            none.marks = [0] * 8
            for i, (label, of_study, of_start) in enumerate(faults(k, s, half)):
                start = none if i % 2 and k < 12 else half
                bad, bad_start = apply(s, start, (of_study, of_start))
                calls = RIGHT if i < 3 else (RIGHT[i % 3],)
                yield case("%d alone: %s" % (k, label), bad, bad_start, calls, (k,), (s, start))


def pair_faults(rng):
    """Every two of 3 to 13 at once; some calls have wrong arguments besides."""
    for i in range(3, 13):
        s = base(rng, mesh=rng.choice(((1, 1, 1), (2, 1, 1))))
        start = start_with(rng, s, (rng.choice(("computed", "dirty")), "open"))
        for j in range(i + 1, 14):
            start = start.copy()
            start.tally = alone(3, rng.choice((0, 3, FULL - 1, FULL, TOP)), rng.choice((0, 1)))
            while True:
                one, two = (rng.choice(faults(k, s, start)) for k in (i, j))
                fields = [set(x[1]) | set(x[2]) for x in (one, two)]
                if not fields[0] & fields[1] and max(map(len, fields)) == 1 \
                        and "1025" not in one[0] + two[0]:
                    break
            bad, bad_start = apply(s, start, one[1:], two[1:])
            calls = (rng.choice((RIGHT[0],) + WRONG_RUNS), rng.choice((RIGHT[1],) + WRONG_CARRIES),
                     rng.choice((RIGHT[2],) + WRONG_AVERAGES))
            yield case("%d and %d: %s; %s" % (i, j, one[0], two[0]), bad, bad_start, calls,
                       (i, j), (s, start))
    # Marks too short and with a wrong byte.
    bad, bad_start = apply(s, start, ({}, {"marks": [3] * 7}))
    yield case("12 and 13: marks short and 3", bad, bad_start, RIGHT, (12, 13), (s, start))


def later_faults(rng):
    """Each of 3 to 13 together with each later question on the arguments."""
    s = base(rng)
    t = base(rng, bands=(2, 1))
    ids = (0, 0)
    for study, states, tally, calls in (
            (s, ("averaged", "dirty"), alone(6, TOP),
             (("run", 6, 0, 2, 0), ("run", 22, 0, 0, 0), ("carry_on", 6),
              ("average", 0, (0, 1, 2), ids), ("average", 2, (), ids), ("average", 1, ids, ids),
              ("run", 6, 1, 0, 0), ("run", 0, 1, 1, 1))),
            (t, ("part", "averaged"), alone(0, FULL, 1),
             (("average", 0, ids, (1,)), ("average", 1, ids, (0,)), ("carry_on", 0),
              ("run", 16, 0, 1, 0), ("carry_on", 256), ("carry_on", 15)))):
        start = start_with(rng, study, states, tally)
        for k in range(3, 14):
            options = [x for x in faults(k, study, start) if "1025" not in x[0]]
            if k == 13:
                # A wrong byte where the states stay what they are.
                place = len(start.marks) - 1 if states[0] == "averaged" else 0
                options = [("mark 9", {}, {"marks": put(start.marks, place, 9)})]
            label, of_study, of_start = rng.choice(options)
            bad, bad_start = apply(study, start, (of_study, of_start))
            yield case("%d and later ones: %s" % (k, label), bad, bad_start, calls, (k,),
                       (study, start))


# ---------------------------------------------------------------- arguments

def argument_lists(rng):
    # 14: every number of a piece, negative and beyond; some would be in range as
    # one running number.
    for bands in ((2, 2), (2, 3), (1, 1)):
        s = base(rng, bands=bands, triplets=2, table=rng.choice(USUAL))
        start = start_with(rng, s, ("open", "part"), [4] * m.WORKERS)
        b1, b2 = bands
        pieces = [(-1, 0, 0), (2, 0, 0), (0, -1, 0), (0, b1, 0), (0, 0, -1), (0, 0, b2),
                  (1, -1, b2 - 1), (0, b1, -1), (1, -1, b2), (FAR, 0, 0), (0, FAR, 0), (0, 0, FAR),
                  (DEEP, 0, 0), (0, DEEP, 0), (0, 0, DEEP), (WIDE, 0, 0), (0, WIDE, 0),
                  (0, 0, WIDE), (-1, b1 - 1, b2 - 1)]
        calls = [("run", r.random_worker(rng)) + piece for piece in rng.sample(pieces, 12)]
        calls.append(("run", 11, 1, b1 - 1, b2 - 1))
        yield case("14: pieces off the sheet, bands %d,%d" % bands, s, start, calls)
    s = base(rng)
    ids = (0, 1)
    yield case("14: triplets off the sheet", s, start_with(rng, s, ("computed", "computed")),
               [("average", t, ids, ids) for t in (-1, 2, 3, FAR, DEEP, WIDE)]
               + [("average", 2, (), ids), ("average", -1, ids, (1, 1)), ("average", 1, ids, ids)])
    # 14, 15, 21 and 20 with each other; 18 is no worker, 2 to its lowest four bits.
    for count in (0, FULL - 1, FULL, TOP):
        s = base(rng)
        yield case("14, 15, 21, 20 with count %d" % count, s,
                   start_with(rng, s, ("averaged", "part"), alone(2, count, rng.choice((0, 8)))),
                   [("run", 2, 0, 2, 0), ("run", 18, 0, 0, -1), ("run", 2, 0, 0, 0),
                    ("run", 18, 0, 0, 0), ("run", 18, 1, 2, 1), ("run", 18, 1, 1, 1),
                    ("run", 2, 1, 1, 1), ("average", 0, ids, ids), ("carry_on", 18),
                    ("carry_on", 2), ("run", 2, 0, 1, 1)])
    # 16 to 19 with each other, on unequal bands.
    for bands in ((2, 1), (1, 2), (2, 3)):
        s = base(rng, bands=bands, triplets=3)
        one, two = r.random_ids(rng, bands[0]), r.random_ids(rng, bands[1])
        yield case("16: bands %d,%d" % bands, s,
                   start_with(rng, s, ("averaged", "part", "dirty"), alone(1, rng.choice((0, TOP)))),
                   [("average", 0, one, two), ("average", 0, (), two), ("average", 1, one, two),
                    ("average", 2, one, two), ("average", 3, one, two), ("average", 1, one, (1,)),
                    ("average", 2, one, one), ("run", 1, 1, 0, 0), ("carry_on", 1)])
    # 17: wrong lists, alone and with 15, 18, 19.
    wrong3 = ((), (0,), (0, 1), (0, 1, 2, 3), (1, 1, 2), (-1, 1, 2), (0, 2, 2), (0, 0, 1),
              (0, 1, 0), (0, -1, 2), (0, 0, 3), (0, 1, FAR), (DEEP, 1, 2), (WIDE, 1, 2),
              (0, WIDE + 1, 2), (2, 1, 0), (0, 0, -1), (0, 1, 3))
    right3 = ((0, 1, 2), (0, 0, 2), (0, 1, 1), (0, 0, 0))
    s = base(rng, bands=(3, 3), triplets=2)
    start = start_with(rng, s, ("computed", "open"))
    yield case("17: the first list", s, start,
               [("average", 0, x, rng.choice(right3)) for x in wrong3]
               + [("average", 0, right3[1], right3[2])])
    yield case("17: the second list", s, start,
               [("average", 0, rng.choice(right3), x) for x in wrong3]
               + [("average", 0, right3[3], right3[1])])
    s = base(rng, bands=(3, 3), triplets=4, mesh=(1, 1, 1))
    yield case("15, 17, 18, 19 together", s, start_with(
        rng, s, ("averaged", "part", "dirty", "computed")),
        [("average", t, x, right3[0]) for t in (0, 1, 2, 3) for x in (wrong3[4], right3[3])])
    s = base(rng, bands=(1, 1), triplets=1)
    yield case("17: one band", s, start_with(rng, s, ("computed",)),
               [("average", 0, (), (0,)), ("average", 0, (0,), ()), ("average", 0, (1,), (0,)),
                ("average", 0, (0,), (0, 0)), ("average", 0, (0,), (-1,)), ("average", 0, (0,), (0,)),
                ("average", 0, (0,), (0,))])
    # 18 with 19: open pieces and entries that 19 turns away.
    s = base(rng, triplets=2)
    start = start_with(rng, s, ("dirty", "computed"))
    start.marks[3] = 0
    start.marks[4] = 0
    yield case("18 and 19", s, start, [("average", 0, ids, ids), ("average", 1, ids, ids),
                                       ("run", 12, 0, 1, 1), ("average", 0, ids, ids),
                                       ("run", 13, 1, 0, 0), ("average", 1, (0, 0), (0, 0))])
    # 19: each sort of entry, at the first and last place of the triplet, and the
    # same just outside it.
    for k, (label, b) in enumerate((
            ("nan", 0x7FF8000000000000), ("nan payload", 0xFFF4000000000BAD),
            ("infinity", 0x7FF << 52), ("-infinity", 0xFFF << 52), ("-0.0", SIGN),
            ("above 2^60", power(60) + 1), ("below -2^60", SIGN | (power(60) + 1)),
            ("greatest", 0x7FEFFFFFFFFFFFFF), ("2^60", power(60)), ("-2^60", power(60) | SIGN),
            ("least subnormal", 1), ("-subnormal", SIGN | 1), ("0.0", 0))):
        s = base(rng, triplets=3, points=2, type=(2, 3, 4)[k % 3], mesh=(1, 1, 1), table="t0")
        start = start_with(rng, s, ("computed", "computed", "computed"))
        c = rng.randrange(s.channels)
        start.weights[m.weight_place(s, c, 1, 0, 0, 0)] = b
        start.weights[m.weight_place(s, s.channels - 1, 2, 1, 1, 1)] = b
        yield case("19: %s" % label, s, start,
                   [("average", 1, ids, ids), ("average", 0, (0, 0), (0, 0)),
                    ("average", 2, (0, 0), (0, 1))])


# ---------------------------------------------------------------- the counts

def tally_lists(rng):
    """One worker's count at the limit, beside good ones and beside full ones."""
    ids = (0, 0)
    for count in (0, FULL - 2, FULL - 1, FULL, FULL + 1, TOP - 1, TOP):
        w, others = rng.randrange(m.WORKERS), rng.choice((0, 3, TOP))
        tally = alone(w, count, others)
        s = base(rng, mesh=(1, 1, 1), triplets=1, table="t1")
        yield case("count %d, nothing open" % count, s, start_with(rng, s, ("computed",), tally),
                   [("carry_on", w), ("run", w, 0, 1, 0), ("carry_on", w), ("average", 0, ids, ids),
                    ("carry_on", w), ("run", w, 0, 0, 0)])
        yield case("count %d, all averaged" % count, s, start_with(rng, s, ("averaged",), tally),
                   [("carry_on", w), ("run", w, 0, 1, 0), ("average", 0, ids, ids)])
        empty = s.but(triplets=())
        yield case("count %d, no triplets" % count, empty, Sheet((), (), (), tally),
                   [("carry_on", w), ("run", w, 0, 0, 0), ("average", 0, ids, ids),
                    ("carry_on", (w + 1) % m.WORKERS)])
    # Four open pieces: the last number that holds them, and the first that does not.
    for count in (FULL - 5, FULL - 4, FULL - 3, FULL - 1, TOP, TOP - 3):
        w = rng.randrange(m.WORKERS)
        s = base(rng, mesh=(1, 1, 1), triplets=2, table="t2")
        yield case("count %d, four open" % count, s,
                   start_with(rng, s, ("open", "computed"), alone(w, count)),
                   [("carry_on", w), ("run", w, 0, 0, 0), ("carry_on", w), ("run", w, 1, 1, 1),
                    ("run", w, 0, 1, 1)])
    # The same with one, two, three and eight.
    for bands, triplets in (((1, 1), 1), ((1, 2), 1), ((3, 1), 1), ((2, 2), 2)):
        k = bands[0] * bands[1] * triplets
        w = rng.randrange(m.WORKERS)
        s = base(rng, mesh=(1, 1, 1), bands=bands, triplets=triplets, table="t2")
        for count in (FULL - k, FULL - k - 1):
            yield case("2^63 - %d, %d open" % (FULL - count, k), s,
                       start_with(rng, s, ("open",) * triplets, alone(w, count, 1)),
                       [("carry_on", w), ("run", w, 0, 0, 0), ("carry_on", w)])
    for count in (FULL - 6, FULL - 2):
        s = base(rng, mesh=(1, 1, 1), triplets=1, table="t3")
        yield case("count %d, all open" % count, s, start_with(rng, s, ("open",), alone(14, count)),
                   [("run", 14, 0, 0, 1), ("run", 14, 0, 0, 1), ("carry_on", 14), ("run", 14, 0, 1, 1),
                    ("average", 0, ids, ids), ("carry_on", 14)])
    # Others' counts and the sum do not matter.
    for w, tally in ((0, alone(0, 0, TOP)), (15, alone(15, FULL - 6, FULL)), (9, [FULL - 6] * 16),
                     (7, [1 << 59] * 16), (8, alone(7, FULL - 1))):
        s = base(rng, mesh=(1, 1, 1), triplets=1, table="t3")
        other = (w + 15) % m.WORKERS
        yield case("others' counts, worker %d" % w, s, start_with(rng, s, ("open",), tally),
                   [("run", w, 0, 1, 1), ("run", other, 0, 1, 0), ("carry_on", w),
                    ("carry_on", other), ("average", 0, ids, ids), ("carry_on", w)])


# ---------------------------------------------------------------- workers

def worker_lists(rng):
    everyone = range(m.WORKERS)
    ids = (0, 1)
    # All sixteen: a piece each, then one piece again and again, carry-ons with
    # nothing open.
    s = base(rng, mesh=(1, 1, 1), triplets=4, type=4)
    pieces = [(t, b1, b2) for t in range(4) for b1 in (0, 1) for b2 in (0, 1)]
    yield case("sixteen pieces by sixteen workers", s, start_with(rng, s, ("open",) * 4),
               [("run", w) + pieces[w] for w in everyone]
               + [("average", 2, ids, ids), ("carry_on", 4)])
    s = base(rng, mesh=(1, 1, 1), triplets=1, type=2)
    yield case("one piece by sixteen workers", s,
               start_with(rng, s, ("open",), [w * w for w in everyone]),
               [("run", w, 0, 1, 0) for w in reversed(everyone)] + [("run", 5, 0, 1, 0)] * 2)
    yield case("carry-ons by sixteen workers", s, start_with(rng, s, ("part",)),
               [("carry_on", w) for w in rng.sample(everyone, m.WORKERS)])
    # Carry-ons by turns: each finds what an averaging or a repeat left.
    s = base(rng, mesh=(2, 1, 1), triplets=3)
    yield case("by turns", s, start_with(rng, s, ("open", "part", "computed")),
               [("run", 8, 0, 0, 0), ("run", 9, 0, 0, 0), ("run", 8, 0, 0, 0), ("average", 2, ids, ids),
                ("carry_on", 9), ("carry_on", 8), ("run", 8, 2, 0, 0), ("run", 10, 1, 1, 1),
                ("average", 0, (0, 0), (0, 0)), ("carry_on", 10)])
    # What is no worker: open pieces or none; counts good, just full and full where the
    # lowest four bits name them.
    s = base(rng, mesh=(1, 1, 1), triplets=1)
    full, just = ([x if w in (0, 1, 3, 15) else 0 for w in everyone] for x in (FULL, FULL - 1))
    for states, tally in ((("part",), NONE), (("part",), full), (("computed",), just),
                          (("averaged",), alone(0, 2, 3))):
        calls = [c for w in NO_WORKERS for c in (("run", w, 0, 0, 1), ("carry_on", w))]
        yield case("no workers, %s, count %d" % (states[0], tally[0]), s,
                   start_with(rng, s, states, tally), calls + [("run", 3, 0, 0, 1), ("carry_on", 3)])
    # No worker on no triplets, and off the sheet; bad marks besides.
    empty = s.but(triplets=())
    yield case("no workers, no triplets", empty, Sheet((), (), (), alone(0, FULL, 4)),
               [("carry_on", -1), ("run", 16, 0, 0, 0), ("carry_on", 16), ("carry_on", 0),
                ("carry_on", 1)])
    start = start_with(rng, s, ("computed",), alone(0, TOP))
    for marks in ([1, 1, 3, 1], [1, 2, 1, 1]):
        bad = start.copy()
        bad.marks = marks
        yield case("no workers, bad marks", s, bad, [("run", 16, 0, 0, 0), ("carry_on", 16),
                                                     ("run", -1, 1, 0, 0), ("carry_on", 0)],
                   (13,), (s, start))


def swap_lists(rng):
    """A list, the same with names exchanged, and with each call's worker drawn anew."""
    for i in range(2):
        s = base(rng, mesh=(1 + i, 1, 1), triplets=2, type=(4, 2)[i])
        tally = [rng.randrange(50) for _ in NONE]
        start = (start_with(rng, s, ("part", "computed"), tally) if i
                 else r.random_start(rng, s, tally=tally))
        calls = script(rng, s)
        names = rng.sample(range(m.WORKERS), m.WORKERS)
        for how, worker in (("as it is", lambda w: w), ("exchanged", lambda w: names[w]),
                            ("drawn anew", lambda w: rng.randrange(m.WORKERS)),
                            ("all one", lambda w: 6)):
            others = [c if c[0] == "average" else c[:1] + (worker(c[1]),) + c[2:] for c in calls]
            assert how == "as it is" or m.swap_law(s, start, calls, others)
            yield case("swap %d, %s" % (i, how), s, start, others)


# ---------------------------------------------------------------- work

def script(rng, s):
    """Runs, repeats, carry-ons and averagings, also too early and twice."""
    def worker():
        return r.random_worker(rng, 0)

    def some():
        return ("run", worker(), rng.randrange(s.t), rng.randrange(s.bands[0]),
                rng.randrange(s.bands[1]))

    def ids():
        return r.random_ids(rng, s.bands[0]), r.random_ids(rng, s.bands[1])

    t = rng.randrange(s.t)
    calls = [some()]
    if rng.random() < 0.5:
        calls.append(("run", worker()) + calls[0][2:])
    calls += [some(), ("average", t) + ids(), ("carry_on", worker())]
    calls.append(("run", worker(), t, rng.randrange(s.bands[0]), rng.randrange(s.bands[1])))
    one = ids()
    calls += [("average", t) + one, ("run", worker(), t, 0, 0)]
    calls.append(("average", t) + (one if rng.random() < 0.5 else ids()))
    calls.append(("carry_on", worker()))
    other = rng.randrange(s.t)
    calls += [some(), ("average", other, tuple(range(s.bands[0])), (0,) * s.bands[1])]
    if s.t > 1:
        calls.append(("average", (t + 1) % s.t, (0,) * s.bands[0], (0,) * s.bands[1]))
    calls.append(some())
    return calls


def work_study(rng, i):
    table = {5: "t01", 8: "t230", 13: "t3210", 16: "odd", 18: "t01"}.get(i) or rng.choice(USUAL)
    bands = rng.choice(((1, 1), (2, 2), (2, 2), (3, 3), (2, 1), (1, 3), (3, 2)) if i % 3
                       else ((3, 3), (2, 2)))
    large = bands == (3, 3)
    return base(rng, kind=1 + i % 2, mesh=rng.choice(((1, 1, 1), (2, 1, 1), (2, 2, 1), (3, 1, 1))),
                bands=bands, triplets=rng.choice((1, 2) if large else (1, 2, 2, 3)),
                points=rng.choice((1, 1, 2) if large else (1, 1, 2, 3)),
                type=(2, 3, 4)[i // 2 % 3], table=table, extra=rng.choice((0, 1, 3)))


def work_lists(rng):
    for i in range(20):
        s = work_study(rng, i)
        sorts = (0, 0, 0, 0, 11, FULL - 2, FULL - 9) if i % 3 else (0, 0, 0, 0, 11)
        start = r.random_start(rng, s, tally=[rng.choice(sorts) for _ in NONE])
        calls = script(rng, s) if i % 4 else [r.random_call(rng, s) for _ in range(10)]
        yield case("work %d" % i, s, start, calls)
    # Averaging at once after a carry-on, then runs, on an all open sheet.
    for i in range(4):
        s = base(rng, kind=1 + i % 2, bands=(3, 3), triplets=1, points=2, type=(2, 3, 4, 3)[i],
                 mesh=(2, 2, 1), table=("t0", "t1", "t2", "t3")[i])
        start = r.random_start(rng, s, tally=NONE)
        yield case("average after carry-on %d" % i, s, start,
                   [("carry_on", i), ("average", 0, ((0, 0, 2), (0, 1, 1), (0, 0, 0), (0, 1, 2))[i],
                                      ((0, 0, 0), (0, 0, 2), (0, 1, 1), (0, 0, 0))[i]),
                    ("run", i, 0, 1, 1), ("carry_on", 15), ("average", 0, (0, 1, 2), (0, 1, 2))])
    # Means that a second averaging would move; drawn until it is so (of blocks in
    # three bands only three by three can).
    ids = (0, 0, 0)
    for i in range(3):
        moved = False
        while not moved:
            s = base(rng, kind=1 + i % 2, bands=(3, 3), triplets=1, points=1, type=(2, 3, 4)[i],
                     mesh=(2, 2, 1))
            s = s.but(frequencies1=[bits(rng.uniform(0.0, 2.0)) for _ in s.frequencies1],
                      frequencies2=[bits(rng.uniform(0.0, 2.0)) for _ in s.frequencies2],
                      points=[bits(rng.uniform(0.2, 1.5))])
            start = r.random_start(rng, s, tally=NONE)
            calls = [("carry_on", 10), ("average", 0, ids, ids), ("average", 0, ids, ids),
                     ("run", 10, 0, 0, 0)]
            after = m.program(s, start, calls[:2])[1][1].weights
            for c in range(s.channels):
                once = after[9 * c:9 * c + 9]
                twice = list(once)
                m.average_weights(twice, m.blocks_of(ids, ids), 3)
                moved = moved or once != twice
        yield case("a second averaging would move %d" % i, s, start, calls)
    # Computed entries that no run here made: kept, mixed with re-runs, averaged;
    # flags other than 0 and 1.
    for i in range(6):
        s = base(rng, bands=(3, 3) if i < 3 else (2, 2), triplets=2, points=1 + i % 2)
        start = start_with(rng, s, ("computed", rng.choice(("open", "dirty", "part"))), alone(i, 3))
        nbb = s.bands[0] ** 2
        start.flags[:nbb] = [(2, -1, 1, 127, -128, 1, 5, 9, 1), (2, -1, 0, 127, -128, 1, 5, 9, 1),
                             (1,) * 9][i % 3][:nbb]
        ids = r.random_ids(rng, s.bands[0]), r.random_ids(rng, s.bands[1])
        calls = [("run", i, 0, 0, 1), ("average", 0) + ids, ("carry_on", 2 * i), ("average", 1) + ids]
        if i % 2:
            calls = [calls[1], ("run", 3, 0, 0, 0), calls[2], ("run", 4, 1, 1, 1), calls[3]]
        yield case("foreign entries %d" % i, s, start, calls)
    # Every piece by hand in descending order, then again, then averaged.
    s = base(rng, triplets=2, points=2)
    pieces = [("run", 5 + b1, t, b1, b2) for t in (1, 0) for b1 in (1, 0) for b2 in (1, 0)]
    yield case("by hand", s, r.random_start(rng, s, tally=NONE),
               pieces + [("carry_on", 0), pieces[3], ("average", 1, (0, 0), (0, 1)),
                         ("average", 0, (0, 1), (0, 0)), ("carry_on", 0), pieces[7]])
    # Partly done sheets of every state.
    for i in range(4):
        s = base(rng, triplets=3, bands=(2, 2))
        start = start_with(rng, s, rng.sample(("open", "part", "computed", "averaged", "dirty"), 3),
                           [rng.choice((0, 40)) for _ in NONE])
        yield case("partly done %d" % i, s, start,
                   [r.random_call(rng, s, 0.1) for _ in range(4)] + [("carry_on", i)]
                   + [("average", t, (0, 0), (0, 0)) for t in range(3)])


def cut_lists(rng):
    """A list and the same list ending early, after 0, 1, 2 ... calls."""
    for i in range(2):
        s = base(rng, bands=(2, 2), triplets=2, points=1, type=(2, 3)[i], mesh=(1 + i, 1, 1))
        start = r.random_start(rng, s, tally=[i] * m.WORKERS)
        ids = ((0, 0), (0, 1))
        calls = [("run", 1, 1, 0, 1), ("run", 2, 2, 0, 0), ("average", 1) + ids, ("carry_on", 1 + i),
                 ("average", 1) + ids, ("run", 1, 1, 0, 1), ("run", 13, 0, 1, 1)]
        for end in range(len(calls) + 1):
            yield case("cut %d after %d of %d" % (i, end, len(calls)), s, start, calls[:end])


# ---------------------------------------------------------------- ends of ranges, accepted

def edge_lists(rng):
    one = bits(1.0)
    ids = (0, 0)
    calls = [("run", 4, 0, 0, 1), ("carry_on", 9), ("average", 0, ids, ids)]

    def fresh(s):
        return start_with(rng, s, ("open",) * s.t)

    # P = N and P = 8N, both kinds; kind 1 with every map value in use.
    for kind in (1, 2):
        for extra in (0, 7):
            s = base(rng, kind=kind, mesh=(1, 1, 1), extra=extra, triplets=1)
            yield case("P is %s, kind %d" % ("8N" if extra else "N", kind), s, fresh(s), calls)
    s = base(rng, kind=1, mesh=(1, 1, 1), extra=7, triplets=1)
    s = s.but(map=[7, 0, 6, 1, 5, 2, 8, 3])
    yield case("kind 1, map 0 to 7 and missing", s, fresh(s), calls)
    # What lies behind the map is not looked at.
    for kind in (1, 2):
        s = base(rng, kind=kind, triplets=1)
        need = 8 * s.n if kind == 1 else s.n + 1
        s = s.but(map=s.map[:need] + (DEEP, FAR, -1))
        yield case("map with a tail, kind %d" % kind, s, fresh(s), calls)
    # Addresses and steps at +-4096.
    s = base(rng, triplets=1, table="odd")
    s = s.but(addresses=put(put(s.addresses, 0, 4096), 4, -4096))
    yield case("addresses and steps at 4096", s, fresh(s), calls)
    # Frequencies and points at the ends of their ranges, -0.0 too.
    ends = (power(30), SIGN | power(30), power(-600), SIGN | power(-600), 0, SIGN, one)
    for kind in (1, 2):
        s = base(rng, kind=kind, triplets=1, points=3)
        s = s.but(frequencies1=[ends[i % 7] for i in range(len(s.frequencies1))],
                  frequencies2=[ends[(3 * i + 1) % 7] for i in range(len(s.frequencies2))],
                  points=(power(31), SIGN, power(-660)) if kind == 1
                  else (SIGN | power(31), 0, SIGN | power(-660)))
        yield case("ends of the float ranges, kind %d" % kind, s, fresh(s), calls)
    # A point on the box's top; frequencies below 0 in types 2 and 4; a point
    # between equal middle vertices.
    for type in (2, 3, 4):
        s = base(rng, kind=2, mesh=(1, 1, 1), extra=1, triplets=1, points=3, type=type)
        f = [bits(x) for x in (-1.0, 2.0, 0.5, -0.25)]
        s = s.but(frequencies1=f, frequencies2=[bits(x) for x in (1.5, -2.0, 3.0, 0.75)],
                  points=[bits(x) for x in (3.5, 2.5, -1.0)], triplets=(0, 0, 1))
        yield case("box ends, type %d" % type, s, fresh(s), calls)
    # Differences at, above and below 1e-10 (first band); a middle branch whose
    # divisor is small but not 0 (second band).
    s = base(rng, kind=2, mesh=(1, 1, 1), extra=3, triplets=1, points=3, type=4, table="t0")
    s = s.but(addresses=(0, 0, 0, 1, 0, 0, 1, 1, 0, 1, 1, 1), frequencies1=[0] * 8,
              frequencies2=[bits(x) for x in (0.0, 0.0, 1e-10, 1e-9, 3e-10, 100.0, 1.75e-10, 200.0)],
              points=[bits(x) for x in (0.4e-10, 1e-9, 1.7e-10)], triplets=(0, 0, 0))
    yield case("differences near 1e-10", s, fresh(s), calls)
    # All three channels open with weights, so that their sum rounds; drawn until
    # six entries are so.
    for i in range(2):
        count = 0
        while count < 6:
            s = base(rng, kind=1 + i, mesh=(2, 2, 1), extra=3, triplets=1, points=3, type=3,
                     table="t%d" % i)
            s = s.but(frequencies1=[bits(rng.uniform(0.0, 1.0)) for _ in s.frequencies1],
                      frequencies2=[bits(rng.uniform(0.0, 1.0)) for _ in s.frequencies2],
                      points=[bits(rng.uniform(0.3, 0.5)) for _ in range(3)])
            count = 0
            for b in range(4):
                for w, _ in m.piece(s, 0, b // 2, b % 2):
                    g2, less, total = map(m.value, w)
                    count += g2 != 0.0 and abs(less) < 0.9 * (total - g2)
        yield case("three channels open %d" % i, s, fresh(s), calls)
    # Kind 2: equal addresses in one group (the first is taken), and one that is
    # in no group (the group's first is taken).
    s = base(rng, kind=2, mesh=(1, 1, 1), extra=6, triplets=2, points=2, type=4, table="t1")
    s = s.but(addresses=(0, 0, 0, 1, 0, 0, 1, 0, 0, 0, 0, 1, 0, 0, 0, 0, 0, 1, 9, 9, 9),
              frequencies1=[bits(0.25 * i * i) for i in range(14)],
              frequencies2=[bits(4.0 - 0.375 * i) for i in range(14)],
              points=(bits(-1.1), bits(1.3)), triplets=(0, 1, 2, 6, 3, 5))
    yield case("kind 2, equal addresses", s, fresh(s), calls)
    # Mesh 128 is accepted, 129 is not; all else fits.
    for d in (128, 129):
        s = base(rng, kind=2, mesh=(1, 1, 1), bands=(1, 1), triplets=1, extra=0, type=4, table="t0")
        s = s.but(mesh=(d, 1, 1), addresses=[x for i in range(d) for x in (i, 0, 0)],
                  map=range(d + 1), frequencies1=[bits(i % 5 / 2.0) for i in range(d)],
                  frequencies2=[bits(i % 3 * 1.0) for i in range(d)],
                  triplets=(0, 127, 5), points=(bits(0.25),))
        start = start_with(rng, s, ("open",))
        plain = (s.but(mesh=(128, 1, 1)), start)
        yield case("mesh %d" % d, s, start,
                   [("run", 15, 0, 0, 0), ("carry_on", 0), ("average", 0, (0,), (0,))],
                   (4,) if d == 129 else (), plain)
    # 64 bands and 1,024 points are accepted: what is asked next says no or all is done.
    s = base(rng, kind=2, mesh=(1, 1, 1), bands=(64, 1), triplets=1, extra=0, type=4, table="t0")
    yield case("64 bands", s, fresh(s), [("run", 1, 0, 63, 0), ("run", 1, 0, 64, 0), ("carry_on", 2),
                                         ("average", 0, tuple(range(64)), (0,))])
    s = base(rng, kind=2, mesh=(1, 1, 1), triplets=1, extra=0)
    wide = s.but(points=[0] * 1024)
    yield case("1024 points, empty sheet", wide, Sheet((), (), (), NONE), calls, (12,), (s, fresh(s)))
    wide = s.but(bands=(64, 64), frequencies1=(s.frequencies1 * 32), frequencies2=(s.frequencies2 * 32))
    yield case("64,64 bands, empty sheet", wide, Sheet((), (), (), NONE), calls, (12,), (s, fresh(s)))
    # No triplets, with each study fault all the same, and with buffers not empty.
    s = base(rng, triplets=0)
    nothing = [("carry_on", 1), ("run", 1, 0, 0, 0), ("run", 1, -1, 0, 0), ("average", 0, ids, ids)]
    blank = Sheet((), (), (), alone(1, 9))
    yield case("no triplets", s, blank, nothing)
    for of_start in ({"weights": [0]}, {"flags": [1]}, {"marks": [0]}):
        bad, start = apply(s, blank, ({}, of_start))
        yield case("no triplets, %s not empty" % list(of_start)[0], bad, start, nothing, (12,),
                   (s, blank))
    bad = s.but(type=7)
    yield case("no triplets, type 7", bad, blank, nothing, (8,), (s, blank))


# ---------------------------------------------------------------- all

def cases(seed=SEED):
    rng = random.Random(seed)
    number = 0
    for group, part in (("work", work_lists), ("cut", cut_lists), ("tally", tally_lists),
                        ("worker", worker_lists), ("swap", swap_lists),
                        ("argument", argument_lists), ("edge", edge_lists),
                        ("single", single_faults), ("pair", pair_faults), ("later", later_faults)):
        for c in part(rng):
            yield {"number": number, "group": group, **c}
            number += 1


# ---------------------------------------------------------------- open counts

OUTPUTS = {2: 2, 3: 3, 4: 1}
# Two that are zero; then all that is not: NaNs quiet and signalling, of both signs, infinities,
# the least and the greatest subnormals, the least normal, the greatest and other numbers.
ZEROS = (0, SIGN)
OTHERS = (0x7FF8000000000000, 0xFFF8000000000000, 0x7FF8000000000BAD, 0xFFFFFFFFFFFFFFFF,
          0x7FF0000000000001, 0xFFF0000000000001, 0x7FF4DEADBEEF0123, 0xFFF7FFFFFFFFFFFF,
          0x7FF << 52, 0xFFF << 52, 1, SIGN | 1, (1 << 52) - 1, SIGN | (1 << 52) - 1, 1 << 52,
          SIGN | 1 << 52, 0x7FEFFFFFFFFFFFFF, bits(1.0), bits(-2.5), bits(1e-17))
# The most weights of a case.
MANY = 256


def open_count_case(type, counts, weights, triplet, no=(), count=None):
    """no: the numbers planted by the maker; count: the answer where he knows it."""
    answer = m.open_count(type, counts, weights, triplet)
    if no:
        assert answer == ("refused", no[0]), (type, counts, triplet, no, answer)
    else:
        assert answer[0] == "done" and count in (None, answer[1]), (type, counts, triplet, answer)
    return {"type": type, "counts": tuple(counts), "weights": list(weights), "triplet": triplet,
            "answer": answer, "shows": list(no)}


def by_entries(rng, type, triplets):
    """The weights of a sheet. triplets: of each its entries, of each entry the weights
    of its outputs, None for a zero of either sign."""
    return [rng.choice(ZEROS) if entry[o] is None else entry[o]
            for o in range(OUTPUTS[type]) for entries in triplets for entry in entries]


def right_counts(rng):
    """Accepted calls."""
    def other():
        return rng.choice(OTHERS)

    for type, outputs in OUTPUTS.items():
        closed, every = [None] * outputs, list(range(outputs))

        def entry(*places):
            return [other() if o in places else None for o in every]

        # One entry and one pattern, in each output by turns; open triplets on both sides.
        for k, b in enumerate(ZEROS + OTHERS):
            if k % 3 == type % 3 or b in ZEROS:
                one = list(closed)
                one[k // 3 % outputs] = b
                sheet = by_entries(rng, type, [[entry(*every)], [one], [entry(*every)]])
                yield open_count_case(type, (1, 1, 1, 3), sheet, 1, count=int(b not in ZEROS))
        # An entry for each choice of outputs; triplets that are closed and open beside it.
        choices = [entry(*(o for o in every if k >> o & 1)) for k in range(1 << outputs)]
        for bands, points in (((1, 1), 1 << outputs), ((2, 1 << outputs - 1), 1)):
            rng.shuffle(choices)
            sheet = by_entries(rng, type, [[closed] * len(choices), choices,
                                           [entry(*every) for _ in choices]])
            for t, count in enumerate((0, len(choices) - 1, len(choices))):
                yield open_count_case(type, (*bands, points, 3), sheet, t, count=count)
        # Any content, mostly zeros.
        for bands, points, triplets in (((1, 3), 2, 2), ((2, 1), 3, 3), ((3, 2), 2, 1)):
            sheet = [other() if rng.random() < 0.25 else rng.choice(ZEROS)
                     for _ in range(outputs * triplets * points * bands[0] * bands[1])]
            for t in range(triplets):
                yield open_count_case(type, (*bands, points, triplets), sheet, t)
    # The most bands, and so many entries that a byte does not count them.
    for type, counts in ((3, (64, 1, 1, 1)), (2, (1, 64, 2, 1)), (4, (2, 2, 64, 1)), (4, (1, 1, 1, 256))):
        n = counts[0] * counts[1] * counts[2]
        some = [[other() if type == 4 or rng.random() < 0.3 else None for _ in range(OUTPUTS[type])]
                for _ in range(n * counts[3])]
        sheet = by_entries(rng, type, [some])
        yield open_count_case(type, counts, sheet, counts[3] - 1,
                              count=sum(1 for x in some[-n:] if any(b is not None for b in x)))


# A small sheet: bands 2,1, one point, two triplets.
SMALL = (2, 1, 1, 2)
BAD_COUNTS = (
    (0, 1, 1, 2), (2, 0, 1, 2), (-1, 1, 1, 2), (2, -1, 1, 2), (-2, -1, 1, 2), (65, 1, 1, 1),
    (1, 65, 1, 1), (FAR, 1, 1, 2), (2, DEEP, 1, 2), (WIDE + 2, 1, 1, 2), (2, WIDE + 1, 1, 2),
    (2, 1, 0, 2), (2, 1, -1, 2), (2, 1, 1025, 2), (2, 1, FAR, 2), (2, 1, DEEP, 2),
    (2, 1, WIDE + 1, 2), (2, 1, 1, -1), (2, 1, 1, -2), (2, 1, 1, 65537), (2, 1, 1, FAR),
    (2, 1, 1, DEEP), (2, 1, 1, WIDE + 2), (65, 1, 1, 0), (2, 0, 1, 0), (2, 1, 1025, 0),
    # Products that do not fit 64 bits: 0, or a length, in the lowest of them.
    (WIDE, WIDE, 1, 2), (2, 1, WIDE, WIDE), (1 << 16, 1 << 16, 1 << 16, 1 << 16),
    ((1 << 62) + 1, 4, 1, 1), (2, 1, 1 << 61, 8), (2, -1, -1, 2), (-2, 1, 1, -2),
    (FAR, FAR, FAR, FAR), (DEEP, DEEP, DEEP, DEEP), (DEEP, FAR, 1, 2), (0, 0, 0, 0))


def planted(type, sheet):
    """Changes of a right call on the small sheet, by the number that each plants."""
    n = len(sheet)
    lengths = sorted({0, n - 1, n + 1, 2 * n, *(4 * o for o in OUTPUTS.values())} - {n})
    return {
        8: [{"type": x} for x in (0, 1, 5, 6, -2, -3, -4, 256 + type, WIDE + type, FAR, DEEP)],
        9: [{"counts": x} for x in BAD_COUNTS],
        12: [{"weights": (sheet * 3)[:x]} for x in lengths]
            + [{"counts": x} for x in ((2, 1, 1, 1), (2, 1, 1, 3), (2, 1, 2, 2), (1, 1, 1, 2),
                                       (2, 2, 1, 2), (2, 1, 1, 0), (2, 1, 1, 65536),
                                       (2, 1, 1024, 2), (64, 64, 1, 2), (64, 64, 1024, 65536))],
        14: [{"triplet": x} for x in (-1, 2, 3, 4, 256, WIDE, WIDE + 1, FAR, DEEP, DEEP + 1)]
            + [{"counts": (64, 64, 1024, 0), "weights": []}],
    }


def at_once(rng, lists):
    """One change of each list, no two of the same field."""
    while True:
        chosen = [rng.choice(changes) for changes in lists]
        together = {k: v for change in chosen for k, v in change.items()}
        if len(together) == sum(map(len, chosen)):
            return together


def wrong_counts(rng):
    """Refused calls: each fault alone, then two, three and four at once."""
    for type, outputs in OUTPUTS.items():
        sheet = [rng.choice(ZEROS + OTHERS) for _ in range(4 * outputs)]
        right = {"type": type, "counts": SMALL, "weights": sheet, "triplet": 1}
        faults = planted(type, sheet)
        for n, changes in faults.items():
            for change in changes:
                yield open_count_case(**{**right, **change}, no=(n,))
        # Bad counts with the length that a product in 64 bits would want.
        for counts in BAD_COUNTS:
            length = outputs
            for c in counts:
                length = length * c % (1 << 64)
            if length <= MANY and length != len(sheet):
                weights = [rng.choice(ZEROS) for _ in range(length)]
                yield open_count_case(type, counts, weights, 0, no=(9,))
        for noes in range(3, 16):
            no = [n for i, n in enumerate(faults) if noes >> i & 1]
            for _ in range((0, 0, 3, 1, 1)[len(no)]):
                call = {**right, **at_once(rng, [faults[n] for n in no])}
                yield open_count_case(**call, no=no)


def open_count_cases(seed=SEED):
    rng = random.Random(seed + 1)
    yield from right_counts(rng)
    yield from wrong_counts(rng)


def main():
    seed = int(sys.argv[1]) if len(sys.argv) > 1 else SEED
    seen, pairs, lists, made, numbers, fresh, from_zero = {}, {}, 0, 0, 0, 0, 0
    last = {}
    for c in cases(seed):
        lists += 1
        made += len(c["calls"])
        from_zero += all(x == 0 for x in c["start"]["marks"])
        fields = dict(c["study"], table=c["table"], **c["start"])
        for k, v in fields.items():
            size = len(v) if isinstance(v, list) else 1
            numbers += size
            fresh += 0 if last.get(k) == v else size
        last = fields
        for call, step, no in zip(c["calls"], c["steps"], c["shows"]):
            answer = step["answer"]
            key = (call[0], answer[1] if answer[0] == "refused" else "done")
            seen[key] = seen.get(key, 0) + 1
            for other in no[1:]:
                pair = (call[0], no[0], other)
                pairs[pair] = pairs.get(pair, 0) + 1
    print("seed %d: %d lists (%d start with all marks 0), %d calls" % (seed, lists, from_zero, made))
    print("%d numbers in studies and starts (a table is one), %d in fields that differ from the"
          " list before" % (numbers, fresh))
    print(m.answer_table(seen))
    print("\nTwo questions say no at once: pairs of neighbours, times shown")
    for kind, asked in m.ASKED.items():
        print("%-9s" % kind + " ".join("%d,%d:%d" % (i, j, pairs.get((kind, i, j), 0))
                                       for i, j in zip(asked, asked[1:])))
    print("all pairs shown: " + ", ".join(
        "%s %d of %d" % (kind, sum(1 for p in pairs if p[0] == kind),
                         len(asked) * (len(asked) - 1) // 2) for kind, asked in m.ASKED.items()))
    missing = [(kind, i, j) for kind, asked in m.ASKED.items() for x, i in enumerate(asked)
               for j in asked[x + 1:] if (kind, i, j) not in pairs]
    print("not shown: " + (" ".join("%s:%d,%d" % x for x in missing) or "none"))
    counts, both = {}, {}
    for c in open_count_cases(seed):
        a, no = c["answer"], c["shows"]
        key = a[1] if a[0] == "refused" else "done"
        counts[key] = counts.get(key, 0) + 1
        for other in no[1:]:
            both[no[0], other] = both.get((no[0], other), 0) + 1
    gaps = [(kind, n) for kind, asked in m.ASKED.items() for n in ("done",) + asked
            if (kind, n) not in seen]
    assert not gaps, gaps
    print("open count: " + ", ".join("%s %d" % (k, n) for k, n in counts.items()))
    print("two at once: " + " ".join("%d,%d:%d" % (*k, n) for k, n in sorted(both.items())))


if __name__ == "__main__":
    main()
