#!/usr/bin/env python3
"""Makes the stored cases of the crate `vectors_triplet`: weights and flags of all triplets of a study, and of one triplet.

    vectors_triplet.py DRIVER CRATE_FOLDER [SEED]

Writes CRATE_FOLDER/stdin and CRATE_FOLDER/stdout. The answer of an accepted call is the Rust's listing. Whether a call is accepted,
and its number where it is not, comes from the questions of document 01 (scope.py, and below); the Rust has no such checks. The flags
are also compared with the plain definition below. The answer for one triplet is its part of the Rust's call for all triplets: that
call runs the Rust's function for one triplet on each.
"""
import records
import vectors_grid as grids
from records import FAR, Rng, down, grid_request, line, request, unhexed, up
from scope import (CHANNELS, GREATEST, GREATEST_POINT, LEAST, LEAST_POINT, frequency_ok, grid_refusal, neighbour, point_ok, table_ok)
from vectors_grid import make_grid
from vectors_gridpoints import INFINITE, NAN, STYLES, hurt_grid, hurt_table, make_frequencies, make_table


# ---- document 01: the questions

def count_of(triplets):
    """How many triplets, an unfinished one counted."""
    return (len(triplets) + 2) // 3


def refusal(call):
    """The number of the first question that is answered no, or 0."""
    no = grid_refusal(call["grid"])
    if no:
        return no
    if not table_ok(call["table"]):
        return 7
    if call["type"] not in CHANNELS:
        return 8
    p = len(call["grid"][2]) // 3
    b1, b2, points, triplets = call["b1"], call["b2"], call["points"], call["triplets"]
    if not 1 <= b1 <= 64 or not 1 <= b2 <= 64 or not 1 <= len(points) <= 1024 or count_of(triplets) > 65536:
        return 9
    if len(triplets) % 3 or not all(0 <= g < p for g in triplets):
        return 10
    if (len(call["f1"]) != p * b1 or len(call["f2"]) != p * b2 or not all(map(frequency_ok, call["f1"] + call["f2"]))
            or not all(map(point_ok, points))):
        return 11
    cells = len(triplets) // 3 * len(points) * b1 * b2
    return 0 if (call["room"], call["places"]) == (CHANNELS[call["type"]] * cells, cells) else 12


# ---- document 01: corner values, boxes, flags

def corners(call, t):
    """The grid points at the corners of the second and of the third point of triplet t."""
    steps = [call["table"][i:i + 3] for i in range(0, len(call["table"]), 3)]
    sign = 1 if call["type"] == 4 else -1
    g = call["triplets"][3 * t:3 * t + 3]
    return ([neighbour(call["grid"], g[1], s) for s in steps], [neighbour(call["grid"], g[2], [sign * x for x in s]) for s in steps])


def boxes(call, c1, c2, b1, b2):
    """The least and the greatest of each channel's values."""
    f1 = [call["f1"][n * call["b1"] + b1] for n in c1]
    f2 = [call["f2"][n * call["b2"] + b2] for n in c2]
    if call["type"] == 4:
        channels = [[-x + y for x, y in zip(f1, f2)]]
    else:
        f1, f2 = ([0.0 if x < 0 else x for x in f] for f in (f1, f2))
        channels = [[-x + y for x, y in zip(f1, f2)], [x - y for x, y in zip(f1, f2)], [x + y for x, y in zip(f1, f2)]]
    return [(min(v), max(v)) for v in channels]


def with_points(r, call, count):
    """The call with points at the ends of boxes, one step beyond them, within and outside."""
    low, high = -1.0, 5.0
    made = [0.0, -0.0]
    for _ in range(2):
        if not call["triplets"]:
            break
        c1, c2 = corners(call, r.below(len(call["triplets"]) // 3))
        low, high = r.pick(boxes(call, c1, c2, r.below(call["b1"]), r.below(call["b2"])))
        made += [low, high, up(high), down(low), (low + high) / 2]
    far = max(abs(x) for x in call["f1"] + call["f2"])
    made += [-3 * far - 1.0, 3 * far + 1.0]
    mixed = low + (high - low) * r.unit()
    made = [x for x in [mixed] + r.shuffled(made) if point_ok(x)]
    call["points"] = (made * count)[:count]
    return call


# ---- cases

class Cases(records.Cases):
    def listing(self, call, make):
        """A record made of the Rust's listing."""
        self.wait(grid_request(call["grid"])
                  + [request("row", *call["table"]), request("type", call["type"]), request("bands", call["b1"], call["b2"]),
                     request("f1", *call["f1"]), request("f2", *call["f2"]), request("point", *call["points"]),
                     request("triplet", *call["triplets"]), "?listing"], make)

    def head(self, call):
        kind, mesh, addresses, gp_map = call["grid"]
        self.groups.append([line(1, kind, *mesh, addresses, gp_map),
                            line(2, call["type"], call["b1"], call["b2"], call["table"], call["f1"], call["f2"], call["points"])])

    def met(self, call, rows):
        """What the accepted call is a case of; the flags by the definition."""
        kind, rows24, type_ = call["grid"][0], len(call["table"]) // 12, call["type"]
        self.seen["type %d, kind %d, %d rows" % (type_, kind, rows24)] += 1
        self.seen["no triplet"] += not call["triplets"]
        self.seen["several bands"] += call["b1"] > 1 and call["b2"] > 1
        self.seen["negative frequencies, type %d" % type_] += min(call["f1"] + call["f2"]) < 0
        at = {}
        for t in range(len(call["triplets"]) // 3):
            c1, c2 = corners(call, t)
            for b1 in range(call["b1"]):
                for b2 in range(call["b2"]):
                    at[t, b1, b2] = boxes(call, c1, c2, b1, b2)
        for t, x, b1, b2, flag, weights in rows:
            bs, w = at[t, b1, b2], call["points"][x]
            assert flag == (0 if any(low <= w <= high for low, high in bs) else 1), (t, x, b1, b2)
            assert all(v == v for v in weights), "a weight that is judged by the definition alone"
            self.seen["flag %d" % flag] += 1
            self.seen["flag 0 and every weight 0"] += flag == 0 and not any(weights)
            self.seen["weights other than 0"] += sum(1 for v in weights if v)
            self.seen["negative weights"] += sum(1 for v in weights if v < 0)
            self.seen["point on a box's top"] += any(w == high for _, high in bs)
            self.seen["point on a box's bottom"] += any(w == low for low, _ in bs)
            self.seen["point one step above a box"] += any(w == up(high) for _, high in bs)
            self.seen["point one step below a box"] += any(w == down(low) for low, _ in bs)

    def weights(self, call, one=True):
        """A call for all triplets, and one for the last of them."""
        cells = len(call["triplets"]) // 3 * len(call["points"]) * call["b1"] * call["b2"]
        ch = CHANNELS.get(call["type"], 0)
        if call.get("room") is None:
            call["room"], call["places"] = max(0, ch * cells), max(0, cells)
        no = refusal(call)
        self.counts["all"].append(no)
        self.head(call)
        start = (3, no, list(call["triplets"]), len(call["triplets"]), call["room"], call["places"])
        if no or not call["triplets"]:
            if not no:
                self.met(call, [])
            self.put(line(*start, [], []))
            return
        last = len(call["triplets"]) // 3 - 1
        each = cells // (last + 1)
        if one:
            self.counts["one"].append(0)
        def made(answer):
            rows = [(*map(int, row[:4]), int(row[4]), [unhexed(x) for x in row[5:]]) for row in answer[1:]]
            assert [row[:4] for row in rows] == [(t, x, b1, b2) for t in range(last + 1) for x in range(len(call["points"]))
                                                 for b1 in range(call["b1"]) for b2 in range(call["b2"])]
            self.met(call, rows)
            def both(rows):
                return [row[5][k] for k in range(ch) for row in rows], [row[4] for row in rows]
            out = line(*start, *both(rows))
            if one:
                out += line(4, 0, call["triplets"][3 * last:], 3, ch * each, each, *both(rows[last * each:]))
            return out
        self.listing(call, made)

    def one(self, call):
        """A call for one triplet that is refused."""
        call = dict(call, triplets=(list(call["triplets"]) + [0, 0, 0])[:3])
        no = refusal(call)
        if not no:
            return False
        self.counts["one"].append(no)
        self.head(call)
        self.put(line(4, no, call["triplets"], 3, call["room"], call["places"], [], []))
        return True

    def equal(self, call, count, number, room=None, places=None):
        """So many numbers that are all one, as triplets; type 4, one band pair, one point."""
        assert call["type"] == 4 and call["b1"] == call["b2"] == len(call["points"]) == 1
        call = dict(call, triplets=[number] * count, room=count // 3 if room is None else room, places=count // 3 if places is None else places)
        no = refusal(call)
        self.counts["all"].append(no)
        self.head(call)
        start = (3, no, [number], count, call["room"], call["places"])
        if no or not count:
            self.put(line(*start, [], []))
            return
        def made(answer):
            values = {(row[5], row[4]) for row in answer[1:]}
            assert len(answer) == count // 3 + 1 and len(values) == 1
            w, flag = values.pop()
            self.seen["triplets that are all one"] += count // 3
            return line(*start, [unhexed(w)], [int(flag)])
        self.listing(call, made)


MESHES = [(1, 1, 1), (2, 1, 1), (2, 2, 1), (2, 2, 2), (3, 2, 1), (3, 3, 3)]


def make_call(r, tables, type_, kind, rows, style, mesh=None, bands=None, points=None, triplets=None, table="built-in"):
    grid = make_grid(r, kind, mesh or r.pick(MESHES), r.pick(["one", "groups", "far", "wild"]))
    p = len(grid[2]) // 3
    b1, b2 = bands or (r.between(1, 3), r.between(1, 3))
    call = {"grid": grid, "type": type_, "table": make_table(r, tables, rows, table), "b1": b1, "b2": b2,
            "f1": make_frequencies(r, p * b1, style), "f2": make_frequencies(r, p * b2, style),
            "triplets": [r.below(p) for _ in range(3 * (r.between(1, 2) if triplets is None else triplets))], "room": None, "places": None}
    return with_points(r, call, points or r.between(2, 6))


def accepted_cases(r, c, tables):
    turn = 0
    for type_ in (2, 3, 4):
        for kind in (1, 2):
            for rows in (24, 48, 72, 96):
                for _ in range(4):
                    c.weights(make_call(r, tables, type_, kind, rows, STYLES[turn % len(STYLES)]))
                    turn += 1
                c.weights(make_call(r, tables, type_, kind, rows, "signed", table=("far", "any")[turn % 2]))
            c.weights(make_call(r, tables, type_, kind, 24, "unit", triplets=0))                # no triplet at all
        kind = 1 + type_ % 2
        c.weights(make_call(r, tables, type_, kind, 24, "signed", mesh=(128, 1, 1), bands=(1, 1), points=3, triplets=2))
        many = {2: (64, 2), 3: (1, 64), 4: (64, 3)}[type_]
        c.weights(make_call(r, tables, type_, 3 - kind, 24, "unit", mesh=(2, 2, 1), bands=many, points=2, triplets=1))
        c.weights(make_call(r, tables, type_, kind, 96, "unit", mesh=(3, 3, 3), bands=(4, 5), points=5, triplets=3))
    for count in (1, 1023, 1024, 1025):                 # 1,025 points are too many
        call = make_call(r, tables, 4, 2, 24, "unit", mesh=(2, 1, 1), bands=(1, 1), triplets=1)
        c.weights(dict(call, points=[8 * r.unit() - 4 for _ in range(count)]), one=False)
    call = make_call(r, tables, 4, 2, 24, "unit", mesh=(2, 1, 2), bands=(1, 1), points=1, triplets=1)
    call["points"] = [0.25]
    for count in (0, 3, 196608, 196609, 196611):        # 65,536 triplets, an unfinished one more, a whole one more
        c.equal(call, count, 3)
    c.equal(call, 196607, 3)                        # the last unfinished
    c.equal(call, 196611, -1)                       # 9 and 10: the first wins
    c.equal(call, 196608, -1)
    c.equal(call, 196608, 3, room=65535)
    c.equal(call, 196608, 3, places=65537)
    c.equal(call, 0, -1)                            # no triplet, so none is wrong
    c.equal(call, 0, 3, room=1)


# Damages, by the question that is to say no.

def hurt_type(r, call):
    call["type"] = r.pick([0, 1, 5, -2, -3, -4, 2**32 + 2] + FAR)


def hurt_counts(r, call):
    k = r.below(4)
    if k < 2:
        call[("b1", "b2")[k]] = r.pick([0, -1, -64, 65, 2**32, 2**32 + 1] + FAR)
    elif k == 2:
        call["points"] = []
    else:
        call["points"] = [1.0] * 1025


def hurt_triplets(r, call):
    p = len(call["grid"][2]) // 3
    t = call["triplets"] = list(call["triplets"]) or [0, 0, 0]
    if r.chance(0.25):
        del t[-r.between(1, 2):]
    else:
        t[r.below(len(t))] = r.pick([-1, p, p + 1, 8 * p] + FAR)


def hurt_frequencies(r, call):
    f1, f2, x = (list(call[k]) for k in ("f1", "f2", "points"))
    call["f1"], call["f2"], call["points"] = f1, f2, x
    f = r.pick([f1, f2])
    bad = [down(LEAST), -down(LEAST), up(GREATEST), -up(GREATEST), 5e-324, INFINITE, -INFINITE, NAN, 2.0**-650]
    bad_point = [down(LEAST_POINT), -down(LEAST_POINT), up(GREATEST_POINT), -up(GREATEST_POINT), 5e-324, INFINITE, -INFINITE, NAN]
    k = r.below(5)
    if k == 0 and f:
        f.pop()
    elif k == 1:
        f.append(1.0)
    elif k == 2:
        f.clear()
    elif k == 3 and f:
        f[r.below(len(f))] = r.pick(bad)
    elif x:
        x[r.below(len(x))] = r.pick(bad_point)


def hurt_room(r, call):
    which = r.pick(["room", "places"])
    n = call[which]
    call[which] = r.pick([n + 1, max(0, n - 1), 0, 2 * n, n + 3])


HURTS = [(3, hurt_grid(grids.hurt_kind)), (4, hurt_grid(grids.hurt_mesh)), (5, hurt_grid(grids.hurt_addresses)),
         (6, hurt_grid(grids.hurt_map)), (7, hurt_table), (8, hurt_type), (9, hurt_counts), (10, hurt_triplets), (11, hurt_frequencies),
         (12, hurt_room)]


def fill_room(call, triplets):
    cells = max(0, triplets * len(call["points"]) * min(max(call["b1"], 0), 64) * min(max(call["b2"], 0), 64))
    cells = min(cells, 1000)
    call["room"], call["places"] = CHANNELS.get(call["type"], 1) * cells, cells


def damaged(r, tables, hurts, one):
    call = make_call(r, tables, r.pick([2, 3, 4]), r.pick([1, 2]), 24, r.pick(STYLES), mesh=r.pick([(1, 1, 1), (2, 1, 1), (2, 2, 1)]),
                     bands=(r.between(1, 2), r.between(1, 2)), points=r.between(1, 3), triplets=1 if one else r.between(1, 2))
    for h in hurts:
        if h is not hurt_room:
            h(r, call)
    fill_room(call, len(call["triplets"]) // 3)
    if hurt_room in hurts:
        hurt_room(r, call)
    return call


def refused_cases(r, c, tables):
    def put(call, one):
        if one:
            return c.one(call)
        c.weights(call)
        return True
    for one in (False, True):
        for number, hurt in HURTS:                      # one fault
            made = 0
            while made < (16 if number == 11 else 6):
                call = damaged(r, tables, [hurt], one)
                if one and len(call["triplets"]) != 3:
                    continue
                if refusal(call) == number and put(call, one):
                    made += 1
        for _ in range(20):                             # several faults: the first number wins
            call = damaged(r, tables, [h for _, h in HURTS if r.chance(0.35)], one)
            if refusal(call):
                put(call, one)
        for i in range(len(HURTS)):                     # the faults from one question on, all at once
            put(damaged(r, tables, [h for _, h in HURTS[i:]], one), one)
    # each limit of question 11 and one step beyond it
    for x in (LEAST, -LEAST, down(LEAST), GREATEST, -GREATEST, up(GREATEST), 0.0, -0.0):
        for f in ("f1", "f2"):
            call = make_call(r, tables, 4, 2, 24, "whole", mesh=(2, 1, 1), bands=(1, 1), triplets=1)
            call[f][0] = x
            call["points"] = [1.0, 2.0]
            c.weights(call)
    for x in (LEAST_POINT, -LEAST_POINT, down(LEAST_POINT), GREATEST_POINT, -GREATEST_POINT, up(GREATEST_POINT), 0.0, -0.0):
        call = make_call(r, tables, 2, 1, 24, "whole", mesh=(2, 1, 1), bands=(1, 1), points=2, triplets=1)
        call["points"][0] = x
        c.weights(call)


NAMES = {"all": "weights of all triplets", "one": "weights of one triplet"}


def make(driver, crate, seed):
    r, c, tables = Rng(seed), Cases(driver, NAMES), records.tables(driver)
    accepted_cases(r, c, tables)
    refused_cases(r, c, tables)
    c.write(crate, seed)


if __name__ == "__main__":
    records.main(__doc__, make)
