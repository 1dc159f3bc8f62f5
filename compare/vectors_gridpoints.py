#!/usr/bin/env python3
"""Makes the stored cases of the crate `vectors_gridpoints`: weights at grid points, normal triplets, copies of a neighbour table, customers'
tables and weights under them.

    vectors_gridpoints.py DRIVER CRATE_FOLDER [SEED]

Writes CRATE_FOLDER/stdin and CRATE_FOLDER/stdout. The answer of an accepted call is the Rust's. Whether a call is accepted, and its
number where it is not, comes from the questions of document 01 and of request 7 (scope.py, and below); the Rust has no such checks. Normal
triplets and copies are also compared with the plain definitions below.
"""
import customer_tables
import records
import vectors_grid as grids
from records import FAR, Rng, down, flat, grid_request, line, request, unhexed, up
from scope import (GREATEST, GREATEST_POINT, LEAST, LEAST_POINT, customer_refusal, frequency_ok, grid_refusal, point_ok, small, table_ok)
from vectors_grid import make_grid

NAN, INFINITE = float("nan"), float("inf")


# ---- document 01: the questions

def table_refusal(table):
    return 0 if table_ok(table) else 7


def refusal(call, of_table=table_refusal):
    """The number of the first question that is answered no, or 0."""
    no = grid_refusal(call["grid"]) or of_table(call["table"])
    if no:
        return no
    p = len(call["grid"][2]) // 3
    bands, points, gps, r = call["bands"], call["points"], call["gps"], call["r"]
    if not 1 <= bands <= 64 or not 1 <= len(points) <= 1024 or len(gps) > 65536:
        return 9
    if not all(0 <= g < p for g in gps):
        return 10
    if (r < 1 or len(call["freq"]) != r * bands or not all(map(frequency_ok, call["freq"]))
            or len(call["ir"]) != p or not all(0 <= v < r for v in call["ir"]) or not all(map(point_ok, points))):
        return 11
    return 0 if call["room"] == len(gps) * len(points) * bands else 12


def normal_refusal(triplet, addresses):
    if len(addresses) % 3 or not small(addresses):
        return 5
    if not all(0 <= g < len(addresses) // 3 for g in triplet):
        return 10
    return 0


def copies_refusal(table, tp_type, room):
    if not table_ok(table):
        return 7
    if tp_type not in (2, 3, 4):
        return 8
    if room != 2 * len(table):
        return 12
    return 0


# ---- cases

# Of the records of weights, what they count as and the questions of the table.
WEIGHTS = {3: ("weights", table_refusal), 8: ("customer weights", customer_refusal)}


class Cases(records.Cases):
    def request(self, call, which):
        return grid_request(call["grid"]) + [
            request("row", *call["table"]), request("freq", *call["freq"]), request("irmap", *call["ir"]), request("point", *call["points"]),
            request("gp", *call["gps"]), request("?gridpoints", "IJ"[which], call["bands"])]

    def head(self, call):
        kind, mesh, addresses, gp_map = call["grid"]
        self.groups.append([line(1, kind, *mesh, addresses, gp_map), line(2, call["table"], call["ir"], call["freq"], call["points"])])

    def met(self, call, which, weights):
        assert all(x == x for x in weights), "a weight that is judged by the definition alone"
        self.seen["kind %d, %d rows, %s" % (call["grid"][0], len(call["table"]) // 12, "IJ"[which])] += 1
        self.seen["weight 0"] += weights.count(0.0)
        self.seen["weight other than 0"] += len(weights) - weights.count(0.0)

    def weights(self, call, functions=(0, 1), record=3):
        """A call, with I and with J."""
        if call.get("room") is None:
            call["room"] = len(call["gps"]) * len(call["points"]) * call["bands"]
        kind, of_table = WEIGHTS[record]
        no = refusal(call, of_table)
        self.head(call)
        for which in functions:
            self.counts[kind].append(no)
            start = (record, no, which, call["bands"], call["r"], list(call["gps"]), call["room"])
            if no or not call["gps"]:
                if not no:
                    self.met(call, which, [])
                self.put(line(*start, []))
                continue
            def made(answer, start=start, which=which):
                values = [unhexed(x) for x in answer[0]]
                assert len(values) == call["room"]
                self.met(call, which, values)
                return line(*start, values)
            self.wait(self.request(call, which), made)

    def crowd(self, call, times, g, room=None, which=0):
        """One grid point repeated, one band, one point."""
        call = dict(call, gps=[g] * times, room=times if room is None else room)
        no = refusal(call)
        assert call["bands"] == 1 and len(call["points"]) == 1
        self.head(call)
        self.counts["weights"].append(no)
        start = (4, no, which, call["r"], times, g, call["room"])
        if no or not times:
            self.put(line(*start, 0.0))
            return
        def made(answer):
            values = set(answer[0])
            assert len(answer[0]) == times and len(values) == 1
            value = unhexed(values.pop())
            self.met(call, which, [value])
            return line(*start, value)
        self.wait(self.request(call, which), made)

    def normal(self, triplet, addresses):
        no = normal_refusal(triplet, addresses)
        self.counts["normal"].append(no)
        if no:
            self.put(line(5, no, *triplet, list(addresses), 0))
            return
        expected = all(sum(addresses[3 * g + k] for g in triplet) == 0 for k in range(3))
        def made(answer):
            value = int(answer[0][0])
            assert value == int(expected)
            self.seen["normal" if value else "not normal"] += 1
            return line(5, 0, *triplet, list(addresses), value)
        self.wait([request("addr", *addresses), request("?normal", *triplet)], made)

    def copies(self, table, tp_type, room=None):
        if room is None:
            room = 2 * len(table)
        no = copies_refusal(table, tp_type, room)
        self.counts["copies"].append(no)
        self.groups.append([])
        if no:
            self.put(line(6, no, tp_type, list(table), room, []))
            return
        def made(answer):
            values = [int(x) for copy in answer for x in copy]
            assert values == table + [x if tp_type == 4 else -x for x in table]
            self.seen["%d rows, type %d" % (len(table) // 12, tp_type)] += 1
            return line(6, 0, tp_type, list(table), room, values)
        self.wait([request("row", *table), request("?copies", tp_type)], made)

    def customer_table(self, table, number):
        """A customer's table alone; the number that it is made for must be that of the questions."""
        assert customer_refusal(table) == number, (customer_refusal(table), number, table)
        self.counts["customer tables"].append(number)
        self.groups.append([line(7, number, table)])


# ---- weights at grid points

def make_table(r, tables, rows, style):
    """So many rows: built-in tables, or corners of any kind."""
    if style == "built-in":
        return flat(r.pick(tables) for _ in range(rows // 24))
    if style == "far":
        return [r.pick([0, 1, -1, 4096, -4096, 4095]) for _ in range(12 * rows)]
    return [r.between(-2, 2) for _ in range(12 * rows)]


def make_frequencies(r, count, style):
    if style == "whole":
        return [float(r.between(0, 5)) for _ in range(count)]
    if style == "equal":
        return [r.pick([1.5, 1.5, 2.0])] * count
    if style == "near":                                 # differences around 1e-10
        return [1.0 + r.pick([0, 0, 5e-11, 1e-10, 1.5e-10, 3e-10]) for _ in range(count)]
    if style == "signed":
        return [(r.unit() - 0.5) * 8 for _ in range(count)]
    if style == "zeros":
        return [r.pick([0.0, -0.0, 0.0, 4.0]) for _ in range(count)]
    if style == "ends":
        return [r.pick([GREATEST, -GREATEST, LEAST, -LEAST, 0.0]) for _ in range(count)]
    return [r.unit() * 4 for _ in range(count)]


def make_points(r, freq, count):
    low, high = min(freq), max(freq)
    mixed = low + (high - low) * r.unit()
    made = [low, high, r.pick(freq), r.pick(freq), mixed, up(high), down(low), low - 1.0, high + 1.0, (low + high) / 2, 0.0, -0.0]
    made = [x if point_ok(x) else 0.0 for x in made]
    return [mixed if point_ok(mixed) else low] + r.shuffled(made)[:count - 1]


def make_call(r, tables, kind, rows, style, mesh=None, bands=None, points=None, gps=None, table="built-in"):
    mesh = mesh or r.pick([(1, 1, 1), (2, 1, 1), (2, 2, 1), (2, 2, 2), (3, 2, 1), (3, 3, 3)])
    grid = make_grid(r, kind, mesh, r.pick(["one", "groups", "far", "wild"]))
    p = len(grid[2]) // 3
    ir = r.between(1, p)
    bands = bands or r.between(1, 3)
    freq = make_frequencies(r, ir * bands, style)
    return {"grid": grid, "table": make_table(r, tables, rows, table), "ir": [r.below(ir) for _ in range(p)], "r": ir, "bands": bands,
            "freq": freq, "points": make_points(r, freq, points or r.between(2, 6)),
            "gps": [r.below(p) for _ in range(r.between(1, 3) if gps is None else gps)], "room": None}


STYLES = ["unit", "whole", "equal", "near", "signed", "zeros", "ends"]


def accepted_cases(r, c, tables):
    for kind in (1, 2):
        for rows in (24, 48, 72, 96):
            for style in STYLES:
                c.weights(make_call(r, tables, kind, rows, style))
            for table in ("far", "any"):
                c.weights(make_call(r, tables, kind, rows, "unit", table=table))
        c.weights(make_call(r, tables, kind, 24, "unit", mesh=(128, 1, 1), bands=2, points=3, gps=2))
        c.weights(make_call(r, tables, kind, 24, "unit", mesh=(2, 2, 1), bands=64, points=2, gps=2))
        c.weights(make_call(r, tables, kind, 96, "unit", mesh=(3, 3, 3), bands=6, points=8, gps=7))
        for rows in (24, 96):                           # no grid point at all
            c.weights(make_call(r, tables, kind, rows, "unit", gps=0))
        call = make_call(r, tables, kind, 24, "unit", mesh=(2, 1, 1), bands=1, gps=1)
        for count in (1, 1023, 1024, 1025):             # 1,025 points are too many
            c.weights(dict(call, points=[4 * r.unit() for _ in range(count)], room=None), functions=(0,) if count > 1 else (0, 1))
        call = make_call(r, tables, kind, 24, "unit", mesh=(2, 1, 2), bands=1, points=2, gps=1)
        call["points"] = call["points"][:1]
        for times in (65536, 65537):
            c.crowd(call, times, 3, which=kind - 1)
        c.crowd(call, 65537, 3, room=65536)
        c.crowd(call, 65537, -1)                        # 9 and 10: the first wins
        c.crowd(dict(call, freq=call["freq"][:-1]), 65537, 3)
        c.crowd(call, 0, -1)                            # no grid point, so none is wrong


# Damages, by the question that is to say no.

def hurt_grid(hurt):
    def damage(r, call):
        kind, mesh, addresses, gp_map = call["grid"]
        part = {"kind": kind, "mesh": list(mesh), "addresses": list(addresses), "map": list(gp_map)}
        hurt(r, part)
        call["grid"] = (part["kind"], part["mesh"], part["addresses"], part["map"])
    return damage


def hurt_table(r, call):
    t = call["table"] = list(call["table"])
    k = r.below(6)
    if k == 0:
        t.clear()
    elif k == 1:
        del t[-12:]
    elif k == 2:
        t += [0] * r.pick([1, 3, 12, 144])
    elif k == 3:
        del t[-r.between(1, 11):]
    else:
        t[r.below(len(t))] = r.pick([4097, -4097] + FAR)


def hurt_counts(r, call):
    k = r.below(4)
    if k == 0:
        call["bands"] = r.pick([0, -1, -64, 65, 2**32] + FAR)
    elif k == 1:
        call["points"] = []
    elif k == 2:
        call["bands"] = 65
        call["freq"] = [1.0] * (65 * max(call["r"], 0) if call["r"] < 60 else 0)
    else:
        call["points"] = [1.0] * 1025


def hurt_gps(r, call):
    p = len(call["grid"][2]) // 3
    gps = call["gps"] = list(call["gps"]) or [0]
    gps[r.below(len(gps))] = r.pick([-1, p, p + 1, 8 * p] + FAR)


def hurt_frequencies(r, call):
    f, m, x = (list(call[k]) for k in ("freq", "ir", "points"))
    call["freq"], call["ir"], call["points"] = f, m, x
    p = len(call["grid"][2]) // 3
    bad = [down(LEAST), -down(LEAST), up(GREATEST), -up(GREATEST), 5e-324, INFINITE, -INFINITE, NAN, 2.0**-650]
    bad_point = [down(LEAST_POINT), -down(LEAST_POINT), up(GREATEST_POINT), -up(GREATEST_POINT), 5e-324, INFINITE, -INFINITE, NAN]
    k = r.below(9)
    if k == 0 and f:
        f.pop()
    elif k == 1:
        f.append(1.0)
    elif k == 2 and f:
        f[r.below(len(f))] = r.pick(bad)
    elif k == 3 and m:
        m.pop()
    elif k == 4:
        m.append(0)
    elif k == 5 and m:
        m[r.below(len(m))] = r.pick([-1, call["r"], call["r"] + 1] + FAR)
    elif k == 6:
        call["r"] = r.pick([0, -1, call["r"] + 1, call["r"] - 1, 2**62, 2**61] + FAR)
    elif k == 7:
        call["r"], call["freq"], call["ir"] = 0, [], [0] * p
    elif x:
        x[r.below(len(x))] = r.pick(bad_point)


def hurt_room(r, call):
    n = len(call["gps"]) * len(call["points"]) * max(0, min(call["bands"], 64))
    call["room"] = r.pick([n + 1, max(0, n - 1), 0, 2 * n, n + 3])


HURTS = [(3, hurt_grid(grids.hurt_kind)), (4, hurt_grid(grids.hurt_mesh)), (5, hurt_grid(grids.hurt_addresses)),
         (6, hurt_grid(grids.hurt_map)), (7, hurt_table), (9, hurt_counts), (10, hurt_gps), (11, hurt_frequencies), (12, hurt_room)]


def damaged(r, tables, hurts):
    call = make_call(r, tables, r.pick([1, 2]), r.pick([24, 24, 48]), r.pick(STYLES), mesh=r.pick([(1, 1, 1), (2, 1, 1), (2, 2, 1)]), points=r.between(1, 3))
    for h in hurts:
        h(r, call)
    if call["room"] is None:
        call["room"] = max(0, len(call["gps"]) * len(call["points"]) * min(max(call["bands"], 0), 64))
    return call


def refused_cases(r, c, tables):
    for number, hurt in HURTS:                          # one fault
        made = 0
        while made < (40 if number == 11 else 14):
            call = damaged(r, tables, [hurt])
            if refusal(call) == number:
                c.weights(call, functions=(made % 2,))
                made += 1
    for i in range(60):                                 # several faults: the first number wins
        c.weights(damaged(r, tables, [h for _, h in HURTS if r.chance(0.35)]), functions=(i % 2,))
    for i in range(len(HURTS)):                         # the faults from one question on, all at once
        c.weights(damaged(r, tables, [h for _, h in HURTS[i:]]), functions=(i % 2,))
    # each limit of question 11 and one step beyond it
    for x in (LEAST, -LEAST, down(LEAST), GREATEST, -GREATEST, up(GREATEST), 0.0, -0.0):
        call = make_call(r, tables, 2, 24, "whole", mesh=(2, 1, 1), bands=1, points=2, gps=1)
        call["freq"][0] = x
        call["points"] = [1.0, 2.0]
        c.weights(call, functions=(0,))
    for x in (LEAST_POINT, -LEAST_POINT, down(LEAST_POINT), GREATEST_POINT, -GREATEST_POINT, up(GREATEST_POINT), 0.0, -0.0):
        call = make_call(r, tables, 1, 24, "whole", mesh=(2, 1, 1), bands=1, points=2, gps=1)
        call["points"][0] = x
        c.weights(call, functions=(1,))
    # R so large that R times bands, taken modulo 2^64, is the count
    call = make_call(r, tables, 2, 24, "whole", mesh=(2, 1, 1), bands=4, points=2, gps=1)
    for ir in (2**62, 2**62 + call["r"], 2**63 - 1, -2**63, -call["r"]):
        c.weights(dict(call, r=ir, room=None), functions=(0,))
        c.weights(dict(call, r=ir, freq=[], room=None), functions=(0,))


# ---- normal triplets and copies of a table

def normal_cases(r, c):
    c.groups.append([])
    addresses = flat([[r.between(-2, 2) for _ in range(3)] for _ in range(6)]
                     + [[4096, -4096, 0], [-4096, 4096, 0], [0, 0, 0], [1, 0, 0], [0, 1, 0], [0, 0, 1], [-1, 0, 0], [0, -1, 0], [0, 0, -1]])
    for t in ([6, 7, 8], [8, 8, 8], [6, 6, 7], [8, 8, 9], [8, 8, 10], [8, 8, 11], [9, 12, 8], [8, 10, 13], [11, 8, 14], [9, 10, 11], [12, 8, 9]):
        c.normal(t, addresses)
    for _ in range(40):
        c.normal([r.below(15) for _ in range(3)], addresses)
    for _ in range(20):                                 # the third made to fit, and one component moved
        a = [[r.between(-4, 4) for _ in range(3)] for _ in range(2)]
        third = [-a[0][k] - a[1][k] for k in range(3)]
        c.normal(r.shuffled([0, 1, 2]), flat(a + [third]))
        third[r.below(3)] += r.pick([1, -1])
        c.normal(r.shuffled([0, 1, 2]), flat(a + [third]))
    for k in range(3):
        for bad in [-1, 2, 3] + FAR:
            t = [0, 1, 0]
            t[k] = bad
            c.normal(t, [0, 0, 0, 1, 0, 0])
    for a in ([], [0], [0, 0], [0, 0, 0, 0], [0, 0, 4097], [-4097, 0, 0], [0, 4096, 0], [0, -4096, 0], [0, 0, 0, 2**63 - 1, 0, 0], [-2**63, 0, 0]):
        c.normal([0, 0, 0], a)
    c.normal([1, 0, 0], [0, 0])                         # 5 and 10: the first wins
    c.normal([0, 0, 1], [0, 0, 4097])


def copies_cases(r, c, tables):
    for rows in (24, 48, 72, 96):
        for t in (2, 3, 4):
            c.copies([r.between(-9, 9) for _ in range(12 * rows)], t)
            c.copies([r.pick([0, 1, -1, 4096, -4096]) for _ in range(12 * rows)], t)
    for table in tables:
        for t in (2, 3, 4):
            c.copies(list(table), t)
    c.copies(flat(tables), 3)
    table = list(tables[1])
    for t in [0, 1, 5, -2, -3, -4] + FAR:
        c.copies(table, t)
    for room in (0, 288, 575, 577, 1152):
        c.copies(table, r.pick([2, 3, 4]), room)
    for bad in ([], [0] * 12, table[:-12], table[:-1], table + [0], table + [0] * 12, [0] * 287, [0] * 289, [0] * 1151, [0] * 1153, [0] * 1440):
        c.copies(bad, 2)
    for v in [4097, -4097] + FAR:
        hurt = list(table)
        hurt[r.below(288)] = v
        c.copies(hurt, 4)
        c.copies(hurt, 1)                               # 7 and 8: the first wins
    c.copies(table, 5, 0)                               # 8 and 12
    c.copies(table[:-1], 5, 0)


# ---- customers' tables, and weights under them

def customer_table_cases(r, c, tables):
    for table in customer_tables.sound(r, tables):
        c.customer_table(table, 0)
    for number, table in customer_tables.wrong(r, tables):
        c.customer_table(table, number)


def small_call(r, tables, kind, style):
    return make_call(r, tables, kind, 24, style, mesh=r.pick([(1, 1, 1), (2, 1, 1), (2, 2, 1)]), bands=r.between(1, 2), points=3, gps=1)


def customer_weight_cases(r, c, tables):
    sound = list(customer_tables.sound(r, tables))
    for k, table in enumerate(sound[1::2]):
        c.weights(dict(small_call(r, tables, 1 + k % 2, STYLES[k % 7]), table=table), record=8)
    bad = dict(customer_tables.wrong(r, tables))
    for number in (7, 23, 24, 25):
        c.weights(dict(small_call(r, tables, 1 + number % 2, "unit"), table=bad[number]), functions=(number // 2 % 2,), record=8)
    for number, hurt in HURTS:                          # a fault alone, and beside a table that 24 or 25 turns down
        if number == 7:
            continue
        no = 0
        while no != number:
            call = damaged(r, tables, [hurt])
            call["table"] = call["table"][:288]
            no = refusal(call, customer_refusal)
        which = number % 2
        c.weights(call, functions=(which,), record=8)
        c.weights(dict(call, table=bad[24 + which]), functions=(which,), record=8)


NAMES = {"weights": "weights at grid points", "normal": "normal triplets", "copies": "copies of a table",
         "customer tables": "customers' tables", "customer weights": "weights under customers' tables"}


def make(driver, crate, seed):
    r, c, tables = Rng(seed), Cases(driver, NAMES), records.tables(driver)
    accepted_cases(r, c, tables)
    refused_cases(r, c, tables)
    normal_cases(r, c)
    copies_cases(r, c, tables)
    customer_table_cases(r, c, tables)
    customer_weight_cases(r, c, tables)
    c.write(crate, seed)


if __name__ == "__main__":
    records.main(__doc__, make)
