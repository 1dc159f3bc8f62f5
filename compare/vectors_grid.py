#!/usr/bin/env python3
"""Makes the stored cases of the crate `vectors_grid`: grid index and neighbour calls.

    vectors_grid.py DRIVER CRATE_FOLDER [SEED]

Writes CRATE_FOLDER/stdin and CRATE_FOLDER/stdout. The answer of an accepted call is the Rust's. Whether a call is accepted, and its
number where it is not, comes from the questions of document 01 (scope.py, and below); the Rust has no such checks. The answers are
also compared with the plain definitions in scope.py.
"""
import records
from records import FAR, Rng, flat, grid_request, line, request
from scope import found, grid_refusal, index, mesh_ok, place, size, small


def refusal(grid, points, steps, room, many):
    """The number of the first question that is answered no, or 0."""
    no = grid_refusal(grid)
    if no:
        return no
    if not steps or len(steps) % 3 or not small(steps):
        return 7
    if many and len(points) > 65536:
        return 9
    if not all(0 <= g < len(grid[2]) // 3 for g in points):
        return 10
    return 0 if room == len(points) * (len(steps) // 3) else 12


# ---- grids

def image(r, a, d, far):
    return [x + d[k] * r.between(-far, far) for k, x in enumerate(a)]


def dense(r, d, style):
    """Kind 2: a group of addresses for each grid point."""
    groups = []
    for i in range(size(d)):
        c = place(i, d)
        near = r.shuffled([c[0] - d[0] * x, c[1] - d[1] * y, c[2] - d[2] * z] for x in (0, 1) for y in (0, 1) for z in (0, 1))
        if style == "one":
            groups.append([c])
        elif style == "far":
            groups.append([image(r, c, d, 10)])
        elif style == "groups":
            groups.append(near[:1 if r.chance(0.4) else r.between(2, 8)])
        elif style == "full":
            groups.append(near)
        elif style == "twice":
            groups.append(r.shuffled(near[:2] * r.between(1, 2) + near[2:3]))
        elif style == "wild":
            groups.append([[r.between(-2, 2) for _ in range(3)] for _ in range(r.between(1, 3))])
        else:
            groups.append([[r.pick([-4096, 4096, -4095, 4095, 0]) for _ in range(3)]])
    gp_map = [0]
    for g in groups:
        gp_map.append(gp_map[-1] + len(g))
    return flat(a for g in groups for a in g), gp_map


def sparse(r, d, style):
    """Kind 1: addresses, and a map on the doubled mesh."""
    n = size(d)
    rows = [place(i, d) for i in range(n)]
    if style == "far":
        rows = [image(r, c, d, 10) for c in rows]
    elif style == "edge":
        rows = [[r.pick([-4096, 4096, -4095, 4095, 0]) for _ in range(3)] for _ in rows]
    elif style in ("groups", "full", "twice"):
        rows = [image(r, c, d, 1) for c in rows]
        rows += [image(r, c, d, 1) for c in rows for _ in range(7 if style == "full" else r.between(0, 3))]
    elif style == "wild":
        rows = [[r.between(-3, 3) for _ in range(3)] for _ in rows]
    gp_map = [8 * n] * (8 * n)
    if style == "wild":
        gp_map = [r.pick([8 * n, r.below(len(rows))]) for _ in gp_map]
    elif style != "missing":
        for i, a in enumerate(rows):
            gp_map[index(a, [2 * x for x in d])] = i
    return flat(rows), gp_map


def make_grid(r, kind, mesh, style):
    addresses, gp_map = (sparse if kind == 1 else dense)(r, mesh, style)
    if r.chance(0.2):                                   # what lies behind the needed part is not looked at
        gp_map = gp_map + [r.pick([0, -1, 7] + FAR) for _ in range(r.between(1, 3))]
    return kind, list(mesh), addresses, gp_map


def aimed(r, grid, point):
    """Steps from a point to addresses of the list."""
    a = grid[2]
    out = []
    for _ in range(6):
        j = r.below(len(a) // 3)
        step = [a[3 * j + k] - a[3 * point + k] for k in range(3)]
        out += step if small(step) else [0, 0, 0]
    return out


def make_steps(r, style, table):
    if style == "near":
        return [r.between(-3, 3) for _ in range(3 * 8)]
    if style == "far":
        return [r.pick([4096, -4096, 4095, 0, 1]) for _ in range(3 * 6)]
    if style == "repeated":
        return [r.between(-1, 1) for _ in range(3)] * 5 + [4096, -4096, 4096] * 2
    if style == "single":
        return [r.between(-200, 200) for _ in range(3)]
    return table


# ---- cases

class Cases(records.Cases):
    def group(self, grid=None):
        self.groups.append([line(2, grid[0], *grid[1], grid[2], grid[3])] if grid else [])
        self.grid = grid

    def index(self, address, mesh):
        no = 0 if mesh_ok(mesh, 256) else 4
        self.counts["index"].append(no)
        if no:
            self.put(line(1, *address, *mesh, no, 0))
            return
        def made(answer):
            value = int(answer[0][0])
            assert value == index(address, mesh), (address, mesh)
            return line(1, *address, *mesh, 0, value)
        self.wait([request("?index", *address, *mesh)], made)

    def neighbours(self, points, steps, make):
        """A record made of the neighbours that the Rust gives, which are those of the definition."""
        grid = self.grid
        def made(answer):
            values = [int(x) for x in answer[0]]
            triples = [steps[i:i + 3] for i in range(0, len(steps), 3)]
            plain = [found(grid, g, s) for g in points for s in triples]
            assert values == [v for v, _ in plain]
            self.seen.update(way for _, way in plain)
            return make(values)
        self.wait(grid_request(grid) + [request("steps", *steps), request("gp", *points), "?neighbours"], made)

    def call(self, points, steps, room=None, many=True):
        """A neighbour call; room: length of the buffer, what it should be where not told."""
        if room is None:
            room = len(points) * (len(steps) // 3)
        no = refusal(self.grid, points, steps, room, many)
        self.counts["many" if many else "one"].append(no)
        head = (4, no, list(points)) if many else (3, no, points[0])
        if no or not points:
            self.put(line(*head, steps, room, []))
        else:
            self.neighbours(points, steps, lambda values: line(*head, steps, room, values))

    def both(self, point, steps, room=None):
        self.call([point], steps, room, many=False)
        self.call([point], steps, room, many=True)

    def crowd(self, times, point, step, room=None):
        """One point repeated many times, one step."""
        if room is None:
            room = times
        no = refusal(self.grid, [point] * times, step, room, True)
        self.counts["many"].append(no)
        head = (5, no, times, point, step, room)
        if no or not times:
            self.put(line(*head, 0))
        else:
            self.neighbours([point] * times, step, lambda values: line(*head, values[0]))


def index_cases(r, c):
    c.group()
    for x in range(-3, 4):
        for y in range(-3, 4):
            c.index([x, y, r.between(-9, 9)], [2, 3, r.between(1, 4)])
    ends = [0, 1, -1, 4096, -4096, 255, -255, 256, -256] + FAR
    for _ in range(300):
        c.index([r.pick(ends) if r.chance(0.5) else r.between(-300, 300) for _ in range(3)],
                [r.pick([1, 2, 3, 7, 128, 129, 255, 256]) for _ in range(3)])
    for a in FAR:
        c.index([a, a, a], [256, 256, 256])
        c.index([a, -a - 1, a], [255, 255, 255])
    for k in range(3):
        for bad in [0, -1, 257, -256, 2**32] + FAR:
            for other in (1, 256):
                mesh = [other] * 3
                mesh[k] = bad
                c.index([r.pick(ends) for _ in range(3)], mesh)
    for _ in range(10):
        c.index([r.between(-5, 5) for _ in range(3)], [r.pick([0, -1, 257, 3]) for _ in range(2)] + [0])


def accepted_cases(r, c, table):
    meshes = [(1, 1, 1), (2, 1, 1), (1, 1, 3), (2, 2, 2), (3, 2, 1), (1, 3, 2), (4, 3, 2)]
    c.group((2, [2, 1, 1], [0, 0, 0, 1, 0, 0, -1, 0, 0], [0, 1, 3]))     # a point to check of document 01
    c.both(0, [-1, 0, 0, 3, 0, 0])
    for kind, styles in ((1, ["one", "far", "groups", "full", "wild", "missing", "edge"]),
                         (2, ["one", "far", "groups", "full", "twice", "wild", "edge"])):
        for style in styles:
            for mesh in meshes:
                c.group(make_grid(r, kind, mesh, style))
                p = len(c.grid[2]) // 3
                for s in ("near", "far", "repeated", "single"):
                    c.call([r.below(p)], make_steps(r, s, table), many=False)
                g = r.below(p)
                c.both(g, aimed(r, c.grid, g))
                c.call([r.below(p) for _ in range(3)], make_steps(r, "near", table))
                c.call([0, p - 1, 0, p - 1], make_steps(r, "far", table))
                c.call([r.below(p)] * 2, make_steps(r, r.pick(["repeated", "single"]), table))
        # the largest mesh numbers, and a cube
        for mesh in ((128, 1, 1), (1, 128, 1), (1, 1, 128), (8, 8, 8)):
            c.group(make_grid(r, kind, mesh, "one" if kind == 1 or mesh == (8, 8, 8) else "groups"))
            p = len(c.grid[2]) // 3
            for _ in range(2):
                c.both(r.below(p), make_steps(r, "near", table))
            c.both(p - 1, make_steps(r, "far", table))
            c.call([r.below(p) for _ in range(9)], make_steps(r, "near", table))
        # a built-in table, no point at all, and many points
        c.group(make_grid(r, kind, (3, 3, 3), "groups"))
        c.both(5, table)
        c.call([5, 0, 26], table)
        c.call([], table)
        c.call([], [0, 0, 0])
        c.call([], table, room=1)
        c.group(make_grid(r, kind, (2, 1, 2), "groups"))
        for times in (65535, 65536, 65537):
            c.crowd(times, 3, [1, 0, -1])
        c.crowd(65537, 3, [1, 0, -1], room=65536)
        c.crowd(65536, 3, [1, 0, -1], room=65537)
        c.crowd(65536, -1, [1, 0, -1])
        c.crowd(65537, -1, [1, 0, -1])                  # 9 and 10: the first wins
        c.crowd(65537, 3, [1, 0, 4097])                 # 7 and 9
        c.crowd(0, -1, [1, 0, 1])                       # no point, so none is wrong


# Damages, by the question that is to say no. Each takes a call and gives it back damaged.

def hurt_kind(r, call):
    call["kind"] = r.pick([0, 3, -1, -2, 4] + FAR)


def hurt_mesh(r, call):
    call["mesh"][r.below(3)] = r.pick([0, 129, -1, 130, 256, 2**32] + FAR)


def hurt_addresses(r, call):
    a, n = call["addresses"], size(call["mesh"])
    k = r.below(6)
    if k == 0:
        a.pop()
    elif k == 1:
        a += [0] * r.between(1, 2)
    elif k == 2:
        del a[max(0, 3 * n - 3):]
    elif k == 3 and 0 < n < 50:
        a += [0] * (3 * (8 * n + 1) - len(a))
    elif k == 4:
        a.clear()
    elif a:
        a[r.below(len(a))] = r.pick([4097, -4097] + FAR)


def hurt_map(r, call):
    m, mesh = call["map"], call["mesh"]
    n, p = size(mesh), len(call["addresses"]) // 3
    k = r.below(5)
    if call["kind"] == 1:
        if k == 0:
            del m[max(0, 8 * n - 1):]
        elif k == 1:
            m.clear()
        elif m:
            m[r.pick([0, max(0, min(len(m), 8 * n) - 1), r.below(len(m))])] = r.pick([-1, p, 8 * n + 1, 8 * n - 1, -8 * n] + FAR)
    elif k == 0:
        del m[max(0, n):]
    elif k == 1:
        m.clear()
    elif m:
        i = r.pick([0, max(0, min(len(m) - 1, n)), r.below(len(m))])
        m[i] = r.pick([m[i] + 1, m[i] - 1, m[i - 1], -1, p, p + 1] + FAR)


def hurt_steps(r, call):
    s = call["steps"]
    k = r.below(5)
    if k == 0:
        s.clear()
    elif k == 1:
        del s[r.between(1, 2):]
    elif k == 2:
        s.append(0)
    elif s:
        s[r.below(len(s))] = r.pick([4097, -4097] + FAR)


def hurt_points(r, call):
    p = len(call["addresses"]) // 3
    call["points"][r.below(len(call["points"]))] = r.pick([-1, p, p + 1, 8 * p] + FAR)


def hurt_room(r, call):
    n = len(call["points"]) * (len(call["steps"]) // 3)
    call["room"] = r.pick([n + 1, max(0, n - 1), 0, 2 * n, n + 3])


HURTS = [(3, hurt_kind), (4, hurt_mesh), (5, hurt_addresses), (6, hurt_map), (7, hurt_steps), (10, hurt_points), (12, hurt_room)]


def damaged(r, kind, many, hurts):
    mesh = r.pick([(1, 1, 1), (2, 1, 1), (2, 2, 1), (1, 3, 2)])
    k, m, a, v = make_grid(r, kind, mesh, r.pick(["one", "groups", "far"]))
    p = len(a) // 3
    call = {"kind": k, "mesh": m, "addresses": a, "map": v, "steps": make_steps(r, "near", None)[:3 * r.between(1, 4)],
            "points": [r.below(p) for _ in range(r.between(1, 3) if many else 1)], "room": None}
    for h in hurts:
        h(r, call)
    if call["room"] is None:
        call["room"] = len(call["points"]) * (len(call["steps"]) // 3)
    return call


def put(c, call, many):
    c.group((call["kind"], call["mesh"], call["addresses"], call["map"]))
    c.call(call["points"], call["steps"], call["room"], many)


def refused_cases(r, c):
    # one fault, every number, both calls and both kinds
    for number, hurt in HURTS:
        for many in (False, True):
            for kind in (1, 2):
                made = 0
                while made < (12 if number in (5, 6) else 8):
                    call = damaged(r, kind, many, [hurt])
                    grid = (call["kind"], call["mesh"], call["addresses"], call["map"])
                    if refusal(grid, call["points"], call["steps"], call["room"], many) == number:
                        put(c, call, many)
                        made += 1
    # the whole mesh of 129, well made but for its number
    for kind in (1, 2):
        for k in range(3):
            mesh = [1, 1, 1]
            mesh[k] = 129
            c.group(make_grid(r, kind, mesh, "one"))
            c.both(0, [1, 0, 0])
    # several faults: the first number wins
    for i in range(120):
        many = i % 2 == 0
        hurts = [h for h in (h for _, h in HURTS) if r.chance(0.4)]
        call = damaged(r, r.pick([1, 2]), many, hurts)
        put(c, call, many)
    for i in range(len(HURTS)):                         # the faults from one question on, all at once
        for many in (False, True):
            put(c, damaged(r, r.pick([1, 2]), many, [h for _, h in HURTS[i:]]), many)


def edge_cases(c):
    """Each limit and one step beyond it, both calls."""
    step = [1, 0, 0]
    for m in ([0, 1, 2], [0, 1], [0, 2], [0, 2, 2], [0, 0, 2], [1, 2, 2], [0, 1, 3], [0, 1, 1], [0, -1, 2], [0, 3, 2], [-1, 1, 2], [0, 1, 2, -9]):
        c.group((2, [2, 1, 1], [0, 0, 0, 1, 0, 0], m))
        c.both(1, step)
    for m in ([0, 1, 2, 3, 4], [0, 1, 1, 3, 4], [0, 1, 2, 2, 4], [0, 2, 1, 3, 4], [0, 1, 3, 3, 4], [0, 1, 2, 4, 4]):
        c.group((2, [2, 2, 1], [0, 0, 0, 1, 0, 0, 0, 1, 0, 1, 1, 0], m))
        c.both(1, step)
    for i, v in ((0, 0), (0, 1), (0, 2), (15, 2), (0, 16), (15, 16), (0, 17), (15, 17), (0, 15), (7, -1), (15, -1)):
        m = [16] * 16
        m[i] = v
        c.group((1, [2, 1, 1], [0, 0, 0, 1, 0, 0], m))
        c.both(0, step)
    for length in (15, 16, 17):
        c.group((1, [2, 1, 1], [0, 0, 0, 1, 0, 0], [1] * length))
        c.both(0, step)
    for k in range(3):
        for v in (4096, 4097, -4096, -4097):
            a = [0, 0, 0]
            a[k] = v
            for kind, m in ((1, [0] * 8), (2, [0, 1])):
                c.group((kind, [1, 1, 1], a, m))
                c.both(0, [0, 0, 1])
                c.group((kind, [1, 1, 1], [0, 0, 0], m))
                c.both(0, [0, 0, 1] + a)
    for p in (0, 1, 2, 3, 16, 17):                      # P against N = 2
        c.group((2, [2, 1, 1], [0, 0, 0] * p, [0, 1, p]))
        c.both(0, step)
        c.group((1, [2, 1, 1], [0, 0, 0] * p, [16] * 16))
        c.both(0, step)
    c.group((2, [2, 1, 1], [0, 0, 0, 1, 0, 0, -1, 0, 0], [0, 1, 3]))
    for g in (0, 2, 3, -1):
        c.both(g, step)
        c.call([0, g], step)
        c.call([g, 0], step)
    for room in (0, 1, 2, 3):
        c.both(0, step * 2, room)
        c.call([0, 1], step, room)


NAMES = {"index": "grid index", "one": "neighbours of one point", "many": "neighbours of many points"}


def make(driver, crate, seed):
    r, c = Rng(seed), Cases(driver, NAMES)
    index_cases(r, c)
    accepted_cases(r, c, records.tables(driver)[0])
    refused_cases(r, c)
    edge_cases(c)
    c.write(crate, seed)


if __name__ == "__main__":
    records.main(__doc__, make)
