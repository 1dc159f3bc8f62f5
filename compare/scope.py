"""Document 01 in Python, as far as more than one script needs it: questions, grid index, neighbours. And request 7's, of a customer's table.

A grid is (kind, mesh, addresses, map), its addresses flat, three numbers each. Floats are Python's.
"""
CHANNELS = {2: 2, 3: 3, 4: 1}
# Question 11: the least and the greatest magnitude of a frequency, and of a point or vertex.
LEAST, GREATEST = 2.0**-600, 2.0**30
LEAST_POINT, GREATEST_POINT = 2.0**-660, 2.0**31


# ---- the questions

def mesh_ok(mesh, most=128):
    return all(1 <= d <= most for d in mesh)


def small(xs):
    return all(-4096 <= x <= 4096 for x in xs)


def map_sound(kind, n, p, gp_map):
    if kind == 1:
        return len(gp_map) >= 8 * n and all(0 <= v < p or v == 8 * n for v in gp_map[:8 * n])
    return (len(gp_map) >= n + 1 and gp_map[0] == 0 and gp_map[n] == p
            and all(gp_map[i] < gp_map[i + 1] for i in range(n)))


def grid_refusal(grid):
    """Questions 3 to 6: the number of the first that is answered no, or 0."""
    kind, mesh, addresses, gp_map = grid
    if kind not in (1, 2):
        return 3
    if not mesh_ok(mesh):
        return 4
    n = size(mesh)
    p = len(addresses) // 3
    if len(addresses) % 3 or not n <= p <= 8 * n or not small(addresses):
        return 5
    return 0 if map_sound(kind, n, p, gp_map) else 6


def table_ok(table):
    return len(table) in (288, 576, 864, 1152) and small(table)


def corner_rows(table):
    """The rows of a table, four corners each."""
    corners = [tuple(table[k:k + 3]) for k in range(0, len(table), 3)]
    return [corners[k:k + 4] for k in range(0, len(corners), 4)]


def normal(p, q):
    return p[1] * q[2] - p[2] * q[1], p[2] * q[0] - p[0] * q[2], p[0] * q[1] - p[1] * q[0]


def determinant(row):
    return sum(a * n for a, n in zip(row[1], normal(row[2], row[3])))


def good_rows(table):
    """Question 23."""
    return len(table) == 288 and all(row[0] == (0, 0, 0) and abs(determinant(row)) == 1 and all(-2 <= x <= 2 for corner in row for x in corner)
                                     for row in corner_rows(table))


def steps_round(table):
    """Of each row the three faces, each as its corners in the order in which they lie when the row is gone round with determinant 1."""
    rows = [(a, b, c) if determinant(row) > 0 else (a, c, b) for row in corner_rows(table) for _, a, b, c in [row]]
    return [((a, b), (b, c), (c, a)) for a, b, c in rows]


def faces_pair(table):
    """Question 24: a face is gone along twice, there and back; rows that go along it in the same order lie on the same side."""
    steps = [step for row in steps_round(table) for step in row]
    once = set(steps)
    return len(once) == len(steps) and once == {(q, p) for p, q in steps}


def in_one_cone(table):
    """Question 25. A normal has components up to 8, so 1, 100, 10000 lies on the side that the last of them tells that is not 0."""
    inside = [all(normal(p, q)[::-1] > (0, 0, 0) for p, q in row) for row in steps_round(table)]
    return inside.count(True) == 1


def customer_refusal(table):
    """Questions 7 and 23 to 25: the number of the first that is answered no, or 0."""
    asked = ((7, table_ok), (23, good_rows), (24, faces_pair), (25, in_one_cone))
    return next((number for number, yes in asked if not yes(table)), 0)


def frequency_ok(x):
    return x == 0 or LEAST <= abs(x) <= GREATEST


def point_ok(x):
    return x == 0 or LEAST_POINT <= abs(x) <= GREATEST_POINT


# ---- the grid

def size(mesh):
    return mesh[0] * mesh[1] * mesh[2]


def index(a, d):
    return a[2] % d[2] * d[0] * d[1] + a[1] % d[1] * d[0] + a[0] % d[0]


def place(i, d):
    """The address whose components are below the mesh numbers, at grid index i."""
    return [i % d[0], i // d[0] % d[1], i // (d[0] * d[1])]


def found(grid, point, step):
    """The number of the neighbour, and how it was found."""
    kind, d, addresses, gp_map = grid
    a = [addresses[3 * point + k] + step[k] for k in range(3)]
    if kind == 1:
        v = gp_map[index(a, [2 * x for x in d])]
        return (index(a, d), "kind 1, missing") if v == 8 * size(d) else (v, "kind 1, found")
    i = index(a, d)
    lo, hi = gp_map[i], gp_map[i + 1]
    if hi - lo == 1:
        return lo, "kind 2, group of one"
    for j in range(lo, hi):
        if addresses[3 * j:3 * j + 3] == a:
            again = any(addresses[3 * k:3 * k + 3] == a for k in range(j + 1, hi))
            return j, "kind 2, %s in a group%s" % ("later" if j > lo else "first", ", with an equal one" if again else "")
    return lo, "kind 2, no match in a group"


def neighbour(grid, point, step):
    return found(grid, point, step)[0]
