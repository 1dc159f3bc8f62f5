"""Tables that a customer could hand in, for the stored samples: closed fans of 24 rows, and what goes wrong with them.

A fan is a list of rows, each its corners 1 to 3.
"""
from records import FAR, flat
from scope import corner_rows, customer_refusal, determinant

ZERO = (0, 0, 0)


def table_of(fan):
    return flat(corner for row in fan for corner in (ZERO, *row))


def fan_of(table):
    return [tuple(row[1:]) for row in corner_rows(table)]


def plus(*corners):
    return tuple(map(sum, zip(*corners)))


def minus(corner):
    return tuple(-x for x in corner)


def small(corner):
    return all(-2 <= x <= 2 for x in corner)


def corners(r, right):
    """Three corners whose determinant is one of these."""
    while True:
        row = tuple(tuple(r.between(-2, 2) for _ in range(3)) for _ in range(3))
        if determinant((ZERO, *row)) in right:
            return row


def mixed(r, fan):
    """Rows in another order, and corners 1 to 3 of each."""
    return [tuple(r.shuffled(row)) for row in r.shuffled(fan)]


def moved(fan, way):
    return [tuple(map(way, row)) for row in fan]


def image(r, fan, sign, fits=True):
    """The image under a map with entries -2 to 2 and that determinant, whose components are -2 to 2 again, or not all."""
    while True:
        columns = corners(r, [sign])
        out = moved(fan, lambda corner: plus(*(tuple(x * y for y in column) for x, column in zip(corner, columns))))
        if all(small(corner) for row in out for corner in row) == fits:
            return out


def with_middle(row, of, middle):
    """The rows in which the middle stands for one of these corners."""
    return [tuple(middle if x == corner else x for x in row) for corner in of]


def grown(r, fan, rows):
    """A fan whose rows, or faces with both their rows, are split at the sums of their corners."""
    while len(fan) < rows:
        of = r.shuffled(r.pick(fan))[:r.between(2, 3)]
        middle = plus(*of)
        if small(middle):
            fan = [new for row in fan for new in (with_middle(row, of, middle) if set(of) <= set(row) else [row])]
    return fan


def closed(r, rows):
    """A closed fan: three corners and minus their sum, split."""
    while True:
        a, b, c = corners(r, [1, -1])
        d = minus(plus(a, b, c))
        if small(d):
            return grown(r, [(a, b, c), (a, b, d), (a, c, d), (b, c, d)], rows)


def wheel(r, rounds):
    """Rows between two poles and a ring of 12 corners that goes round so many times."""
    ring = [(1, 0), (0, 1), (-1, -1)] * rounds
    while len(ring) < 12:
        k = r.below(len(ring))
        middle = plus(ring[k - 1], ring[k])
        if small(middle):
            ring.insert(k, middle)
    # third components by how often a corner has come
    rim = [(*corner, ring[:k].count(corner) - rounds // 2) for k, corner in enumerate(ring)]
    return [(rim[k - 1], rim[k], pole) for k in range(12) for pole in ((0, 0, 1), (0, 0, -1))]


def apart(r, make):
    """What is made, once no face lies in more rows than it must: 36 faces in all."""
    while True:
        fan = make()
        if len({frozenset(face) for a, b, c in fan for face in ((a, b), (b, c), (c, a))}) == 36:
            return fan


def ray_moved(r, fan):
    """A corner moved in all its rows, so that all are good and no face is lost, until some fold over."""
    while True:
        old, new = r.pick(fan)[0], r.pick(corners(r, [1, -1]))
        out = moved(fan, lambda corner: new if corner == old else corner)
        if not any(new in row for row in fan) and customer_refusal(table_of(out)) == 24:
            return out


def changed(table, place, value):
    return table[:place] + [value] + table[place + 1:]


def sound(r, tables):
    for table in tables:
        yield table
    for k, table in enumerate(tables):
        yield table_of(image(r, fan_of(table), 1 if k % 2 else -1))
    yield table_of(mixed(r, fan_of(tables[2])))
    yield table_of(mixed(r, image(r, fan_of(tables[3]), -1)))
    for _ in range(4):
        yield table_of(mixed(r, closed(r, 24)))
    for _ in range(2):
        yield table_of(mixed(r, wheel(r, 1)))


def wrong(r, tables):
    """Tables with the number that each is refused with."""
    good = tables[0]
    fan = fan_of(good)
    for table in ([], good[:12], good[:-12], good[:-1], good + [0], good + good[:12], changed(good, 287, 4097), changed(good, 0, -4097),
                  *(changed(good, 100, x) for x in FAR)):
        yield 7, table
    for table in (good * 2, flat(tables)):
        yield 23, table
    for place, value in ((287, 3), (5, -3), (0, 3), (13, 1), (287, -4096)):
        yield 23, changed(good, place, value)
    for wanted in ([0], [2], [-2], [3, -3]):
        yield 23, table_of(fan[:7] + [corners(r, wanted)] + fan[8:])
    yield 23, [x + (k % 3 == 1) for k, x in enumerate(good)]            # all rows begin at 0, 1, 0
    yield 23, table_of(image(r, fan, 1, fits=False))
    common, last = closed(r, 8), fan[-1]
    for table in (closed(r, 12) * 2, closed(r, 4) * 6, grown(r, common, 12) + grown(r, common, 12)):
        yield 24, table_of(table)
    for row in (fan[0], tuple(map(minus, last)), (minus(last[0]), *last[1:]), (plus(last[0], last[1]), *last[1:])):
        yield 24, table_of(fan[:-1] + [row])
    for table in tables[:3]:
        yield 24, table_of(ray_moved(r, fan_of(table)))
    yield 24, table_of(apart(r, lambda: [corners(r, [1, -1]) for _ in range(12)]) * 2)
    yield 24, table_of([corners(r, [1, -1]) for _ in range(24)])
    for parts in ([4] * 6, [12, 12], [4, 20], [8, 16]):
        yield 25, table_of(mixed(r, apart(r, lambda: [row for n in parts for row in closed(r, n)])))
    for rounds in (2, 3, 4):
        yield 25, table_of(mixed(r, wheel(r, rounds)))
    twice, six = table_of(wheel(r, 2)), table_of(closed(r, 4) * 6)     # two faults: the first wins
    yield 7, changed(twice, 3, 4097)
    yield 7, six[:-12]
    yield 23, changed(twice, 2, 1)
    yield 23, six * 2
    yield 24, table_of(fan_of(twice)[:-1] + fan_of(twice)[:1])
    yield 7, changed(good[:-3], 4, 3)
