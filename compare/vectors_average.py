#!/usr/bin/env python3
"""Makes the stored cases of the crate `vectors_average`: averages over degenerate sets.

    vectors_average.py DRIVER CRATE_FOLDER [SEED]

Writes CRATE_FOLDER/stdin and CRATE_FOLDER/stdout. The answer of an accepted call is the Rust's. Whether a call is accepted, and its
number where it is not, comes from the questions of document 01 as written below; the Rust has no such checks. The answers are also
compared with the plain definition below.

Every pattern of sets of 1 to 4 bands is paired with every other; of 5 to 8 bands each is met in either list. Some have 64 bands.
"""
import math

import records
from records import FAR, Rng, hexed, line, request, unhexed, up
from scope import CHANNELS

LIMIT = 2.0**60


# ---- document 01: the questions and the definition

def ids_right(ids, bands):
    return len(ids) == bands and all(ids[k] == k or (k > 0 and ids[k] == ids[k - 1]) for k in range(bands))


def weight_right(x):
    return abs(x) <= LIMIT and not (x == 0.0 and math.copysign(1.0, x) < 0)


def refusal(call):
    """The number of the first question that is answered no, or 0."""
    kind, points, bands, ids1, ids2, w, z = call
    if kind not in CHANNELS:
        return 8
    if not 1 <= bands <= 64 or not 1 <= points <= 1024:
        return 9
    if len(w) != CHANNELS[kind] * points * bands * bands or len(z) != points * bands * bands:
        return 12
    if not ids_right(ids1, bands) or not ids_right(ids2, bands):
        return 17
    if not all(weight_right(x) for x in w):
        return 19
    return 0


def sets(ids):
    starts = [k for k in range(len(ids)) if ids[k] == k]
    return list(zip(starts, starts[1:] + [len(ids)]))


def averaged(call):
    kind, points, bands, ids1, ids2, w, z = call
    w, z = list(w), list(z)
    for at in range(0, len(w), bands * bands):
        for top, bottom in sets(ids1):
            for left, right in sets(ids2):
                places = [[at + r * bands + c for c in range(left, right)] for r in range(top, bottom)]
                if (bottom - top) * (right - left) > 1:
                    total = 0.0
                    for row in places:
                        part = 0.0
                        for k in row:
                            part = part + w[k]
                        total = total + part
                    mean = total / float((bottom - top) * (right - left))
                    for row in places:
                        for k in row:
                            w[k] = mean
                if at < len(z) and any(z[k] == 0 for row in places for k in row):
                    for row in places:
                        for k in row:
                            z[k] = 0
    return w, z


# ---- cases

def pattern(number, bands):
    """The id list whose place k + 1 goes on with the set where bit k is 1."""
    ids = [0]
    for k in range(1, bands):
        ids.append(ids[-1] if number >> (k - 1) & 1 else k)
    return ids


def weight(rng):
    kind = rng.below(12)
    sign = rng.pick([1.0, -1.0])
    if kind == 0:
        return 0.0
    if kind == 1:
        return sign * LIMIT
    if kind == 2:
        return sign * float(rng.between(1, 9))
    if kind == 3:
        return sign * math.ldexp(1.0 + rng.unit(), -rng.between(900, 1073))
    if kind == 4:
        return sign * 5e-324 * rng.between(1, 9)
    if kind == 5:
        return sign * math.ldexp(1.0 + rng.unit(), rng.between(-70, 59))
    return sign * (rng.unit() + 1e-3)


def flag(rng):
    return rng.pick([1, 1, 1, 1, 1, 0, 0, 1, 1, 1, 2, -1, 127, -128])


def repeated(xs, n):
    return [xs[k % len(xs)] for k in range(n)]


class Case:
    """A call, with its buffers as the lists that fill them."""

    def __init__(self, kind, points, bands, ids1, ids2, weights, flags, room=None, flag_room=None):
        size = max(0, points) * max(0, bands) ** 2
        self.weights, self.flags = weights, flags
        w = repeated(weights, CHANNELS.get(kind, 1) * size if room is None else room)
        z = repeated(flags, size if flag_room is None else flag_room)
        self.call = (kind, points, bands, ids1, ids2, w, z)
        self.refusal = refusal(self.call)

    def requests(self):
        kind, points, bands, ids1, ids2, w, z = self.call
        return [request("id1", *ids1), request("id2", *ids2), request("w", *w), request("z", *z), request("?average", points, bands)]

    def made(self, told):
        """The record, of the Rust's answer, which is that of the definition."""
        w, z = [unhexed(f) for f in told[0]], [int(f) for f in told[1]]
        plain = averaged(self.call)
        assert [hexed(x) for x in w] == [hexed(x) for x in plain[0]] and z == plain[1], self.call
        return self.record((w, z))

    def record(self, answer):
        kind, points, bands, ids1, ids2, w, z = self.call
        parts = []
        for given, buffer, told in ((self.weights, w, answer and answer[0]), (self.flags, z, answer and answer[1])):
            lengths, values = runs(told) if answer else ([], [])
            parts += [len(buffer), given, lengths, values]
        return line(self.refusal, kind, points, bands, ids1, ids2, *parts)


def runs(xs):
    lengths, values = [], []
    for x in xs:
        key = hexed(x) if isinstance(x, float) else x
        if values and key == last:
            lengths[-1] += 1
        else:
            lengths.append(1)
            values.append(x)
        last = key
    return lengths, values


def some(rng, bands, ids1, ids2, kind=None, points=None):
    """An accepted call."""
    kind = kind or rng.pick([2, 3, 4, 4])
    points = points or rng.pick([1, 1, 1, 2, 3])
    size = points * bands * bands
    n = min(CHANNELS[kind] * size, rng.pick([61, 67, 71]))
    k = min(size, rng.pick([29, 31]))
    weights = [weight(rng) for _ in range(n)]
    flags = [flag(rng) for _ in range(k)]
    return Case(kind, points, bands, ids1, ids2, weights, flags)


def accepted(rng):
    out = []
    for bands in range(1, 5):
        for a in range(2 ** (bands - 1)):
            for b in range(2 ** (bands - 1)):
                out.append(some(rng, bands, pattern(a, bands), pattern(b, bands)))
    for bands in range(5, 9):
        others = rng.shuffled(range(2 ** (bands - 1)))
        for a, b in enumerate(others):
            out.append(some(rng, bands, pattern(a, bands), pattern(b, bands)))
    # 64 bands: sets of eight, one set, no set of more than one, sets by chance
    eights = [k // 8 * 8 for k in range(64)]
    whole = [0] * 64
    long = [k // 21 * 21 for k in range(64)]
    uneven = [0] * 3 + [3] * 17 + [20] * 30 + [50] + [51] * 13
    for ids1, ids2, kind, points in ((eights, eights, 4, 1), (whole, whole, 3, 1), (whole, eights, 2, 1), (long, uneven, 4, 1),
                                     (uneven, long, 3, 1), (uneven, whole, 4, 3), (eights, long, 4, 2)):
        out.append(some(rng, 64, ids1, ids2, kind, points))
    # the most points
    out.append(Case(3, 1024, 1, [0], [0], [weight(rng)], [0]))
    # the starred point
    out.append(Case(4, 1, 2, [0, 0], [0, 1], [1.0, 2.0, 3.0, 5.0], [1, 0, 1, 1]))
    return out


def refused(rng):
    out = []

    def plain(bands):
        return [weight(rng) for _ in range(7)], [flag(rng) for _ in range(5)]

    def ids(bands):
        return pattern(rng.below(2 ** (bands - 1)), bands)

    # 8
    for kind in [0, 1, 5, 6, -2, -3, -4, 258] + FAR:
        n = rng.between(1, 3)
        w, z = plain(n)
        out.append(Case(kind, 1, n, ids(n), ids(n), w, z))
        out.append(Case(kind, rng.pick([0, 1025]), rng.pick([0, 65, -1]), [], [1], w, z, 5, 3))
    # 9
    for bands in [0, -1, -2, 65, 66, 2**32 + 2] + FAR:
        w, z = plain(2)
        out.append(Case(rng.pick([2, 3, 4]), 1, bands, [0, 0], [0, 1], w, z, 4, 4))
    for points in [0, -1, 1025, 1026, 2**32 + 1] + FAR:
        w, z = plain(2)
        out.append(Case(rng.pick([2, 3, 4]), points, rng.between(1, 2), [0, 0], [0, 1], w, z, 4, 4))
    out.append(Case(4, 0, 65, [], [], [-0.0], [0], 2, 1))
    # 12
    for _ in range(24):
        kind, points, n = rng.pick([2, 3, 4]), rng.between(1, 3), rng.between(1, 4)
        w, z = plain(n)
        size = points * n * n
        full = CHANNELS[kind] * size
        room, flag_room = rng.pick([(full + 1, size), (full - 1, size), (full, size + 1), (full, size - 1), (full + size, size),
                                    (full - size, size), (full, 0), (0, size), (size + 1, full + 1)])
        if (room, flag_room) == (full, size):
            continue
        wrong = rng.chance(0.3)
        out.append(Case(kind, points, n, [1] if wrong else ids(n), ids(n), w + ([math.nan] if wrong else []), z, room, flag_room))
    # 17
    for _ in range(40):
        kind, points, n = rng.pick([2, 3, 4]), rng.between(1, 2), rng.between(2, 6)
        w, z = plain(n)
        good, bad = ids(n), ids(n)
        how = rng.below(7)
        k = rng.between(1, n - 1)
        if how == 0:
            bad = bad[:-1]
        elif how == 1:
            bad = bad + [bad[-1]]
        elif how == 2:
            bad[0] = rng.pick([1, -1, n])
        elif how == 3:
            bad[k] = -1 - rng.below(n)
        elif how == 4:
            bad[k] = rng.pick([k + 1, n, n + 5])
        elif how == 5:
            bad[k] = rng.pick(FAR)
        else:
            # an id that is right as a number, of a set that has ended
            n = max(3, n)
            good, bad = ids(n), list(range(n))
            bad[n - 1] = rng.below(n - 2)
        two = (good, bad) if rng.chance(0.5) else (bad, good)
        if rng.chance(0.2):
            w = w + [-0.0]
        out.append(Case(kind, points, n, two[0], two[1], w, z))
    # 19
    for bad in [-0.0, math.inf, -math.inf, math.nan, up(LIMIT), -up(LIMIT), 2.0**61, 1.7976931348623157e308, -1e300]:
        for _ in range(3):
            kind, points, n = rng.pick([2, 3, 4]), rng.between(1, 2), rng.between(2, 4)
            w, z = plain(n)
            full = CHANNELS[kind] * points * n * n
            w = [weight(rng) for _ in range(full)]
            w[rng.pick([0, full - 1, rng.below(full)])] = bad
            out.append(Case(kind, points, n, ids(n), ids(n), w, z))
    return out


def degenerate(case):
    return any(len(sets(ids)) < len(ids) for ids in case.call[3:5])


def make(driver, crate, seed):
    rng, c = Rng(seed), records.Cases(driver, {"averages": "averages"})
    right, wrong = accepted(rng), refused(rng)
    assert all(case.refusal == 0 for case in right) and all(case.refusal for case in wrong)
    for case in right + wrong:
        c.groups.append([])
        c.counts["averages"].append(case.refusal)
        if case.refusal:
            c.put(case.record(None))
        else:
            c.wait(case.requests(), case.made)
            c.seen["%d bands" % case.call[2]] += 1
            c.seen["with a set of more than one"] += degenerate(case)
    c.write(crate, seed)


if __name__ == "__main__":
    records.main(__doc__, make)
