#!/usr/bin/env python3
"""Reference model of the run sheet and of the book (document 01, sixteen workers
as in request 2, the open count as in request 4).

Standard library only. Floats cross every interface as 64-bit patterns (ints),
so a NaN's payload, -0.0 and infinities survive where nothing is written.
All float arithmetic is Python's (IEEE doubles), in the order of the Rust.

    sheet_selftest.py    the self-test
    sheet_rust.py        weights and averages against the original Rust
    sheet_cases.py       the stored test
"""
import math
import struct

# ---------------------------------------------------------------- floats

SIGN = 1 << 63


def bits(x):
    """The 64-bit pattern of a float."""
    return struct.unpack("<Q", struct.pack("<d", x))[0]


def value(b):
    """The float of a 64-bit pattern (a NaN's payload is not used)."""
    return struct.unpack("<d", struct.pack("<Q", b))[0]


def div(x, y):
    """IEEE division; Python raises where the divisor is zero."""
    if y != 0.0 or y != y:
        return x / y
    if x == 0.0 or x != x:
        return math.nan
    return math.copysign(math.inf, math.copysign(1.0, x) * math.copysign(1.0, y))


def power(e):
    """The pattern of 2^e, for a normal result."""
    return (e + 1023) << 52


def within(b, low, high):
    """Zero of either sign, or magnitude from 2^low to 2^high."""
    m = b & ~SIGN
    return m == 0 or power(low) <= m <= power(high)


# ---------------------------------------------------------------- the four tables

# Rows of the source: corner 0 is 0,0,0 and left out; then three corners of
# three numbers, written - 0 +.
ROWS = (
    "+00++0+++ +00+0++++ 0+0++0+++ 0+00+++++ 00++0++++ 00+0+++++ "
    "0+00++-00 00+0++-00 +00+0+0-0 00++0+0-0 00+--00-0 00+--0-00 "
    "+00++000- 0+0++000- 0+0-0-00- 0+0-0--00 +000--00- +000--0-0 "
    "---0--00- ---0--0-0 ----0-00- ----0--00 -----00-0 -----0-00",
    "+000+00++ +0000+0++ -+0-++-00 -0+-++-00 -+00+0-++ 0+0-++0++ "
    "-0+00+-++ 00+-++0++ 00+0-0+-0 +0000++-0 -0+0-0-00 -0+00+0-0 "
    "0+000-+0- +000+0+0- -+000--00 -+00+000- 0--+--00- 0--+--0-0 "
    "+--00-+0- +00+--+0- +--0-0+-0 +00+--+-0 0--00--00 0--0-0-00",
    "+000+0+0+ 0+000++0+ -+000+-00 -+00+000+ +-+0-0+-0 0-++-+0-0 "
    "+00+-++-0 +00+-++0+ 0-++-+00+ +-+00++0+ 0-+0-0-00 0-+00+-00 "
    "+0000-0+- +000+00+- -0-00--+- -0--+--00 00--+-0+- 0+0-+-0+- "
    "-+0-+--00 -+00+0-+- 00-0-0+-0 +0000-+-0 -0-00-0-0 -0-0-0-00",
    "+00++000+ 0+0++000+ 0+0-0+-00 0+0-0+00+ +000-+0-0 +000-+00+ "
    "--+--00-0 --+--0-00 --+0-+0-0 --+-0+-00 --+0-+00+ --+-0+00+ "
    "00-+0-++- 00-0+-++- +00+0-++- 0+00+-++- +00++0++- 0+0++0++- "
    "00-0+--00 0+00+--00 00-+0-0-0 +00+0-0-0 00---00-0 00---0-00",
)


def built_in(*numbers):
    """The named tables one after another as one flat list, three a step."""
    flat = []
    for n in numbers:
        for row in ROWS[n].split():
            flat += [0, 0, 0] + ["-0+".index(c) - 1 for c in row]
    return flat


# ---------------------------------------------------------------- study and sheet

class Study:
    """Everything a call takes apart from the sheet and its own arguments.

    kind, mesh (3), type, bands (2): any whole numbers. addresses, map, table,
    triplets: flat lists of whole numbers. frequencies1, frequencies2, points:
    lists of float patterns. A study is never changed once made.
    """
    FIELDS = ("kind", "mesh", "type", "bands", "addresses", "map", "table",
              "frequencies1", "frequencies2", "points", "triplets")

    def __init__(self, **fields):
        assert sorted(fields) == sorted(self.FIELDS)
        for name in self.FIELDS:
            v = fields[name]
            setattr(self, name, v if isinstance(v, int) else tuple(v))
        self.memo = {}

    def but(self, **changes):
        """A copy with some fields replaced."""
        fields = {name: getattr(self, name) for name in self.FIELDS}
        fields.update(changes)
        return Study(**fields)

    def as_dict(self):
        out = {}
        for name in self.FIELDS:
            v = getattr(self, name)
            out[name] = list(v) if isinstance(v, tuple) else v
        return out

    # Counts. N and P as in document 01; an unfinished triplet counts as one.
    @property
    def n(self):
        return self.mesh[0] * self.mesh[1] * self.mesh[2]

    @property
    def p(self):
        return len(self.addresses) // 3

    @property
    def t(self):
        return (len(self.triplets) + 2) // 3

    @property
    def f(self):
        return len(self.points)

    @property
    def channels(self):
        return {2: 2, 3: 3, 4: 1}[self.type]


WORKERS = 16


class Sheet:
    """weights: patterns; flags: -128..127; marks: 0..255; tally: for each worker
    a count, 0..2^64-1."""

    def __init__(self, weights, flags, marks, tally):
        assert len(tally) == WORKERS
        self.weights = list(weights)
        self.flags = list(flags)
        self.marks = list(marks)
        self.tally = list(tally)

    def copy(self):
        return Sheet(self.weights, self.flags, self.marks, self.tally)

    def content(self):
        return (self.weights, self.flags, self.marks, self.tally)


def flag_place(s, t, point, b1, b2):
    return ((t * s.f + point) * s.bands[0] + b1) * s.bands[1] + b2


def weight_place(s, channel, t, point, b1, b2):
    return flag_place(s, channel * s.t + t, point, b1, b2)


def mark_place(s, t, b1, b2):
    return (t * s.bands[0] + b1) * s.bands[1] + b2


# ---------------------------------------------------------------- neighbours

def grid_index(address, mesh):
    """r2*D0*D1 + r1*D0 + r0; Python's % is never negative here."""
    r = [a % d for a, d in zip(address, mesh)]
    return r[2] * mesh[0] * mesh[1] + r[1] * mesh[0] + r[0]


def neighbour(s, point, step):
    """The grid point one step away."""
    base = s.addresses[3 * point:3 * point + 3]
    wanted = tuple(a + b for a, b in zip(base, step))
    if s.kind == 1:
        found = s.map[grid_index(wanted, [2 * d for d in s.mesh])]
        return grid_index(wanted, s.mesh) if found == 8 * s.n else found
    g = grid_index(wanted, s.mesh)
    low, high = s.map[g], s.map[g + 1]
    if high - low > 1:
        for j in range(low, high):
            if s.addresses[3 * j:3 * j + 3] == wanted:
                return j
    return low


def corners(s, t):
    """For the second and the third point of a triplet: rows of four numbers."""
    key = ("corners", t)
    if key not in s.memo:
        out = []
        for copy in (0, 1):
            point = s.triplets[3 * t + 1 + copy]
            sign = -1 if copy == 1 and s.type in (2, 3) else 1
            flat = [neighbour(s, point, tuple(sign * x for x in s.table[i:i + 3]))
                    for i in range(0, len(s.table), 3)]
            out.append([flat[i:i + 4] for i in range(0, len(flat), 4)])
        s.memo[key] = out
    return s.memo[key]


# ---------------------------------------------------------------- one weight

EPSILON = 1e-10


def sort_omegas(v):
    """Five comparisons; the sorted four and the place of the first."""
    a, b, c, d = v
    first_is_lower = not a > b
    if not first_is_lower:
        a, b = b, a
    if c > d:
        c, d = d, c
    # a <= b and c <= d; the first is a or b.
    low, second = (c, a) if a > c else (a, c)
    lower_moved = a > c
    third, high = (d, b) if b > d else (b, d)
    upper_on_top = b > d
    swap = second > third
    middle = (third, second) if swap else (second, third)
    if first_is_lower:
        place = 0 if not lower_moved else (2 if swap else 1)
    else:
        place = 3 if upper_on_top else (1 if swap else 2)
    return [low, middle[0], middle[1], high], place


def row_product(omega, four):
    """One row's I times g."""
    v, place = sort_omegas(four)

    def f(n, m):
        delta = v[n] - v[m]
        if abs(delta) < EPSILON:
            return 0.0
        return div(omega - v[m], delta)

    if omega < v[0]:
        return 0.0 * 0.0
    if omega < v[1]:
        if place == 0:
            i = (f(0, 1) + f(0, 2) + f(0, 3)) / 3.0
        else:
            i = f(place, 0) / 3.0
        return i * div(3.0 * f(1, 0) * f(2, 0), v[3] - v[0])
    if omega < v[2]:
        f12_20 = f(1, 2) * f(2, 0)
        f21_13 = f(2, 1) * f(1, 3)
        g = f12_20 + f21_13
        if g < EPSILON:
            i = 0.0
        elif place == 0:
            i = (f(0, 3) + div(f(0, 2) * f12_20, g)) / 3.0
        elif place == 1:
            i = (f(1, 2) + div(f(1, 3) * f21_13, g)) / 3.0
        elif place == 2:
            i = (f(2, 1) + div(f(2, 0) * f12_20, g)) / 3.0
        else:
            i = (f(3, 0) + div(f(3, 1) * f21_13, g)) / 3.0
        return i * (div(3.0, v[3] - v[0]) * g)
    if omega < v[3]:
        if place == 3:
            i = (f(3, 0) + f(3, 1) + f(3, 2)) / 3.0
        else:
            i = f(place, 3) / 3.0
        return i * div(3.0 * f(1, 3) * f(2, 3), v[3] - v[0])
    return 0.0 * 0.0


def weight(omega, rows):
    """I of one point; a row whose product is a NaN adds 0."""
    total = 0.0
    for four in rows:
        product = row_product(omega, four)
        total += 0.0 if product != product else product
    return total / (len(rows) / 4.0)


# ---------------------------------------------------------------- one piece

def piece(s, t, b1, b2):
    """At every point: (patterns of the channels, flag)."""
    key = ("piece", t, b1, b2)
    if key in s.memo:
        return s.memo[key]
    values = [[] for _ in range(1 if s.type == 4 else 3)]
    for row1, row2 in zip(*corners(s, t)):
        fours = [[] for _ in values]
        for k1, k2 in zip(row1, row2):
            f1 = value(s.frequencies1[k1 * s.bands[0] + b1])
            f2 = value(s.frequencies2[k2 * s.bands[1] + b2])
            if s.type in (2, 3):
                if f1 < 0.0:
                    f1 = 0.0
                if f2 < 0.0:
                    f2 = 0.0
            for four, x in zip(fours, (-f1 + f2, f1 - f2, f1 + f2)):
                four.append(x)
        for rows, four in zip(values, fours):
            rows.append(four)
    boxes = [(min(min(four) for four in rows), max(max(four) for four in rows))
             for rows in values]
    out = []
    for pattern in s.points:
        omega = value(pattern)
        g, flag = [], 1
        for rows, (least, greatest) in zip(values, boxes):
            if least <= omega <= greatest:
                g.append(weight(omega, rows))
                flag = 0
            else:
                g.append(0.0)
        if s.type == 2:
            w = (g[2], g[0] - g[1])
        elif s.type == 3:
            w = (g[2], g[0] - g[1], g[0] + g[1] + g[2])
        else:
            w = (g[0],)
        out.append((tuple(bits(x) for x in w), flag))
    s.memo[key] = out
    return out


# ---------------------------------------------------------------- the questions

# A call: ("run", worker, triplet, b1, b2), ("carry_on", worker),
# ("average", triplet, ids1, ids2).
# The questions see a study, a sheet (weights, flags, marks, tally) and a call.

ASKED = {
    "run": tuple(range(3, 16)) + (21, 20),
    "carry_on": tuple(range(3, 14)) + (21, 20),
    "average": tuple(range(3, 20)),
}


def triplet_of(call):
    """The triplet that a run or an averaging names."""
    return call[2] if call[0] == "run" else call[1]


def q3(s, sheet, call):
    return s.kind in (1, 2)


def q4(s, sheet, call):
    return all(1 <= d <= 128 for d in s.mesh)


def q5(s, sheet, call):
    return (len(s.addresses) % 3 == 0 and s.n <= s.p <= 8 * s.n
            and all(-4096 <= a <= 4096 for a in s.addresses))


def q6(s, sheet, call):
    n, m = s.n, s.map
    if s.kind == 1:
        return (len(m) >= 8 * n
                and all(0 <= x < s.p or x == 8 * n for x in m[:8 * n]))
    return (len(m) >= n + 1 and m[0] == 0 and m[n] == s.p
            and all(m[i] < m[i + 1] for i in range(n)))


def q7(s, sheet, call):
    return (len(s.table) in (288, 576, 864, 1152)
            and all(-4096 <= a <= 4096 for a in s.table))


def q8(s, sheet, call):
    return s.type in (2, 3, 4)


def q9(s, sheet, call):
    return (all(1 <= b <= 64 for b in s.bands) and 1 <= s.f <= 1024
            and s.t <= 65536)


def q10(s, sheet, call):
    return len(s.triplets) % 3 == 0 and all(0 <= x < s.p for x in s.triplets)


def q11(s, sheet, call):
    return (len(s.frequencies1) == s.p * s.bands[0]
            and len(s.frequencies2) == s.p * s.bands[1]
            and all(within(b, -600, 30) for b in s.frequencies1 + s.frequencies2)
            and all(within(b, -660, 31) for b in s.points))


def q12(s, sheet, call):
    pieces = s.t * s.bands[0] * s.bands[1]
    return (len(sheet.weights) == s.channels * s.f * pieces
            and len(sheet.flags) == s.f * pieces
            and len(sheet.marks) == pieces)


def marks_of(s, sheet, t):
    nbb = s.bands[0] * s.bands[1]
    return sheet.marks[t * nbb:(t + 1) * nbb]


def q13(s, sheet, call):
    for t in range(s.t):
        marks = marks_of(s, sheet, t)
        if any(m > 2 for m in marks):
            return False
        if any(m == 2 for m in marks) and any(m != 2 for m in marks):
            return False
    return True


def q14(s, sheet, call):
    if call[0] == "run":
        return (0 <= call[2] < s.t and 0 <= call[3] < s.bands[0]
                and 0 <= call[4] < s.bands[1])
    return 0 <= call[1] < s.t


def q15(s, sheet, call):
    return all(m != 2 for m in marks_of(s, sheet, triplet_of(call)))


def q16(s, sheet, call):
    return s.bands[0] == s.bands[1]


def sound_ids(ids, count):
    return (len(ids) == count
            and all(x == i or (i > 0 and x == ids[i - 1]) for i, x in enumerate(ids)))


def q17(s, sheet, call):
    return sound_ids(call[2], s.bands[0]) and sound_ids(call[3], s.bands[1])


def q18(s, sheet, call):
    return all(m == 1 for m in marks_of(s, sheet, call[1]))


def q19(s, sheet, call):
    block = s.f * s.bands[0] * s.bands[1]
    for c in range(s.channels):
        start = (c * s.t + call[1]) * block
        for b in sheet.weights[start:start + block]:
            if b == SIGN or b & ~SIGN > power(60):
                return False
    return True


def q20(s, sheet, call):
    runs = 1 if call[0] == "run" else sum(1 for m in sheet.marks if m == 0)
    return sheet.tally[call[1]] + runs < 1 << 63


def q21(s, sheet, call):
    return 0 <= call[1] < WORKERS


QUESTIONS = {3: q3, 4: q4, 5: q5, 6: q6, 7: q7, 8: q8, 9: q9, 10: q10, 11: q11,
             12: q12, 13: q13, 14: q14, 15: q15, 16: q16, 17: q17, 18: q18,
             19: q19, 20: q20, 21: q21}

# The answer to these depends on the study alone.
OF_STUDY = range(3, 12)


def first_no(s, sheet, call):
    """The number of the first question answered "no", or None."""
    for number in ASKED[call[0]]:
        if number in OF_STUDY:
            key = ("question", number)
            if key not in s.memo:
                s.memo[key] = QUESTIONS[number](s, sheet, call)
            yes = s.memo[key]
        else:
            yes = QUESTIONS[number](s, sheet, call)
        if not yes:
            return number
    return None


# ---------------------------------------------------------------- (a) the program

def write_piece(s, sheet, t, b1, b2):
    for point, (w, flag) in enumerate(piece(s, t, b1, b2)):
        for c, pattern in enumerate(w):
            sheet.weights[weight_place(s, c, t, point, b1, b2)] = pattern
        sheet.flags[flag_place(s, t, point, b1, b2)] = flag
    sheet.marks[mark_place(s, t, b1, b2)] = 1


def run(s, sheet, worker, t, b1, b2):
    """Run a named piece. The answer: ("done",) or ("refused", number)."""
    no = first_no(s, sheet, ("run", worker, t, b1, b2))
    if no is not None:
        return ("refused", no)
    write_piece(s, sheet, t, b1, b2)
    sheet.tally[worker] += 1
    return ("done",)


def carry_on(s, sheet, worker):
    """Run every piece marked 0, ascending."""
    no = first_no(s, sheet, ("carry_on", worker))
    if no is not None:
        return ("refused", no)
    runs = 0
    for t in range(s.t):
        for b1 in range(s.bands[0]):
            for b2 in range(s.bands[1]):
                if sheet.marks[mark_place(s, t, b1, b2)] == 0:
                    write_piece(s, sheet, t, b1, b2)
                    runs += 1
    sheet.tally[worker] += runs
    return ("done",)


def degenerate_sets(ids):
    """(first, count) of each set; an id equal to its own place starts one."""
    starts = [b for b, x in enumerate(ids) if x == b]
    return [(a, e - a) for a, e in zip(starts, starts[1:] + [len(ids)])]


def blocks_of(ids1, ids2):
    return [(s1, c1, s2, c2) for s1, c1 in degenerate_sets(ids1)
            for s2, c2 in degenerate_sets(ids2) if c1 * c2 > 1]


def average_weights(matrix, blocks, nb):
    """One nb x nb block of patterns, in place; no -0.0 comes in."""
    for s1, c1, s2, c2 in blocks:
        total = 0.0
        for b1 in range(s1, s1 + c1):
            row = 0.0
            for b2 in range(s2, s2 + c2):
                row += value(matrix[b1 * nb + b2])
            total += row
        mean = bits(total / float(c1 * c2))
        for b1 in range(s1, s1 + c1):
            for b2 in range(s2, s2 + c2):
                matrix[b1 * nb + b2] = mean


def average_flags(matrix, blocks, nb):
    for s1, c1, s2, c2 in blocks:
        places = [b1 * nb + b2 for b1 in range(s1, s1 + c1) for b2 in range(s2, s2 + c2)]
        if any(matrix[i] == 0 for i in places):
            for i in places:
                matrix[i] = 0


def average(s, sheet, t, ids1, ids2):
    """Average one triplet: each channel, then the flags, then the marks."""
    no = first_no(s, sheet, ("average", t, ids1, ids2))
    if no is not None:
        return ("refused", no)
    nb = s.bands[0]
    nbb = nb * nb
    blocks = blocks_of(ids1, ids2)
    for point in range(s.f):
        for c in range(s.channels):
            i = weight_place(s, c, t, point, 0, 0)
            matrix = sheet.weights[i:i + nbb]
            average_weights(matrix, blocks, nb)
            sheet.weights[i:i + nbb] = matrix
        i = flag_place(s, t, point, 0, 0)
        matrix = sheet.flags[i:i + nbb]
        average_flags(matrix, blocks, nb)
        sheet.flags[i:i + nbb] = matrix
    for i in range(t * nbb, (t + 1) * nbb):
        sheet.marks[i] = 2
    return ("done",)


def do(s, sheet, call):
    """One call on a sheet; the sheet is changed in place."""
    return {"run": run, "carry_on": carry_on, "average": average}[call[0]](s, sheet, *call[1:])


def program(s, start, calls):
    """The answers and the contents after each call: [(answer, Sheet), ...]."""
    sheet = start.copy()
    out = []
    for call in calls:
        answer = do(s, sheet, call)
        out.append((answer, sheet.copy()))
    return out


def open_count(type, counts, weights, t):
    """counts: b1, b2, points, triplets; these and the type any whole numbers.
    Questions 8, 9, 12, 14; ("done", number of the triplet's entries with a weight
    other than 0, of all outputs of the type)."""
    b1, b2, points, triplets = counts
    block = points * b1 * b2
    outputs = {2: 2, 3: 3, 4: 1}.get(type)
    if outputs is None:
        return ("refused", 8)
    if not (1 <= b1 <= 64 and 1 <= b2 <= 64 and 1 <= points <= 1024 and 0 <= triplets <= 65536):
        return ("refused", 9)
    if len(weights) != outputs * triplets * block:
        return ("refused", 12)
    if not 0 <= t < triplets:
        return ("refused", 14)
    count = 0
    for i in range(block):
        entry = [weights[(o * triplets + t) * block + i] for o in range(outputs)]
        count += any(b & ~SIGN != 0 for b in entry)
    return ("done", count)


# ---------------------------------------------------------------- (b) the book

OPEN, COMPUTED, AVERAGED = 0, 1, 2


class Book:
    """Fed the study, the start and the calls; renders what the sheet must be.

    Its promise holds for a start whose marks are all 0.
    """

    def __init__(self, s, start):
        assert all(m == 0 for m in start.marks)
        self.s = s
        self.start = start.copy()
        self.words = [OPEN] * len(start.marks)
        self.beside = {}
        self.ran = []

    def pieces(self):
        s = self.s
        for t in range(s.t):
            for b1 in range(s.bands[0]):
                for b2 in range(s.bands[1]):
                    yield t, b1, b2

    def averaged_entry(self, t, point, b1, b2):
        """From the triplet's computed entries and the lists beside it."""
        s = self.s
        ids1, ids2 = self.beside[t]
        set1 = [x for x in range(s.bands[0]) if ids1[x] == ids1[b1]]
        set2 = [x for x in range(s.bands[1]) if ids2[x] == ids2[b2]]
        own = piece(s, t, b1, b2)[point]
        if len(set1) * len(set2) == 1:
            return own
        w = []
        for c in range(s.channels):
            sums = []
            for x in set1:
                row = [value(piece(s, t, x, y)[point][0][c]) for y in set2]
                sums.append(row[0])
                for v in row[1:]:
                    sums[-1] = sums[-1] + v
            total = sums[0]
            for v in sums[1:]:
                total = total + v
            w.append(bits(total / (len(set1) * len(set2))))
        flag = min(piece(s, t, x, y)[point][1] for x in set1 for y in set2)
        return tuple(w), flag

    def sheet(self):
        """The book's entries, words and counts, made from the start's content.
        Each count has grown by its own worker's accepted runs."""
        s = self.s
        counts = [c + self.ran.count(w) for w, c in enumerate(self.start.tally)]
        out = Sheet(self.start.weights, self.start.flags, self.words, counts)
        if all(word == OPEN for word in self.words):
            return out
        for (t, b1, b2), word in zip(self.pieces(), self.words):
            if word == OPEN:
                continue
            for point in range(s.f):
                if word == COMPUTED:
                    w, flag = piece(s, t, b1, b2)[point]
                else:
                    w, flag = self.averaged_entry(t, point, b1, b2)
                for c in range(s.channels):
                    out.weights[weight_place(s, c, t, point, b1, b2)] = w[c]
                out.flags[flag_place(s, t, point, b1, b2)] = flag
        return out

    def take(self, call):
        no = first_no(self.s, self.sheet(), call)
        if no is not None:
            return ("refused", no)
        for i, (t, b1, b2) in enumerate(self.pieces()):
            if call[0] == "run" and call[2:] == (t, b1, b2):
                self.words[i] = COMPUTED
                self.ran.append(call[1])
            elif call[0] == "carry_on" and self.words[i] == OPEN:
                self.words[i] = COMPUTED
                self.ran.append(call[1])
            elif call[0] == "average" and call[1] == t:
                self.words[i] = AVERAGED
        if call[0] == "average":
            self.beside[call[1]] = (tuple(call[2]), tuple(call[3]))
        return ("done",)


def book(s, start, calls):
    """As program(), but every content is rendered from the start and the words."""
    b = Book(s, start)
    out = []
    for call in calls:
        answer = b.take(call)
        out.append((answer, b.sheet()))
    return out


# ---------------------------------------------------------------- (c) one call as a patch

def patched(s, before, call):
    """The content after one accepted call, entry by entry: the new value where
    the call owns the entry, else the old one. Any marks at the start."""
    def owns(t, b1, b2):
        if call[0] == "run":
            return call[2:] == (t, b1, b2)
        if call[0] == "carry_on":
            return before.marks[mark_place(s, t, b1, b2)] == 0
        return call[1] == t

    def block(t, b1, b2):
        set1 = [x for x in range(s.bands[0]) if call[2][x] == call[2][b1]]
        set2 = [x for x in range(s.bands[1]) if call[3][x] == call[3][b2]]
        return [(x, y) for x in set1 for y in set2], len(set2)

    out = before.copy()
    places = [(t, p, b1, b2) for t in range(s.t) for p in range(s.f)
              for b1 in range(s.bands[0]) for b2 in range(s.bands[1])]
    for c in range(s.channels):
        for i, (t, p, b1, b2) in enumerate(places):
            i += c * len(places)
            if not owns(t, b1, b2):
                continue
            if call[0] != "average":
                out.weights[i] = piece(s, t, b1, b2)[p][0][c]
                continue
            own, width = block(t, b1, b2)
            if len(own) > 1:
                v = [value(before.weights[weight_place(s, c, t, p, x, y)]) for x, y in own]
                rows = [v[k:k + width] for k in range(0, len(v), width)]
                sums = []
                for row in rows:
                    acc = 0.0
                    for x in row:
                        acc += x
                    sums.append(acc)
                acc = 0.0
                for x in sums:
                    acc += x
                out.weights[i] = bits(acc / len(own))
    for i, (t, p, b1, b2) in enumerate(places):
        if not owns(t, b1, b2):
            continue
        if call[0] != "average":
            out.flags[i] = piece(s, t, b1, b2)[p][1]
        elif any(before.flags[flag_place(s, t, p, x, y)] == 0 for x, y in block(t, b1, b2)[0]):
            out.flags[i] = 0
    runs = 0
    for i, (t, b1, b2) in enumerate((t, b1, b2) for t in range(s.t)
                                    for b1 in range(s.bands[0]) for b2 in range(s.bands[1])):
        if owns(t, b1, b2):
            out.marks[i] = 2 if call[0] == "average" else 1
            runs += call[0] != "average"
    if call[0] != "average":
        out.tally[call[1]] += runs
    return out


# ---------------------------------------------------------------- workers swapped

def same_but_workers(calls, others):
    """Whether two lists differ in their workers alone."""
    def bare(call):
        return call if call[0] == "average" else call[:1] + call[2:]

    return [bare(c) for c in calls] == [bare(c) for c in others]


def swap_law(s, start, calls, others):
    """Two lists that differ in workers alone, no answer of either 20 or 21, must have
    equal answers, weights, flags and marks after each call. Whether they are such
    lists, and end in other counts."""
    assert same_but_workers(calls, others)
    one, two = program(s, start, calls), program(s, start, others)
    if not one or any(a in (("refused", 20), ("refused", 21)) for a, _ in one + two):
        return False
    for (a, x), (b, y) in zip(one, two):
        assert a == b and x.content()[:3] == y.content()[:3], (calls, others)
    return one[-1][1].tally != two[-1][1].tally


# ---------------------------------------------------------------- checks

def check_step(s, before, call, answer, after):
    if answer[0] == "refused":
        assert before.content() == after.content()
    else:
        assert answer == ("done",)
        assert after.content() == patched(s, before, call).content(), call


def answer_table(seen):
    """Lines: kind of call by answer number."""
    numbers = ["done"] + list(range(3, 22))
    lines = ["%-9s" % "" + "".join("%6s" % n for n in numbers)]
    for kind in ("run", "carry_on", "average"):
        lines.append("%-9s" % kind + "".join(
            "%6s" % (seen.get((kind, n), 0) if n == "done" or n in ASKED[kind] else "-")
            for n in numbers))
    return "\n".join(lines)
