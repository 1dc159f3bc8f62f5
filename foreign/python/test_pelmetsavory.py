"""Calls every entry. Writes what it got, as text, to the file that PELMETSAVORY_OUT names: C and Rust write the same."""
import os
import threading

import numpy as np

import pelmetsavory as pm
from pelmetsavory._arrays import inputs, output
from pelmetsavory._library import LIBRARY, checked
from small import BEGUN, FANS, FULL, NONE, addresses, fan, grid, held, other, plus, refused, study, table

DATA = os.path.join(os.environ.get("PELMETSAVORY_DATA") or os.path.join(os.path.dirname(os.path.abspath(__file__)), "../data"), "")
lines = []
hexed = lambda a: ["%016x" % x for x in np.asarray(a, np.float64).ravel().view(np.uint64)]
say = lambda name, *values: lines.append("\t".join([name] + [str(int(v)) if not isinstance(v, str) else v for v in values]))
sheet_values = lambda s: [*hexed(s.weights), *s.flags.ravel(), *s.marks.ravel(), *s.tally]


def listing(s):
    rows = ["triplet\tpoint\tb1\tb2\tflag\tw"]
    for at in np.ndindex(s.flags.shape):
        rows.append("\t".join([*map(str, at), str(s.flags[at])] + hexed(s.weights[(slice(None), *at)])))
    return "\n".join(rows) + "\n"


# the study is the stored one
text = [("grid", 2, 2, 2, 2), ("diag", 1), ("type", 3), ("bands", 3, 3)] + [("addr", *a) for a in addresses] + [("map", m) for m in grid.gp_map]
text += [(t, x) for t, a in (("f1", study.frequencies1), ("f2", study.frequencies2), ("point", study.points)) for x in hexed(a)]
text += [("triplet", *t) for t in study.triplets]
assert "".join("\t".join(map(str, line)) + "\n" for line in text) == open(DATA + "study.txt").read()
assert pm.float_mode_ok()

# refusals, each of which leaves the sheet as it was
fresh = lambda y=study, tally=BEGUN: pm.Sheet(y, *(np.full(s, v, k) for s, v, k in zip(y.shapes(), (-7.25, 5, 0), (np.float64, np.int8, np.uint8))), tally)
sheet = fresh()
bad = lambda number, **change: refused(number, lambda: s.carry_on(2), (s := fresh(other(**change))))
bad(3, grid=pm.Grid(7, [2, 2, 2], addresses, grid.gp_map))
bad(4, grid=pm.Grid(2, [2, 129, 2], addresses, grid.gp_map))
bad(5, grid=pm.Grid(2, [2, 2, 4], addresses, grid.gp_map))
bad(6, grid=pm.Grid(2, [2, 2, 2], addresses, grid.gp_map[:-1]))
bad(7, table=table[:23])
bad(8, tp_type=5)
bad(7, tp_type=5, table=table[:23])
refused(8, lambda: pm.integration_weight(other(tp_type=5)))
bad(9, points=[])
bad(10, triplets=[(0, 1, 12)])
bad(11, points=[float("nan")])
bad(11, points=[2.0**31 + 1])
short = [*sheet._arguments(), 2]
short[16] -= 1  # the count of weights
refused(12, lambda: checked(LIBRARY.pelmetsavory_carry_on(*short)), sheet)
sheet.marks[2, 0, 1] = 3
refused(13, lambda: sheet.carry_on(2), sheet)
sheet.marks[2, 0, 1] = 0
for piece in (3, 0, 0), (0, 3, 0), (0, 0, 3), (-1, 0, 0), (0, -(2**63), 0):
    refused(14, lambda: sheet.run_piece(2, *piece), sheet)
refused(18, lambda: sheet.average_triplet(0, [0, 0, 2], [0, 1, 1]), sheet)
refused(17, lambda: sheet.average_triplet(0, [0, 0, 1], [0, 1, 1]), sheet)
refused(16, lambda: (s := fresh(other(f2=study.frequencies2[:, :2]))).average_triplet(0, [0, 0], [0, 0]))
for worker, number in (9, 20), (16, 21), (-1, 21):
    refused(number, lambda: sheet.run_piece(worker, 0, 0, 0), sheet)
    refused(number, lambda: sheet.carry_on(worker), sheet)

# pieces in a mixed order, of nine workers; repeats counted, averages
for k in range(27):
    p = k * 5 % 27
    sheet.run_piece(k % 9, p // 9, p // 3 % 3, p % 3)
assert listing(sheet) == open(DATA + "listing.txt").read(), "not the stored listing"
sheet.run_piece(15, 1, 1, 1)
assert sheet.tally.tolist() == plus(BEGUN, {**dict.fromkeys(range(9), 3), 15: 1}) and sheet.began.tolist() == BEGUN
say("open", *(sheet.open_count(t) for t in range(3)))
nan = fresh()
nan.carry_on(0)
nan.weights[1, 0, 0, 0, 0] = float("nan")
refused(19, lambda: nan.average_triplet(0, [0, 0, 2], [0, 1, 1]), nan)
sheet.average_triplet(1, [0, 0, 2], [0, 1, 1])
refused(15, lambda: sheet.run_piece(0, 1, 0, 0), sheet)
refused(15, lambda: sheet.average_triplet(1, [0, 0, 2], [0, 1, 1]), sheet)
say("averaged", *sheet_values(sheet))
say("stored", *sheet.to_bytes())
carried = pm.Sheet(study)
carried.run_piece(15, 0, 2, 1)
carried.carry_on(0)
assert carried.tally.tolist() == plus([0] * 16, {0: 26, 15: 1}) and listing(carried) == open(DATA + "listing.txt").read()

# all triplets, one triplet, its averages
w, f = pm.integration_weight(study)
assert w.tobytes() == carried.weights.tobytes() and f.tobytes() == carried.flags.tobytes()
w1, f1 = pm.integration_weight_per_triplet(study, (3, 5, 6))
assert w1.tobytes() == w[:, 1].tobytes() and f1.tobytes() == f[1].tobytes()
refused(10, lambda: pm.integration_weight_per_triplet(study, (3, 5, -1)))
w2, f2 = pm.average_weights_over_degenerate_sets(w1, f1, [0, 0, 2], [0, 1, 1], 3)
assert w2.tobytes() == sheet.weights[:, 1].tobytes() and f2.tobytes() == sheet.flags[1].tobytes() and w1.tobytes() == w[:, 1].tobytes()
refused(8, lambda: pm.average_weights_over_degenerate_sets(w1, f1, [0, 0, 2], [0, 1, 1], 1))

# the other entries
for function in "IJ":
    say("grid-points", *hexed(pm.integration_weights_at_grid_points(grid, table, [0.5, 1.25], [0, 7, 11], study.frequencies1[:4], [k % 4 for k in range(12)], function)))
    say("weight", *hexed(pm.tetrahedra_integration_weight(2, [[0, 4, 4, 4]] * 24, function)))
assert pm.tetrahedra_integration_weight(2, [[0, 4, 4, 4]] * 24) == 0.375 and pm.tetrahedra_integration_weight(2, [[0, 4, 4, 4]] * 24, "J") == 0.3125
refused(7, lambda: pm.tetrahedra_integration_weight(2, [[0, 4, 4, 4]] * 23))
refused(11, lambda: pm.integration_weights_at_grid_points(grid, table, [0.5], [0], study.frequencies1[:4], [4] * 12))
say("is_n", *(pm.is_n(t, addresses) for t in ((0, 1, 2), (3, 5, 6))))
refused(10, lambda: pm.is_n((0, 1, 12), addresses))
say("copies", *pm.set_relative_grid_address(table, 2).ravel(), *pm.set_relative_grid_address(table, 4).ravel())
refused(8, lambda: pm.set_relative_grid_address(table, 0))
say("neighbours", *pm.fill_neighboring_grid_points(grid, 1, [(-1, 0, 0), (3, 0, 0), (-2, 0, 0)]))
say("many", *pm.neighboring_grid_points_many(grid, range(12), table.reshape(-1, 3)).ravel())
refused(10, lambda: pm.fill_neighboring_grid_points(grid, 12, [(0, 0, 0)]))
refused(7, lambda: pm.neighboring_grid_points_many(grid, [0], [(4097, 0, 0)]))
say("index", pm.grid_index_from_address((-1, 300, 5), (256, 7, 9)))
refused(4, lambda: pm.grid_index_from_address((0, 0, 0), (257, 1, 1)))
say("tables", pm.relative_grid_address(np.eye(3))[1], *pm.relative_grid_address(np.eye(3))[0].ravel(), *pm.all_relative_grid_address().ravel())
say("generated", *pm.generated_relative_grid_address().ravel())

# tables of the caller's, by both entries: which are accepted, each refusal and two at once
weights = lambda entry, rows, function="I": entry(grid, rows, [0.5, 1.25], [0, 7, 11], study.frequencies1[:4], [k % 4 for k in range(12)], function)
statuses = []


def judged(want, flat):
    """The status of a table; the weights under it have the same, and where it is 0 they are those of the call that does not check."""
    assert LIBRARY.pelmetsavory_check_relative_grid_address(*inputs(flat)) == want
    statuses.append(want)
    if flat.size % 12:
        return
    rows = flat.reshape(-1, 4, 3)
    for function in "IJ" if want == 0 else ():
        assert weights(pm.checked_integration_weights_at_grid_points, rows, function).tobytes() == weights(pm.integration_weights_at_grid_points, rows, function).tobytes()
    for call in (lambda: pm.check_relative_grid_address(rows), lambda: weights(pm.checked_integration_weights_at_grid_points, rows)):
        refused(want, call) if want else call()


def edited(flat, row, corner, component, by):
    """The table with one number changed."""
    rows = flat.copy()
    rows[12 * row + 3 * corner + component] = by
    return rows


sheared = lambda rows: (rows @ [[1, 1, 0], [0, 1, 0], [0, 0, 1]]).ravel()  # each corner times whole numbers of determinant 1
skew, six = sheared(pm.all_relative_grid_address()[0]), np.concatenate([fan(three) for three in FANS]).ravel()
for rows in pm.all_relative_grid_address():
    judged(0, rows.ravel())
    judged(0, sheared(rows))
judged(0, skew.reshape(24, 4, 3)[::-1, [0, 3, 2, 1]].ravel())  # backwards, and each determinant is negated
for length in 0, 12, 276, 287, 289, 300:
    judged(7, np.tile(skew, 2)[:length])
for k, (far, near) in enumerate([(4097, 3), (-4097, -3), (-(2**63), 4096), (2**63 - 1, -4096)]):
    judged(7, edited(skew, 23, k, k % 3, far))
    judged(23, edited(skew, 23 * (k % 2), k, 2, near))
judged(23, np.tile(skew, 2))
for k in range(3):
    judged(23, edited(skew, 7, 0, k, 1))
    judged(23, edited(six, 23, 0, k, -2))
judged(23, edited(six, 0, 1, 1, 2))  # determinant 2, of the row 0, 1, 0 and 0, 0, 1 and -1, -1, -1
judged(23, edited(six, 0, 1, 1, 0))  # and 0
judged(24, np.concatenate([skew[:60], skew[72:84], skew[72:]]))  # a row twice, and a gap
judged(24, np.concatenate([skew[:60], -skew[60:72], skew[72:]]))  # a row on the other side
judged(24, np.concatenate([six[:240], six[:48]]))  # a fan twice
folded = six.reshape(24, 4, 3).copy()
folded[12:15, 3] *= -1
judged(24, folded.ravel())  # each face is in two rows, some on the same side
judged(25, six)
for want, flat in (7, six[:276]), (23, np.tile(six, 2)), (23, edited(six, 9, 3, 0, 3)), (23, edited(six, 9, 3, 0, -3)), (24, edited(six, 0, 1, 2, 1)):
    judged(want, flat)  # two at once; the two components leave the determinant as it is
say("judged", *statuses)
for function in "IJ":
    made = weights(pm.checked_integration_weights_at_grid_points, skew.reshape(24, 4, 3), function)
    assert made.tobytes() != weights(pm.integration_weights_at_grid_points, pm.all_relative_grid_address()[0], function).tobytes()
    say("checked", *hexed(made))

refused(2, lambda: pm.relative_grid_address(np.full((3, 3), np.inf)))
say("matvec", *hexed(pm.matvec_di([[0.1, 0.2, 0.3], [1, 2, 3], [-4, 0, 4]], (3, -4, 4096))))
refused(7, lambda: pm.matvec_di(np.eye(3), (0, 0, 4097)))
say("channels", *(pm.num_channels(t) for t in (2, 3, 4)))
refused(8, lambda: pm.num_channels(1))

# a list of calls in one call: in every bit what the same calls make one by one
rows = [(0, 3, 1, 1, 1, 99), (0, 3, 3, 0, 0, 99), (2, 1, 0, 3, 3, 6), (0, 15, 1, 1, 1, 99), (0, 9, 1, 1, 1, 99), (0, 256, 1, 1, 1, 99), (1, 9, 99, 99, 99, 99)]
rows += [(1, -1, 99, 99, 99, 99), (1, 0, 99, 99, 99, 99), (2, 1, 0, 3, 3, 6), (0, -(2**63), 1, 0, 0, 99), (2, 1, 3, 6, 0, 3), (2, 0, 0, 2, 3, 6), (2, 0, -1, 3, 3, 6)]
rows += [(2, 2, 0, 3, 4, 7), (-(2**63), 2, 3, 6, 0, 3), (1, 9, 99, 99, 99, 99), (1, 16, 99, 99, 99, 99), (2, -(2**63), 0, 3, 3, 6), (0, 7, 0, 2, 2, 99)]
statuses, ids = [0, 14, 18, 0, 20, 21, 20, 21, 0, 0, 15, 15, 17, 17, 17, 0, 0, 21, 14, 0], [0, 0, 2, 0, 1, 1]
part = lambda start, end: ids[start:end] if 0 <= start <= end <= 6 else []
named = lambda kind, a, b, c, d, e: {0: ("run_piece", a, b, c, d), 1: ("carry_on", a)}.get(kind, ("average_triplet", a, part(b, c), part(d, e)))
calls = [named(*row) for row in rows]
by_rows, by_calls, one_by_one, marked = fresh(), fresh(), fresh(), fresh()
marked.marks[2, 2, 2] = 1
play = lambda s, numbers, answers, tallies: checked(LIBRARY.pelmetsavory_play(*s._arguments(), *inputs(numbers, np.array(ids)), *output(answers, 8), *output(tallies, 8)))
short, kept = np.array(rows[1:]), [np.full(20, 7, np.uint64), np.full(320, 7, np.uint64)]
lengths = [(np.array(rows), kept[0], kept[1][:k]) for k in (0, 20, 300, 304, 319)]
for numbers, answers, tallies in [(short, *kept), (short.ravel()[1:], kept[0][1:], kept[1][16:]), (short, kept[0][1:], kept[1]), *lengths]:
    for s in by_rows, marked:
        refused(12, lambda: play(s, numbers, answers, tallies), s)
assert [a.shape for a in marked.play([])] == [(0,), (0, 16)]
assert all((a == 7).all() for a in kept)
assert [a.shape for a in by_rows.play([])] == [(0,), (0, 16)]
assert held(by_rows) == held(fresh())
answers, tallies = by_rows.play_list(rows, ids)
for k, (name, *given) in enumerate(calls):
    try:
        getattr(one_by_one, name)(*given)
        status = 0
    except pm.Refused as e:
        status = e.number
    assert (status, status, one_by_one.tally.tolist()) == (statuses[k], answers[k], tallies[k].tolist())
assert held(by_rows) == held(one_by_one) and by_rows.tally.tolist() == plus(BEGUN, {0: 26, 3: 1, 7: 1, 15: 1}) and tallies.shape == (20, 16)
assert [a.tolist() for a in by_calls.play(calls)] == [statuses, tallies.tolist()] and held(by_calls) == held(by_rows)
cut = fresh()
parts = cut.play_list(rows[:5], ids), cut.play_list(rows[5:], ids)  # resumed where the cut left the sheet
assert [np.concatenate(x).tolist() for x in zip(*parts)] == [statuses, tallies.tolist()] and held(cut) == held(by_rows)
named_runs, pieces = fresh(), fresh()
some = [(1, 1, 1), (3, 0, 0), (0, 2, 1)]
for worker, numbers in (11, [0, 14, 0]), (9, [20, 14, 20]), (16, [21, 14, 21]):
    told = [a.tolist() for a in pieces.run_pieces(worker, some)]
    assert told == [a.tolist() for a in named_runs.play([("run_piece", worker, *p) for p in some])] and told[0] == numbers and held(pieces) == held(named_runs)
assert pieces.tally.tolist() == plus(BEGUN, {11: 2})
say("list", *answers, *tallies.ravel(), *sheet_values(by_rows))
by_rows.marks[2, 2, 2] = 3  # refused whole: every call by the same number, and after every one the counts of the beginning
assert [a.tolist() for a in by_rows.play(calls)] == [[13] * 20, [by_rows.tally.tolist()] * 20]


def both_refused(s, worker, number):
    """A run and a carry-on, one by one and as a list, are refused with that number."""
    refused(number, lambda: s.run_piece(worker, 0, 1, 1), s)
    refused(number, lambda: s.carry_on(worker), s)
    before = held(s)
    assert [a.tolist() for a in s.play([("run_piece", worker, 0, 1, 1), ("carry_on", worker)])] == [[number] * 2, [s.tally.tolist()] * 2] and held(s) == before
    assert [a.tolist() for a in s.run_pieces(worker, [(0, 1, 1)])] == [[number], [s.tally.tolist()]] and held(s) == before


# sixteen counts: what is no worker is 21, whatever they are; 20 is asked of the worker's own alone, and the others stay
add = lambda tally, worker, runs: LIBRARY.pelmetsavory_tally_add(output(tally, 8)[0], worker, runs)
for counts in [BEGUN, *([count] * 16 for count in FULL)]:
    s, tally = fresh(tally=counts), np.array(counts, np.uint64)
    for worker in NONE:
        both_refused(s, worker, 21)
        refused(14, lambda: s.run_piece(worker, 0, 3, 0), s)
        assert [add(tally, worker, runs) for runs in (0, 1, 2**64 - 1)] == [21] * 3
    for worker in range(16) if counts is not BEGUN else [9]:
        both_refused(s, worker, 20)
        assert [add(tally, worker, runs) for runs in (1, 2**64 - 1, 0)] == [20, 20, 0 if counts[worker] < 2**63 else 20]
    assert tally.tolist() == s.tally.tolist() == counts
    s.marks[...] = 1  # nothing is open: both are still asked; an averaged triplet is 15 before either, and averaging asks neither
    for worker in NONE:
        refused(21, lambda: s.carry_on(worker), s)
    for worker in range(16):
        s.carry_on(worker) if counts[worker] < 2**63 else refused(20, lambda: s.carry_on(worker), s)
    s.average_triplet(0, [0, 0, 2], [0, 1, 1])
    for worker in (*NONE, 9):
        refused(15, lambda: s.run_piece(worker, 0, 1, 1), s)
    assert s.tally.tolist() == counts
for w in range(16):  # the others are full: they refuse nobody, and the sum is far beyond 2^63
    counts = [FULL[(w + k) % 3] for k in range(16)]
    counts[w] = 2**63 - 28
    s, late = fresh(tally=counts), fresh(tally=plus(counts, {w: 1}))
    s.run_piece(w, 0, 1, 1)
    assert s.tally.tolist() == plus(counts, {w: 1})
    refused(20, lambda: late.carry_on(w), late)  # 27 are open, and room is for 26
    s.carry_on(w)
    assert s.tally.tolist() == plus(counts, {w: 27})
    s.carry_on(w)
    refused(20, lambda: s.run_piece(w, 0, 1, 1), s)
    counts[w] = 7
    s = fresh(tally=counts)
    assert [a.tolist() for a in s.play([("run_piece", w, 2, 0, 1), ("carry_on", w)])] == [[0, 0], [plus(counts, {w: 1}), plus(counts, {w: 27})]]
    tally = np.array(plus(counts, {w: 2**63 - 9}), np.uint64)
    assert (add(tally, w, 1), add(tally, w, 1)) == (0, 20) and tally.tolist() == plus(counts, {w: 2**63 - 8})

# the answer to the text of the stored study is the stored listing
stored = open(DATA + "study.txt", "rb").read()
texts = [stored, stored[:-1], b"", stored * 10, stored[:5] + b"7" + stored[6:], stored[:-4] + b"2" + stored[-3:]]
wanted = [open(DATA + "listing.txt", "rb").read()] + [b"refused\t%d\n" % n for n in (1, 1, 1, 3, 10)]
assert [pm.answer(x) for x in texts] == wanted and pm.answer(bytearray(stored)) == wanted[0]
say("answer", *map(len, wanted))
back = pm.read_listing(pm.answer(stored), 3, study.shapes().flags)  # and read back it has every bit
assert [a.tobytes() for a in back] == [carried.weights.tobytes(), carried.flags.tobytes()]
say("listing", *hexed(back[0]), *back[1].ravel())

# test frequencies from a start: one chain over the three, each of its own length
for start in 0, 1, 2**31, 2**32 - 1, 123456789:
    for counts in (0, 0, 0), (1, 0, 0), (0, 1, 0), (0, 0, 1), (3, 0, 2), (5, 3, 2):
        say("frequencies", start, *(x for a in pm.fill_frequencies(start, *counts) for x in (a.size, *hexed(a))))

# empty arrays: no triplets is a sheet, no grid points is an answer, an empty table or grid is refused
empty = pm.Sheet(other(triplets=[]), tally=BEGUN)
empty.carry_on(9)
refused(21, lambda: empty.carry_on(16), empty)
assert empty.weights.size == 0 and empty.tally.tolist() == BEGUN
refused(14, lambda: empty.run_piece(16, 0, 0, 0), empty)
assert pm.neighboring_grid_points_many(grid, [], [(0, 0, 0)]).shape == (0, 1)
assert pm.integration_weights_at_grid_points(grid, table, [0.5], [], study.frequencies1[:4], [0] * 12).shape == (0, 1, 3)
refused(7, lambda: pm.fill_neighboring_grid_points(grid, 0, []))
refused(5, lambda: pm.fill_neighboring_grid_points(pm.Grid(2, [1, 1, 1], [], []), 0, [(0, 0, 0)]))

# what numpy converts without loss
odd = np.frombuffer(b"x" + study.frequencies1.tobytes(), np.float64, offset=1).reshape(12, 3)
for a in (odd, study.frequencies1.astype(">f8"), np.repeat(study.frequencies1, 2, 0)[::2], np.asfortranarray(study.frequencies1), study.frequencies1.tolist()):
    b = other(f1=a).frequencies1
    assert b.tobytes() == study.frequencies1.tobytes() and b.flags.carray and b.dtype == np.float64

# threads on sheets of their own
sheets = [pm.Sheet(study) for _ in range(4)]
threads = [threading.Thread(target=s.carry_on, args=(k,)) for k, s in enumerate(sheets)]
[t.start() for t in threads]
[t.join() for t in threads]
assert all(s.weights.tobytes() == carried.weights.tobytes() for s in sheets)

if "PELMETSAVORY_OUT" in os.environ:
    open(os.environ["PELMETSAVORY_OUT"], "w").write("\n".join(lines) + "\n")
print("python: ok")
