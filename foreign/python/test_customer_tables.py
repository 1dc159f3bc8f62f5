"""Tables of the caller's: which are accepted, what each question refuses and where it is wrong, and the weights under an accepted table."""
import copy
import functools
import itertools
import pickle
import re
from collections import Counter

import numpy as np

import pelmetsavory as pm
from pelmetsavory import _tables, table_fault
from pelmetsavory._arrays import inputs
from pelmetsavory._library import LIBRARY
from small import FANS, fan, raises, refused, run

ALL = pm.all_relative_grid_address()
SIX = np.concatenate([fan(three) for three in FANS])
DIRECTION = 1, 100, 10000
PLAIN, CHECKED = pm.integration_weights_at_grid_points, pm.checked_integration_weights_at_grid_points
det = lambda *corners: round(np.linalg.det(np.array(corners, float)))  # of small corners
draw = np.random.default_rng(7)


def status(table):
    return LIBRARY.pelmetsavory_check_relative_grid_address(*inputs(table))


def listed(text):
    return [int(x) for x in text.split(", ")]


def having(table, *face):
    """The rows that have both corners of a face."""
    return [r for r, row in enumerate(table[:, 1:].tolist()) if all(corner in row for corner in face)]


def sides(table, face, rows):
    """The sides of a face on which rows lie."""
    return {det(*face, corner) for r in rows for corner in table[r, 1:].tolist() if corner not in face}


def holding(table):
    """The rows whose cones have the direction strictly inside: by the three factors."""
    factors = np.linalg.solve(table[:, 1:].transpose(0, 2, 1).astype(float), np.broadcast_to(np.array(DIRECTION, float)[:, None], (24, 3, 1)))
    return np.flatnonzero((factors.round() > 0).all((1, 2))).tolist()


def is_true(table, words):
    """Whether the words are true of the table, by another reading of it."""
    forms = {
        r"There are (\d+) rows\.": lambda n: int(n) == len(table) != 24,
        r"Row (\d+) \(from 0\): corner 0 is \((.*)\), not zero\.": lambda r, at: table[int(r), 0].tolist() == listed(at) != [0, 0, 0],
        r"Row (\d+) \(from 0\): corner (\d) is \((.*)\), past (\d+)\.": lambda r, c, at, n: table[int(r), int(c)].tolist() == listed(at) and max(map(abs, listed(at))) > int(n),
        r"Row (\d+) \(from 0\): its determinant is (-?\d+)\.": lambda r, n: det(*table[int(r), 1:]) == int(n) not in (1, -1),
        r"The face \((.*)\), \((.*)\) is in rows? (.*) \(from 0\)\.": lambda a, b, rows: having(table, listed(a), listed(b)) == listed(rows) and len(listed(rows)) != 2,
        r"The face \((.*)\), \((.*)\) is in rows (\d+, \d+) \(from 0\), which lie on the same side\.":
            lambda a, b, rows: having(table, listed(a), listed(b)) == listed(rows) and len(sides(table, (listed(a), listed(b)), listed(rows))) == 1,
        r"It is inside those of rows (.*) \(from 0\)\.": lambda rows: holding(table) == listed(rows) and len(listed(rows)) > 1,
    }
    found = [test(*m.groups()) for form, test in forms.items() for m in [re.fullmatch(form, words)] if m]
    return found == [True]


def judged(number, table, words=""):
    """The table has this status by the library and by the reading of it; both calls raise it, with words that are true of the table."""
    table = np.asarray(table)
    fault = table_fault(table)
    assert status(table) == number == (fault[0] if fault else 0), (number, status(table), fault)
    if number == 0:
        return pm.check_relative_grid_address(table)
    assert words in fault[1] and is_true(table, fault[1]), fault
    for call in (lambda: pm.check_relative_grid_address(table), lambda: weights(CHECKED, table)):
        try:
            call()
        except pm.Refused as e:
            told = str(pm.Refused(number)) + (f" {fault[1]}" if number > 7 else "")
            assert e.number == number and str(e) == told and e.fault == (fault[1] if number > 7 else None), e
        else:
            raise AssertionError("not refused")


@functools.lru_cache(None)
def load(kind=2):
    """A grid, points, grid points, frequencies and a map."""
    study = pm.test_study(3, mesh=(3, 2, 4), kind=kind, bands=2, points=4)
    return study.grid, study.points, [0, 5, 23, 5], study.frequencies1[:7], np.arange(24) % 7


def weights(call, table, function="I", kind=2):
    grid, *rest = load(kind)
    return call(grid, table, *rest, function)


@functools.lru_cache(None)
def maps(number):
    """Every map with entries from -2 to 2 and determinant 1 or -1 under which a built-in table stays within 2."""
    rows = np.array(list(itertools.product(range(-2, 3), repeat=3)))
    unimodular = rows[np.argwhere(abs(np.cross(rows[:, None], rows) @ rows.T) == 1)]
    assert len(unimodular) == 135408
    return unimodular[(abs(np.unique(ALL[number].reshape(-1, 3), axis=0) @ unimodular) <= 2).all((1, 2))]


def images(number, step):
    """One in so many of the images of a built-in table."""
    return [ALL[number] @ each for each in maps(number)[::step]]


def shuffled(table):
    """Rows in another order, and corners 1 to 3 of each."""
    return np.array([[row[0], *draw.permutation(row[1:])] for row in draw.permutation(table)])


def changed(table, *changes):
    """A copy with other numbers, corners or rows in their places."""
    made = np.array(table)
    for at, by in changes:
        made[at] = by
    return made


def test_built_in_tables_and_their_images_are_accepted():
    for table in (*ALL, *pm.generated_relative_grid_address()):
        judged(0, table)
        judged(0, shuffled(table))
        judged(0, table[:, [0, 2, 1, 3]])  # each determinant is negated
    for number in range(4):
        assert len(maps(number)) == 22080
        for image in images(number, 61):
            judged(0, image)
            judged(0, shuffled(image))
        assert sum(abs(image).max() == 2 for image in images(number, 61)) > 300


def flipped(table):
    """Two rows a, b, c and d, b, c with a + d = b + c have become a, d, b and a, d, c: the same room."""
    sets = [set(map(tuple, row)) for row in table[:, 1:].tolist()]
    for r, s in draw.permutation(list(itertools.combinations(range(24), 2))):
        both, single = sets[r] & sets[s], sets[r] ^ sets[s]
        if len(both) == 2 and np.array_equal(np.sum(list(both), 0), np.sum(list(single), 0)):
            (b, c), (a, d) = both, single
            return changed(table, (r, [(0, 0, 0), a, d, b]), (s, [(0, 0, 0), a, d, c]))


def test_tables_that_are_no_image_are_accepted():
    seen = set()
    for table in ALL:
        for _ in range(60):
            table = flipped(table)
            judged(0, table)
            seen.add(frozenset(frozenset(map(tuple, row)) for row in table.tolist()))
    assert len(seen) > 100, len(seen)


def test_a_row_may_have_determinant_minus_1():
    for table in ALL:
        signs = Counter()
        for turn in range(24):
            made = changed(table, (turn, table[turn, [0, 1, 3, 2]]))
            signs.update(det(*row[1:]) for row in made)
            judged(0, made)
        assert min(signs[1], signs[-1]) > 24, signs


def test_each_fault():
    good = ALL[0] @ [[1, 1, 0], [0, 1, 0], [0, 0, 1]]
    mirrored = good[6] * [1, 1, -1]
    assert abs(good).max() == 2 and {tuple(c) for c in mirrored} != {tuple(c) for c in good[6]}
    judged(7, good[:23], "There are 23 rows.")
    judged(7, good[:0], "There are 0 rows.")
    judged(7, np.tile(good, (5, 1, 1)), "There are 120 rows.")
    for n in 2, 3, 4:
        judged(23, np.tile(good, (n, 1, 1)), f"There are {24 * n} rows.")
    for row, corner, component in itertools.product((0, 5, 23), range(4), range(3)):
        for far in 4097, -4097, 2**31, 2**63 - 1, -(2**63):
            judged(7, changed(good, ((row, corner, component), far)), f"Row {row} (from 0): corner {corner} is (")
        for past in 3, -3, 4096, -4096:
            judged(23, changed(good, ((row, corner, component), past)), f"Row {row} (from 0): corner {corner} is (")
        if corner == 0:
            for near in 1, -2:
                judged(23, changed(good, ((row, 0, component), near)), f"Row {row} (from 0): corner 0 is {tuple(near * (k == component) for k in range(3))}, not zero.")
    for row, corner in itertools.product((0, 5, 23), (1, 2, 3)):
        for by, determinant in (0, "0"), (good[row, corner % 3 + 1], "0"), (ALL[0][row, corner], ""):
            judged(23 if determinant else 0, changed(good if determinant else ALL[0], ((row, corner), by)), determinant and f"Row {row} (from 0): its determinant is 0.")
        twice = changed(ALL[0], ((row, corner), 2 * ALL[0][row, corner]))  # components stay within 2
        judged(23, twice, f"Row {row} (from 0): its determinant is {det(*twice[row, 1:])}.")
    judged(24, changed(good, (6, mirrored)), "The face ")
    judged(24, changed(good, (6, -good[6])), "The face ")
    judged(24, changed(good, (6, good[5])), "The face ")  # a row twice, and a gap
    judged(24, np.concatenate([good[12:], good[12:]]), "The face ")
    judged(24, np.concatenate([SIX[:20], SIX[:4]]), " is in rows 0, 1, 20, 21 (from 0).")  # a fan twice
    judged(25, SIX, "It is inside those of rows ")


def test_words_name_the_row_or_the_face():
    # the first fan has the rows 0 to 3: each without one of 1,0,0 and 0,1,0 and 0,0,1 and -1,-1,-1. Corner 3 of row 3 moves
    judged(24, changed(SIX, ((3, 3), (0, 0, -1))), "The face (0, 0, 1), (0, 1, 0) is in row 0 (from 0).")
    # of the row behind a face of row 0, the third corner moves to the side of row 0
    zero, a, b, c = ALL[0][0].tolist()
    _, behind = having(ALL[0], b, c)
    first, second = map(tuple, sorted([b, c]))
    table = changed(ALL[0], (behind, [zero, b, c, np.add(a, b)]))
    judged(24, table, f"The face {first}, {second} is in rows 0, {behind} (from 0), which lie on the same side.")
    # three vectors and their sum, in place of what makes it zero: a folded fan, whose faces are in two rows each
    folded = changed(SIX, (([12, 13, 14], 3), -SIX[12:15, 3]))
    assert all(len(having(folded, *row[1:].tolist()[:k], *row[1:].tolist()[k + 1 :])) == 2 for row in folded for k in range(3))
    judged(24, folded, "The face (0, -1, 0), (0, 0, 1) is in rows 12, 15 (from 0), which lie on the same side.")
    assert len(holding(SIX)) == 6
    judged(25, SIX, f"It is inside those of rows {', '.join(map(str, holding(SIX)))} (from 0).")


def test_fans():
    """Six of all fans with small corners: where no two have a face, all are in two rows, and the direction is in six cones."""
    corners = [c for c in itertools.product((-1, 0, 1), repeat=3) if any(c)]
    fans = [four for four in itertools.combinations(corners, 4) if not np.sum(four, 0).any() and det(*four[:3]) in (1, -1)]
    seen = Counter()
    for _ in range(1500):
        six = [fans[k] for k in draw.integers(0, len(fans), 6)]
        apart = max(Counter(pair for four in six for pair in itertools.combinations(sorted(four), 2)).values()) == 1
        seen[apart] += 1
        judged(25 if apart else 24, shuffled(np.concatenate([fan(four[:3]) for four in six])))
    assert min(seen[True], seen[False]) > 50, (len(fans), seen)


def test_two_faults_at_once():
    far, past, gap, first = ((9, 2, 1), 4097), ((9, 2, 1), 3), (6, ALL[0][5]), ((3, 0, 0), 1)
    judged(7, changed(ALL[0], past)[:23], "There are 23 rows.")
    judged(7, changed(SIX, far)[:23], "There are 23 rows.")
    judged(7, np.tile(changed(ALL[0], far), (2, 1, 1)), "Row 9 (from 0): corner 2 is ")
    judged(7, changed(ALL[0], first, far), "Row 9 (from 0): corner 2 is ")
    judged(23, np.tile(changed(ALL[0], past), (2, 1, 1)), "There are 48 rows.")
    judged(23, np.tile(SIX, (2, 1, 1)), "There are 48 rows.")
    for table in changed(ALL[0], gap), SIX:
        judged(23, changed(table, past), "Row 9 (from 0): corner 2 is ")
        judged(23, changed(table, first, past), "Row 3 (from 0): corner 0 is (1, 0, 0), not zero.")
        judged(23, changed(table, ((9, 1), 0)), "Row 9 (from 0): its determinant is 0.")
    judged(24, changed(SIX, (6, ALL[0][5])), "The face ")


def test_the_reading_agrees_with_the_library():
    """On random changes of tables that are accepted, and of six fans."""
    seen, said = Counter(), Counter()
    corners = np.array(list(itertools.product(range(-2, 3), repeat=3)))
    starts = [*(images(number, 997) for number in range(4)), [SIX]]
    for _ in range(4000):
        start = starts[draw.integers(5)]
        table = shuffled(start[draw.integers(len(start))])
        r, s, c = draw.integers(24, size=2).tolist() + [int(draw.integers(4))]
        kind = draw.integers(9)
        if kind == 0:
            table[r, c, draw.integers(3)] += draw.choice([-1, 1])
        elif kind == 1:
            table[r, draw.integers(1, 4)] = draw.choice(corners)
        elif kind == 2:
            table[r] = table[s]
        elif kind == 3:
            table[r] *= -1
        elif kind == 4:
            table[r, 1:] = table[r, 1:] @ draw.permutation(np.eye(3, dtype=int))
        elif kind == 5:
            table[r, c, draw.integers(3)] = draw.choice([3, -4096, 4097, -(2**62), 2**63 - 1])
        elif kind == 6:
            table = np.concatenate([table, table[: draw.integers(1, 73)]])
        elif kind == 7:
            table[r, 1] += table[r, 2] - table[r, 3]
        number = status(table)
        judged(number, table)
        seen[number] += 1
        said.update(re.findall(r"There are|not zero|past \d+|determinant|in row |in rows|same side|inside", (table_fault(table) or (0, ""))[1]))
    assert set(seen) == {0, 7, 23, 24, 25} and min(seen.values()) > 100, seen
    assert len(said) == 9 and min(said.values()) > 20, said


def test_the_reading_takes_what_the_entry_takes():
    ends = 2**63 - 1, -(2**63)
    for rows in 0, 1, 23, 24, 25, 48, 96, 97, 5000:
        for table in (np.zeros((rows, 4, 3), np.int64), np.full((rows, 4, 3), ends[0]), np.full((rows, 4, 3), ends[1]), draw.integers(*ends[::-1], (rows, 4, 3))):
            assert table_fault(table)[0] == status(table) == (7 if table.any() or rows not in (24, 48, 96) else 23)
    for given in ([], ALL[0].tolist(), ALL[0].astype(np.int8), ALL[0][::-1], np.asfortranarray(ALL[0]), ALL[0].astype(">i4"), np.zeros((24, 4, 3), bool)):
        wanted = status(np.array(given, np.int64).reshape(-1, 4, 3))
        assert (table_fault(given) or (0,))[0] == wanted
        refused(wanted, lambda: pm.check_relative_grid_address(given)) if wanted else pm.check_relative_grid_address(given)


def test_weights_are_those_of_the_call_that_does_not_check():
    tables = *ALL, *images(1, 4001), shuffled(ALL[2]), ALL[3][:, [0, 2, 1, 3]]
    for kind, function in itertools.product((1, 2), "IJ"):
        made = set()
        for table in tables:
            told = weights(CHECKED, table, function, kind)
            assert told.shape == (4, 4, 2) and told.dtype == np.float64 and told.flags.carray and told.any()
            assert told.tobytes() == weights(PLAIN, table, function, kind).tobytes()
            made.add(told.tobytes())
        assert len(tables) == 12 and len(made) > 7  # they depend on the table
    assert weights(CHECKED, ALL[0]).tobytes() != weights(CHECKED, ALL[1]).tobytes() != weights(CHECKED, ALL[1], "J").tobytes()
    grid, points, grid_points, frequencies, irreducible = load()
    named = CHECKED(gp2irgp_map=irreducible, frequencies=frequencies, grid_points=grid_points, points=points, table=ALL[1].tolist(), grid=grid)
    assert named.tobytes() == weights(CHECKED, ALL[1]).tobytes()
    for table in SIX, np.tile(ALL[0], (2, 1, 1)):  # the other call asks 7 alone
        assert weights(PLAIN, table).any()


def test_the_questions_in_their_order_and_a_refusal_leaves_the_buffer():
    grid, points, grid_points, frequencies, irreducible = load()
    held = np.full(34, 0x5A5A5A5A5A5A5A5A, np.uint64)  # the buffer, and a place before and behind it
    small = pm.Grid(2, [3, 2, 4], grid.addresses, grid.gp_map[:-1])
    far, one = pm.Grid(2, [3, 2, 129], grid.addresses, grid.gp_map), pm.Grid(2, [3, 2, 4], grid.addresses[:23], grid.gp_map)
    none = pm.Grid(3, [3, 2, 129], grid.addresses, grid.gp_map)

    def told(table, length=32, grid=grid, points=points, grid_points=grid_points, irreducible=irreducible, frequencies=frequencies):
        before = held.tobytes()
        a = inputs(np.asarray(points), table, np.array(grid_points), np.asarray(frequencies))
        tail = [7, *pm._functions._grid(grid), *inputs(irreducible), ord("I")]
        number = LIBRARY.pelmetsavory_checked_integration_weights_at_grid_points(held.ctypes.data + 8, length, *a, 2, *tail)
        assert (held.tobytes() == before) == (number != 0) and held[0] == held[-1] == 0x5A5A5A5A5A5A5A5A
        held[1:-1] = held[0]
        return number

    bad = {7: ALL[0][:23], 23: changed(ALL[0], ((4, 2, 0), 3)), 24: changed(ALL[0], (4, ALL[0][5])), 25: SIX}
    late = dict(points=[], grid_points=[0, 24, 5], irreducible=np.full(24, 7), length=31)  # 9, 10, 11, 12
    assert told(ALL[0]) == told(ALL[3] @ maps(3)[5]) == 0
    for number, table in bad.items():
        assert told(table) == told(table, **late) == number
        assert [told(table, grid=g, **late) for g in (none, far, one, small)] == [3, 4, 5, 6]
    found = []
    while late:
        found.append(told(ALL[0], **late))
        late.pop(next(iter(late)))
    assert found == [9, 10, 11, 12]
    for g, number in (none, 3), (far, 4), (one, 5), (small, 6):
        refused(number, lambda: CHECKED(g, SIX, points, grid_points, frequencies, irreducible))
    for number, given in (9, ([], [0, 24])), (10, (points, [0, 24])):
        refused(number, lambda: CHECKED(grid, ALL[0], *given, frequencies, irreducible))
        refused(25, lambda: CHECKED(grid, SIX, *given, frequencies, irreducible))
    refused(11, lambda: CHECKED(grid, ALL[0], points, grid_points, frequencies, np.full(24, 7)))
    refused(7, lambda: CHECKED(grid, ALL[0][:23], points, grid_points, frequencies, irreducible))


def test_wrong_arguments_name_the_table():
    calls = pm.check_relative_grid_address, lambda table: weights(CHECKED, table), table_fault
    ragged, masked, beyond = [*ALL[0].tolist()[:23], [[0, 0, 0]]], np.ma.masked_equal(ALL[0], 1), ALL[0].tolist()
    beyond[3][2][1] = 2**63
    for error, words, given in (
        (ValueError, "the shape (); (rows, 4, 3) is wanted", None),
        (ValueError, "the shape (); (rows, 4, 3) is wanted", 3),
        (ValueError, "the shape (); (rows, 4, 3) is wanted", "table"),
        (ValueError, "the shape (); (rows, 4, 3) is wanted", {1: 2}),
        (ValueError, "the shape (24, 12); (rows, 4, 3) is wanted", ALL[0].reshape(24, 12)),
        (ValueError, "the shape (288,); (rows, 4, 3) is wanted", ALL[0].ravel()),
        (ValueError, "the shape (4, 24, 4, 3); (rows, 4, 3) is wanted", ALL),
        (ValueError, "the shape (24, 3, 4); (rows, 4, 3) is wanted", ALL[0].transpose(0, 2, 1)),
        (ValueError, "the shape (4, 3); (rows, 4, 3) is wanted", ALL[0][0]),
        (TypeError, "the type float64; int64 is wanted", ALL[0] * 1.0),
        (TypeError, "the type float32; int64 is wanted", ALL[0].astype(np.float32)),
        (TypeError, "the type uint64; int64 is wanted", abs(ALL[0]).astype(np.uint64)),
        (TypeError, "the type complex128; int64 is wanted", ALL[0] * 1j),
        (TypeError, "the type <U2", ALL[0].astype(str).astype("<U2")),
        (TypeError, "the type object; int64 is wanted", np.full((24, 4, 3), None)),
        (TypeError, "; int64 is wanted", beyond),
        (TypeError, "is a masked array", masked),
        (ValueError, "", ragged),
    ):
        for call in calls:
            raises(error, ["table ", words], lambda: call(given))
    grid, *rest = load()
    for k, (name, given, error) in enumerate([("points", ["a"], TypeError), ("grid_points", [0.5], TypeError), ("frequencies", [1.0], ValueError), ("gp2irgp_map", [[0]], ValueError)]):
        raises(error, name, lambda: CHECKED(grid, ALL[0], *rest[:k], given, *rest[k + 1 :]))
    raises(ValueError, "function: 'I' or 'J' is wanted", lambda: CHECKED(grid, ALL[0], *rest, "i"))
    raises(TypeError, "positional", lambda: pm.check_relative_grid_address())


def test_a_refusal_is_copied_and_pickled_with_its_number_and_its_words():
    for number, table in (7, ALL[0][:23]), (23, ALL[0] * 2), (24, changed(ALL[0], (4, ALL[0][5]))), (25, SIX):
        try:
            pm.check_relative_grid_address(table)
        except pm.Refused as e:
            for same in (copy.copy(e), copy.deepcopy(e), *(pickle.loads(pickle.dumps(e, protocol)) for protocol in range(pickle.HIGHEST_PROTOCOL + 1))):
                assert type(same) is pm.Refused and (same.number, same.fault, str(same), same.args) == (number, e.fault, str(e), e.args)
            assert (e.fault is None) == (number == 7)
    assert pm.Refused(24).fault is None and str(pickle.loads(pickle.dumps(pm.Refused(24)))) == str(pm.Refused(24))


def test_the_refusal_stands_whatever_the_reading_does():
    def fails(table):
        raise ZeroDivisionError("no reading")

    kept = _tables.table_fault
    try:
        for other in fails, lambda table: None, lambda table: (23, "Row 9."), lambda table: 24, lambda table: (24,), lambda table: (24, ""):
            _tables.table_fault = other
            for call in (lambda: pm.check_relative_grid_address(changed(ALL[0], (4, ALL[0][5]))), lambda: weights(CHECKED, changed(ALL[0], (4, ALL[0][5])))):
                try:
                    call()
                except pm.Refused as e:
                    assert e.number == 24 and str(e) == str(pm.Refused(24)) and e.__context__ is None
                else:
                    raise AssertionError("not refused")
            pm.check_relative_grid_address(ALL[0])  # it is not asked
    finally:
        _tables.table_fault = kept


if __name__ == "__main__":
    run(globals())
    print("python: customer tables ok")
