"""Arrays as numpy's users know them: assigned, changed in place, copied, pickled, sent to other processes; shapes and types that are refused."""
import copy
import ctypes
import multiprocessing
import pickle
import time

import numpy as np

import pelmetsavory as pm
from small import BEGUN, FULL, NONE, addresses, grid, held, n, other, plus, raises, refused, run, study, table

F1, F2 = (n % 17 + 1) / 8, (n % 13 - 1) / 8
TWO = np.array([(0, 1, 2), (3, 5, 6)])


def carried(y):
    """What a new sheet of the study holds after a carry-on."""
    sheet = pm.Sheet(y)
    sheet.carry_on(0)
    return held(sheet)


def own():
    """The small study over a grid of its own."""
    return other(grid=pm.Grid(2, [2, 2, 2], addresses, grid.gp_map))


def test_assigned_attributes_count_at_the_next_call():
    y = own()
    sheet = pm.Sheet(y)
    y.frequencies1 = y.frequencies1 * 2
    assert held(sheet)[0] == bytes(8 * sheet.weights.size)
    sheet.carry_on(0)
    assert held(sheet) == carried(other(f1=F1 * 2)) and pm.integration_weight(y)[0].tobytes() == held(sheet)[0]
    for name, given, changed in (
        ("frequencies2", F2 * 3, other(f2=F2 * 3)),
        ("points", [4, 0.25], other(points=[4, 0.25])),
        ("triplets", TWO, other(triplets=TWO)),
        ("table", table[::-1], other(table=table[::-1])),
        ("tp_type", 4, other(tp_type=4)),
        ("grid", pm.Grid(2, [2, 2, 2], -np.array(addresses), grid.gp_map), other(grid=pm.Grid(2, [2, 2, 2], -np.array(addresses), grid.gp_map))),
    ):
        y = own()
        setattr(y, name, given)
        assert carried(y) == carried(changed) != carried(study), name
    y = own()
    y.grid.mesh, y.grid.kind = [2, 4, 1], 2
    assert carried(y) == carried(other(grid=pm.Grid(2, [2, 4, 1], addresses, grid.gp_map))) != carried(study)
    y.grid = given = pm.Grid(2, [2, 2, 2], addresses, grid.gp_map)
    assert carried(y) == carried(study)
    given.kind = 3  # a grid is not copied
    refused(3, lambda: pm.Sheet(y).carry_on(0))


def test_changes_in_place_count_and_a_caller_s_array_is_not_held():
    y = own()
    y.frequencies1 *= 2
    y.points[1] = 0.75
    y.grid.addresses[5] = 7, 7, 7
    moved = [*addresses[:5], (7, 7, 7), *addresses[6:]]
    assert carried(y) == carried(other(grid=pm.Grid(2, [2, 2, 2], moved, grid.gp_map), f1=F1 * 2, points=[0, 0.75, 1.25, 3, 9])) != carried(study)
    given = F1.copy()
    y = other(f1=given)
    given[...] = 100
    assert carried(y) == carried(study)


def test_no_call_reads_memory_that_was_given_back():
    """With arrays over 1 KiB, which numpy frees at once: foreign/test runs this file under valgrind."""
    wide, points = np.arange(12 * 11.0).reshape(12, 11) / 8 + 0.125, np.arange(130.0) / 8
    y = other(f1=wide.copy(), f2=wide.copy(), points=points.copy())
    sheet = pm.Sheet(y)
    y.frequencies1, y.frequencies2, y.points = y.frequencies1 * 2, y.frequencies2 * 3, y.points + 1
    y.table, y.triplets = np.tile(y.table, (2, 1, 1)), y.triplets[::-1]
    sheet.weights = sheet.weights.copy()
    copied = pickle.loads(pickle.dumps(sheet))
    wanted = pm.Sheet(other(table=np.tile(table, (2, 1, 1)), f1=wide * 2, f2=wide * 3, points=points + 1, triplets=study.triplets[::-1]))
    for s in sheet, copied, wanted:
        s.run_piece(3, 0, 1, 0)
        s.run_piece(15, 2, 0, 10)
        assert held(s) == held(sheet)


def test_a_failed_assignment_changes_nothing():
    y = own()
    for name, given, error in (
        ("triplets", TWO.T, ValueError),
        ("triplets", TWO * 1.0, TypeError),
        ("frequencies1", F1[:11], ValueError),
        ("frequencies2", F2.T, ValueError),
        ("points", 3.0, ValueError),
        ("points", ["a"], TypeError),
        ("table", table.reshape(-1, 3), ValueError),
        ("tp_type", 2.5, TypeError),
        ("grid", None, TypeError),
    ):
        raises(error, "", lambda: setattr(y, name, given))
        assert carried(y) == carried(study)
    for name, given, error in (("mesh", [2, 2], ValueError), ("addresses", np.array(addresses).T, ValueError), ("gp_map", [[0]], ValueError), ("kind", "2", TypeError)):
        raises(error, "", lambda: setattr(y.grid, name, given))
        assert carried(y) == carried(study)


def test_a_sheet_is_of_one_study():
    y = own()
    sheet = pm.Sheet(y)
    sheet.run_piece(0, 0, 0, 0)
    y.frequencies1 *= 2
    ids, carry_on = ([0, 0, 2], [0, 1, 1]), lambda: sheet.carry_on(0)
    for call in (carry_on, lambda: sheet.run_piece(0, 1, 0, 0), lambda: sheet.average_triplet(0, *ids), lambda: sheet.play([]), sheet.to_bytes):
        raises(ValueError, "the study was changed after", call, sheet)
    y.frequencies1 /= 2
    sheet.carry_on(0)
    assert held(sheet) == carried(study)
    y.points = [1, 2]
    raises(ValueError, "the study was changed after", carry_on, sheet)
    fresh = pm.Sheet(y)
    y.points = [1, 2, 3]
    refused(12, lambda: fresh.carry_on(0), fresh)
    raises(ValueError, ["weights", "(3, 3, 2, 3, 3)", "(3, 3, 3, 3, 3)"], fresh.to_bytes, fresh)


def test_copies_of_a_sheet_have_arrays_and_a_tally_of_their_own():
    sheet = pm.Sheet(own(), tally=BEGUN)
    sheet.run_piece(7, 0, 0, 0)
    for copied in (copy.deepcopy(sheet), copy.copy(sheet), pickle.loads(pickle.dumps(sheet))):
        before = held(sheet)
        assert held(copied) == before
        copied.carry_on(4)
        assert held(sheet) == before and copied.tally.tolist() == plus(BEGUN, {7: 1, 4: 26}) and held(copied)[:3] == carried(study)[:3]
        assert not any(np.shares_memory(getattr(sheet, a), getattr(copied, a)) for a in ("weights", "flags", "marks", "_tally", "_began"))
    assert copy.copy(sheet).study is sheet.study and copy.deepcopy(sheet).study is not sheet.study
    again = copy.copy(sheet)
    sheet.carry_on(0)
    assert again.tally.tolist() == plus(BEGUN, {7: 1}) and again.marks.sum() == 1


def test_a_tally_has_sixteen_counts_and_is_given_as_a_copy():
    assert pm.Sheet(study).tally.tolist() == pm.Sheet(study, tally=None).began.tolist() == [0] * 16
    most = [2**64 - 1, *range(1, 16)]  # an array of such a list has floats
    for given in (BEGUN, tuple(BEGUN), np.array(BEGUN), np.array(BEGUN, np.uint64), np.array(BEGUN, object), [np.uint64(x) for x in BEGUN], most, range(16), [2**64 - 1] * 16):
        sheet = pm.Sheet(study, tally=given)
        sheet.began = given
        for counts in sheet.tally, sheet.began:
            assert counts.shape == (16,) and counts.dtype == np.uint64 and counts.tolist() == [int(x) for x in given]
    given = np.array(BEGUN, np.uint64)
    sheet = pm.Sheet(study, tally=given)
    before, given[...] = held(sheet), 5
    for counts in sheet.tally, sheet.began, sheet.play([("carry_on", 16)])[1]:
        counts += np.uint64(1)
    assert held(sheet) == before
    raises(AttributeError, "", lambda: setattr(sheet, "tally", [0] * 16), sheet)
    for name, call in ("tally", lambda given: pm.Sheet(study, tally=given)), ("began", lambda given: setattr(sheet, "began", given)):
        for error, bad in (
            (ValueError, (40, 0, 1.0, "0", [], BEGUN[:15], BEGUN + [0], [BEGUN], np.zeros((4, 4), int), [[0]] * 16, set(range(16)), dict.fromkeys(range(16)), iter(BEGUN))),
            (ValueError, ([BEGUN[:1], BEGUN[:2], *BEGUN[2:]],)),
            (OverflowError, ([-1] + [0] * 15, [0] * 15 + [2**64], [0] * 15 + [-(2**63)], np.full(16, -1), [10**30] * 16)),
            (TypeError, (np.zeros(16), [0] * 15 + [1.0], [True] + [0] * 15, np.zeros(16, bool), [None] * 16, ["0"] * 16, np.ma.zeros(16, int))),
        ):
            for given in bad:
                raises(error, name, lambda: call(given), sheet)
    raises(ValueError, "began has the shape (); (16,) is wanted", lambda: setattr(sheet, "began", None), sheet)


def test_a_worker_is_named_and_is_a_whole_number():
    sheet = pm.Sheet(study, tally=BEGUN)
    calls = {
        "run_piece": lambda *worker: sheet.run_piece(*worker, 0, 1, 1),
        "carry_on": lambda *worker: sheet.carry_on(*worker),
        "run_pieces": lambda *worker: sheet.run_pieces(*worker, [(0, 1, 1)]),
        "a run in a list": lambda *worker: sheet.play([("run_piece", *worker, 0, 1, 1)]),
        "a carry-on in a list": lambda *worker: sheet.play([("carry_on", *worker)]),
    }
    for name, call in calls.items():
        raises(TypeError, "missing 1 required positional argument", call, sheet)  # a forgotten worker is not worker 0
        for worker in 0.0, 3.0, np.float64(3), float("nan"), True, np.True_, "3", b"3", None, [3], (3,), np.array([3]), np.array(3.0), 3 + 0j:
            raises(TypeError, "worker: a whole number is wanted, not ", lambda: call(worker), sheet)
        for worker in 2**63, 2**64, 2**64 + 3, -(2**63) - 1, 10**30, np.uint64(2**63), np.uint64(2**64 - 1):
            raises(OverflowError, f"worker: {worker} is not a signed number of 64 bits", lambda: call(worker), sheet)
        for worker in (*NONE, np.int64(-1), np.int8(16), np.uint64(256)):  # it is asked for by the library, whole
            if "list" in name or name == "run_pieces":
                before = held(sheet)
                assert [a.tolist() for a in call(worker)] == [[21], [BEGUN]] and held(sheet) == before
            else:
                refused(21, lambda: call(worker), sheet)
    for worker in 0, np.int8(1), np.uint64(2), np.array(3), np.int64(15):
        sheet.run_piece(worker, 0, 0, 0)
        sheet.run_pieces(worker, [(0, 0, 0), (1, 0, 0)])
        sheet.play([("run_piece", worker, 2, 0, 0), ("carry_on", worker)])
    assert sheet.tally.tolist() == plus(BEGUN, {0: 4 + 24, 1: 4, 2: 4, 3: 4, 15: 4})
    assert sheet.run_pieces(16, [])[1].shape == (0, 16)
    for count in FULL:
        other_full = pm.Sheet(study, tally=[count] * 15 + [0])
        other_full.carry_on(15)
        assert other_full.tally.tolist() == [count] * 15 + [27]


def test_copies_of_a_study_have_arrays_of_their_own():
    for make in (copy.copy, copy.deepcopy, lambda y: pickle.loads(pickle.dumps(y))):
        y = own()
        copied = make(y)
        copied.frequencies1 *= 2
        copied.grid.addresses[5] = 7, 7, 7
        assert carried(y) == carried(study) != carried(copied)
        grids = make(y.grid)
        grids.mesh[0] = 1
        assert carried(y) == carried(study)


def in_another_process(y):
    """A study that was sent, assigned to there; its sheet, and a refusal, are sent back."""
    y.frequencies1 = y.frequencies1 * 2
    sheet = pm.Sheet(y)
    sheet.run_piece(0, 2, 1, 0)
    try:
        sheet.run_piece(0, 3, 0, 0)
    except pm.Refused as refusal:
        return sheet, refusal


def test_other_processes():
    for how in ("spawn", "fork"):
        with multiprocessing.get_context(how).Pool(2) as pool:
            for sheet, refusal in pool.map_async(in_another_process, [own(), own()]).get(timeout=120):
                assert sheet.tally.tolist() == [1] + [0] * 15 and sheet.marks.sum() == 1 and refusal.number == 14 and str(refusal) == str(pm.Refused(14))
                sheet.carry_on(0)
                assert held(sheet) == carried(other(f1=F1 * 2))


def test_shapes_are_checked_and_never_changed():
    g, t, f = grid, table, F1
    w, z = pm.integration_weight_per_triplet(study, (3, 5, 6))
    rows = [[0, 4, 4, 4]] * 24
    flat = np.array(rows).ravel()
    for name, given, wanted, call in (
        ("triplets", TWO.T, "(n, 3)", lambda x: other(triplets=x)),
        ("triplets", TWO.ravel(), "(n, 3)", lambda x: other(triplets=x)),
        ("triplets", TWO[None], "(n, 3)", lambda x: other(triplets=x)),
        ("addresses", np.array(addresses).T, "(P, 3)", lambda x: pm.Grid(2, [2, 2, 2], x, g.gp_map)),
        ("addresses", np.array(addresses).ravel(), "(P, 3)", lambda x: pm.Grid(2, [2, 2, 2], x, g.gp_map)),
        ("mesh", np.array([[2, 2, 2]]), "(3,)", lambda x: pm.Grid(2, x, addresses, g.gp_map)),
        ("gp_map", g.gp_map[:, None], "(any,)", lambda x: pm.Grid(2, [2, 2, 2], addresses, x)),
        ("table", t.reshape(24, 12), "(rows, 4, 3)", lambda x: other(table=x)),
        ("table", t.transpose(0, 2, 1), "(rows, 4, 3)", lambda x: other(table=x)),
        ("frequencies1", f.T, "(12, bands)", lambda x: other(f1=x)),
        ("frequencies1", f.ravel(), "(12, bands)", lambda x: other(f1=x)),
        ("frequencies2", f[:4], "(12, bands)", lambda x: other(f2=x)),
        ("points", np.zeros((5, 1)), "(n,)", lambda x: other(points=x)),
        ("triplet", TWO, "(3,)", lambda x: pm.integration_weight_per_triplet(study, x)),
        ("triplet", TWO[:, :1], "(3,)", lambda x: pm.is_n(x, addresses)),
        ("addresses", np.array(addresses).T, "(P, 3)", lambda x: pm.is_n((0, 1, 2), x)),
        ("vertices", np.array(rows).T, "(rows, 4)", lambda x: pm.tetrahedra_integration_weight(2, x)),
        ("vertices", flat, "(rows, 4)", lambda x: pm.tetrahedra_integration_weight(2, x)),
        ("vertices", flat * 1.0, "(rows, 4)", lambda x: pm.tetrahedra_integration_weight(2, x)),
        ("rec_lattice", np.ones(9), "(3, 3)", pm.relative_grid_address),
        ("a", np.ones((3, 4)), "(3, 3)", lambda x: pm.matvec_di(x, (1, 2, 3))),
        ("b", np.ones((1, 3), int), "(3,)", lambda x: pm.matvec_di(np.eye(3), x)),
        ("address", np.ones((1, 3), int), "(3,)", lambda x: pm.grid_index_from_address(x, (2, 2, 2))),
        ("mesh", np.ones(4, int), "(3,)", lambda x: pm.grid_index_from_address((0, 0, 0), x)),
        ("steps", np.ones(3, int), "(n, 3)", lambda x: pm.fill_neighboring_grid_points(g, 0, x)),
        ("steps", np.ones((3, 2), int), "(n, 3)", lambda x: pm.neighboring_grid_points_many(g, [0], x)),
        ("grid_points", np.ones((2, 2), int), "(any,)", lambda x: pm.neighboring_grid_points_many(g, x, [(0, 0, 0)])),
        ("table", t[0], "(rows, 4, 3)", lambda x: pm.set_relative_grid_address(x, 2)),
        ("frequencies", f.ravel(), "(irreducible points, bands)", lambda x: pm.integration_weights_at_grid_points(g, t, [1], [0], x, [0] * 12)),
        ("gp2irgp_map", np.zeros((12, 1), int), "(P,)", lambda x: pm.integration_weights_at_grid_points(g, t, [1], [0], f, x)),
        ("ids1", np.zeros((3, 1), int), "(bands,)", lambda x: pm.Sheet(study).average_triplet(0, x, [0, 1, 2])),
        ("ids2", np.zeros((1, 3), int), "(bands,)", lambda x: pm.Sheet(study).play([("average_triplet", 0, [0, 1, 2], x)])),
        ("rows", np.zeros(12, int), "(n, 6)", lambda x: pm.Sheet(study).play_list(x, [])),
        ("weights", np.zeros(27), "(channels, triplets, points, b1, b2)", lambda x: pm.open_count(2, x, 0)),
        ("weights", np.zeros((3, 5, 3, 3)), "(channels, triplets, points, b1, b2)", lambda x: pm.open_counts(3, x)),
        ("flags", z[:, :, :2], "(5, 3, 3)", lambda x: pm.average_weights_over_degenerate_sets(w, x, [0, 0, 2], [0, 1, 1], 3)),
        ("weights", w.transpose(1, 0, 2, 3), "(channels, 5, 3, 3)", lambda x: pm.average_weights_over_degenerate_sets(x, z, [0, 0, 2], [0, 1, 1], 3)),
        ("weights", np.zeros(405), "(3, 3, 5, 3, 3)", lambda x: pm.Sheet(study, weights=x)),
        ("flags", np.zeros((3, 5, 9), np.int8), "(3, 5, 3, 3)", lambda x: pm.Sheet(study, flags=x)),
        ("marks", np.zeros((9, 3), np.uint8), "(3, 3, 3)", lambda x: pm.Sheet(study, marks=x)),
    ):
        raises(ValueError, [name + " has", str(given.shape), wanted], lambda: call(given))


def test_nothing_wraps_and_nothing_is_rounded():
    g, sheet = grid, pm.Sheet(study)
    big = 2**63
    for error, words, call in (
        (TypeError, "addresses", lambda: pm.Grid(2, [2, 2, 2], np.array(addresses) * 1.0, g.gp_map)),
        (TypeError, "gp_map", lambda: pm.Grid(2, [2, 2, 2], addresses, g.gp_map * 1.0)),
        (TypeError, "gp_map", lambda: pm.Grid(2, [2, 2, 2], addresses, g.gp_map.astype(np.uint64))),
        (TypeError, "mesh", lambda: pm.Grid(2, [2.0, 2, 2], addresses, g.gp_map)),
        (TypeError, "triplets", lambda: other(triplets=TWO.astype(np.float32))),
        (TypeError, "triplets", lambda: other(triplets=[[big, 0, 0]])),
        (TypeError, "table", lambda: other(table=table / 1)),
        (ValueError, "triplets is no array", lambda: other(triplets=[[0, 1, 2], [3, 5]])),
        (TypeError, "frequencies1 is a masked array", lambda: other(f1=np.ma.masked_less(F1, 1))),
        (TypeError, "points", lambda: other(points=[1, 2**53 + 1])),
        (TypeError, "points", lambda: other(points=[1 + 0j])),
        (TypeError, "frequencies1", lambda: other(f1=F1.astype(np.longdouble))),
        (TypeError, "ids1", lambda: sheet.average_triplet(0, [0.0, 0, 2], [0, 1, 1])),
        (TypeError, "triplet", lambda: pm.is_n((0.5, 1, 2), addresses)),
        (TypeError, "omega", lambda: pm.tetrahedra_integration_weight(2**53 + 1, [[0, 4, 4, 4]] * 24)),
        (TypeError, "omega", lambda: pm.tetrahedra_integration_weight("2", [[0, 4, 4, 4]] * 24)),
        (ValueError, "'I' or 'J'", lambda: pm.tetrahedra_integration_weight(2, [[0, 4, 4, 4]] * 24, "i")),
        (OverflowError, "triplet", lambda: sheet.run_piece(0, big, 0, 0)),
        (OverflowError, "b2", lambda: sheet.run_piece(0, 0, 0, -big - 1)),
        (OverflowError, "triplet", lambda: sheet.play([("run_piece", 0, big, 0, 0)])),
        (TypeError, "rows", lambda: sheet.play_list([(0, big, 0, 0, 0, 0)], [])),
        (TypeError, "", lambda: sheet.run_piece(0, 0.0, 0, 0)),
        (TypeError, "b2", lambda: sheet.play([("run_piece", 0, 0, 0)])),
        (KeyError, "run", lambda: sheet.play([("run",)])),
        (TypeError, "weights", lambda: pm.open_counts(3, sheet.weights.astype(np.longdouble))),
        (TypeError, "weights", lambda: pm.open_count(3, np.zeros((3, 3, 5, 3, 3), complex), 0)),
        (TypeError, "tp_type", lambda: pm.open_counts(3.0, sheet.weights)),
        (TypeError, "triplet", lambda: sheet.open_count(0.5)),
        (OverflowError, "triplet", lambda: sheet.open_count(big)),
        (TypeError, "", lambda: pm.answer("text")),
    ):
        raises(error, words, call, sheet)


def test_open_counts():
    new, sheet = pm.Sheet(study), pm.Sheet(study)
    sheet.carry_on(0)
    opened = (sheet.weights != 0).any(0)  # by numpy
    assert new.open_counts().tolist() == [0, 0, 0] and sheet.open_counts().dtype == np.uint64
    assert sheet.open_counts().tolist() == opened.sum((1, 2, 3)).tolist() == [sheet.open_count(t) for t in range(3)]
    assert not sheet.flags[opened].any()  # what carries scattering has flag 0, and not the other way round:
    edge = other(f1=np.ones((12, 1)), f2=np.ones((12, 1)), points=[2.0, 3.0], triplets=[(0, 0, 0)])
    top = pm.Sheet(edge)
    top.carry_on(0)
    assert top.flags.ravel().tolist() == [0, 1] and top.open_counts().tolist() == [0]
    # either zero is zero; NaNs of any sign and payload, infinities and the least number are not; an entry counts once
    bits = [0, 1 << 63, 0x7FF8 << 48, 0xFFF0000000000001, 0x7FF0 << 48, 0xFFF0 << 48, 1, (1 << 63) + 1, 0x3FF0 << 48]
    values = np.array(bits, np.uint64).view(np.float64)
    for tp_type, channels in (2, 2), (3, 3), (4, 1):
        for k in range(channels):
            w = np.zeros((channels, 2, 1, 9, 1))
            w[k, 1, 0, :, 0] = values
            w[0, 1, 0, 8, 0] = 1.0
            for given in (w, w.tolist(), w[..., ::-1], np.asfortranarray(w), w.byteswap().view(w.dtype.newbyteorder())):
                assert pm.open_counts(tp_type, given).tolist() == [0, 7]
    held_w = w.tobytes()
    w.flags.writeable = False
    assert pm.open_count(4, w, 1) == 7 and w.tobytes() == held_w  # read-only memory will do
    # the questions in their order, with no triplets too
    for number, call in (
        (8, lambda: pm.open_count(5, np.zeros((1, 1, 0, 1, 1)), 7)),
        (9, lambda: pm.open_count(4, np.zeros((1, 1, 0, 1, 1)), 7)),
        (9, lambda: pm.open_count(4, np.zeros((1, 1, 1, 65, 1)), 0)),
        (12, lambda: pm.open_count(3, np.zeros((2, 1, 1, 1, 1)), 7)),
        (14, lambda: pm.open_count(2, np.zeros((2, 1, 1, 1, 1)), 1)),
        (14, lambda: sheet.open_count(-1)),
        (8, lambda: pm.open_counts(1, np.zeros((2, 1, 1, 1, 1)))),
        (8, lambda: pm.open_counts(1, np.zeros((2, 0, 1, 1, 1)))),
        (9, lambda: pm.open_counts(2, np.zeros((2, 0, 1, 1, 0)))),
        (9, lambda: pm.open_counts(2, [])),
        (12, lambda: pm.open_counts(2, np.zeros((3, 1, 1, 1, 1)))),
    ):
        refused(number, call, sheet)
    assert pm.open_counts(2, np.zeros((2, 0, 1, 1, 1))).shape == (0,)
    # the study that a sheet was made for
    changed = pm.Sheet(other())
    changed.study.tp_type = 2
    raises(ValueError, ["weights has", "(2, 3, 5, 3, 3)"], changed.open_counts)
    # one triplet's count reads that triplet: a sheet of 65,536 triplets takes no longer
    large, small = np.zeros((2, 65536, 4, 3, 3)), np.zeros((2, 1, 4, 3, 3))
    least = lambda w: min((lambda start: (pm.open_count(2, w, 0), time.perf_counter() - start)[1])(time.perf_counter()) for _ in range(50))
    assert least(large) < 20 * least(small) + 1e-4


def test_a_sheet_s_arrays_must_be_fit_to_be_written():
    sheet = pm.Sheet(study)
    raises(TypeError, "weights", lambda: pm.Sheet(study, weights=sheet.weights.astype(np.float32)))
    raises(TypeError, "flags", lambda: pm.Sheet(study, flags=np.zeros((3, 5, 3, 6), np.int8)[..., ::2]))
    raises(TypeError, "marks", lambda: pm.Sheet(study, marks=sheet.marks.tolist()))
    shared = np.zeros(sheet.weights.shape)
    raises(ValueError, "overlaps weights", lambda: pm.Sheet(study, weights=shared, marks=shared.view(np.uint8).ravel()[:27].reshape(3, 3, 3)))
    raises(ValueError, ["weights has", "(3, 5, 3, 3)"], lambda: setattr(sheet, "weights", np.zeros((3, 5, 3, 3))), sheet)
    mine = np.full(sheet.weights.shape, 7.0)
    sheet.weights = mine
    sheet.run_piece(0, 0, 0, 0)
    assert sheet.weights is mine and (mine[:, 0, :, 0, 0] != 7).all() and (mine[:, 1:] == 7).all()
    sheet.weights.flags.writeable = False
    raises(TypeError, "writable", lambda: sheet.carry_on(0), sheet)
    sheet.weights.flags.writeable = True
    sheet.carry_on(0)
    assert held(sheet) == carried(study)


def test_bytes_begin_at_a_multiple_of_8():
    kept = [bytes(size) for size in [*range(2000), 2**16, 2**17 + 8, 2**20, 2**25]]
    assert all(ctypes.cast(b, ctypes.c_void_p).value % 8 == 0 for b in kept)


def test_no_rows():
    assert pm.Sheet(other(triplets=[])).weights.shape == (3, 0, 5, 3, 3) and other(triplets=np.zeros((0, 3), int)).triplets.shape == (0, 3)
    raises(ValueError, ["triplets has", "(3, 0)", "(n, 3)"], lambda: other(triplets=np.zeros((3, 0), int)))


if __name__ == "__main__":
    run(globals())
    print("python: arrays ok")
