"""Loads that anyone can make again: the chain of frequencies, the study of request 13 and its checksums, and arguments that are refused."""
import numpy as np

import pelmetsavory as pm
from small import raises, refused, run

STARTS = 0, 1, 2**31, 2**32 - 1, 123456789
COUNTS = (0, 0, 0), (1, 0, 0), (0, 1, 0), (0, 0, 1), (3, 0, 2), (5, 3, 2), (2, 3, 5), (300, 200, 100)
WEIGHTS, FLAGS = 0x90A6E85C66921DEC, 0x13BD95F65979A301  # of request 13's load, as bench/main.rs has them


def chain(start, count):
    """The frequencies in whole numbers: each is the number behind a step, over 2^16 rounded down, over 4096."""
    found, x = [], start
    for _ in range(count):
        x = (1664525 * x + 1013904223) % 2**32
        found.append(x // 2**16 / 4096)
    return found


def fnv(data):
    """FNV-1a, 64 bits."""
    h = 0xCBF29CE484222325
    for byte in data:
        h = (h ^ byte) * 0x100000001B3 % 2**64
    return h


def carried(study):
    """The sheet of a study after a carry-on."""
    sheet = pm.Sheet(study)
    sheet.carry_on(0)
    return sheet


def test_one_chain_fills_the_three():
    assert pm.fill_frequencies(0, 1, 0, 0)[0].tolist() == [3.77685546875]
    for start in STARTS:
        for counts in COUNTS:
            made = pm.fill_frequencies(start, *counts)
            assert [(a.shape, a.dtype, a.flags.carray) for a in made] == [((n,), np.float64, True) for n in counts]
            assert np.concatenate(made).tobytes() == np.array(chain(start, sum(counts))).tobytes(), (start, counts)
    assert pm.fill_frequencies(start=7, num_points=3, count2=2, count1=1)[2].tolist() == chain(7, 6)[3:]
    values = pm.fill_frequencies(1, 100000, 0, 0)[0]
    assert values.min() == 0 and values.max() < 16 and (values * 4096 % 1 == 0).all()


def test_numbers_of_numpy_are_taken():
    wanted = [a.tobytes() for a in pm.fill_frequencies(2**32 - 1, 4, 3, 2)]
    for start in np.uint32(2**32 - 1), np.int64(2**32 - 1), np.uint64(2**32 - 1), np.array(2**32 - 1):
        assert [a.tobytes() for a in pm.fill_frequencies(start, np.int8(4), np.uint64(3), np.array(2))] == wanted
    wanted = pm.test_study(5, mesh=[2, 1, 1], bands=3, points=1, triplets=2).fingerprint()
    assert pm.test_study(np.uint32(5), mesh=np.array([2, 1, 1]), bands=np.int32(3), points=np.int64(1), triplets=np.uint8(2)).fingerprint() == wanted


def test_no_start_and_no_count_wraps():
    good = {"start": 0, "count1": 1, "count2": 1, "num_points": 1}
    beyond = {"start": (-1, -(2**32), 2**32, 2**32 + 1, 2**64, np.int64(-1), np.uint64(2**32))}
    for name in good:
        for given in beyond.get(name, (-1, -(2**63), 2**60, 2**64 + 1, np.int8(-1))):
            raises(OverflowError, [f"{name}: {given} is not an unsigned number of"], lambda: pm.fill_frequencies(**{**good, name: given}))
        for given in (True, False, np.True_, 0.0, 1.5, np.float64(1), "0", None, [0], np.array([0]), np.array(True), 1 + 0j):
            raises(TypeError, f"{name}: a whole number is wanted, not ", lambda: pm.fill_frequencies(**{**good, name: given}))
    small = {"start": 0, "bands": 1, "points": 1, "triplets": 1}
    for name in small:
        for given in -1, 2**32, np.int64(-1):
            raises(OverflowError, f"{name}: {given} is not an unsigned number of 32 bits", lambda: pm.test_study(**{**small, name: given, "mesh": [1, 1, 1]}))
    for name in (*small, "kind", "tp_type"):
        for given in (True, np.False_, 2.0, "2", None, [2]):
            raises(TypeError, f"{name}: a whole number is wanted, not ", lambda: pm.test_study(**{**small, name: given, "mesh": [1, 1, 1]}))
    raises(OverflowError, "tp_type", lambda: pm.test_study(tp_type=2**63))
    raises(TypeError, "positional", lambda: pm.test_study(0, [2, 2, 2]))


def test_the_study_without_arguments_is_request_13_s():
    study, every = pm.test_study(), chain(0, 2 * 1728 * 6 + 10)
    grid = study.grid
    assert (grid.kind, grid.mesh.tolist(), study.tp_type) == (2, [12, 12, 12], 2)
    assert grid.addresses.tolist() == [[x, y, z] for z in range(12) for y in range(12) for x in range(12)] and grid.gp_map.tolist() == list(range(1729))
    assert all(pm.grid_index_from_address(a, grid.mesh) == i for i, a in enumerate(grid.addresses))
    assert (study.table == pm.relative_grid_address(np.eye(3))[0]).all() and pm.relative_grid_address(np.eye(3))[1] == 0
    assert study.frequencies1.shape == study.frequencies2.shape == (1728, 6) and study.points.shape == (10,)
    assert [*study.frequencies1.ravel(), *study.frequencies2.ravel(), *study.points] == every
    assert study.triplets.tolist() == [[i, i, i] for i in range(100)]
    assert pm.test_study(0).fingerprint() == study.fingerprint() != pm.test_study(1).fingerprint()


def test_its_weights_and_flags_have_the_checksums_of_the_bench():
    study = pm.test_study()
    sheet = carried(study)
    assert (fnv(sheet.weights.tobytes()), fnv(sheet.flags.tobytes())) == (WEIGHTS, FLAGS)
    assert sheet.tally.tolist() == [3600] + [0] * 15 and (sheet.marks == 1).all()
    weights, flags = pm.integration_weight(study)
    assert weights.tobytes() == sheet.weights.tobytes() and flags.tobytes() == sheet.flags.tobytes()


def test_another_start_mesh_type_or_count():
    study, every = pm.test_study(99, mesh=(2, 3, 5), tp_type=3, bands=4, points=7, triplets=11), chain(99, 2 * 30 * 4 + 7)
    assert study.grid.mesh.tolist() == [2, 3, 5] and study.grid.addresses.tolist() == [[x, y, z] for z in range(5) for y in range(3) for x in range(2)]
    assert study.shapes().weights == (3, 11, 7, 4, 4) and study.triplets.tolist() == [[i, i, i] for i in range(11)]
    assert [*study.frequencies1.ravel(), *study.frequencies2.ravel(), *study.points] == every
    assert carried(study).tally[0] == 11 * 16
    assert pm.test_study(triplets=0).triplets.shape == (0, 3) and not carried(pm.test_study(triplets=0)).tally.any()


def test_both_kinds_have_the_same_neighbours():
    for mesh in (1, 1, 1), (2, 3, 5), (4, 4, 4), (5, 2, 3):
        n = mesh[0] * mesh[1] * mesh[2]
        one, two = (pm.test_study(3, mesh=mesh, kind=kind, bands=2, points=3, triplets=n) for kind in (1, 2))
        assert one.grid.kind == 1 and len(one.grid.gp_map) == 8 * n and sorted(one.grid.gp_map[one.grid.gp_map < 8 * n]) == list(range(n))
        doubled = [2 * d for d in mesh]
        assert all(one.grid.gp_map[pm.grid_index_from_address(a, doubled)] == i for i, a in enumerate(one.grid.addresses))
        a, b = carried(one), carried(two)
        assert a.weights.tobytes() == b.weights.tobytes() and a.flags.tobytes() == b.flags.tobytes()


def test_what_the_library_would_not_take():
    for kind in 0, 3, -1, 2**64:
        refused(3, lambda: pm.test_study(kind=kind, mesh=[0, 0, 0]))
    for mesh in (0, 1, 1), (1, -2, 1), (1, 1, 129), (2**62, 2**62, 2**62):
        refused(4, lambda: pm.test_study(mesh=mesh))
    raises(ValueError, "mesh has the shape (2,); (3,) is wanted", lambda: pm.test_study(mesh=[2, 2]))
    raises(TypeError, "mesh has the type float64", lambda: pm.test_study(mesh=[2.0, 2, 2]))
    for number, change in (8, {"tp_type": 5}), (9, {"bands": 0}), (9, {"bands": 65}), (9, {"points": 0}), (9, {"points": 1025}), (10, {"triplets": 9}):
        refused(number, lambda: carried(pm.test_study(**{"mesh": [2, 2, 2], "bands": 1, "points": 1, "triplets": 8, **change})))


if __name__ == "__main__":
    run(globals())
    print("python: loads ok")
