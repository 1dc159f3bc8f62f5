"""Where the four tables come from: the generated ones have the rows of the constant ones, each once, and those that the ways along the edges give."""
import itertools
from collections import Counter

import numpy as np

import pelmetsavory as pm
from small import raises, run

DIAGONALS = (1, 1, 1), (-1, 1, 1), (1, -1, 1), (1, 1, -1)


def loose(row):
    """A row whatever the order of its corners 1 to 3."""
    first, *rest = map(tuple, row)
    return first, *sorted(rest)


def collection(rows):
    """Of each row how often it is there, whatever the order of rows and of corners 1 to 3."""
    return Counter(map(loose, rows))


def walked(diagonal):
    """The rows by the words: from one end of the diagonal to the other along three different edges of the unit cell, each place in turn at zero."""
    for axes in itertools.permutations(range(3)):
        places = [[0 if d > 0 else 1 for d in diagonal]]
        for axis in axes:
            places.append([p + (d if k == axis else 0) for k, (p, d) in enumerate(zip(places[-1], diagonal))])
        assert all(p in (0, 1) for place in places for p in place)
        for k, zero in enumerate(places):
            yield [[a - b for a, b in zip(place, zero)] for place in [zero, *places[:k], *places[k + 1 :]]]


def test_the_rows_are_those_of_the_constant_tables():
    made, constant = pm.generated_relative_grid_address(), pm.all_relative_grid_address()
    assert made.shape == constant.shape == (4, 24, 4, 3) and made.dtype == np.int64 and made.flags.carray
    assert (made[:, :, 0] == 0).all()
    for a, b in zip(made.tolist(), constant.tolist()):
        assert collection(a) == collection(b) and set(collection(a).values()) == {1}
    for s, t in itertools.permutations(range(4), 2):  # and no two diagonals have the same
        assert collection(made[s].tolist()) != collection(constant[t].tolist())


def test_the_rows_are_those_of_the_ways():
    made = pm.generated_relative_grid_address().tolist()
    for table, diagonal in zip(made, DIAGONALS):
        assert collection(table) == collection(walked(diagonal)), diagonal
    # by hand: along y, z, x from 0,0,0 to 1,1,1 one passes 0,1,0 and 0,1,1, and along x, z, y from 0,1,0 to 1,0,1, which is the diagonal 1,-1,1, one
    # passes 1,1,0 and 1,1,1; each with its first place at zero, and with its second
    for number, row in (
        (0, [(0, 0, 0), (0, 1, 0), (0, 1, 1), (1, 1, 1)]),
        (0, [(0, 0, 0), (0, -1, 0), (0, 0, 1), (1, 0, 1)]),
        (2, [(0, 0, 0), (1, 0, 0), (1, 0, 1), (1, -1, 1)]),
        (2, [(0, 0, 0), (-1, 0, 0), (0, 0, 1), (0, -1, 1)]),
    ):
        assert collection(made[number])[loose(row)] == 1, row


def test_each_call_gives_an_array_of_its_own():
    made = pm.generated_relative_grid_address()
    kept = made.copy()
    made += 1
    assert pm.generated_relative_grid_address().tobytes() == kept.tobytes()
    raises(TypeError, "positional", lambda: pm.generated_relative_grid_address(0))


def test_sums_depend_on_the_order():
    """The same boxes, and weights that are equal but for rounding: some differ, so the table in use keeps its order."""
    made, constant = pm.generated_relative_grid_address(), pm.all_relative_grid_address()
    study = pm.test_study(triplets=20)
    for number in range(4):
        study.table = constant[number]
        weights, flags = pm.integration_weight(study)
        study.table = made[number]
        other, other_flags = pm.integration_weight(study)
        assert flags.tobytes() == other_flags.tobytes() and np.allclose(weights, other, rtol=1e-9, atol=1e-12)
        assert weights.tobytes() != other.tobytes()


if __name__ == "__main__":
    run(globals())
    print("python: tables ok")
