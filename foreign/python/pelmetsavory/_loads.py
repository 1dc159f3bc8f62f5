"""Loads that anyone can make again from one number."""
from __future__ import annotations

import numpy as np
from numpy.typing import ArrayLike

from ._arrays import index, numbers, output, unsigned
from ._functions import all_relative_grid_address
from ._library import LIBRARY, Refused
from ._study import Grid, Study


def fill_frequencies(start: int, count1: int, count2: int, num_points: int) -> tuple[np.ndarray, np.ndarray, np.ndarray]:
    """Test frequencies (count1,), (count2,) and points (num_points,) from a start, a whole number from 0 to 2^32 - 1. Any count may be 0.

    One chain fills the three in this order: a number x becomes (1664525 x + 1013904223) mod 2^32, and the frequency is its upper 16 bits divided
    by 4096. So all are multiples of 1/4096 from 0 to below 16.

    >>> frequencies1, frequencies2, points = fill_frequencies(0, 2, 3, 1)
    >>> frequencies1.tolist(), frequencies2.tolist(), points.tolist()
    ([3.77685546875, 4.45703125], [13.1123046875, 10.685791015625, 6.14501953125], [9.94873046875])
    """
    x = unsigned("start", start, 32)
    counts = unsigned("count1", count1, 60), unsigned("count2", count2, 60), unsigned("num_points", num_points, 60)
    frequencies1, frequencies2, points = (np.zeros(n) for n in counts)
    LIBRARY.pelmetsavory_fill_frequencies(x, *output(frequencies1, 8), *output(frequencies2, 8), *output(points, 8))
    return frequencies1, frequencies2, points


def _map(kind: int, mesh: list[int], addresses: np.ndarray) -> np.ndarray:
    """The map of a grid with one address for each grid index, in the order of the indices."""
    n = len(addresses)
    if kind == 2:
        return np.arange(n + 1)  # groups of one
    doubled, (a, b, _) = np.full(8 * n, 8 * n), mesh
    doubled[addresses @ [1, 2 * a, 4 * a * b]] = np.arange(n)
    return doubled


def test_study(start: int = 0, *, mesh: ArrayLike = (12, 12, 12), kind: int = 2, tp_type: int = 2, bands: int = 6, points: int = 10, triplets: int = 100) -> Study:
    """A study that anyone can make again from a start, a whole number from 0 to 2^32 - 1. Without arguments it is the load of request 13.

    A grid of the kind with one address for each grid index i of the mesh (a, b, c): i % a, i // a % b, i // (a b); the first of the four tables; both
    frequencies (a b c, bands) and the points (points,) of `fill_frequencies`; the triplets i, i, i for i from 0 on. `bands`, `points` and `triplets` are
    counts. Whoever has the same `fingerprint()` has the same study.

    >>> study = test_study()
    >>> study.shapes().weights, study.frequencies1[0, 0].item(), study.triplets[99].tolist()
    ((2, 100, 10, 6, 6), 3.77685546875, [99, 99, 99])
    >>> study.fingerprint().hex()[:16]
    'a0da4a3a4471fe4b'
    """
    bands, points, triplets = unsigned("bands", bands, 32), unsigned("points", points, 32), unsigned("triplets", triplets, 32)
    kind, tp_type, (a, b, c) = index("kind", kind), index("tp_type", tp_type), numbers("mesh", np.int64, mesh, 3).tolist()
    if kind not in (1, 2):
        raise Refused(3)
    if not all(1 <= d <= 128 for d in (a, b, c)):
        raise Refused(4)
    n = a * b * c
    i, (f1, f2, p) = np.arange(n), fill_frequencies(start, n * bands, n * bands, points)
    addresses = np.stack([i % a, i // a % b, i // (a * b)], 1)
    grid = Grid(kind, mesh, addresses, _map(kind, [a, b, c], addresses))
    same = np.repeat(np.arange(triplets), 3).reshape(triplets, 3)
    return Study(grid, all_relative_grid_address()[0], tp_type, f1.reshape(n, bands), f2.reshape(n, bands), p, same)
