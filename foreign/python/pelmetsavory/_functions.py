"""The entries that need no sheet."""
from __future__ import annotations

import ctypes
from typing import Any

import numpy as np
from numpy.typing import ArrayLike

from ._arrays import inputs, letter, numbers, output, real, whole
from ._library import LIBRARY, checked
from ._study import Grid, Study, arguments
from ._tables import table_checked
from .entries import ENTRIES, Triple

_FLOAT = np.dtype(np.float64)
_ANSWER = ENTRIES["pelmetsavory_answer"][1][-1][3]  # the greatest answer, in bytes


def _triple(name: str, given: ArrayLike) -> Triple:
    return Triple.from_buffer_copy(numbers(name, np.int64, given, 3).tobytes())


def tetrahedra_integration_weight(omega: float, vertices: ArrayLike, function: str = "I") -> float:
    """One weight at the frequency omega over tetrahedra with the vertices (rows, 4), 24 rows or a multiple of it, up to 96.

    The function 'I' gives the density of states (phonopy's I times g), 'J' the number of states (J times n).

    >>> tetrahedra_integration_weight(2, [[0, 4, 4, 4]] * 24)
    0.375
    >>> tetrahedra_integration_weight(2, [[0, 4, 4, 4]] * 24, "J")
    0.3125
    """
    if not (type(vertices) is np.ndarray and vertices.dtype == _FLOAT and vertices.ndim == 2 and vertices.shape[1] == 4):
        vertices = numbers("vertices", np.float64, vertices, "rows", 4)  # converts, or says what is wrong
    weight = ctypes.c_double()
    status = LIBRARY.pelmetsavory_tetrahedra_integration_weight(real("omega", omega), vertices.tobytes(), vertices.size, letter(function), ctypes.byref(weight))
    if status:
        checked(status)
    return weight.value


def integration_weight(study: Study) -> tuple[np.ndarray, np.ndarray]:
    """The weights (channel, triplet, point, b1, b2) and flags (triplet, point, b1, b2) of all triplets."""
    shapes, given = study.shapes(), arguments(study._records())
    weights, flags = np.zeros(shapes.weights), np.zeros(shapes.flags, np.int8)
    checked(LIBRARY.pelmetsavory_integration_weight(*given, *output(weights, 8), *output(flags, 1)))
    return weights, flags


def integration_weight_per_triplet(study: Study, triplet: ArrayLike) -> tuple[np.ndarray, np.ndarray]:
    """The weights (channel, point, b1, b2) and flags (point, b1, b2) of one triplet, any three grid points (3,); the study's own are not read."""
    (channels, _, *rest), given = study.shapes().weights, arguments(study._records())
    weights, flags = np.zeros((channels, *rest)), np.zeros(rest, np.int8)
    checked(LIBRARY.pelmetsavory_integration_weight_per_triplet(*given[:-2], _triple("triplet", triplet), *output(weights, 8), *output(flags, 1)))
    return weights, flags


def average_weights_over_degenerate_sets(weights: ArrayLike, flags: ArrayLike, ids1: ArrayLike, ids2: ArrayLike, tp_type: int) -> tuple[np.ndarray, np.ndarray]:
    """The averages of one triplet's weights (channel, point, bands, bands) and flags (point, bands, bands), as new arrays; id lists as in
    `Sheet.average_triplet`."""
    f = numbers("flags", np.int8, flags, "points", "bands", "bands").copy()
    points, bands, _ = f.shape
    f = numbers("flags", np.int8, f, points, bands, bands)
    w = numbers("weights", np.float64, weights, "channels", points, bands, bands).copy()
    a, b = numbers("ids1", np.int64, ids1, "bands"), numbers("ids2", np.int64, ids2, "bands")
    checked(LIBRARY.pelmetsavory_average_weights_over_degenerate_sets(*output(w, 8), *output(f, 1), *inputs(a, b), points, bands, whole("tp_type", tp_type)))
    return w, f


def _grid(grid: Grid) -> tuple[Any, ...]:
    return (grid._numbers(), *inputs(grid.addresses, grid.gp_map))


def _weights_at_grid_points(entry: Any, grid: Grid, table: ArrayLike, points: ArrayLike, grid_points: ArrayLike, frequencies: ArrayLike, gp2irgp_map: ArrayLike, function: str) -> np.ndarray:
    """The weights of either entry."""
    p, t = numbers("points", np.float64, points, "n"), numbers("table", np.int64, table, "rows", 4, 3)
    g, m = numbers("grid_points", np.int64, grid_points, "n"), numbers("gp2irgp_map", np.int64, gp2irgp_map, "P")
    f = numbers("frequencies", np.float64, frequencies, "irreducible points", "bands")
    irreducible, bands = f.shape
    out = np.zeros((g.size, p.size, bands))
    table_checked(entry(*output(out, 8), *inputs(p, t, g, f), bands, irreducible, *_grid(grid), *inputs(m), letter(function)), t)
    return out


def integration_weights_at_grid_points(grid: Grid, table: ArrayLike, points: ArrayLike, grid_points: ArrayLike, frequencies: ArrayLike, gp2irgp_map: ArrayLike, function: str = "I") -> np.ndarray:
    """The weights (grid point, point, band) of frequencies (irreducible points, bands); the map (P,) gives of each address its irreducible point.
    The function is 'I', the density of states, or 'J', the number of states."""
    return _weights_at_grid_points(LIBRARY.pelmetsavory_integration_weights_at_grid_points, grid, table, points, grid_points, frequencies, gp2irgp_map, function)


def checked_integration_weights_at_grid_points(grid: Grid, table: ArrayLike, points: ArrayLike, grid_points: ArrayLike, frequencies: ArrayLike, gp2irgp_map: ArrayLike, function: str = "I") -> np.ndarray:
    """The weights of `integration_weights_at_grid_points`, bit for bit, under a table that `check_relative_grid_address` accepts; any other is refused.

    >>> grid, skew = Grid(2, [1, 1, 1], [[0, 0, 0]], [0, 1]), all_relative_grid_address()[0] @ [[1, 1, 0], [0, 1, 0], [0, 0, 1]]
    >>> checked_integration_weights_at_grid_points(grid, skew, points=[1.0, 2.5], grid_points=[0], frequencies=[[2.0, 3.0]], gp2irgp_map=[0], function="J")
    array([[[0., 0.],
            [1., 0.]]])
    """
    return _weights_at_grid_points(LIBRARY.pelmetsavory_checked_integration_weights_at_grid_points, grid, table, points, grid_points, frequencies, gp2irgp_map, function)


def check_relative_grid_address(table: ArrayLike) -> None:
    """Accepts a table (rows, 4, 3) of the caller's in place of a built-in one: it has 24 rows, each with corner 0 at zero, components from -2 to 2 and
    determinant 1 or -1, which close around zero without gap or overlap. Any other is refused by question 7, 23, 24 or 25, and of the last three
    the message says which row or face is wrong.

    >>> skew = all_relative_grid_address()[0] @ [[1, 1, 0], [0, 1, 0], [0, 0, 1]]  # in a skew basis, in which the step 1, 0, 0 is 1, 1, 0
    >>> check_relative_grid_address(skew)
    >>> skew[5] = skew[6]  # a row twice, and a gap
    >>> check_relative_grid_address(skew)  # doctest: +ELLIPSIS
    Traceback (most recent call last):
    pelmetsavory.Refused: question 24 is answered no: Is each face in exactly two rows, on opposite sides? The face (...), (...) is in row... (from 0).
    """
    t = numbers("table", np.int64, table, "rows", 4, 3)
    table_checked(LIBRARY.pelmetsavory_check_relative_grid_address(*inputs(t)), t)


def is_n(triplet: ArrayLike, addresses: ArrayLike) -> bool:
    """Whether the three addresses of a triplet (3,) of grid points add to zero; addresses (P, 3)."""
    a, normal = numbers("addresses", np.int64, addresses, "P", 3), ctypes.c_uint8()
    checked(LIBRARY.pelmetsavory_is_n(_triple("triplet", triplet), *inputs(a), ctypes.byref(normal)))
    return bool(normal.value)


def set_relative_grid_address(table: ArrayLike, tp_type: int) -> np.ndarray:
    """Both copies (2, rows, 4, 3) of a table (rows, 4, 3), for the second and the third point of a triplet."""
    t = numbers("table", np.int64, table, "rows", 4, 3)
    out = np.zeros((2, *t.shape), np.int64)
    checked(LIBRARY.pelmetsavory_set_relative_grid_address(*output(out, 8), *inputs(t), whole("tp_type", tp_type)))
    return out


def fill_neighboring_grid_points(grid: Grid, grid_point: int, steps: ArrayLike) -> np.ndarray:
    """The neighbours (n,) of one grid point along steps (n, 3)."""
    s = numbers("steps", np.int64, steps, "n", 3)
    out = np.zeros(len(s), np.int64)
    checked(LIBRARY.pelmetsavory_fill_neighboring_grid_points(*output(out, 8), whole("grid_point", grid_point), *inputs(s), *_grid(grid)))
    return out


def neighboring_grid_points_many(grid: Grid, grid_points: ArrayLike, steps: ArrayLike) -> np.ndarray:
    """The neighbours (grid point, step) of many grid points (any,) along steps (n, 3)."""
    g, s = numbers("grid_points", np.int64, grid_points, "any"), numbers("steps", np.int64, steps, "n", 3)
    out = np.zeros((g.size, len(s)), np.int64)
    checked(LIBRARY.pelmetsavory_neighboring_grid_points_many(*output(out, 8), *inputs(g, s), *_grid(grid)))
    return out


def grid_index_from_address(address: ArrayLike, mesh: ArrayLike) -> int:
    """The grid index of an address (3,) on a mesh (3,)."""
    index = ctypes.c_int64()
    checked(LIBRARY.pelmetsavory_grid_index_from_address(_triple("address", address), _triple("mesh", mesh), ctypes.byref(index)))
    return index.value


def relative_grid_address(rec_lattice: ArrayLike) -> tuple[np.ndarray, int]:
    """The table (24, 4, 3) of the shortest main diagonal of a microzone, and the number 0 to 3 of that diagonal.

    `rec_lattice` (3, 3) has the reciprocal basis vectors as COLUMNS: `rec_lattice[:, 0]` is the first. Divide each by its mesh number, as phono3py
    does; where these are not all equal that can choose another table. The diagonals are 1,1,1; -1,1,1; 1,-1,1; 1,1,-1 in these vectors, and of
    several shortest the first is taken.

    >>> rec_lattice = np.array([[0, 0, 1], [1, 1, 1], [0, 1, 0]])
    >>> relative_grid_address(rec_lattice / [4, 4, 1])[1]  # the mesh 4, 4, 1
    3
    >>> relative_grid_address(rec_lattice)[1], relative_grid_address(rec_lattice.T / [4, 4, 1])[1]  # not divided; rows
    (1, 2)
    """
    lattice, table, index = numbers("rec_lattice", np.float64, rec_lattice, 3, 3), np.zeros((24, 4, 3), np.int64), ctypes.c_size_t()
    checked(LIBRARY.pelmetsavory_relative_grid_address(lattice.tobytes(), output(table, 8)[0], ctypes.byref(index)))
    return table, index.value


def all_relative_grid_address() -> np.ndarray:
    """The four tables (4, 24, 4, 3), in the order of the diagonals."""
    out = np.zeros((4, 24, 4, 3), np.int64)
    LIBRARY.pelmetsavory_all_relative_grid_address(output(out, 8)[0])
    return out


def generated_relative_grid_address() -> np.ndarray:
    """The four tables (4, 24, 4, 3), made from the main diagonals: the six ways along three different edges from one end to the other, each shifted
    so that each of its four places in turn lies at zero.

    The rows are those of `all_relative_grid_address`, each once, but the order of the rows and of corners 1 to 3 is another. Sums depend on the order:
    never take these tables for weights that are to agree in every bit.

    >>> made, constant = generated_relative_grid_address(), all_relative_grid_address()
    >>> rows = lambda table: sorted(sorted(row) for row in table.tolist())  # in any order
    >>> [rows(a) == rows(b) for a, b in zip(made, constant)], np.array_equal(made, constant)
    ([True, True, True, True], False)
    """
    out = np.zeros((4, 24, 4, 3), np.int64)
    LIBRARY.pelmetsavory_generated_relative_grid_address(output(out, 8)[0])
    return out


def matvec_di(a: ArrayLike, b: ArrayLike) -> np.ndarray:
    """A lattice (3, 3) times a vector (3,) of whole numbers."""
    m, out = numbers("a", np.float64, a, 3, 3), np.zeros(3)
    checked(LIBRARY.pelmetsavory_matvec_di(m.tobytes(), _triple("b", b), output(out, 8)[0]))
    return out


def num_channels(tp_type: int) -> int:
    """How many weights a triplet of a type has at a point of a band pair."""
    channels = ctypes.c_size_t()
    checked(LIBRARY.pelmetsavory_num_channels(whole("tp_type", tp_type), ctypes.byref(channels)))
    return channels.value


def answer(text: bytes) -> bytes:
    """What the program `weights` prints for the text of a study: its listing, which `read_listing` reads, or `refused`, a tab, the question's
    number and a newline. Needs less than 1.25 MiB of stack."""
    text, out = bytes(memoryview(text)), (ctypes.c_char * _ANSWER)()
    return out[: LIBRARY.pelmetsavory_answer(text, len(text), ctypes.byref(out))]
