"""What weights are made of: a grid and a study."""
from __future__ import annotations

import copy
import hashlib
from typing import Any, NamedTuple

import numpy as np
from numpy.typing import ArrayLike

from ._arrays import Owned, whole
from .entries import Grid as GridNumbers
from .entries import Shape


class Grid:
    """A BZ grid, of phono3py: `Grid(2, bz_grid.D_diag, bz_grid.addresses, bz_grid.gp_map)`.

    `kind` is 1 or 2, `mesh` the three mesh numbers. What is assigned to an attribute is checked and copied; a copy has arrays of its own."""

    mesh = Owned("The three mesh numbers (3,).", np.int64, 3)
    addresses = Owned("The addresses (P, 3) of the P grid points.", np.int64, "P", 3)
    gp_map = Owned("The map of grid points (any,), as its kind has it.", np.int64, "any")

    def __init__(self, kind: int, mesh: ArrayLike, addresses: ArrayLike, gp_map: ArrayLike) -> None:
        self.kind = kind
        self.mesh = mesh
        self.addresses = addresses
        self.gp_map = gp_map

    @property
    def kind(self) -> int:
        """1: the map on the doubled mesh; 2: the map by groups of addresses."""
        return self._kind

    @kind.setter
    def kind(self, given: int) -> None:
        self._kind = whole("kind", given)

    def __copy__(self) -> Grid:
        return copy.deepcopy(self)

    def _numbers(self) -> GridNumbers:
        return GridNumbers(self.kind, tuple(self.mesh.tolist()))


class Shapes(NamedTuple):
    """The shapes of a sheet's arrays."""

    weights: tuple[int, ...]
    flags: tuple[int, ...]
    marks: tuple[int, ...]


def _points(study: Study) -> int:
    return len(study.grid.addresses)


class Study:
    """What a sheet is made of: a grid with P points, a table, a type, frequencies, sampling points and triplets.

    What is assigned to an attribute is checked and copied, and counts from the next call on, as does a change in place; a copy has arrays of
    its own. Where a new grid has another P, assign the grid first and then the frequencies."""

    table = Owned("The neighbour table (rows, 4, 3): of `relative_grid_address`, or several below one another.", np.int64, "rows", 4, 3)
    frequencies1 = Owned("The frequencies (P, bands) at a triplet's second point.", np.float64, _points, "bands")
    frequencies2 = Owned("The frequencies (P, bands) at a triplet's third point.", np.float64, _points, "bands")
    points = Owned("The sampling points (n,) on the frequency axis.", np.float64, "n")
    triplets = Owned("The triplets (n, 3) of grid points.", np.int64, "n", 3)

    def __init__(self, grid: Grid, table: ArrayLike, tp_type: int, frequencies1: ArrayLike, frequencies2: ArrayLike, points: ArrayLike, triplets: ArrayLike) -> None:
        self.grid = grid
        self.table = table
        self.tp_type = tp_type
        self.frequencies1 = frequencies1
        self.frequencies2 = frequencies2
        self.points = points
        self.triplets = triplets

    @property
    def grid(self) -> Grid:
        """The grid, not copied: its attributes may be assigned too."""
        return self._grid

    @grid.setter
    def grid(self, given: Grid) -> None:
        if not isinstance(given, Grid):
            raise TypeError(f"grid: a Grid is wanted, not {type(given).__name__}")
        self._grid = given

    @property
    def tp_type(self) -> int:
        """The type of the triplets: 2, 3 or 4."""
        return self._tp_type

    @tp_type.setter
    def tp_type(self, given: int) -> None:
        self._tp_type = whole("tp_type", given)

    @property
    def bands(self) -> tuple[int, int]:
        """How many bands either array of frequencies has."""
        return self.frequencies1.shape[-1], self.frequencies2.shape[-1]

    def shapes(self) -> Shapes:
        """The shapes of weights (channel, triplet, point, b1, b2), flags and marks. A type that is none has no channels: calls refuse it."""
        channels, triplets, points = {2: 2, 3: 3, 4: 1}.get(self.tp_type, 0), len(self.triplets), len(self.points)
        return Shapes((channels, triplets, points, *self.bands), (triplets, points, *self.bands), (triplets, *self.bands))

    def fingerprint(self) -> bytes:
        """The 32 bytes by which a stored sheet knows its study: of all arrays and numbers."""
        return fingerprint(self._records())

    def __copy__(self) -> Study:
        return copy.deepcopy(self)

    def _records(self) -> list[bytes]:
        """The eight records of a study, in the order of the interface: its numbers, and each array."""
        one = np.array([self.grid.kind, *self.grid.mesh, self.tp_type, *self.bands], np.int64)
        arrays = self.grid.addresses, self.grid.gp_map, self.table, self.frequencies1, self.frequencies2, self.points, self.triplets
        return [a.tobytes() for a in (one, *arrays)]


def arguments(records: list[bytes]) -> list[Any]:
    """A study as a call takes it: its numbers by value, then each array's bytes and the count of its numbers of 8 bytes; triplets last."""
    return [Shape.from_buffer_copy(records[0])] + [x for r in records[1:] for x in (r, len(r) // 8)]


def fingerprint(records: list[bytes]) -> bytes:
    """SHA-256 of the records, each with its count before it."""
    sha = hashlib.sha256(b"pelmetsavory study 1\n")
    for r in records:
        sha.update((len(r) // 8).to_bytes(8, "little"))
        sha.update(r)
    return sha.digest()
