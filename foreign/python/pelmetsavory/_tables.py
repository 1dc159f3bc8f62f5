"""What is wrong with a neighbour table, in words, for the message of a refusal: a status is a number alone."""
from __future__ import annotations

from typing import List, Tuple

import numpy as np
from numpy.typing import ArrayLike

from ._arrays import numbers
from ._library import Refused, checked

Corner = Tuple[int, ...]  # three of Python's whole numbers: no product is too large
Row = List[Corner]

_DIRECTION = 1, 100, 10000


def _det(a: Corner, b: Corner, c: Corner) -> int:
    return a[0] * (b[1] * c[2] - b[2] * c[1]) - a[1] * (b[0] * c[2] - b[2] * c[0]) + a[2] * (b[0] * c[1] - b[1] * c[0])


def _past(r: int, row: Row, limit: int) -> str | None:
    """The first corner of a row with a component past the limit."""
    for c, corner in enumerate(row):
        if max(map(abs, corner)) > limit:
            return f"Row {r} (from 0): corner {c} is {corner}, past {limit}."
    return None


def _size_fault(rows: list[Row]) -> str | None:
    if len(rows) not in (24, 48, 72, 96):
        return f"There are {len(rows)} rows."
    return next(filter(None, (_past(r, row, 4096) for r, row in enumerate(rows))), None)


def _row_fault(rows: list[Row]) -> str | None:
    if len(rows) != 24:
        return f"There are {len(rows)} rows."
    for r, row in enumerate(rows):
        first, *corners = row
        if any(first):
            return f"Row {r} (from 0): corner 0 is {first}, not zero."
        if said := _past(r, row, 2):
            return said
        if abs(det := _det(*corners)) != 1:
            return f"Row {r} (from 0): its determinant is {det}."
    return None


def _named(rows: list[int]) -> str:
    return f"row{'s' * (len(rows) > 1)} {', '.join(map(str, rows))} (from 0)"


def _face_fault(rows: list[Row]) -> str | None:
    having: dict[tuple[Corner, Corner], list[tuple[int, int]]] = {}  # of each face its rows, each with the side on which it lies
    for r, (_, *corners) in enumerate(rows):
        for k in range(3):
            a, b = sorted(corners[:k] + corners[k + 1 :])
            having.setdefault((a, b), []).append((r, _det(a, b, corners[k])))
    for (a, b), found in having.items():
        if len(found) != 2 or found[0][1] * found[1][1] > 0:
            same = ", which lie on the same side" if len(found) == 2 else ""
            return f"The face {a}, {b} is in {_named([r for r, _ in found])}{same}."
    return None


def _cone_fault(rows: list[Row]) -> str | None:
    inside, d = [], _DIRECTION
    for r, (_, a, b, c) in enumerate(rows):
        det = _det(a, b, c)
        if min(det * _det(d, b, c), det * _det(a, d, c), det * _det(a, b, d)) > 0:
            inside.append(r)
    return None if len(inside) == 1 else f"It is inside those of {_named(inside)}."


_FAULTS = {7: _size_fault, 23: _row_fault, 24: _face_fault, 25: _cone_fault}


def table_fault(table: ArrayLike) -> tuple[int, str] | None:
    """Of a table (rows, 4, 3) that is not accepted, the number of the question and what is wrong, otherwise None. It decides nothing: it says where
    a table is wrong that the library has refused.

    >>> table_fault(np.zeros((24, 4, 3), int))
    (23, 'Row 0 (from 0): its determinant is 0.')
    """
    rows = [[tuple(corner) for corner in row] for row in numbers("table", np.int64, table, "rows", 4, 3).tolist()]
    return next(((number, said) for number, fault in _FAULTS.items() if (said := fault(rows))), None)


def _said(status: int, table: np.ndarray) -> str | None:
    """What is wrong with a table that a question refuses, where that is found."""
    try:
        number, said = table_fault(table) or (status, None)
    except Exception:  # the refusal stands, whatever happens here
        return None
    return said if number == status else None


def table_checked(status: int, table: np.ndarray) -> None:
    """Raises what a status tells; 23, 24 and 25 with what is wrong with the table."""
    if status in (23, 24, 25):
        raise Refused(status, _said(status, table))
    checked(status)
