"""A stored listing, read back into arrays."""
from __future__ import annotations

from typing import Any

import numpy as np
from numpy.typing import ArrayLike

from ._arrays import members, output, signed
from ._functions import num_channels
from ._library import LIBRARY, checked
from .entries import Counts

_HEADER = len("triplet\tpoint\tb1\tb2\tflag\tw\n")
_FRONT, _WEIGHT = len("0\t0\t0\t0\t0\n"), len("\t0000000000000000")  # the shortest line: this, and one of these for each channel


def _block(text: Any) -> np.ndarray:
    """The bytes of a text as a call reads them, where they lie; of a str a copy, in which each character that is not ASCII is a question mark:
    no listing has one."""
    try:
        view = memoryview(text.encode("ascii", "replace") if isinstance(text, str) else text)
    except (TypeError, ValueError, BufferError) as error:
        raise TypeError(f"text: bytes or a str is wanted ({error})") from None
    if view.ndim != 1 or view.itemsize != 1 or view.format[-1] not in "Bbc":
        raise TypeError(f"text: bytes or a str is wanted, not an array of the shape {view.shape} and the format {view.format!r}")
    if not view.contiguous:
        raise TypeError("text: bytes in one block are wanted, not a view with gaps or backwards")
    return np.frombuffer(view, np.uint8)


def _read(text: Any, tp_type: int, counts: Counts) -> tuple[int, Any]:
    """The status, and weights and flags where it is 0. What is refused is raised where nothing holds the text any more: while an exception does, a
    bytearray cannot be resized, nor a mapped file closed."""
    block = _block(text)
    status = LIBRARY.pelmetsavory_read_listing(None, 0, tp_type, counts, None, 0, None, 0)
    if status in (8, 9):
        return status, None
    channels, shape = num_channels(tp_type), (counts.num_triplets, counts.num_band0, counts.num_band1, counts.num_band2)
    triplets, points, b1, b2 = shape
    if block.size < _HEADER + triplets * points * b1 * b2 * (_FRONT + channels * _WEIGHT):  # too short: no array is made for it
        return 22, None
    weights, flags = np.zeros((channels, *shape)), np.zeros(shape, np.int8)
    at = block.ctypes.data if block.size else None
    return LIBRARY.pelmetsavory_read_listing(at, block.size, tp_type, counts, *output(weights, 8), *output(flags, 1)), (weights, flags)


def read_listing(text: bytes | bytearray | memoryview | str, tp_type: int, shape: ArrayLike) -> tuple[np.ndarray, np.ndarray]:
    """The weights (channel, triplet, point, b1, b2) and flags (triplet, point, b1, b2) of a listing, of a type, 2, 3 or 4, and of the shape (triplets,
    points, b1, b2), the one that the flags have: what `answer` and the program `weights` print, of any size.

    Every bit comes back; a NaN, which is printed in one way, comes back as a NaN. Any other text is refused by question 22: a capital digit, a
    space for a tab, a carriage return, a line or a byte more or less, a refusal. So read a file as bytes: `open(path, "rb").read()`, or map it. Bytes
    are read where they lie, and must not change meanwhile. Of a str, only ASCII can be a listing. No array is made for a text that is too short for
    its shape.

    >>> text = "triplet\\tpoint\\tb1\\tb2\\tflag\\tw\\n0\\t0\\t0\\t0\\t0\\t3fd8000000000000\\n0\\t1\\t0\\t0\\t1\\t0000000000000000\\n"
    >>> weights, flags = read_listing(text, 4, (1, 2, 1, 1))
    >>> weights.shape, weights.ravel().tolist(), flags.ravel().tolist()
    ((1, 1, 2, 1, 1), [0.375, 0.0], [0, 1])
    >>> read_listing(text.replace("8", "A"), 4, (1, 2, 1, 1))
    Traceback (most recent call last):
    pelmetsavory.Refused: question 22 is answered no: Are the listing's header, lines, field forms and order those of the writer?
    """
    counts = Counts(*(signed("shape", n) for n in members("shape", shape, 4, "triplets, points, b1, b2")))
    status, made = _read(text, signed("tp_type", tp_type), counts)
    checked(status)
    return made
