"""What a caller gives: checked, converted where nothing is lost, never reshaped; and how it crosses to the library."""
from __future__ import annotations

import ctypes
import operator
from typing import Any

import numpy as np
from numpy.typing import ArrayLike


def whole(name: str, given: Any) -> int:
    """A whole number that a signed number of 64 bits holds."""
    number = operator.index(given)
    if not -(2**63) <= number < 2**63:
        raise OverflowError(f"{name}: {number} is not a signed number of 64 bits")
    return number


def index(name: str, given: Any) -> int:
    """A whole number of Python or numpy; a bool is none."""
    try:
        if not isinstance(given, (bool, np.bool_)):
            return operator.index(given)
    except TypeError:
        pass
    raise TypeError(f"{name}: a whole number is wanted, not {given!r}")


def signed(name: str, given: Any) -> int:
    """A whole number of Python or numpy, no bool, that a signed number of 64 bits holds."""
    return whole(name, index(name, given))


def unsigned(name: str, given: Any, bits: int) -> int:
    """A whole number from 0 that so many bits hold."""
    number = index(name, given)
    if not 0 <= number < 2**bits:
        raise OverflowError(f"{name}: {number} is not an unsigned number of {bits} bits")
    return number


def members(name: str, given: ArrayLike, n: int, words: str) -> list[Any]:
    """The n members of a list or an array (n,), each as it was given; the words say what they are."""
    a = _array(name, given)
    if a.shape != (n,):
        raise ValueError(f"{name} has the shape {a.shape}; ({n},) is wanted, {words}")
    return list(given if isinstance(given, (list, tuple)) else a)  # an array of a list may have rounded its numbers


def counts(name: str, given: ArrayLike) -> np.ndarray:
    """A count for each of sixteen workers, whole numbers from 0 that 64 bits hold, as a new array."""
    return np.array([unsigned(name, n, 64) for n in members(name, given, 16, "a count for each worker")], np.uint64)


def real(name: str, given: Any) -> float:
    """A number that a float holds exactly."""
    number = float(given)
    if number != given and number == number:
        raise TypeError(f"{name}: {given!r} is not a float64")
    return number


def letter(function: str) -> int:
    """The byte that names the weight."""
    if function not in ("I", "J"):
        raise ValueError(f"function: 'I' or 'J' is wanted, not {function!r}")
    return ord(function)


def numbers(name: str, kind: type, given: ArrayLike, *shape: int | str) -> np.ndarray:
    """The values as an array of that kind and shape. A word in the shape stands for any count; `[]` has no rows, whatever the shape of a row."""
    a = _array(name, given)
    if a.shape == (0,) and isinstance(shape[0], str):
        return np.zeros([0 if isinstance(n, str) else n for n in shape], kind)
    if len(a.shape) != len(shape) or any(n != m for n, m in zip(a.shape, shape) if not isinstance(m, str)):
        wanted = ", ".join(map(str, shape)) + ("," if len(shape) == 1 else "")
        raise ValueError(f"{name} has the shape {a.shape}; ({wanted}) is wanted")
    return a if a.dtype == kind else _converted(name, kind, a)


def _array(name: str, given: ArrayLike) -> np.ndarray:
    if isinstance(given, np.ma.MaskedArray):
        raise TypeError(f"{name} is a masked array: fill it first")
    try:
        return np.asarray(given)
    except ValueError as error:  # rows of different lengths
        raise ValueError(f"{name} is no array: {error}") from None


def _converted(name: str, kind: type, a: np.ndarray) -> np.ndarray:
    if not np.can_cast(a.dtype, kind, "safe"):
        raise TypeError(f"{name} has the type {a.dtype}; {np.dtype(kind)} is wanted")
    b = a.astype(kind)
    if a.dtype.kind in "iu" and b.dtype.kind == "f" and not (b.astype(a.dtype) == a).all():
        raise TypeError(f"{name} has a whole number that no float64 holds")
    return b


class Owned:
    """An array attribute that its object alone holds: what is assigned is checked and copied. A count in the shape may depend on the object."""

    def __init__(self, doc: str, kind: type, *shape: Any) -> None:
        self.__doc__, self.kind, self.shape = doc, kind, shape

    def __set_name__(self, owner: type, name: str) -> None:
        self.name = name

    def __get__(self, owner: Any, kind: Any = None) -> np.ndarray:
        return self if owner is None else owner.__dict__[self.name]

    def __set__(self, owner: Any, given: ArrayLike) -> None:
        shape = [n(owner) if callable(n) else n for n in self.shape]
        owner.__dict__[self.name] = np.array(numbers(self.name, self.kind, given, *shape), self.kind, order="C")


def inputs(*arrays: np.ndarray) -> list[Any]:
    """Each array as a call reads it: its bytes, and the count of its numbers of 8 bytes. The bytes are a copy in one block, which nothing can
    change or free while the call runs; a bytes object begins at a multiple of 8."""
    return [x for a in arrays for x in (a.tobytes(), a.nbytes // 8)]


def output(a: np.ndarray, size: int) -> list[Any]:
    """An array as a call writes it: where it lies now, and the count of its elements of `size` bytes. Read-only or scattered memory is refused."""
    return [ctypes.byref(ctypes.c_char.from_buffer(a)) if a.nbytes else None, a.nbytes // size]
