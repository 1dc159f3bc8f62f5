"""The shared library: where it is, whether it is the one that this module was made for, and what it refuses."""
from __future__ import annotations

import ctypes
import os

from .entries import ENTRIES, INTERFACE_VERSION, QUESTIONS


class Refused(ValueError):
    """The first question that is answered no: its `number`, and the question in words. Nothing was written. Where 23, 24 or 25 refuses a table, `fault`
    says which row or face is wrong, and so does the message; otherwise it is None."""

    def __init__(self, number: int, fault: str | None = None) -> None:
        super().__init__(f"question {number} is answered no: {QUESTIONS.get(number)}" + (f" {fault}" if fault else ""))
        self.number = number
        self.fault = fault

    def __reduce__(self):
        return Refused, (self.number, self.fault)


Refused.__module__ = "pelmetsavory"  # where callers find it


def checked(status: int) -> None:
    """Raises what a status tells."""
    if status:
        raise Refused(status)


def float_mode_ok(one: float = 1.0, half: float = 2.0**-53, normal: float = 2.0**-1022, least: float = 5e-324) -> bool:
    """Whether this thread rounds to nearest and keeps subnormal floats, as the proofs take it."""
    nearest = one + half == one and -one - half == -one and one + 1.5 * half > one and -one - 1.5 * half < -one
    return bool(nearest and normal * 0.5 > 0 and least * one > 0)


def _path() -> str:
    """The file that PELMETSAVORY_SO names, or else the one in this package."""
    named = os.environ.get("PELMETSAVORY_SO")
    path = os.path.abspath(named or os.path.join(os.path.dirname(__file__), "libpelmetsavory.so"))
    if not os.path.exists(path):
        why = "PELMETSAVORY_SO names a file that is not there" if named else "the package has no shared library"
        raise ImportError(f"{why}: {path}. The command foreign/library makes it; see foreign/README.md.", name="pelmetsavory", path=path)
    return path


def _declare(library: ctypes.CDLL) -> None:
    """Gives the entries their types."""
    for name, (result, parameters) in ENTRIES.items():
        entry = getattr(library, name)
        entry.restype = result
        entry.argtypes = [kind if how == "value" else ctypes.c_void_p for _, how, kind, _ in parameters]


def _load() -> ctypes.CDLL:
    """The library, where it has the interface version of this module."""
    path = _path()
    try:
        library = ctypes.CDLL(path)
        library.pelmetsavory_interface_version.restype = ctypes.c_uint64
        version = library.pelmetsavory_interface_version()
        if version == INTERFACE_VERSION:
            _declare(library)
            return library
    except (OSError, AttributeError) as error:
        raise ImportError(f"{path} is not a library of Pelmetsavory, or an old one ({error}): the command foreign/library makes a new one.", name="pelmetsavory", path=path) from error
    raise ImportError(f"{path} has interface version {version}, and this module is made for version {INTERFACE_VERSION}: take both from one source "
                      "(the command foreign/library makes the library).", name="pelmetsavory", path=path)


if not float_mode_ok():
    raise ImportError("this thread's float mode is not IEEE 754's: rounding is not to nearest, or subnormals are flushed (was a library built with "
                      "-ffast-math loaded?)", name="pelmetsavory")
LIBRARY = _load()
