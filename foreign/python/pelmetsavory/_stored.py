"""The stored sheet, format 2: the table in foreign/README.md."""
from __future__ import annotations

import hashlib
import struct
from typing import NamedTuple

import numpy as np

START, HEAD, SUM = struct.Struct("<8sQ"), struct.Struct("<8sQ32s5Q16Q16Q"), 32
MAGIC, VERSION = b"PELSHEET", 2


class Stored(NamedTuple):
    """What a stored sheet holds."""

    fingerprint: bytes
    shape: tuple[int, ...]
    began: list[int]
    tally: list[int]
    weights: np.ndarray
    flags: np.ndarray
    marks: np.ndarray


def packed(s: Stored) -> bytes:
    """A sheet's bytes."""
    head = HEAD.pack(MAGIC, VERSION, s.fingerprint, *s.shape, *s.began, *s.tally)
    parts, sha = [head, s.weights.tobytes(), s.flags.tobytes(), s.marks.tobytes()], hashlib.sha256()
    for part in parts:
        sha.update(part)
    return b"".join([*parts, sha.digest()])


def unpacked(data: bytes, fingerprint: bytes, shape: tuple[int, ...]) -> Stored:
    """What the bytes of a sheet hold, where they are whole and of that study and shape; otherwise a ValueError says what they are."""
    if len(data) < START.size or data[:8] != MAGIC:
        raise ValueError("this is not a stored sheet")
    _, version = START.unpack_from(data)
    if version != VERSION:  # another format has another head
        raise ValueError(f"this sheet is stored in format {version}; format {VERSION} is read")
    if len(data) < HEAD.size + SUM:
        raise ValueError("this stored sheet was cut short")
    _, _, of, *numbers = HEAD.unpack_from(data)
    stored_shape, began, tally = numbers[:5], numbers[5:21], numbers[21:]
    channels, triplets, points, b1, b2 = stored_shape
    pieces = triplets * b1 * b2
    cells = pieces * points
    if len(data) != HEAD.size + 8 * channels * cells + cells + pieces + SUM:
        raise ValueError("this stored sheet was cut short, or is too long")
    if data[-SUM:] != hashlib.sha256(memoryview(data)[:-SUM]).digest():
        raise ValueError("this stored sheet is damaged: its checksum is not right")
    if of != fingerprint:
        raise ValueError("this sheet is of another study")
    if tuple(stored_shape) != shape:
        raise ValueError(f"this sheet has the shape {tuple(stored_shape)}; {shape} is wanted")
    weights = np.frombuffer(data, np.float64, channels * cells, HEAD.size)
    flags = np.frombuffer(data, np.int8, cells, HEAD.size + weights.nbytes)
    marks = np.frombuffer(data, np.uint8, pieces, HEAD.size + weights.nbytes + cells)
    return Stored(of, shape, began, tally, weights.reshape(shape).copy(), flags.reshape(shape[1:]).copy(), marks.reshape(triplets, b1, b2).copy())
