"""The run sheet of a study."""
from __future__ import annotations

import copy
import ctypes
import os
from typing import Any, Iterable

import numpy as np
from numpy.typing import ArrayLike

from ._arrays import counts, inputs, numbers, output, signed, whole
from ._library import LIBRARY, Refused, checked
from ._stored import Stored, packed, unpacked
from ._study import Study, arguments, fingerprint
from .entries import Counts, Piece

OPEN, COMPUTED, AVERAGED = 0, 1, 2


class Written:
    """An array attribute that calls write in place: kept as it is given, so it must be fit for that."""

    def __init__(self, doc: str, kind: type) -> None:
        self.__doc__, self.kind = doc, kind

    def __set_name__(self, owner: type, name: str) -> None:
        self.name = name

    def __get__(self, sheet: Any, kind: Any = None) -> np.ndarray:
        return self if sheet is None else sheet.__dict__[self.name]

    def __set__(self, sheet: Sheet, a: np.ndarray) -> None:
        shape = getattr(sheet.study.shapes(), self.name)
        if not isinstance(a, np.ndarray) or a.dtype != self.kind or not a.flags.carray:
            raise TypeError(f"{self.name}: a writable, aligned, C-contiguous array of {np.dtype(self.kind)} is wanted")
        if a.shape != shape:
            raise ValueError(f"{self.name} has the shape {a.shape}; {shape} is wanted")
        for name in ("weights", "flags", "marks"):
            if name != self.name and name in sheet.__dict__ and np.may_share_memory(a, sheet.__dict__[name]):
                raise ValueError(f"{self.name} overlaps {name}")
        sheet.__dict__[self.name] = a


def _run_row(ids: list[int], worker: int, triplet: int, b1: int, b2: int) -> tuple[int, ...]:
    return 0, signed("worker", worker), whole("triplet", triplet), whole("b1", b1), whole("b2", b2), 0


def _carry_on_row(ids: list[int], worker: int) -> tuple[int, ...]:
    return 1, signed("worker", worker), 0, 0, 0, 0


def _average_row(ids: list[int], triplet: int, ids1: ArrayLike, ids2: ArrayLike) -> tuple[int, ...]:
    start = len(ids)
    ids.extend(numbers("ids1", np.int64, ids1, "bands").tolist())
    middle = len(ids)
    ids.extend(numbers("ids2", np.int64, ids2, "bands").tolist())
    return 2, whole("triplet", triplet), start, middle, middle, len(ids)


# of each call the six numbers by which a list names it; its id lists go behind `ids`
_ROWS = {"run_piece": _run_row, "carry_on": _carry_on_row, "average_triplet": _average_row}


class Sheet:
    """Weights, flags, marks and tally of a study: new ones with every piece open, or the caller's arrays, which are then written in place.

    A piece is a triplet and a pair of bands; its mark is 0 open, 1 computed, 2 averaged. The tally has sixteen counts of accepted runs, repeats
    included: a run and a carry-on name their worker, 0 to 15, and move that count alone (any other number is refused by question 21). It begins
    with zeros, or with the sixteen whole numbers that are given. A call that is refused raises Refused and changes nothing. The study may change
    while every piece is open; after that a call raises a ValueError. A copy has arrays and a tally of its own (`copy.copy`: over the same study)."""

    weights = Written("The weights (channel, triplet, point, b1, b2).", np.float64)
    flags = Written("The flags (triplet, point, b1, b2): 1 where every channel is closed.", np.int8)
    marks = Written("The marks (triplet, b1, b2): 0 open, 1 computed, 2 averaged.", np.uint8)

    def __init__(self, study: Study, weights: np.ndarray | None = None, flags: np.ndarray | None = None, marks: np.ndarray | None = None, tally: ArrayLike | None = None) -> None:
        shapes, self._study = study.shapes(), study
        self.weights = np.zeros(shapes.weights, np.float64) if weights is None else weights
        self.flags = np.zeros(shapes.flags, np.int8) if flags is None else flags
        self.marks = np.zeros(shapes.marks, np.uint8) if marks is None else marks
        self._tally = np.zeros(16, np.uint64) if tally is None else counts("tally", tally)
        self._began = self._tally.copy()
        self._made_of = study._records()

    @property
    def study(self) -> Study:
        """The study, not copied."""
        return self._study

    @property
    def tally(self) -> np.ndarray:
        """How many runs of each worker (16,) were accepted, repeats included: a copy. `tolist()` of it has whole numbers of Python."""
        return self._tally.copy()

    @property
    def began(self) -> np.ndarray:
        """The tally (16,) that the sheet began with, a copy: `take` counts what grew since. A worker that goes on from a copy of a sheet sets
        `own.began = own.tally`."""
        return self._began.copy()

    @began.setter
    def began(self, given: ArrayLike) -> None:
        self._began = counts("began", given)

    def run_piece(self, worker: int, triplet: int, b1: int, b2: int) -> None:
        """Writes a piece's weights and flags at every point, marks it computed, and counts it for the worker, 0 to 15."""
        worker, piece = signed("worker", worker), Piece(whole("triplet", triplet), whole("b1", b1), whole("b2", b2))
        checked(LIBRARY.pelmetsavory_run_piece(*self._arguments(), worker, piece))

    def carry_on(self, worker: int) -> None:
        """Runs every open piece, and counts them for the worker, 0 to 15."""
        worker = signed("worker", worker)
        checked(LIBRARY.pelmetsavory_carry_on(*self._arguments(), worker))

    def average_triplet(self, triplet: int, ids1: ArrayLike, ids2: ArrayLike) -> None:
        """Averages the weights and flags of a triplet, all of whose pieces are computed, over degenerate bands. An id list (bands,) gives of each
        band its own place, or the id of the band before it where the two are degenerate. It is no run: it names no worker, and no count moves."""
        a, b = numbers("ids1", np.int64, ids1, "bands"), numbers("ids2", np.int64, ids2, "bands")
        checked(LIBRARY.pelmetsavory_average_triplet(*self._arguments(), whole("triplet", triplet), *inputs(a, b)))

    def play(self, calls: Iterable[tuple]) -> tuple[np.ndarray, np.ndarray]:
        """Makes a list of n calls: the status (n,) of each, 0 or the number of its question, and the counts (n, 16) after it.

        A call is ("run_piece", worker, triplet, b1, b2), ("carry_on", worker) or ("average_triplet", triplet, ids1, ids2); one that is refused
        changes nothing, and the next is made. What all of them ask is asked once, so a list costs what its calls compute. The list itself asks 12,
        has it of each call six numbers, one answer and sixteen counts (here always yes)."""
        ids: list[int] = []
        rows = [_ROWS[name](ids, *given) for name, *given in calls]
        return self.play_list(rows, ids)

    def run_pieces(self, worker: int, pieces: ArrayLike) -> tuple[np.ndarray, np.ndarray]:
        """Runs the pieces (n, 3), each a triplet, b1 and b2, all for one worker, in one call: the status of each and the counts after it, as `play`."""
        worker, p = signed("worker", worker), numbers("pieces", np.int64, pieces, "n", 3)
        rows = np.zeros((len(p), 6), np.int64)
        rows[:, 1], rows[:, 2:5] = worker, p
        return self.play_list(rows, [])

    def play_list(self, rows: ArrayLike, ids: ArrayLike) -> tuple[np.ndarray, np.ndarray]:
        """The same by numbers (n, 6): 0, worker, triplet, b1, b2 runs a piece; 1, worker carries on; any other kind averages a triplet, with the
        start and the end in `ids` of the first id list and of the second."""
        r, i = numbers("rows", np.int64, rows, "n", 6), numbers("ids", np.int64, ids, "n")
        answers, tallies = np.zeros(len(r), np.uint64), np.zeros((len(r), 16), np.uint64)
        checked(LIBRARY.pelmetsavory_play(*self._arguments(), *inputs(r, i), *output(answers, 8), *output(tallies, 8)))
        return answers, tallies

    def open_count(self, triplet: int) -> int:
        """How many entries (point, b1, b2) of a triplet carry scattering: those with a weight other than zero in some output. Either zero is zero,
        a NaN is not. Marks and flags are not asked: a piece that is still open counts by what it holds, zeros in a new sheet."""
        self._check_shapes()
        return open_count(self.study.tp_type, self.weights, triplet)

    def open_counts(self) -> np.ndarray:
        """The open count of each triplet (triplets,): the phase space of the sheet, triplet by triplet."""
        self._check_shapes()
        return open_counts(self.study.tp_type, self.weights)

    def take(self, other: Sheet) -> None:
        """Takes over the pieces that a worker's sheet has computed and this one has open; each of the sixteen counts grows by what that count has
        grown in the worker's sheet since it began.

        A sheet of another study or shape, marks that are not sound, a triplet that is averaged there and not here, a count below the one that the
        worker's sheet began with, and one that would not stay below 2^63 are refused before anything is changed. Only counts that grow are asked:
        one that is full and idle, in either sheet, keeps nobody from taking over. The worker's sheet then counts as taken: taking it again adds
        nothing."""
        tally, marks, counter, theirs = self._tally_with(other), self.marks, self._tally, other.tally
        new = (other.marks == COMPUTED) & (marks == OPEN)
        at_each_point = new[:, np.newaxis]
        np.copyto(self.weights, other.weights, where=at_each_point)
        np.copyto(self.flags, other.flags, where=at_each_point)
        # stores alone, which no interrupt parts
        marks[new] = COMPUTED
        counter[...] = tally
        other._began = theirs

    def _tally_with(self, other: Sheet) -> np.ndarray:
        """The tally after taking another sheet, where it can be taken."""
        if not isinstance(other, Sheet) or other is self:
            raise TypeError("another sheet is wanted")
        if self._records() != other._records():
            raise ValueError("the other sheet is of another study")
        for sheet in (self, other):
            sheet._check_shapes()
            _check_marks(sheet.marks)
        if not all(a.flags.writeable for a in (self.weights, self.flags, self.marks)):
            raise ValueError("this sheet has an array that is read-only")
        if (other.marks[self.marks != AVERAGED] == AVERAGED).any():
            raise ValueError("a triplet is averaged in the other sheet and not in this one")
        grown = [now - then for now, then in zip(other.tally.tolist(), other.began.tolist())]
        for worker, runs in enumerate(grown):
            if runs < 0:
                raise ValueError(f"the other sheet is damaged: its count of worker {worker} is below the one it began with")
        tally = self.tally
        for worker, runs in enumerate(grown):
            if runs:
                checked(LIBRARY.pelmetsavory_tally_add(output(tally, 8)[0], worker, runs))
        return tally

    def to_bytes(self) -> bytes:
        """The sheet as it is stored."""
        records = self._records()
        self._check_shapes()
        return packed(Stored(fingerprint(records), self.weights.shape, self.began.tolist(), self.tally.tolist(), self.weights, self.flags, self.marks))

    @classmethod
    def from_bytes(cls, study: Study, data: bytes) -> Sheet:
        """A stored sheet of the study. A ValueError says what is wrong with any other bytes; unsound marks are refused by question 13."""
        stored = unpacked(bytes(data), study.fingerprint(), study.shapes().weights)
        _check_marks(stored.marks)
        sheet = cls(study, stored.weights, stored.flags, stored.marks, stored.tally)
        sheet.began = stored.began
        return sheet

    def save(self, path: str | os.PathLike) -> None:
        """Stores the sheet so that a reader finds the old one or the new one whole."""
        data, path = self.to_bytes(), os.fsdecode(path)
        draft = f"{path}.{os.getpid()}"
        with open(draft, "wb") as f:
            f.write(data)
        os.replace(draft, path)

    @classmethod
    def load(cls, study: Study, path: str | os.PathLike) -> Sheet:
        """Reads a stored sheet of the study: see `from_bytes`."""
        with open(path, "rb") as f:
            return cls.from_bytes(study, f.read())

    def __copy__(self) -> Sheet:
        return copy.deepcopy(self, {id(self.study): self.study})

    def _records(self) -> list[bytes]:
        """The study as it is now, which must be the one that the pieces of this sheet were computed from."""
        records = self.study._records()
        if records != self._made_of:
            if self.marks.any():
                raise ValueError("the study was changed after pieces of this sheet were computed: make a new sheet")
            self._made_of = records
        return records

    def _check_shapes(self) -> None:
        shapes = self.study.shapes()
        for name in ("weights", "flags", "marks"):
            if getattr(self, name).shape != getattr(shapes, name):
                raise ValueError(f"{name} has the shape {getattr(self, name).shape}; the study now wants {getattr(shapes, name)}")

    def _arguments(self) -> list[Any]:
        """Study and sheet as a call takes them."""
        return arguments(self._records()) + output(self.weights, 8) + output(self.flags, 1) + output(self.marks, 1) + output(self._tally, 8)[:1]


def _check_marks(marks: np.ndarray) -> None:
    """Question 13: are marks 0, 1, 2, and a triplet's all 2 or none 2?"""
    averaged, pairs = (marks == AVERAGED).sum((1, 2)), marks.shape[1] * marks.shape[2]
    if (marks > AVERAGED).any() or ((averaged != 0) & (averaged != pairs)).any():
        raise Refused(13)


def _read_in_place(weights: ArrayLike) -> np.ndarray:
    """The weights as a call reads them where they lie: nothing is copied that is one block of aligned floats already."""
    w = numbers("weights", np.float64, weights, "channels", "triplets", "points", "b1", "b2")
    return np.require(w, requirements=["C_CONTIGUOUS", "ALIGNED"])


def _open_count(tp_type: int, w: np.ndarray, triplet: int) -> tuple[int, int]:
    """The status and the open count of a triplet."""
    count = ctypes.c_uint64()
    status = LIBRARY.pelmetsavory_open_count(tp_type, Counts(*w.shape[1:]), w.ctypes.data if w.size else None, w.size, triplet, ctypes.byref(count))
    return status, count.value


def open_count(tp_type: int, weights: ArrayLike, triplet: int) -> int:
    """How many entries (point, b1, b2) of a triplet have a weight other than zero in some channel, of weights (channel, triplet, point, b1, b2) of
    a type, 2, 3 or 4. Either zero is zero, a NaN is not. The weights of the triplet are read where they lie, once.

    >>> open_count(2, [[[[[0.0, -0.0]], [[0.25, 0.5]]]], [[[[0.0, 0.0]], [[-1.0, 0.0]]]]], 0)  # both channels at point 0, then at point 1
    2
    """
    tp, w, t = signed("tp_type", tp_type), _read_in_place(weights), signed("triplet", triplet)
    status, count = _open_count(tp, w, t)
    checked(status)
    return count


def open_counts(tp_type: int, weights: ArrayLike) -> np.ndarray:
    """The open count of each triplet (triplets,), of the same weights: what a phase-space plot wants.

    >>> open_counts(4, [[[[[0.0, 1.0]], [[0.5, 0.25]]], [[[0.0, -0.0]], [[0.0, 0.125]]]]]).tolist()
    [3, 1]
    """
    tp, w = signed("tp_type", tp_type), _read_in_place(weights)
    found = np.zeros(w.shape[1], np.uint64)
    for t in range(len(found)):
        status, found[t] = _open_count(tp, w, t)
        checked(status)
    if not len(found):  # the type and the counts are asked all the same; of 14 there is nothing to ask
        status, _ = _open_count(tp, w, 0)
        checked(0 if status == 14 else status)
    return found
