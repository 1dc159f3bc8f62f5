"""Listings read back by the library, held to listing.py: those that the program prints, and damaged ones."""
import ctypes
import os
import sys

here = os.path.dirname(os.path.abspath(__file__))
sys.path[1:1] = [os.path.join(here, ".."), os.path.join(here, "../../foreign/python/pelmetsavory")]

import checker
import damage
import entries
import listing
from records import FAR
from scope import CHANNELS

# What the call can answer.
NUMBERS = (0, 8, 9, 12, 22)
# What the buffers hold before a call, and what stands around them: a NaN with a payload, and no flag.
WEIGHT, FLAG = 0xFFF4DEADBEEF0001, 7
# Counts that question 9 turns down, by their places.
BAD = [(0, -1), (0, 65537), (1, 0), (1, 1025), (2, 0), (2, 65), (3, 0), (3, 65), *((k, far) for k in range(4) for far in FAR)]


class Lent:
    """A buffer with one number more on each side."""

    def __init__(self, kind, content, length):
        self.content, self.length = content, length
        self.numbers = (kind * (length + 2))(*[content] * (length + 2))
        self.given = ctypes.byref(self.numbers, ctypes.sizeof(kind)), length

    def holds(self, want):
        return list(self.numbers) == [self.content, *want, self.content]

    def untouched(self):
        return self.holds([self.content] * self.length)


class Reader:
    """The library's call."""

    def __init__(self, path):
        self.library = ctypes.CDLL(path)
        self.read = self.library.pelmetsavory_read_listing
        self.read.restype, params = entries.ENTRIES["pelmetsavory_read_listing"]
        self.read.argtypes = [kind if how == "value" else ctypes.c_void_p for _, how, kind, _ in params]

    def agrees(self, call, number, record):
        """Whether the call gives this answer and, where it is 0, this record; the buffers of a refused one stay."""
        text, tp_type, counts, lengths = call
        weights, flags = Lent(ctypes.c_uint64, WEIGHT, lengths[0]), Lent(ctypes.c_int8, FLAG, lengths[1])
        told = self.read(text, len(text), tp_type, entries.Counts(*counts), *weights.given, *flags.given)
        if number:
            return told == number and weights.untouched() and flags.untouched()
        return told == 0 and weights.holds(as_came(record[0], list(weights.numbers)[1:-1])) and flags.holds(record[1])


def as_came(weights, came):
    """The weights that are right, a NaN among them as it came back: a quiet one without payload, of either sign."""
    return [c if w == listing.NAN == c % 2**63 else w for w, c in zip(weights, came)]


def call_of(study, text):
    """The call that reads a study's listing: the text, the type, the counts, the lengths of both buffers."""
    lists = checker.parsed(study)
    counts = len(lists[b"triplet"]) // 3, len(lists[b"point"]), *lists[b"bands"]
    (tp_type,), each = lists[b"type"], listing.size(counts)
    return text, tp_type, counts, (CHANNELS[tp_type] * each, each)


def spoiled(r, call):
    """The call with a fault of another question than 22, or with two counts exchanged."""
    text, tp_type, counts, (w, f) = call
    fault, counts = r.below(4), list(counts)
    if fault == 0:
        tp_type = r.pick([1, 5, 0, -2, 2**32 + 2, *FAR])
    elif fault == 1:
        k, n = r.pick(BAD)
        counts[k] = n
    elif fault == 2:
        w, f = r.pick([(w + 1, f), (abs(w - 1), f), (w, f + 1), (w, abs(f - 1)), (f, w), (w + f, f)])
    else:
        i, j = r.below(4), r.below(4)
        counts[i], counts[j] = counts[j], counts[i]
    return text, tp_type, tuple(counts), (w, f)


def damaged(r, call):
    """The call with a damaged text; one in four has other faults too."""
    out = damage.damaged(r, call[0])[1], *call[1:]
    for _ in range(r.pick([0, 0, 0, 0, 0, 0, 1, 2])):
        out = spoiled(r, out)
    return out
