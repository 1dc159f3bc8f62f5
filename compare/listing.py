"""Listings in Python: the writer by the words of document 01, the reader by those of request 5, and what the reader's call asks.

Weights are bit patterns, one channel after the other, each by triplet, point, first band, second band; counts are (triplets, points, first
bands, second bands). A text that has the writer's form is one regular expression; then its numbers must be all places in their order.
"""
import itertools
import re

from scope import CHANNELS

HEADER = b"triplet\tpoint\tb1\tb2\tflag\tw"
NUMBER, FLAG, WEIGHT = rb"0|[1-9][0-9]*", rb"[01]", rb"[0-9a-f]{16}"
# The NaN that is printed for each; the pattern behind which they begin, but for the sign.
NAN, INFINITY = 0x7FF8 << 48, 0x7FF0 << 48
# Question 9: the least and the greatest of each count.
LIMITS = ((0, 65536), (1, 1024), (1, 64), (1, 64))


def places(counts):
    """Those of the entries, in the order of the flags."""
    return itertools.product(*map(range, counts))


def size(counts):
    t, p, b1, b2 = counts
    return t * p * b1 * b2


def is_nan(bits):
    return bits % 2**63 > INFINITY


# ---- the writer

def line(place, flag, weights):
    """One entry: triplet, point, bands, flag, then its weights by their channels."""
    fields = ["%d" % n for n in (*place, flag)] + ["%016x" % (NAN if is_nan(w) else w) for w in weights]
    return "\t".join(fields).encode() + b"\n"


def printed(counts, weights, flags):
    lines = (line(place, flags[k], weights[k::size(counts)]) for k, place in enumerate(places(counts)))
    return HEADER + b"\n" + b"".join(lines)


# ---- the reader

def form(channels, group):
    """That of an entry's line, each field in a group."""
    return rb"\t".join(group % f for f in [NUMBER] * 4 + [FLAG] + [WEIGHT] * channels) + rb"\n"


def read(text, tp_type, counts):
    """Weights and flags, or None where header, lines, field forms or order are not those of the writer."""
    channels, (header, newline, body) = CHANNELS[tp_type], text.partition(b"\n")
    if header != HEADER or not newline or not re.fullmatch(b"(?:%s)*" % form(channels, b"(?:%s)"), body):
        return None
    lines = re.findall(form(channels, b"(%s)"), body)
    numbers = (tuple(map(int, fields[:4])) for fields in lines)
    if len(lines) != size(counts) or any(a != b for a, b in zip(numbers, places(counts))):
        return None
    weights = [int(fields[5 + c], 16) for c in range(channels) for fields in lines]
    if any(is_nan(w) and w != NAN for w in weights):
        return None
    return weights, [int(fields[4]) for fields in lines]


# ---- the call's questions

def answer(text, tp_type, counts, lengths):
    """The number of the first question that is answered no, and None; or 0 and the record. Lengths: of weights and of flags."""
    if tp_type not in CHANNELS:
        return 8, None
    if not all(least <= n <= most for n, (least, most) in zip(counts, LIMITS)):
        return 9, None
    if lengths != (CHANNELS[tp_type] * size(counts), size(counts)):
        return 12, None
    record = read(text, tp_type, counts)
    if record is None:
        return 22, None
    assert printed(counts, *record) == text
    return 0, record
