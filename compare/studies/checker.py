"""Whether the program `weights` accepts a text, and the number of its refusal, by the questions of document 01.

`number(text)` is 0 for an accepted text. Question 2 is about a lattice, 7 about a table that is not built in, and 12 to 20 about
buffers and sheets: a study has none of these.
"""
import os
import re
import sys

sys.path.insert(0, os.path.join(os.path.dirname(os.path.abspath(__file__)), ".."))

from records import real
from scope import CHANNELS, frequency_ok, grid_refusal, point_ok

WHOLE = rb"\t(?:0|-?[1-9][0-9]*)"
FLOAT = rb"\t[0-9a-f]{16}"
# The lines of a text in their order: tag, fields, and whether there is exactly one.
LINES = [(b"grid", 4 * WHOLE, True), (b"diag", rb"\t[0-3]", True), (b"type", WHOLE, True), (b"bands", 2 * WHOLE, True),
         (b"addr", 3 * WHOLE, False), (b"map", WHOLE, False), (b"f1", FLOAT, False), (b"f2", FLOAT, False), (b"point", FLOAT, False),
         (b"triplet", 3 * WHOLE, False)]
WELL_FORMED = re.compile(b"".join(b"(?:%s%s\n)%s" % (tag, fields, b"" if once else b"*") for tag, fields, once in LINES))
FLOATS = (b"f1", b"f2", b"point")


def parsed(text):
    """The fields of each tag as numbers, or None where the text is too long or not well formed."""
    if len(text) > 16384 or not WELL_FORMED.fullmatch(text):
        return None
    lists = {tag: [] for tag, _, _ in LINES}
    for line in text.splitlines():
        tag, *fields = line.split(b"\t")
        lists[tag] += [real(int(f, 16)) for f in fields] if tag in FLOATS else map(int, fields)
    whole = (x for tag, xs in lists.items() if tag not in FLOATS for x in xs)
    return lists if all(-2**63 <= x < 2**63 for x in whole) else None


def number(text):
    """The number of the first question that is answered no, or 0."""
    lists = parsed(text)
    if lists is None:
        return 1
    kind, *mesh = lists[b"grid"]
    (tp_type,), (b1, b2) = lists[b"type"], lists[b"bands"]
    addresses, points, triplets = lists[b"addr"], lists[b"point"], lists[b"triplet"]
    type_ok = tp_type in CHANNELS
    counts_ok = 1 <= b1 <= 64 and 1 <= b2 <= 64 and 1 <= len(points) <= 1024 and len(triplets) // 3 <= 65536
    if type_ok and counts_ok and CHANNELS[tp_type] * (len(triplets) // 3) * len(points) * b1 * b2 > 4096:
        return 1
    no = grid_refusal((kind, mesh, addresses, lists[b"map"]))
    if no:
        return no
    if not type_ok:
        return 8
    if not counts_ok:
        return 9
    p = len(addresses) // 3
    if not all(0 <= g < p for g in triplets):
        return 10
    frequencies = lists[b"f1"] + lists[b"f2"]
    lengths_ok = len(lists[b"f1"]) == p * b1 and len(lists[b"f2"]) == p * b2
    return 0 if lengths_ok and all(map(frequency_ok, frequencies)) and all(map(point_ok, points)) else 11
