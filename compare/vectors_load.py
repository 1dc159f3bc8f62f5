#!/usr/bin/env python3
"""Makes the stored cases of the crate `vectors_load`: test frequencies.

    vectors_load.py CRATE_FOLDER [SEED]

Writes CRATE_FOLDER/stdin and CRATE_FOLDER/stdout; the program's source says what a record is. The Rust has no such call: the values are
those of request 1's words, as written below. Nothing is asked of the call, so none is refused.

Each of some starts is paired with every length from 0 to 2 of each buffer; some have more values, one more than 1,000 in all.
"""
import itertools
import sys

import records
from records import Rng, line

# The program's buffers.
ROOM = 1200
FACTOR, TERM, MODULUS = 1664525, 1013904223, 2**32


# ---- request 1: the definition

def following(number):
    return (FACTOR * number + TERM) % MODULUS


def frequency(number):
    upper = number // 2**16
    return upper / 4096


def chain(start):
    """The frequencies from a start, without end."""
    number = start
    while True:
        number = following(number)
        yield frequency(number)


# ---- cases

def before(number):
    """The start whose first number is this one."""
    start = (number - TERM) * pow(FACTOR, -1, MODULUS) % MODULUS
    assert following(start) == number
    return start


def starts():
    """The ends and the middle of 32 bits; the starts of the least and the greatest frequencies, 0 and 65535 / 4096."""
    ends = [0, 1, 2**16 - 1, 2**16, 2**31 - 1, 2**31, 2**32 - 2, 2**32 - 1]
    return ends + [before(n) for n in (0, 2**16 - 1, 2**16, 2**32 - 2**16 - 1, 2**32 - 2**16, 2**32 - 1)]


def calls(rng):
    """A start and three lengths each."""
    out = [(start, lengths) for start in starts() for lengths in itertools.product(range(3), repeat=3)]
    for _ in range(60):
        out.append((rng.below(MODULUS), [rng.pick([0, 1, 2, 3, 5, 8, 13]) for _ in range(3)]))
    out.append((0, [600, 500, 10]))
    out.append((2**32 - 1, [ROOM, 0, 1]))
    out.append((rng.below(MODULUS), [0, 0, 300]))
    return out


def record(start, lengths):
    assert all(n <= ROOM for n in lengths)
    return line(start, *lengths, *itertools.islice(chain(start), sum(lengths)))


def make(folder, seed):
    # document 02: the first number and the first frequency from 0
    assert following(0) == 1013904223 and next(chain(0)) == 3.77685546875
    cases = calls(Rng(seed))
    expected = records.summary("test frequencies", [0] * len(cases))
    records.write(folder, records.blocks([record(*c)] for c in cases), expected.encode())
    values = [sum(lengths) for _, lengths in cases]
    print("seed", seed)
    print(expected, end="")
    print("values %d, at most %d in a case, none in %d cases" % (sum(values), max(values), values.count(0)))


if __name__ == "__main__":
    if not 2 <= len(sys.argv) <= 3:
        sys.exit(__doc__)
    make(sys.argv[1], int(sys.argv[2]) if len(sys.argv) > 2 else records.SEED)
