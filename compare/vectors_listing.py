#!/usr/bin/env python3
"""Makes the stored cases of the crate `vectors_listing`: listings read back.

    vectors_listing.py CRATE_FOLDER [SEED]

Writes CRATE_FOLDER/stdin and CRATE_FOLDER/stdout. The Rust has no reader: answers and records are those of listing.py.

The input is a row of blocks as records.py has them. A record is a line of whole numbers parted by one tab: status, type, triplets, points,
first bands, second bands (the last five with any sign), length of the weights, length of the flags, and how many bytes the listing has. Then come the listing's bytes
as they are, which may be any, and a newline. Status 0 is an accepted call: there the weights follow, each as 16 hexadecimal digits of its bits,
and the flags, each a 0 or a 1, with a tab behind each of them but the last, which has a newline; with no weights and no flags nothing follows.
Else the status is the number of a refusal, and both buffers must stay as they were.

A buffer has at most ROOM numbers. No record has a weight -1.5e300 or a flag other than 0 and 1: these can stand in the buffers before a call.
A NaN that is restored can be any. The output is one line as crates/replay_report prints it, with the name NAME.
"""
import sys

import listing
import records
from listing import HEADER, NAN
from records import FAR, Rng
from scope import CHANNELS

NAME = "listings read"
# The program's buffers.
ROOM = 1200
# Zeros, the least numbers and the greatest, infinities, the NaN that is printed, and some more.
BITS = [0, 1 << 63, 1, 1 << 63 | 1, (1 << 52) - 1, 1 << 52, 0x7FEFFFFFFFFFFFFF, 0xFFEFFFFFFFFFFFFF, 0x7FF0 << 48, 0xFFF0 << 48, NAN,
        0x3FF0 << 48, 0xBFF0 << 48, 0x0123456789ABCDEF, 0xFEDCBA9876543210, 0x3FD5555555555555, 0x400E << 48]
# NaNs that are never printed.
NANS = [NAN + 1, NAN | 1 << 63, 0x7FF4 << 48, 0xFFF4 << 48, (0x7FF0 << 48) + 1, (0xFFF0 << 48) + 1, 2**63 - 1, 2**64 - 1]


class Call:
    """A call, sound unless told otherwise: of a record with the counts."""

    def __init__(self, rng, tp_type, counts, weights=None, flags=None):
        n = listing.size(counts)
        self.type, self.counts, self.lengths = tp_type, counts, (CHANNELS[tp_type] * n, n)
        weights = [pattern(rng) for _ in range(self.lengths[0])] if weights is None else weights
        flags = [rng.below(2) for _ in range(n)] if flags is None else flags
        self.text = listing.printed(counts, weights, flags)

    def but(self, **changes):
        """A copy with other attributes."""
        out = Call.__new__(Call)
        out.__dict__.update(self.__dict__, **changes)
        return out

    def answer(self):
        return listing.answer(self.text, self.type, self.counts, self.lengths)

    def record(self):
        status, content = self.answer()
        assert max(self.lengths) <= ROOM
        out = records.line(status, self.type, *self.counts, *self.lengths, len(self.text)).encode() + self.text + b"\n"
        weights, flags = content or ([], [])
        fields = ["%016x" % w for w in weights] + ["%d" % f for f in flags]
        return out + ("\t".join(fields) + "\n").encode() if fields else out


def pattern(rng):
    return rng.next() if rng.chance(0.4) else rng.pick(BITS)


# ---- accepted

def example():
    """Document 01's."""
    text = listing.printed((1, 2, 1, 1), [0, 0, 0, 0], [0, 1])
    spoken = b"triplet point b1 b2 flag w\n0 0 0 0 0 0000000000000000 0000000000000000\n0 1 0 0 1 0000000000000000 0000000000000000\n"
    assert text == spoken.replace(b" ", b"\t")
    return [Call(None, 2, (1, 2, 1, 1), [0, 0, 0, 0], [0, 1])]


def sound(rng):
    out = example()
    for tp_type in CHANNELS:
        shapes = [(0, 1, 1, 1), (0, 3, 2, 2), (1, 1, 1, 1), (2, 1, 1, 1), (1, 2, 1, 1), (1, 1, 2, 1), (1, 1, 1, 2), (2, 2, 2, 2), (3, 1, 2, 3)]
        out += [Call(rng, tp_type, counts) for counts in shapes]
        out.append(Call(rng, tp_type, (0, 1024, 64, 64)))
    # numbers of more than one digit
    out += [Call(rng, 4, counts) for counts in ((11, 1, 1, 1), (1, 11, 1, 1), (1, 1, 11, 1), (1, 1, 1, 11), (101, 1, 1, 1))]
    # the greatest counts
    out += [Call(rng, 4, (1, 1, 64, 1)), Call(rng, 2, (1, 1, 1, 64)), Call(rng, 4, (1, 1024, 1, 1))]
    # each special weight alone, in each channel
    out += [Call(None, 3, (1, 1, 1, 1), [b if c == k % 3 else 0x3FF0 << 48 for c in range(3)], [k % 2]) for k, b in enumerate(BITS)]
    # all flags of four entries
    return out + [Call(rng, 4, (1, 1, 2, 2), None, [k >> i & 1 for i in range(4)]) for k in (0, 5, 15)]


# ---- faults of the listing

def edited(call, number, place, field):
    """The call with another field at a place of a line; the header is line 0."""
    lines = call.text.split(b"\n")
    fields = lines[number].split(b"\t")
    fields[place] = field
    lines[number] = b"\t".join(fields)
    return call.but(text=b"\n".join(lines))


def field(call, number, place):
    return call.text.split(b"\n")[number].split(b"\t")[place]


def relined(call, change):
    """The call with other lines, each with its newline."""
    lines = call.text.splitlines(keepends=True)
    change(lines)
    return call.but(text=b"".join(lines))


def swapped(call, i, j):
    def change(lines):
        lines[i], lines[j] = lines[j], lines[i]
    return relined(call, change)


def exchanged(call, number, i, j):
    """Two fields of a line in each other's place."""
    a, b = field(call, number, i), field(call, number, j)
    return edited(edited(call, number, i, b), number, j, a)


def wrong_texts(rng):
    """Calls that 22 refuses, and nothing before it."""
    # the letters of the last weight, and of the first
    a = Call(None, 2, (2, 1, 2, 1), [0x3FD5555555555555, 0xABC << 52, 0, 1, 0xFEDCBA9876543210, NAN, 2, 0xBFFABCDEF0123456], [0, 1, 1, 0])
    last, rest = 4, a.text[:-1]
    out = [a.but(text=a.text.upper()), a.but(text=HEADER + a.text[len(HEADER):].upper())]
    out += [edited(a, n, k, field(a, n, k).upper()) for n, k in ((1, 5), (last, 6))]
    out += [edited(a, last, 6, b"bffabcdef012345" + c) for c in (b"A", b"G", b"g", b"x", b"\xb5", b"\0", b" ", b"-", b"")]
    # flags
    out += [edited(a, n, 4, f) for f in (b"2", b"-1", b"00", b"+0", b"01", b"-0", b"", b"a", b"256", b"\0") for n in (1, last)]
    # spaces for tabs, commas, two tabs, no tab
    out += [a.but(text=a.text.replace(b"\t", b" ")), a.but(text=HEADER + a.text[len(HEADER):].replace(b"\t", b" "))]
    k = a.text.rfind(b"\t")
    out += [a.but(text=a.text[:k] + blank + a.text[k + 1:]) for blank in (b" ", b",", b"\t\t", b"", b"\n", b" \t")]
    # carriage returns
    out += [a.but(text=a.text.replace(b"\n", b"\r\n")), a.but(text=a.text.replace(b"\n", b"\r")), a.but(text=rest + b"\r\n"), a.but(text=rest + b"\r")]
    # the end: the last newline, one byte more, another last byte
    out += [a.but(text=rest)] + [a.but(text=a.text + more) for more in (b"\n", b"\0", b" ", b"\t", b"0", b"\x1a")]
    out += [a.but(text=rest + b) for b in (b"\t", b" ", b"\0", b"\x0b", b"0")] + [a.but(text=a.text[:-2])]
    # a line more, a line less, lines exchanged, an empty line
    zeros = listing.line((2, 0, 0, 0), 0, [0, 0])
    out += [a.but(text=a.text + zeros), relined(a, lambda l: l.append(l[-1])), relined(a, lambda l: l.insert(1, l[1])), relined(a, lambda l: l.insert(2, b"\n"))]
    out += [relined(a, lambda l, k=k: l.pop(k)) for k in (0, 1, 2, last)] + [a.but(text=a.text + a.text)]
    out += [swapped(a, i, j) for i, j in ((1, 2), (3, 4), (1, 4), (0, 1))]
    # headers of other words
    words = HEADER.split(b"\t")
    out += [relined(a, lambda l, h=h: l.__setitem__(0, h + b"\n")) for h in (
        b" ".join(words), b"\t".join(words).title(), b"\t".join(words[:-1]), b"\t".join(words + [b"w"]), b"\t".join(words[:2] + [b"b2", b"b1"] + words[4:]),
        b"\t".join([b"triplets"] + words[1:]), b"\t".join(words) + b"\t", b"")]
    # a refusal, no text, hardly one
    out += [a.but(text=t) for t in (b"refused\t9\n", b"refused\t22\n", b"", b"\n", HEADER + b"\n", HEADER, b"\0")]
    # NaNs that are never printed
    out += [edited(a, 1 + k % 4, 5 + k % 2, b"%016x" % b) for k, b in enumerate(NANS)]
    # numbers in other forms, other numbers, other orders
    out += [edited(a, n, k, f) for n, k, f in (
        (1, 0, b"00"), (1, 1, b"+0"), (1, 2, b"-0"), (1, 3, b""), (3, 0, b"01"), (3, 0, b"+1"), (3, 0, b"1 "), (3, 0, b"1.0"), (2, 2, b"\x01"),
        (2, 2, b"257"), (2, 2, b"4294967297"), (2, 2, b"18446744073709551617"), (3, 0, b"2"), (1, 1, b"1"), (last, 3, b"1"), (last, 2, b"0"))]
    out += [exchanged(a, 2, 2, 3), exchanged(a, 3, 0, 1)]
    # digits and fields too few and too many, also in all as many as there should be
    out += [edited(a, 1, 5, f) for f in (b"3fd555555555555", b"03fd5555555555555", b"3fd55555555555550", b"0x3fd55555555555", b"")]
    out += [edited(edited(a, 2, 5, b"abc00000000000000"), 2, 6, b"000000000000000"), edited(a, 3, 6, b"\t".join(2 * [b"0" * 16])), edited(a, 3, 6, b"0" * 16 + b"\t")]
    # the listing of other counts and of other types
    whole = Call(rng, 3, (2, 3, 1, 2))
    out += [whole.but(counts=c) for c in ((3, 2, 1, 2), (2, 3, 2, 1), (1, 6, 1, 2), (12, 1, 1, 1))]
    for tp_type in CHANNELS:
        for other in CHANNELS:
            if other != tp_type:
                out.append(Call(rng, tp_type, (1, 1, 2, 1)).but(type=other, lengths=(2 * CHANNELS[other], 2)))
    none = Call(None, 2, (0, 2, 1, 2), [], [])
    out += [none.but(text=t) for t in (b"", HEADER, HEADER + b"\n\n", HEADER + b"\n" + listing.line((0, 0, 0, 0), 0, [0, 0]))]
    return out


def right_changes(rng):
    """A digit or a flag changed, and still a listing."""
    a = Call(None, 3, (1, 2, 1, 1), [0x3FD5555555555555, 0, 1, 2, 3, 4], [0, 1])
    out = [edited(a, 1, 5, b"3fd5555555555554"), edited(a, 2, 7, b"7ff0000000000000"), edited(a, 2, 7, b"7ff8000000000000")]
    return out + [edited(a, 2, 7, b"8000000000000000"), edited(a, 1, 4, b"1"), edited(a, 2, 4, b"0")]


# ---- faults of the other questions

def wrong_types(rng):
    a = Call(rng, 2, (1, 2, 1, 1))
    types = (0, 1, 5, -2, -4, 2**32 + 2, 2**8 + 3, *FAR)
    out = [a.but(type=t) for t in types]
    # with faults of the questions behind it
    bad = a.but(type=5)
    return out + [bad.but(counts=(1, 0, 1, 1)), bad.but(lengths=(3, 2)), bad.but(text=b""), bad.but(counts=(-1, 0, 65, 1), lengths=(0, 1), text=b"")]


def wrong_counts(rng):
    # all else is right: no triplets, or so few entries that they can be stored
    out = [Call(rng, 4, (0, 1, 1, 1)).but(counts=c) for c in ((0, 0, 1, 1), (0, 1025, 1, 1), (0, 1, 0, 1), (0, 1, 65, 1), (0, 1, 1, 0), (0, 1, 1, 65))]
    out += [Call(rng, 4, (1, 1, 65, 1)), Call(rng, 4, (1, 1, 1, 65))]
    a = Call(rng, 2, (1, 1, 1, 2))
    bad = [(-1, 1, 1, 2), (65537, 1, 1, 2), (1, -1, 1, 2), (1, 0, 1, 2), (1, 1025, 1, 2), (1, 1, -1, 2), (1, 1, 0, 2), (1, 1, 65, 2), (1, 1, 1, -2), (1, 1, 1, 66)]
    bad += [tuple(far if i == k else n for i, n in enumerate((1, 1, 1, 2))) for k in range(4) for far in (FAR[0], FAR[1], 2**32 + 1)]
    # products that are 0, the right one, or nothing in 64 bits
    bad += [(2**32, 2**32, 1, 2), (1, 2**32, 1, 2**32), (-1, -1, 1, 2), (1, 1, -1, -2), (1, -1, -1, 2), (2**62, 4, 1, 2), (2**63 - 1,) * 4, (-2**63,) * 4]
    out += [a.but(counts=c) for c in bad]
    return out + [a.but(counts=(1, 65 * 1024, 1, 2), lengths=(0, 0)), a.but(counts=(1, 1, 1, 0), lengths=(5, 5), text=b""), a.but(counts=(1, 1, 65, 2), text=b"")]


def wrong_lengths(rng):
    out = []
    for tp_type in CHANNELS:
        a = Call(rng, tp_type, (2, 1, 1, 2))
        w, f = a.lengths
        out += [a.but(lengths=l) for l in ((w - 1, f), (w + 1, f), (w, f - 1), (w, f + 1), (0, f), (w, 0), (w + f, f))]
    out += [a.but(lengths=l) for l in ((f - 1, f - 1), (f + 1, f + 1))]
    none = Call(rng, 3, (0, 1, 1, 1))
    out += [none.but(lengths=l) for l in ((1, 0), (0, 1), (3, 1))]
    # the greatest counts are no refusal by 9
    out += [a.but(counts=c) for c in ((65536, 1, 1, 1), (1, 1024, 1, 1), (1, 1, 64, 1), (1, 1, 1, 64), (65536, 1024, 64, 64))]
    b = Call(rng, 2, (2, 2, 1, 1))
    return out + [b.but(lengths=(4, 8)), b.but(lengths=(7, 4), text=b""), b.but(lengths=(8, 5), text=b.text.upper()), b.but(lengths=(8, 3), text=b.text[:-1])]


def cases(rng):
    """Groups of calls with the number that each is to answer."""
    return ((0, sound(rng)), (0, right_changes(rng)), (22, wrong_texts(rng)), (8, wrong_types(rng)), (9, wrong_counts(rng)), (12, wrong_lengths(rng)))


def make(folder, seed):
    groups = cases(Rng(seed))
    for number, calls in groups:
        for k, call in enumerate(calls):
            assert call.answer()[0] == number, (number, k, call.__dict__)
    made = [(number, call.record()) for number, calls in groups for call in calls]
    assert len({r for _, r in made}) == len(made), "a call is stored twice"
    expected = records.summary(NAME, [number for number, _ in made])
    stored = records.blocks([r] for _, r in made)
    records.write(folder, stored, expected.encode())
    print("seed", seed)
    print(expected, end="")
    print("%d bytes, the longest record %d" % (len(stored), max(len(r) for _, r in made)))


if __name__ == "__main__":
    if not 2 <= len(sys.argv) <= 3:
        sys.exit(__doc__)
    make(sys.argv[1], int(sys.argv[2]) if len(sys.argv) > 2 else records.SEED)
