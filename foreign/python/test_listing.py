"""Listings read back: what the writer printed comes back with every bit, and what it would not print is refused."""
import array
import ctypes
import itertools
import mmap
import os
import random
import re
import tempfile
import threading
import tracemalloc

import numpy as np

import pelmetsavory as pm
from pelmetsavory._library import LIBRARY
from pelmetsavory.entries import Counts
from small import other, raises, refused, run, study

DATA = os.environ.get("PELMETSAVORY_DATA") or os.path.join(os.path.dirname(os.path.abspath(__file__)), "../data")
HEADER, CHANNELS, NAN = b"triplet\tpoint\tb1\tb2\tflag\tw\n", {2: 2, 3: 3, 4: 1}, 0x7FF8 << 48
SPECIAL = 0, 1 << 63, 1, (1 << 63) + 1, (1 << 52) - 1, 1 << 52, 0x7FEF << 48, 0x7FF0 << 48, 0xFFF0 << 48, 0x3FF0 << 48, NAN, 0x0123456789ABCDEF, 0xFEDCBA9876543210
NEVER = NAN + 1, 0xFFF8 << 48, (0x7FF0 << 48) + 1, (0xFFF0 << 48) + 1, 0x7FF4 << 48, (1 << 63) - 1, (1 << 64) - 1  # NaNs that no writer prints


def stored(name):
    with open(os.path.join(DATA, name), "rb") as f:
        return f.read()


LISTING, SHAPE = stored("listing.txt"), (3, 5, 3, 3)  # of the small study, type 3
LINES = LISTING.splitlines(True)


def printed(weights, flags):
    """What the writer prints, without a limit of size."""
    words = np.where(np.isnan(weights), np.uint64(NAN), weights.view(np.uint64)).reshape(len(weights), flags.size).T.tolist()
    rows = zip(itertools.product(*map(range, flags.shape)), (flags != 0).ravel().tolist(), words)
    return HEADER + b"".join(("%d\t%d\t%d\t%d\t%d" % (*at, flag) + "".join("\t%016x" % x for x in bits) + "\n").encode() for at, flag, bits in rows)


def could_be_printed(text, tp_type, shape):
    """Whether some record of the type and shape has this listing: asked by a pattern."""
    line = b"%d\t%d\t%d\t%d\t[01]" + b"\t[0-9a-f]{16}" * CHANNELS[tp_type] + b"\n"
    whole = re.escape(HEADER) + b"".join(line % at for at in itertools.product(*map(range, shape)))
    nans = (int(x, 16) for x in re.findall(rb"(?<=\t)[7f]ff[0-9a-f]{13}\b", text))
    return bool(re.fullmatch(whole, text)) and all(x in (NAN, 0x7FF0 << 48, 0xFFF0 << 48) for x in nans)


def made(shape, tp_type, seed=1, values=SPECIAL):
    """Weights of any bits, and flags 0 and 1."""
    draw = np.random.default_rng(seed)
    return draw.choice(np.array(values, np.uint64), (CHANNELS[tp_type], *shape)).view(np.float64), draw.integers(0, 2, shape).astype(np.int8)


def same(read, wanted):
    """Two records, in every bit, as new arrays of the one kind."""
    assert all(a.flags.carray and a.flags.owndata and a.dtype == k for a, k in zip(read, (np.float64, np.int8)))
    return [(a.shape, a.tobytes()) for a in read] == [(a.shape, a.tobytes()) for a in wanted]


def status(text, tp_type, shape, lengths=None):
    """The status of the entry itself, with buffers of these lengths: what is refused leaves them, and nothing is written before or behind them."""
    cells = int(np.prod(shape))
    n, m = lengths or (CHANNELS.get(tp_type, 1) * cells, cells)
    weights, flags = np.full(8 * (n + 2), 0x5A, np.uint8), np.full(m + 2, 0x5A, np.uint8)
    told = LIBRARY.pelmetsavory_read_listing(text, len(text), tp_type, Counts(*shape), weights.ctypes.data + 8, n, flags.ctypes.data + 1, m)
    for a, edge in (weights, 8), (flags, 1):
        assert all((part == 0x5A).all() for part in ([a] if told else [a[:edge], a[-edge:]])), told
    return told


def no(text, tp_type=3, shape=SHAPE):
    """The text is refused by question 22, as bytes and as a str, and the entry leaves its buffers."""
    for given in text, text.decode("latin-1"):
        refused(22, lambda: pm.read_listing(given, tp_type, shape))
    assert status(text, tp_type, shape) == 22, text


def test_the_answer_to_a_study_comes_back():
    text = pm.answer(stored("study.txt"))
    assert text == LISTING == printed(*pm.integration_weight(study)) and same(pm.read_listing(text, 3, SHAPE), pm.integration_weight(study))
    assert status(text, 3, SHAPE) == 0
    sheet = pm.Sheet(study)
    sheet.carry_on(0)
    weights, flags = pm.read_listing(text=text, tp_type=study.tp_type, shape=sheet.flags.shape)
    assert same((weights, flags), (sheet.weights, sheet.flags)) and pm.open_counts(3, weights).tolist() == sheet.open_counts().tolist()
    weights += 1  # they are the caller's
    assert text == LISTING


def test_a_listing_of_any_size_comes_back():
    """Question 1 limits the text of a study, and no listing."""
    for tp_type in CHANNELS:
        y = pm.test_study(7, mesh=(4, 4, 4), tp_type=tp_type, bands=6, points=12, triplets=20)
        record = pm.integration_weight(y)
        text = printed(*record)
        assert len(text) > 16384 and record[0].size > 4096
        assert same(pm.read_listing(text, tp_type, y.shapes().flags), record)
        for change in (len(text) - 1, b"\r"), (len(text) // 2, b"x"), (30, b"x"):
            no(text[: change[0]] + change[1] + text[change[0] + 1 :], tp_type, y.shapes().flags)


def test_every_bit_comes_back_whatever_the_shape():
    for tp_type in CHANNELS:
        for shape in (1, 1, 1, 1), (2, 3, 2, 3), (11, 2, 1, 1), (1, 101, 1, 1), (1, 1, 64, 2), (1, 2, 1, 64), (1, 1024, 1, 1), (1001, 1, 1, 1), (1, 1, 11, 12):
            record = made(shape, tp_type)
            text = printed(*record)
            assert same(pm.read_listing(text, tp_type, shape), record) and could_be_printed(text, tp_type, shape)
    record = made((65536, 1, 1, 1), 4)
    assert same(pm.read_listing(printed(*record), 4, (65536, 1, 1, 1)), record)
    bits = np.random.default_rng(5).integers(0, 2**64, (3, 5, 4, 3, 2), np.uint64)
    record = np.where(np.isnan(bits.view(np.float64)), np.uint64(0), bits).view(np.float64), np.ones((5, 4, 3, 2), np.int8)
    assert same(pm.read_listing(printed(*record), 3, (5, 4, 3, 2)), record)


def test_a_nan_comes_back_as_the_one_that_is_printed():
    weights, flags = made((2, 3, 2, 2), 2, values=(*SPECIAL, *NEVER))
    read, _ = pm.read_listing(printed(weights, flags), 2, flags.shape)
    wanted = np.where(np.isnan(weights), np.uint64(NAN), weights.view(np.uint64))
    assert np.isnan(weights).sum() > 5 and read.tobytes() == wanted.tobytes()
    for bits, place in itertools.product(NEVER, (LISTING.index(b"\n", 27) - 50, len(LISTING) - 17)):
        text = LISTING[:place] + b"%016x" % bits + LISTING[place + 16 :]
        no(text)
        assert not could_be_printed(text, 3, SHAPE)


def test_no_triplets_are_the_header_alone():
    for tp_type, channels in CHANNELS.items():
        for rest in (1, 1, 1), (1024, 64, 64), (5, 3, 2):
            empty = np.zeros((channels, 0, *rest)), np.zeros((0, *rest), np.int8)
            for given in HEADER, HEADER.decode(), bytearray(HEADER):
                assert same(pm.read_listing(given, tp_type, (0, *rest)), empty)
            for text in b"", HEADER[:-1], HEADER + b"\n", HEADER * 2, LISTING, HEADER[1:], HEADER.replace(b"\t", b" ", 1), HEADER.replace(b"\n", b"\r\n"):
                no(text, tp_type, (0, *rest))


def test_what_the_writer_would_not_print():
    first, last, end = LINES[1], LINES[-1], len(LISTING)
    front, digits = first[:10], last.rindex(b"\t") + 1  # 0, 0, 0, 0, flag 0 and their tabs; where the last weight begins in its line
    assert front == b"0\t0\t0\t0\t0\t" and any(c in LISTING for c in b"abcdef")
    by = lambda old, new: LISTING.replace(old, new, 1)
    line = lambda k, new: b"".join([*LINES[:k], new, *LINES[k + 1 :]])
    bad = {
        "the empty text": b"", "the header alone": HEADER, "a newline": b"\n", "no header": b"".join(LINES[1:]), "a header twice": HEADER + LISTING,
        "a refusal": b"refused\t10\n", "a refusal behind the header": HEADER + b"refused\t10\n", "a study": stored("study.txt"),
        "all digits capital": HEADER + b"".join(LINES[1:]).upper(), "all capital": LISTING.upper(), "spaces for tabs": LISTING.replace(b"\t", b" "),
        "spaces in the lines": HEADER + b"".join(LINES[1:]).replace(b"\t", b" "), "a space in the header": by(b"\t", b" "),
        "CR LF": LISTING.replace(b"\n", b"\r\n"), "CR for LF": LISTING.replace(b"\n", b"\r"), "CR LF at the end": LISTING[:-1] + b"\r\n",
        "no newline at the end": LISTING[:-1], "a byte less": LISTING[1:], "a newline more": LISTING + b"\n", "a blank line": by(b"\n", b"\n\n"),
        "a byte more": LISTING + b"0", "a NUL more": LISTING + b"\0", "a tab more": LISTING[:-1] + b"\t\n", "a space more": LISTING[:-1] + b" \n",
        "a mark of UTF-8 before it": b"\xef\xbb\xbf" + LISTING, "UTF-16": LISTING.decode().encode("utf-16"), "twice": LISTING * 2,
        "a comment": HEADER + b"# a line\n" + b"".join(LINES[1:]), "the last byte": LISTING[:-1] + b"0",
        "a first line less": line(1, b""), "a last line less": line(135, b""), "a line twice": line(70, LINES[70] * 2),
        "a line of another triplet more": LISTING + b"3" + first[1:], "a line with one weight more": line(135, last[:-1] + last[digits - 1 :]),
        "a line with one weight less": line(135, last[: digits - 1] + b"\n"), "the lines sorted": b"".join(sorted(LINES)),
        "the lines backwards": HEADER + b"".join(LINES[:0:-1]), "two lines exchanged": b"".join([*LINES[:7], LINES[8], LINES[7], *LINES[9:]]),
        "the last two lines exchanged": b"".join([*LINES[:-2], LINES[-1], LINES[-2]]),
        "decimal weights": line(1, front + b"0.0\t0.0\t0.5\n"), "15 digits": line(135, last[:digits] + last[digits + 1 :]), "17 digits": line(135, last[:digits] + b"0" + last[digits:]),
        "a weight with 0x": line(135, last[:digits] + b"0x" + last[digits + 2 :]), "a letter behind f": line(135, last[:digits] + b"g" + last[digits + 1 :]),
        "the last digit": LISTING[:-2] + b"g\n", "the last digit capital": LISTING[: end - 2] + b"F\n", "a signed weight": line(135, last[:digits] + b"-" + last[digits + 1 :]),
    }
    for name, header in {"Triplet": b"Triplet\tpoint\tb1\tb2\tflag\tw\n", "weights": HEADER[:-1] + b"eights\n", "a w for each channel": HEADER[:-1] + b"\tw\tw\n",
                         "b2 before b1": b"triplet\tpoint\tb2\tb1\tflag\tw\n", "no flag": b"triplet\tpoint\tb1\tb2\tw\n", "capitals": HEADER.upper()}.items():
        bad[f"a header with {name}"] = header + b"".join(LINES[1:])
    for flag in b"2", b"-1", b"00", b"01", b"+0", b"+1", b"-0", b" 0", b"0 ", b"", b"0.0", b"f", b"true", b"10", b"256", b"\xd9\xa0", b"\0":
        for k in 1, 135:
            parts = LINES[k].split(b"\t")
            bad[f"flag {flag!r} in line {k}"] = line(k, b"\t".join([*parts[:4], flag, *parts[5:]]))
    for field, number in itertools.product(range(4), (b"00", b"+0", b"-0", b"01", b"", b" 0", b"9", b"0x0", b"-1", b"1e0")):
        parts = first.split(b"\t")
        bad[f"{number!r} in field {field}"] = line(1, b"\t".join([*parts[:field], number, *parts[field + 1 :]]))
    for name, text in bad.items():
        assert text != LISTING and not could_be_printed(text, 3, SHAPE), name
        no(text)


def test_every_change_of_a_byte():
    """Accepted exactly where the pattern says so, and then what was read is printed as it was given."""
    shape = 1, 2, 1, 1
    for tp_type in 4, 2:
        text = printed(np.array([3, -0.1, np.inf, 0][: 2 * CHANNELS[tp_type]]).reshape(CHANNELS[tp_type], *shape), np.array([0, 1], np.int8).reshape(shape))
        taken = 0
        for at, byte in itertools.product(range(len(text)), range(256)):
            changed = text[:at] + bytes([byte]) + text[at + 1 :]
            try:
                record = pm.read_listing(changed, tp_type, shape)
            except pm.Refused as refusal:
                assert refusal.number == 22 and not could_be_printed(changed, tp_type, shape), changed
            else:
                assert printed(*record) == changed and could_be_printed(changed, tp_type, shape), changed
                taken += 1
        assert taken > 400


def test_drawn_edits():
    """A few edits at a time: accepted exactly where the pattern says so."""
    draw, shape, taken = random.Random(2), (2, 2, 1, 2), 0
    text = printed(*made(shape, 2))
    for _ in range(4000):
        edited = bytearray(text)
        for _ in range(draw.choice((1, 1, 2, 3))):
            at, kind = draw.randrange(len(edited)), draw.randrange(5)
            if kind < 2:
                edited[at] = draw.choice(b"0123456789abcdef") if kind else draw.choice(b"01\t\n\r ABCDEF+-gx\0\xff")
            elif kind == 2:
                del edited[at : at + draw.choice((1, 1, 2, 17))]
            elif kind == 3:
                edited[at:at] = draw.choice((b"0", b"\t", b"\n", b"\r", b"-", b"00", b"\t0000000000000000"))
            else:
                lines = bytes(edited).splitlines(True)
                draw.shuffle(lines) if draw.randrange(2) else lines.append(draw.choice(lines))
                edited[:] = b"".join(lines)
        edited = bytes(edited)
        accepted = status(edited, 2, shape) == 0
        assert accepted == could_be_printed(edited, 2, shape), edited
        if accepted:
            taken += 1
            assert printed(*pm.read_listing(edited, 2, shape)) == edited
        else:
            no(edited, 2, shape)
    assert 100 < taken < 2000


def test_another_type_or_shape_than_the_listing_s():
    for tp_type in 2, 4:
        no(LISTING, tp_type)
    for shape in (5, 3, 3, 3), (3, 3, 5, 3), (3, 5, 9, 1), (3, 5, 1, 9), (1, 15, 3, 3), (135, 1, 1, 1), (2, 5, 3, 3), (4, 5, 3, 3), (3, 5, 3, 2), (1, 1, 1, 1), (0, 5, 3, 3):
        no(LISTING, 3, shape)


def test_the_questions_in_their_order():
    limits = 65536, 1024, 64, 64
    for text in LISTING, HEADER, b"", b"refused\t8\n", "\u00e9":
        for tp_type in 1, 5, 0, -2, 2**63 - 1, -(2**63):
            for shape in SHAPE, limits, (-1, 0, 0, 0):
                refused(8, lambda: pm.read_listing(text, tp_type, shape))
        for tp_type, place in itertools.product(CHANNELS, range(4)):
            for wrong in (-1, limits[place] + 1, -(2**63), 2**63 - 1, 2**32) + ((0,) if place else ()):
                for shape in SHAPE, limits, (2**62,) * 4:
                    shape = [*shape[:place], wrong, *shape[place + 1 :]]
                    refused(9, lambda: pm.read_listing(text, tp_type, shape))
    assert [status(LISTING, t, s) for t, s in ((1, SHAPE), (5, (3, 0, 3, 3)), (3, (3, 0, 3, 3)), (3, (3, 5, 3, 65)), (3, SHAPE))] == [8, 8, 9, 9, 0]
    for lengths in (404, 135), (406, 135), (405, 134), (405, 136), (135, 405), (0, 0):
        for text in LISTING, b"", HEADER:
            assert status(text, 3, SHAPE, lengths) == 12
    assert status(LISTING, 2, SHAPE, (405, 135)) == 12 and status(LISTING, 2, SHAPE) == 22
    assert status(HEADER, 3, (0, 1, 1, 1), (1, 0)) == status(HEADER, 3, (0, 1, 1, 1), (0, 1)) == 12
    assert LIBRARY.pelmetsavory_read_listing(None, 0, 3, Counts(*limits), None, 0, None, 0) == 12


def test_each_count_at_its_limits():
    for place, most in enumerate((65536, 1024, 64, 64)):
        shape = [1] * 4
        shape[place] = most
        record = made(shape, 4)
        assert same(pm.read_listing(printed(*record), 4, shape), record)
        no(LISTING, 4, shape)


def test_no_array_is_made_for_a_text_that_is_too_short():
    tracemalloc.start()
    for tp_type, shape in itertools.product(CHANNELS, ((65536, 1024, 64, 64), (65536, 1, 1, 1), (1000, 1000, 10, 10), (1, 1024, 64, 64))):
        for text in LISTING, b"", "0" * 9000, memoryview(LISTING):
            refused(22, lambda: pm.read_listing(text, tp_type, shape))
    _, peak = tracemalloc.get_traced_memory()
    tracemalloc.stop()
    assert peak < 100_000
    for tp_type, channels in CHANNELS.items():  # the shortest text is not too short
        record = made((1, 10, 10, 10), tp_type)
        assert len(printed(*record)) == 27 + 1000 * (10 + 17 * channels) and same(pm.read_listing(printed(*record), tp_type, (1, 10, 10, 10)), record)


def test_bytes_are_read_where_they_lie():
    record = made((50000, 1, 1, 1), 4)
    text = printed(*record)
    for given in text, bytearray(text), memoryview(text), np.frombuffer(text, np.uint8):
        tracemalloc.start()
        read = pm.read_listing(given, 4, (50000, 1, 1, 1))
        _, peak = tracemalloc.get_traced_memory()
        tracemalloc.stop()
        assert same(read, record) and peak < 9 * 50000 + 50_000 < len(text)


def test_every_form_of_a_text():
    wanted = pm.read_listing(LISTING, 3, SHAPE)
    within = b"x" * 7 + LISTING + b"y" * 5
    locked = np.frombuffer(LISTING, np.uint8)
    assert not locked.flags.writeable
    for given in (
        LISTING, bytearray(LISTING), memoryview(LISTING), memoryview(bytearray(LISTING)), memoryview(LISTING).cast("c"), memoryview(LISTING).cast("b"), LISTING.decode(),
        memoryview(within)[7:-5], memoryview(bytearray(within))[7:-5], locked, np.frombuffer(within, np.int8)[7:-5], np.bytes_(LISTING), np.str_(LISTING.decode()),
        array.array("B", LISTING), (ctypes.c_ubyte * len(LISTING)).from_buffer_copy(LISTING), (ctypes.c_char * len(LISTING)).from_buffer_copy(LISTING),
    ):
        assert same(pm.read_listing(given, 3, SHAPE), wanted) and bytes(LISTING if isinstance(given, str) else given) == LISTING
        assert same(pm.read_listing(given, np.int8(3), np.array(SHAPE, np.uint16)), wanted)
    for given in memoryview(LISTING)[:-1], memoryview(within)[6:-5], memoryview(within)[7:-4]:  # what lies beyond is not read
        refused(22, lambda: pm.read_listing(given, 3, SHAPE))
    for shape in SHAPE, list(SHAPE), np.array(SHAPE), [np.int64(n) for n in SHAPE], wanted[1].shape, pm.Sheet(study).flags.shape:
        assert same(pm.read_listing(LISTING, 3, shape), wanted)
    with tempfile.TemporaryFile() as f:
        f.write(LISTING)
        f.flush()
        with mmap.mmap(f.fileno(), 0, access=mmap.ACCESS_READ) as mapped:  # memory that nobody can write
            assert same(pm.read_listing(mapped, 3, SHAPE), wanted)
            refused(22, lambda: pm.read_listing(mapped, 2, SHAPE))


def test_a_text_is_not_held():
    """After an answer, and while a refusal is at hand: a bytearray can be resized, a mapped file closed."""
    text = bytearray(LISTING)
    record = pm.read_listing(text, 3, SHAPE)
    text += b"\n"
    for tp_type, shape, number in (3, SHAPE, 22), (3, (65536, 1, 1, 1), 22), (5, SHAPE, 8), (3, (-1, 1, 1, 1), 9):
        try:
            pm.read_listing(text, tp_type, shape)
        except pm.Refused as refusal:
            text += b"\n"
            assert refusal.number == number
        else:
            raise AssertionError("taken")
    with tempfile.TemporaryFile() as f:
        f.write(bytes(text))
        f.flush()
        try:
            with mmap.mmap(f.fileno(), 0, access=mmap.ACCESS_READ) as mapped:
                pm.read_listing(mapped, 3, SHAPE)
        except pm.Refused as refusal:
            assert refusal.number == 22 and mapped.closed
        else:
            raise AssertionError("taken")
    assert same(record, pm.integration_weight(study))


def test_a_str_that_is_not_ascii():
    text = LISTING.decode()
    for bad in "\u00e9" + text[1:], text + "\u00e9", text.replace("0", "\u0660"), text.replace("\t", "\u00a0"), text[:-1] + "\u2028", "\ufeff" + text, text[:-2] + "\udc80\n", "\U0001f600":
        refused(22, lambda: pm.read_listing(bad, 3, SHAPE))


def test_arguments_that_are_none():
    closed = memoryview(LISTING)
    closed.release()
    for given in (None, 5, 2.5, True, [LISTING], LISTING.splitlines(), list(LISTING), (LISTING,), {LISTING}, object(), iter(LISTING), os.path, closed, np.str_):
        raises(TypeError, "text: bytes or a str is wanted (", lambda: pm.read_listing(given, 3, SHAPE))
    for given in (
        np.zeros(9), np.zeros(9, np.int64), np.zeros(9, bool), array.array("d", [0.0]), array.array("u", "text"), np.array([LISTING]), np.array(list(LISTING), np.uint16),
        np.frombuffer(LISTING, np.uint8).reshape(-1, 6), np.array(7, np.uint8), memoryview(LISTING).cast("B", (len(LISTING) // 6, 6)),
    ):
        raises(TypeError, "text: bytes or a str is wanted, not an array of the shape ", lambda: pm.read_listing(given, 3, SHAPE))
    for given in memoryview(LISTING)[::2], memoryview(LISTING)[::-1], np.frombuffer(LISTING * 2, np.uint8)[::2], memoryview(LISTING + b"\n")[:0:-1]:
        raises(TypeError, "text: bytes in one block are wanted", lambda: pm.read_listing(given, 3, SHAPE))
    for given in None, 3.0, np.float64(3), True, np.True_, "3", b"3", [3], np.array([3]), 3 + 0j:
        raises(TypeError, "tp_type: a whole number is wanted, not ", lambda: pm.read_listing(LISTING, given, SHAPE))
    for given in 2**63, -(2**63) - 1, 2**64 + 3, np.uint64(2**63):
        raises(OverflowError, f"tp_type: {given} is not a signed number of 64 bits", lambda: pm.read_listing(LISTING, given, SHAPE))
    for given in None, 4, 135, "3533", b"3533", [], SHAPE[:3], (*SHAPE, 1), (3, *SHAPE), [SHAPE], np.zeros((2, 2), int), set(SHAPE), iter(SHAPE), {3: 5}, [[3], [5, 3], 3, 3]:
        raises(ValueError, "shape ", lambda: pm.read_listing(LISTING, 3, given))
    for bad in 3.0, np.float64(3), True, np.True_, "3", None, 3 + 0j, 3.5, float("nan"):
        raises(TypeError, "shape: a whole number is wanted, not ", lambda: pm.read_listing(LISTING, 3, (3, 5, 3, bad)))
    raises(TypeError, "shape: a whole number is wanted, not ", lambda: pm.read_listing(LISTING, 3, np.array(SHAPE) * 1.0))
    raises(TypeError, "shape is a masked array", lambda: pm.read_listing(LISTING, 3, np.ma.array(SHAPE)))
    for bad in 2**63, -(2**63) - 1, 10**30, np.uint64(2**64 - 1):
        raises(OverflowError, f"shape: {bad} is not a signed number of 64 bits", lambda: pm.read_listing(LISTING, 3, (bad, 5, 3, 3)))
    for call in (lambda: pm.read_listing(LISTING), lambda: pm.read_listing(LISTING, 3), lambda: pm.read_listing(LISTING, 3, *SHAPE)):
        raises(TypeError, "argument", call)


def test_threads_read_one_text():
    found, wanted = [None] * 8, pm.integration_weight(study)
    threads = [threading.Thread(target=lambda k: found.__setitem__(k, pm.read_listing(LISTING, 3, SHAPE)), args=(k,)) for k in range(8)]
    [t.start() for t in threads]
    [t.join() for t in threads]
    assert all(same(f, wanted) for f in found)


def test_a_sheet_is_listed_and_read_again():
    """What a sheet of several workers holds, averaged too, comes back from its listing."""
    sheet = pm.Sheet(other(tp_type=2))
    sheet.run_pieces(3, [(0, 0, 0), (2, 2, 2)])
    sheet.carry_on(5)
    sheet.average_triplet(1, [0, 0, 2], [0, 1, 1])
    assert same(pm.read_listing(printed(sheet.weights, sheet.flags), 2, sheet.flags.shape), (sheet.weights, sheet.flags))


if __name__ == "__main__":
    run(globals())
    print("python: listings ok")
