"""Stored sheets and sheets taken over: what belongs together is taken whole, anything else is refused before a bit is changed."""
import copy
import hashlib
import os
import struct
import tempfile

import numpy as np

import pelmetsavory as pm
from small import BEGUN, FULL, addresses, grid, held, n, other, plus, raises, refused, run, study, table

F1, F2 = (n % 17 + 1) / 8, (n % 13 - 1) / 8
IDS = [0, 0, 2], [0, 1, 1]
FOLDER = tempfile.TemporaryDirectory()
COUNTS = [*range(7, 21), 2**64 - 1, 22]  # what a worker's counts begin with: worker 14's is full, and idle
RUNS = (3, 0, 0, 0), (3, 2, 1, 0), (15, 2, 1, 0)  # of workers 3 and 15
GROWN = {3: 2, 15: 1}
OTHERS = {  # each differs from the study in one place
    "kind": lambda: other(grid=pm.Grid(1, [2, 2, 2], addresses, grid.gp_map)),
    "mesh": lambda: other(grid=pm.Grid(2, [2, 4, 1], addresses, grid.gp_map)),
    "addresses": lambda: other(grid=pm.Grid(2, [2, 2, 2], addresses[:-1] + [(-1, -1, 1)], grid.gp_map)),
    "map": lambda: other(grid=pm.Grid(2, [2, 2, 2], addresses, [0, 1, 3, 5, 6, 8, 9, 11, 12])),
    "table": lambda: other(table=table[::-1]),
    "frequencies1": lambda: other(f1=F1 + 0.125),
    "frequencies2": lambda: other(f2=np.where(F2 == 0, -0.0, F2)),  # in bits alone
    "points": lambda: other(points=(0, 0.5, 1.25, 3, 8)),
    "triplets": lambda: other(triplets=study.triplets[::-1]),
}
SHAPES = {  # and in its shape: channels, triplets, points, bands
    "type 2": lambda: other(tp_type=2),
    "type 4": lambda: other(tp_type=4),
    "one triplet": lambda: other(triplets=study.triplets[:1]),
    "one point": lambda: other(points=(0,)),
    "one band": lambda: other(f1=F1[:, :1]),
    "no triplets": lambda: other(triplets=[]),
}


def worker(y=study, tally=None, runs=RUNS):
    """A worker's sheet with some pieces run, one of them twice."""
    sheet = pm.Sheet(y, tally=tally)
    for run in runs:
        sheet.run_piece(*run)
    return sheet


def signed(body):
    return body + hashlib.sha256(body).digest()


def edited(data, at, form, value):
    """A stored sheet with a number changed, and the checksum that goes with it."""
    body = bytearray(data[:-32])
    struct.pack_into(form, body, at, value)
    return signed(bytes(body))


def stored(data):
    """A file of these bytes."""
    path = os.path.join(FOLDER.name, "sheet")
    with open(path, "wb") as f:
        f.write(data)
    return path


def test_the_format():
    sheet = worker(tally=BEGUN)
    records = [[2, 2, 2, 2, 3, 3, 3], addresses, grid.gp_map, table, F1, F2, [0, 0.5, 1.25, 3, 9], study.triplets]
    print_of = b"pelmetsavory study 1\n"
    for k, r in enumerate(records):
        a = np.array(r, "<f8" if 4 <= k <= 6 else "<i8")
        print_of += struct.pack("<Q", a.size) + a.tobytes()
    assert study.fingerprint() == hashlib.sha256(print_of).digest()
    body = b"PELSHEET" + struct.pack("<Q", 2) + study.fingerprint() + struct.pack("<5Q", 3, 3, 5, 3, 3) + struct.pack("<32Q", *BEGUN, *plus(BEGUN, GROWN))
    body += sheet.weights.astype("<f8").tobytes() + sheet.flags.tobytes() + sheet.marks.tobytes()
    assert sheet.to_bytes() == signed(body) and len(body) == 344 + 8 * 405 + 135 + 27
    folder = tempfile.mkdtemp(dir=FOLDER.name)
    path = os.path.join(folder, "whole")
    sheet.save(path)
    assert open(path, "rb").read() == signed(body) and os.listdir(folder) == ["whole"]
    again = pm.Sheet.load(study, path)
    assert held(again) == held(sheet) and again.began.tolist() == BEGUN and again.to_bytes() == sheet.to_bytes()
    again.carry_on(6)
    assert again.tally.tolist() == plus(BEGUN, {**GROWN, 6: 25}) and again.began.tolist() == BEGUN
    empty = pm.Sheet(other(triplets=[]), tally=BEGUN)
    assert pm.Sheet.from_bytes(empty.study, empty.to_bytes()).to_bytes() == empty.to_bytes() and len(empty.to_bytes()) == 376
    for k in range(32):  # each count in its own place, any number
        again, counts = pm.Sheet.from_bytes(study, edited(sheet.to_bytes(), 88 + 8 * k, "<Q", 2**64 - 1)), [*sheet.began.tolist(), *sheet.tally.tolist()]
        counts[k] = 2**64 - 1
        assert [*again.began.tolist(), *again.tally.tolist()] == counts


def test_load_refuses_another_study_or_shape():
    for name, make in {**OTHERS, **SHAPES}.items():
        y = make()
        raises(ValueError, "another study", lambda: pm.Sheet.load(study, stored(pm.Sheet(y).to_bytes())))
        raises(ValueError, "another study", lambda: pm.Sheet.load(y, stored(worker().to_bytes())))
    for place in range(5):  # of this study, but of another shape
        shape = [3, 3, 5, 3, 3]
        shape[place] = 1
        channels, triplets, points, b1, b2 = shape
        pieces = triplets * b1 * b2
        head = worker().to_bytes()[:48] + struct.pack("<37Q", *shape, *[0] * 32)
        raises(ValueError, ["shape", str(tuple(shape))], lambda: pm.Sheet.load(study, stored(signed(head + bytes((8 * channels + 1) * pieces * points + pieces)))))


def test_load_refuses_what_is_no_whole_sheet():
    data = worker(tally=BEGUN).to_bytes()
    first = data[:8] + struct.pack("<Q", 1) + data[16:96] + data[216:224] + data[344:-32]  # format 1: one count, of 8 bytes
    for words, bad in (
        ("not a stored sheet", b""),
        ("not a stored sheet", data[:15]),
        ("not a stored sheet", b"pelsheet" + data[8:]),
        ("not a stored sheet", worker().weights.tobytes()),
        ("format 1; format 2 is read", signed(first)),
        ("format 1", signed(first[:56] + bytes(8) + first[64:104])),  # without triplets
        ("format 1", edited(data, 8, "<Q", 1)),
        ("format 3", edited(data, 8, "<Q", 3)),
        ("format 0", data[:8] + bytes(8) + data[16:]),
        ("cut short", data[:-1]),
        ("cut short", data[:16]),
        ("cut short", data[:375]),
        ("cut short", data[:376]),
        ("too long", data + b"\0"),
        ("too long", signed(data)),
        ("too long", data * 2),
        ("cut short", edited(data, 48, "<Q", 2**63)),
    ):
        raises(ValueError, words, lambda: pm.Sheet.load(study, stored(bad)))
    for at in [*range(16, 48), *range(88, 344), *range(344, len(data), 97), len(data) - 33, len(data) - 1]:  # one byte damaged
        raises(ValueError, "checksum", lambda: pm.Sheet.load(study, stored(data[:at] + bytes([data[at] ^ 1]) + data[at + 1 :])))
    raises(FileNotFoundError, "", lambda: pm.Sheet.load(study, os.path.join(FOLDER.name, "none")))


def test_load_refuses_unsound_marks():
    data, marks = worker().to_bytes(), 344 + 8 * 405 + 135
    for at, value in ((0, 3), (5, 255), (1, 2)):
        refused(13, lambda: pm.Sheet.load(study, stored(edited(data, marks + at, "B", value))))
    for k in range(16):
        full = pm.Sheet.load(study, stored(edited(data, 216 + 8 * k, "<Q", 2**63)))
        refused(20, lambda: full.carry_on(k), full)
        full.run_piece((k + 1) % 16, 1, 1, 1)


def test_take_takes_over_what_is_open():
    sheet, own = worker(runs=[(0, 0, 0, 0)], tally=BEGUN), worker(tally=COUNTS)
    own.weights[:, 0, :, 0, 0] = 55  # not open here: not taken
    one = pm.Sheet(study)
    one.carry_on(6)
    sheet.take(own)
    assert sheet.tally.tolist() == plus(BEGUN, {0: 1, **GROWN}) and sheet.marks.sum() == 2 and sheet.marks[2, 1, 0] == 1
    assert own.tally.tolist() == own.began.tolist() == plus(COUNTS, GROWN) and sheet.began.tolist() == BEGUN
    assert (sheet.weights[:, 2, :, 1, 0] == one.weights[:, 2, :, 1, 0]).all() and (sheet.weights[:, 0, :, 0, 0] == one.weights[:, 0, :, 0, 0]).all()
    assert (sheet.flags[2, :, 1, 0] == one.flags[2, :, 1, 0]).all()
    assert not sheet.weights[:, 1].any() and not sheet.flags[1].any()
    once = held(sheet)
    sheet.take(own)  # counts as taken
    assert held(sheet) == once
    own.run_piece(8, 2, 1, 0)
    sheet.take(own)  # repeats are counted
    assert held(sheet)[:3] == once[:3] and sheet.tally.tolist() == plus(once[3], {8: 1})
    late = worker()
    sheet.carry_on(6)
    for t in range(3):
        sheet.average_triplet(t, *IDS)
    before = held(sheet)
    sheet.take(late)
    assert held(sheet)[:3] == before[:3] and sheet.tally.tolist() == plus(before[3], GROWN)
    done = copy.deepcopy(sheet)
    done.began = done.tally
    sheet.take(done)
    assert held(sheet)[:3] == before[:3] and sheet.tally.tolist() == plus(before[3], GROWN)


def test_take_by_way_of_a_file():
    sheet, path = pm.Sheet(study, tally=BEGUN), os.path.join(FOLDER.name, "worker")
    worker(tally=COUNTS).save(path)
    sheet.take(pm.Sheet.load(study, path))
    assert sheet.tally.tolist() == plus(BEGUN, GROWN) and sheet.marks.sum() == 2
    own = copy.copy(sheet)  # a worker that goes on from a copy
    own.began = own.tally
    own.carry_on(6)
    sheet.take(own)
    one = pm.Sheet(study)
    one.carry_on(6)
    assert held(sheet)[:3] == held(one)[:3] and sheet.tally.tolist() == plus(BEGUN, {**GROWN, 6: 25})


def test_take_refuses_another_study_or_shape():
    for name, make in {**OTHERS, **SHAPES}.items():
        for marks in (0, 1):
            sheet, own = worker(tally=BEGUN), pm.Sheet(make())
            own.marks[...] = marks
            own.weights[...] = 9
            raises(ValueError, "another study", lambda: sheet.take(own), sheet, own)
            raises(ValueError, "another study", lambda: own.take(sheet), sheet, own)
    y = other()
    sheet, own = worker(), pm.Sheet(y)
    y.points = [1, 2]
    sheet_of_y = pm.Sheet(y)
    raises(ValueError, "weights has the shape", lambda: sheet_of_y.take(own), sheet_of_y, own)
    raises(TypeError, "another sheet", lambda: sheet.take(sheet), sheet)
    raises(TypeError, "another sheet", lambda: sheet.take(None), sheet)


def test_take_refuses_what_is_not_sound():
    for at, value in (((0, 0, 0), 3), ((1, 0, 2), 255), ((1, 0, 2), 2)):
        sheet, own = worker(tally=BEGUN), worker()
        own.marks[at] = value
        refused(13, lambda: sheet.take(own), sheet, own)
        refused(13, lambda: own.take(sheet), sheet, own)
    sheet, own = worker(tally=BEGUN), worker()
    own.carry_on(6)
    own.average_triplet(1, *IDS)
    raises(ValueError, "averaged in the other", lambda: sheet.take(own), sheet, own)
    for k in range(16):
        for tally in BEGUN, [2**63] * 16:  # before question 20
            sheet, own = worker(runs=(), tally=tally), worker()
            own.began = [count + 1 if j == k else 0 for j, count in enumerate(own.tally.tolist())]
            raises(ValueError, f"damaged: its count of worker {k} is below", lambda: sheet.take(own), sheet, own)


def test_take_refuses_what_cannot_be_written():
    for name in ("weights", "flags", "marks"):
        sheet, own = pm.Sheet(study, tally=BEGUN), worker()
        getattr(sheet, name).flags.writeable = False
        raises(ValueError, "read-only", lambda: sheet.take(own), sheet, own)


def test_a_changed_study_stores_nothing():
    y, folder = other(), tempfile.mkdtemp(dir=FOLDER.name)
    sheet = worker(y)
    y.points[0] = 1
    raises(ValueError, "the study was changed", lambda: sheet.save(os.path.join(folder, "sheet")), sheet)
    assert os.listdir(folder) == []


def test_take_keeps_every_count_that_grows_below_2_63():
    own = worker()
    for k, runs in GROWN.items():  # 15 is the last one: the others are not changed before
        for count in (2**63 - 1 - runs, 2**63 - runs, *FULL):
            sheet = pm.Sheet(study, tally=[count if j == k else 5 for j in range(16)])
            if count + runs < 2**63:
                sheet.take(copy.deepcopy(own))
                assert sheet.tally.tolist() == plus([count if j == k else 5 for j in range(16)], GROWN) and sheet.marks.sum() == 2
            else:
                refused(20, lambda: sheet.take(own), sheet, own)
    for k in range(16):
        sheet, huge = pm.Sheet(study), pm.Sheet(study, tally=[2**64 - 1] * 16)
        huge.began = [0 if j == k else 2**64 - 1 for j in range(16)]
        refused(20, lambda: sheet.take(huge), sheet, huge)


def test_take_asks_no_count_that_is_idle():
    for count in FULL:
        tally = [5 if k in GROWN else count for k in range(16)]
        sheet, own = pm.Sheet(study, tally=tally), worker(tally=tally)
        sheet.take(own)
        assert sheet.tally.tolist() == plus(tally, GROWN) and sheet.marks.sum() == 2
        sheet, before = pm.Sheet(study, tally=[count] * 16), held(own)
        sheet.take(own)  # taken before: no count grows, and the pieces are taken over
        assert sheet.tally.tolist() == [count] * 16 and sheet.marks.sum() == 2 and held(own) == before


if __name__ == "__main__":
    run(globals())
    print("python: stored sheets ok")
