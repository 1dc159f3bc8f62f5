#!/usr/bin/env python3
"""Writes the stored input and output of the program `vectors_sheet` from the lists of calls in sheet_cases.py.

    python3 vectors_sheet.py CRATE [SEED]      CRATE: the folder that gets stdin and stdout

The program's source says what the records are. Every answer and content is the model's; this file only spells them.
"""
import os
import sys

sys.path.insert(0, os.path.join(os.path.dirname(os.path.abspath(__file__)), ".."))

import records
import sheet_cases
import sheet_model as m

KINDS = {"run": 1, "carry_on": 2, "average": 3}
NAMES = {1: "run of a piece", 2: "carry on", 3: "average of a triplet", 4: "open count", 5: "list of calls"}
# The kinds that a list reads as an averaging: any number but 0 and 1.
AVERAGES = (2, -1, 77, 1 << 62)
# What stands where a run or a carry-on names nothing.
UNNAMED = (0, 0, 3, -1, 0, 16, -(1 << 63), 0, (1 << 63) - 1, 21)
# The program's buffers: of a sheet, and of the answers of a list, which has sixteen counts for each; of whole numbers, of floats; and its flags.
ROOM = 256
NUMBERS = 1500
REALS = 1100
FLAGS = (-128, -1, 0, 1, 2, 5, 9, 127)
# Lists that share a spelled table have so many bytes, at most.
TOGETHER = 60000


def words(xs):
    return [str(x) for x in xs]


def patterns(xs):
    return ["%016x" % x for x in xs]


def counted(xs):
    return [str(len(xs))] + xs


def numbers(xs):
    assert len(xs) <= NUMBERS
    return counted(words(xs))


def reals(xs):
    assert len(xs) <= REALS
    return counted(patterns(xs))


def line(*parts):
    return "\t".join(x for part in parts for x in part) + "\n"


def record(kind, text):
    """With its kind and how many bytes it has."""
    return "%d\t%d\t%s" % (kind, len(text), text)


def grid(s):
    return record(1, line([str(s["kind"])], words(s["mesh"]), numbers(s["addresses"]), numbers(s["map"])))


def table(s):
    return record(2, line(numbers(s["table"])))


def study(s):
    return record(3, line([str(s["type"])], words(s["bands"]), reals(s["frequencies1"]), reals(s["frequencies2"]),
                          reals(s["points"]), numbers(s["triplets"])))


def content(sheet):
    return patterns(sheet["weights"]) + words(sheet["flags"]) + words(sheet["marks"])


def counts(sheet):
    """The sixteen."""
    return ["%x" % c for c in sheet["tally"]]


def number_of(answer):
    return answer[1] if answer[0] == "refused" else 0


def list_of_calls(c, seen):
    start = c["start"]
    sizes = [len(start[n]) for n in ("weights", "flags", "marks")]
    assert max(sizes) <= ROOM
    out = [line(words(sizes), content(start), counts(start), [str(len(c["calls"]))])]
    before = start
    for call, step in zip(c["calls"], c["steps"]):
        kind, number = KINDS[call[0]], number_of(step["answer"])
        assert set(step["flags"]) <= set(FLAGS) and sizes == [len(step[n]) for n in ("weights", "flags", "marks")]
        kept = content(before) == content(step)
        assert number == 0 or (kept and before["tally"] == step["tally"])
        arguments = words(call[1:])
        if call[0] == "average":
            arguments = [str(call[1])] + numbers(call[2]) + numbers(call[3])
        out.append(line([str(kind)], arguments, [str(number)], counts(step), ["0"] if kept else ["1"] + content(step)))
        seen[kind, number] = seen.get((kind, number), 0) + 1
        before = step
    return [record(4, "".join(out))]


def encoded(calls):
    """Six numbers a call, and the ids that the averagings name by their places."""
    out, ids = [], []
    for k, call in enumerate(calls):
        unnamed = [UNNAMED[(3 * k + i) % len(UNNAMED)] for i in range(4)]
        if call[0] == "run":
            out += [0, *call[1:], unnamed[0]]
        elif call[0] == "carry_on":
            out += [1, call[1], *unnamed]
        else:
            first = len(ids)
            ids += call[2]
            second = len(ids)
            ids += call[3]
            out += [AVERAGES[k % len(AVERAGES)], call[1], first, second, second, len(ids)]
    return out, ids


def whole_list(c, seen, extra=0):
    """The whole list by one call of `play`; a wrong count of answers is refused with 12."""
    start, steps = c["start"], c["steps"]
    numbers_of, ids = encoded(c["calls"])
    places = len(steps) + extra
    number = 12 if extra else 0
    last = steps[-1] if steps and number == 0 else start
    answers = [number_of(s["answer"]) for s in steps] if number == 0 else [0] * places
    tallies = [x for s in steps for x in counts(s)] if number == 0 else ["0"] * (m.WORKERS * places)
    assert places <= ROOM
    kept = content(last) == content(start)
    sizes = [len(start[n]) for n in ("weights", "flags", "marks")]
    seen[5, number] = seen.get((5, number), 0) + 1
    return [record(4, line(words(sizes), content(start), counts(start), ["1"])
                   + line(["5"], numbers(numbers_of), numbers(ids), [str(places)], ["%x" % a for a in answers], tallies, [str(number)], counts(last),
                          ["0"] if kept else ["1"] + content(last)))]


def open_count(c, seen):
    b1, b2, points, triplets = c["counts"]
    assert len(c["weights"]) <= ROOM
    number = number_of(c["answer"])
    seen[4, number] = seen.get((4, number), 0) + 1
    return [record(5, line(words((c["type"], triplets, points, b1, b2)), reals(c["weights"]),
                           [str(c["triplet"]), str(number), "%x" % (c["answer"][1] if number == 0 else 0)]))]


def played(c):
    """Whether a list is stored a second time, as one call of `play`."""
    fresh = not any(c["start"]["marks"]) and c["group"] != "single"
    return fresh or c["group"] in ("worker", "swap") or c["number"] % 8 == 0


def groups(seed, seen):
    """Groups of records that need no other: lists with the same table, their grids and studies where they change."""
    by_table = {}
    for c in sheet_cases.cases(seed):
        by_table.setdefault(c["table"], []).append(c)
    for lists in by_table.values():
        group = []
        for c in lists:
            now = [grid(c["study"]), study(c["study"])]
            more = list_of_calls(c, seen)
            if played(c):
                more += whole_list(c, seen)
            if c["number"] % 40 == 0:
                more += whole_list(c, seen, 1)
            size = sum(map(len, now + more))
            if not group or held + size > TOGETHER:
                if group:
                    yield group
                group, last, held = [table(c["study"])], ["", ""], 0
            group += [x for x, y in zip(now, last) if x != y] + more
            last, held = now, held + size
        yield group
    for c in sheet_cases.open_count_cases(seed):
        yield open_count(c, seen)


def main():
    crate = sys.argv[1]
    seed = int(sys.argv[2]) if len(sys.argv) > 2 else sheet_cases.SEED
    seen = {}
    data = records.blocks(groups(seed, seen))
    asked = {KINDS[k]: (0,) + v for k, v in m.ASKED.items()}
    asked[4] = (0, 8, 9, 12, 14)
    asked[5] = (0, 12)
    assert sorted(seen) == sorted((k, n) for k, v in asked.items() for n in v)
    lines = ["%s\t%s\t%d\n" % (NAMES[kind], "refused %d" % number if number else "done", seen[kind, number]) for kind, number in sorted(seen)]
    records.write(crate, data, ("".join(lines) + "differences\t0\n").encode())
    print("seed %d: %d calls, %d bytes" % (seed, sum(seen.values()), len(data)))


if __name__ == "__main__":
    main()
