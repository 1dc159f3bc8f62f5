#!/usr/bin/env python3
"""Compares the proved run sheet with the model, through the library for other languages.

    sheet_calls.py LIBRARY [LISTS] [SEED]

LIBRARY is libpelmetsavory.so. First the stored lists and open counts of sheet_cases.py, then LISTS random lists (2,000; 60s: for so many
seconds). After each call the answer, the sixteen counts and every byte of weights, flags and marks are compared with the model's program, a
NaN's payload too. Each list is also played by one call: from marks all 0 it is compared with the model's book, from others with its program.
Every second random list is played with other workers too: unless an answer is 20 or 21, it must end in the same weights, flags, marks and
answers. Of the sheet in which a random list ends, the open counts of all triplets are asked.
"""
import ctypes
import os
import random
import sys
import time

here = os.path.dirname(os.path.abspath(__file__))
sys.path[1:1] = [os.path.join(here, ".."), os.path.join(here, "../../foreign/python/pelmetsavory")]

import entries
import sheet_cases
import sheet_model as m
import sheet_selftest as r
from vectors_sheet import encoded, number_of

NUMBERS = {"weights": ctypes.c_uint64, "flags": ctypes.c_int8, "marks": ctypes.c_uint8}
# So many differences of a kind are told.
TOLD = 20
# What a place for an answer holds before a list is played, and a count's before it is asked.
UNTOUCHED = 99
# Wrong lengths of a list that is played: how many numbers, answers and counts more than there should be.
WRONG = ((0, 1, 16), (0, 0, 1), (0, 0, -1), (1, 0, 0), (-1, 0, 0), (0, 1, 0), (0, -1, -16), (0, 0, 16))


def array(kind, values):
    return (kind * len(values))(*values)


def wholes(values):
    return array(ctypes.c_int64, values)


def patterns(values):
    return array(ctypes.c_uint64, values)


def lent(*arrays):
    """Slices: where each lies and how many elements it has."""
    return [x for a in arrays for x in (a, len(a))]


class Library:
    def __init__(self, path):
        library = ctypes.CDLL(path)
        for name, (result, params) in entries.ENTRIES.items():
            f = getattr(library, name)
            f.restype, f.argtypes = result, [kind if how == "value" else ctypes.c_void_p for _, how, kind, _ in params]
            setattr(self, name.removeprefix("pelmetsavory_"), f)


class Calls:
    """One study and its sheet, in the library's form."""

    def __init__(self, library, s, start):
        self.library = library
        shape = entries.Shape(s.kind, array(ctypes.c_int64, s.mesh), s.type, *s.bands)
        self.sheet = {n: array(kind, getattr(start, n)) for n, kind in NUMBERS.items()}
        self.tally = patterns(start.tally)
        self.given = [shape] + lent(wholes(s.addresses), wholes(s.map), wholes(s.table), patterns(s.frequencies1),
                                    patterns(s.frequencies2), patterns(s.points), wholes(s.triplets), *self.sheet.values())
        self.given.append(self.tally)

    def content(self):
        return [list(self.sheet[n]) for n in NUMBERS] + [list(self.tally)]

    def make(self, call):
        if call[0] == "run":
            return self.library.run_piece(*self.given, call[1], entries.Piece(*call[2:]))
        if call[0] == "carry_on":
            return self.library.carry_on(*self.given, call[1])
        return self.library.average_triplet(*self.given, call[1], *lent(wholes(call[2]), wholes(call[3])))

    def play(self, calls, wrong=(0, 0, 0)):
        """The status, and for each call a place with its answer and sixteen with the counts after it; whether the lengths fit."""
        numbers, ids = encoded(calls)
        sizes = [max(0, n + more) for n, more in zip((6 * len(calls), len(calls), m.WORKERS * len(calls)), wrong)]
        told, tallies = patterns([UNTOUCHED] * sizes[1]), patterns([UNTOUCHED] * sizes[2])
        status = self.library.play(*self.given, *lent(wholes((numbers + [0])[:sizes[0]]), wholes(ids), told, tallies))
        return status, list(told), list(tallies), sizes[0] == 6 * sizes[1] and sizes[2] == m.WORKERS * sizes[1]


def is_nan(b):
    return b & ~m.SIGN > r.INFINITY


class Kind:
    """The counts of one kind of case."""

    def __init__(self, name):
        self.name, self.cases, self.seen, self.differ, self.nans = name, 0, {}, 0, 0

    def count(self, call, number, agree):
        self.seen[call, number] = self.seen.get((call, number), 0) + 1
        if not agree:
            self.differ += 1
            if self.differ <= TOLD:
                print("differs: %s, list %d: %s, wanted %d" % (self.name, self.cases, call, number))

    def show(self):
        by = {}
        for (_, number), times in self.seen.items():
            by[number] = by.get(number, 0) + times
        done = by.pop(0, 0)
        refused = " ".join("%d:%d" % x for x in sorted(by.items()))
        print("kind\t%s\t%d\t%d\t%s\t%d" % (self.name, self.cases, done, refused or "-", self.differ))


class Comparison:
    def __init__(self, path):
        self.library = Library(path)
        self.kinds = {n: Kind(n) for n in ("stored call lists", "call lists", "played lists", "lists with other workers",
                                           "stored open counts", "open counts")}

    def compare(self, name, s, start, made, steps):
        """A list of calls; steps: the model's answers and sheets."""
        kind, calls = self.kinds[name], Calls(self.library, s, start)
        kind.cases += 1
        for call, (answer, sheet) in zip(made, steps, strict=True):
            number = calls.make(call)
            kind.nans += sum(map(is_nan, sheet.weights))
            kind.count(call[0], number_of(answer), number == number_of(answer) and calls.content() == list(sheet.content()))
        self.play(s, start, made)

    def play(self, s, start, made):
        """The whole list by one call: refused with 12 where a length is wrong."""
        kind, calls = self.kinds["played lists"], Calls(self.library, s, start)
        kind.cases += 1
        wrong = WRONG[kind.cases // 16 % len(WRONG)] if kind.cases % 16 == 0 else (0, 0, 0)
        status, told, tallies, fit = calls.play(made, wrong)
        want = 0 if fit else 12
        steps = (m.program if any(start.marks) else m.book)(s, start, made) if fit else []
        last = steps[-1][1] if steps else start
        expected = [number_of(a) for a, _ in steps], [c for _, x in steps for c in x.tally]
        if not fit:
            expected = [UNTOUCHED] * len(told), [UNTOUCHED] * len(tallies)
        agree = (status, told, tallies) == (want, *expected) and calls.content() == list(last.content())
        kind.count("list", want, agree)

    def swap(self, s, start, made, others):
        """Two lists that differ in workers alone, by the library: unless one has 20 or 21, all but the counts are the same."""
        ends = []
        for one in (made, others):
            calls = Calls(self.library, s, start)
            ends.append((calls.play(one)[1], *calls.content()))
        if not {20, 21} & {*ends[0][0], *ends[1][0]} and ends[0][-1] != ends[1][-1]:
            kind = self.kinds["lists with other workers"]
            kind.cases += 1
            kind.count("list with other workers", 0, ends[0][:-1] == ends[1][:-1])

    def stored(self):
        for c in sheet_cases.cases():
            steps = [(x["answer"], m.Sheet(x["weights"], x["flags"], x["marks"], x["tally"])) for x in c["steps"]]
            self.compare("stored call lists", m.Study(**c["study"]), m.Sheet(**c["start"]), c["calls"], steps)

    def open_count(self, name, type, counts, weights, triplet, answer):
        """The weights go in as patterns; they and, where the call is refused, the count must stay."""
        kind, want = self.kinds[name], number_of(answer)
        kind.cases += 1
        b1, b2, points, triplets = counts
        given, count = patterns(weights), ctypes.c_uint64(UNTOUCHED)
        number = self.library.open_count(type, entries.Counts(triplets, points, b1, b2), *lent(given), triplet, ctypes.byref(count))
        told = number, count.value
        kind.count("open count", want, told == (want, UNTOUCHED if want else answer[1]) and list(given) == list(weights))

    def stored_open_counts(self):
        for c in sheet_cases.open_count_cases():
            self.open_count("stored open counts", c["type"], c["counts"], c["weights"], c["triplet"], c["answer"])

    def open_counts_of(self, s, sheet):
        """Of each triplet, of what would stand before the first and behind the last."""
        given = s.type, (*s.bands, s.f, s.t), sheet.weights
        for t in range(-1, s.t + 1):
            self.open_count("open counts", *given, t, m.open_count(*given, t))

    def drawn(self, limit, seed):
        rng, kind, begun = random.Random(seed), self.kinds["call lists"], time.time()
        while time.time() - begun < float(limit[:-1]) if limit.endswith("s") else kind.cases < int(limit):
            s = r.random_study(rng)
            start = r.begun(rng, s) if rng.random() < 0.3 else r.random_start(rng, s)
            made = [r.random_call(rng, s) for _ in range(rng.randint(1, 14))] + [("carry_on", r.random_worker(rng))]
            if rng.random() < 0.2:
                s = r.spoil_study(rng, s)
            elif rng.random() < 0.1:
                r.spoil_lengths(rng, start)
            steps = m.program(s, start, made)
            self.compare("call lists", s, start, made, steps)
            self.open_counts_of(s, steps[-1][1])
            if kind.cases % 2 == 0:
                self.swap(s, start, made, r.with_other_workers(rng, made))

    def show(self):
        """Prints the counts; whether nothing differs and every answer that a call can give was met."""
        seen, missing = {}, []
        for kind in self.kinds.values():
            kind.show()
            for key, times in kind.seen.items():
                seen[key] = seen.get(key, 0) + times
        print(m.answer_table({(call, n or "done"): times for (call, n), times in seen.items()}))
        print("sheets: %d NaNs compared by their bits" % sum(k.nans for k in self.kinds.values()))
        asked = {**m.ASKED, "open count": (8, 9, 12, 14), "list": (12,), "list with other workers": ()}
        missing = [(call, n) for call, numbers in asked.items() for n in (0, *numbers) if (call, n) not in seen]
        if missing:
            print("never seen:", missing)
        return not missing and not any(k.differ for k in self.kinds.values())


def main():
    comparison = Comparison(sys.argv[1])
    seed = int(sys.argv[3]) if len(sys.argv) > 3 else sheet_cases.SEED
    print("sheets: seed", seed)
    comparison.stored()
    comparison.stored_open_counts()
    comparison.drawn(sys.argv[2] if len(sys.argv) > 2 else "2000", seed)
    return 0 if comparison.show() else 1


if __name__ == "__main__":
    sys.exit(main())
