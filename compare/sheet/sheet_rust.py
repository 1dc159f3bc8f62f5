#!/usr/bin/env python3
"""Compares the model's weights, flags and averages with the original Rust.

    sheet_rust.py DRIVER [COUNT] [SEED]

COUNT studies (2,500) and as many averagings. Studies are random and accepted: both grid kinds, all types, 24 to 96 rows; then the
accepted studies and the averagings of the stored lists. Every bit is compared.
"""
import os
import random
import sys

sys.path.insert(1, os.path.join(os.path.dirname(os.path.abspath(__file__)), ".."))

import sheet_cases
import sheet_model as m
from records import ask, grid_request, request
from sheet_selftest import random_ids, random_study


def hexadecimal(b):
    return "%016x" % b


def digits(patterns):
    return map(hexadecimal, patterns)


def study_lines(s):
    return ["reset"] + grid_request((s.kind, s.mesh, s.addresses, s.map)) + [
        request("type", s.type), request("bands", *s.bands), request("row", *s.table), request("f1", *digits(s.frequencies1)),
        request("f2", *digits(s.frequencies2)), request("point", *digits(s.points)), request("triplet", *s.triplets), "?listing"]


def listing(s):
    """The model's listing, without the header, as lines of fields."""
    out = []
    for t in range(s.t):
        for p in range(s.f):
            for b1 in range(s.bands[0]):
                for b2 in range(s.bands[1]):
                    w, flag = m.piece(s, t, b1, b2)[p]
                    out.append([str(x) for x in (t, p, b1, b2, flag)] + list(digits(w)))
    return out


def average_lines(w, z, ids1, ids2, points, nb):
    """One request for averages."""
    return ["reset", request("w", *digits(w)), request("z", *z), request("id1", *ids1), request("id2", *ids2),
            request("?average", points, nb)]


def averaging(rng):
    """A random request for averages and the model's answer as one list of words."""
    nb, points, channels = rng.randint(1, 5), rng.randint(1, 3), rng.randint(1, 3)
    style = rng.randrange(3)
    w = []
    for _ in range(channels * points * nb * nb):
        x = (rng.uniform(-3.0, 3.0) if style == 0 else
             rng.choice((0.0, 0.1, 0.2, -0.3, 1.0 / 3.0, 2.0 ** 60, -2.0 ** 60, 5e-324, 1e-310))
             if style == 1 else rng.choice((-1.0, 1.0)) * 2.0 ** rng.uniform(-60, 60))
        b = m.bits(x)
        w.append(0 if b == m.SIGN or b & ~m.SIGN > m.power(60) else b)
    z = [rng.choice((0, 1, 1, 1)) for _ in range(points * nb * nb)]
    ids1, ids2 = random_ids(rng, nb), random_ids(rng, nb)
    lines = average_lines(w, z, ids1, ids2, points, nb)
    blocks = m.blocks_of(ids1, ids2)
    words = []
    for part, average, show in ((w, m.average_weights, hexadecimal), (z, m.average_flags, str)):
        for i in range(0, len(part), nb * nb):
            matrix = part[i:i + nb * nb]
            average(matrix, blocks, nb)
            words += [show(x) for x in matrix]
    return lines, words


def stored():
    """The stored test's accepted studies, and its accepted averagings as above;
    a flag is only told apart as 0 or not, which is all that the Rust's z can say."""
    studies, averages = [], []
    for c in sheet_cases.cases():
        s = m.Study(**c["study"])
        fit = True
        for n in m.OF_STUDY:
            fit = fit and m.QUESTIONS[n](s, None, None)
        if not fit or s.bands[0] * s.bands[1] > 64:
            continue
        if s.t:
            studies.append(s)
        before = c["start"]
        for call, step in zip(c["calls"], c["steps"]):
            if call[0] == "average" and step["answer"][0] == "done":
                size = s.f * s.bands[0] ** 2
                parts = []
                for sheet in (before, step):
                    w = []
                    for channel in range(s.channels):
                        i = m.weight_place(s, channel, call[1], 0, 0, 0)
                        w += sheet["weights"][i:i + size]
                    i = m.flag_place(s, call[1], 0, 0, 0)
                    parts.append((w, [0 if x == 0 else 1 for x in sheet["flags"][i:i + size]]))
                averages.append((average_lines(*parts[0], call[2], call[3], s.f, s.bands[0]),
                                 [hexadecimal(b) for b in parts[1][0]] + [str(x) for x in parts[1][1]]))
            before = step
    return studies, averages


def compare(driver, what, studies, averages):
    answers = ask(driver, [l for s in studies for l in study_lines(s)] + [l for lines, _ in averages for l in lines])
    wrong, entries, nonzero = [0, 0], 0, 0
    for s, got in zip(studies, answers):
        want = listing(s)
        entries += len(want)
        nonzero += sum(1 for line in want if set("".join(line[5:])) != {"0"})
        if got[1:] != want:
            wrong[0] += 1
            print("differs:", [x for x in zip(got[1:], want) if x[0] != x[1]][:3], s.as_dict())
    for (_, want), got in zip(averages, answers[len(studies):], strict=True):
        if got[0] + got[1] != want:
            wrong[1] += 1
            print("average differs:", got, want)
    for name, cases, differ in zip(("studies", "averagings"), (studies, averages), wrong):
        print("kind\t%s of the model, %s\t%d\t%d\t-\t%d" % (name, what, len(cases), len(cases), differ))
    print("model, %s: %d entries, %d with a weight that is not 0" % (what, entries, nonzero))
    return sum(wrong)


def main():
    driver = sys.argv[1]
    count = int(sys.argv[2]) if len(sys.argv) > 2 else 2500
    rng = random.Random(int(sys.argv[3]) if len(sys.argv) > 3 else 1)
    studies = []
    while len(studies) < count:
        s = random_study(rng)
        if s.t:
            assert all(m.QUESTIONS[n](s, None, None) for n in m.OF_STUDY)
            studies.append(s)
    wrong = compare(driver, "random", studies, [averaging(rng) for _ in range(count)])
    wrong += compare(driver, "stored", *stored())
    return 1 if wrong else 0


if __name__ == "__main__":
    sys.exit(main())
