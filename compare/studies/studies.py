#!/usr/bin/env python3
"""Studies through the program `weights`, against the original Rust and the checker.

    studies.py fuzz OUT SEED STUDIES      at least STUDIES studies from SEED on (or for so many seconds: 60s), and a damaged text of each;
                                          the listings of the accepted ones read back, and damaged listings
    studies.py corpus DRIVER CRATE [SEED] writes CRATE/stdin and CRATE/stdout, the stored texts of the program `corpus`
    studies.py valgrind OUT SEED COUNT    COUNT texts of a seed through the program under valgrind

OUT holds the programs `weights` and `driver` and the library. An accepted text's answer is the Rust's listing; whether a text is accepted,
and the number of its refusal, is the checker's. What the library reads in a listing is held to ../listing.py.
"""
import collections
import os
import subprocess
import sys
import time

import checker
import damage
import listing
import readback
import records
import texts

here = os.path.dirname(os.path.abspath(__file__))
# All that the program can answer: acceptance, and its refusals.
NUMBERS = (0, 1, 3, 4, 5, 6, 8, 9, 10, 11)
# So many texts with each of them among them, and so many texts kept whose answers differ.
LONG, KEPT = 5000, 20
# So many damaged texts of a listing.
DAMAGED = 4


def judged(driver, given):
    """Of each text the number of its refusal, or 0, and the bytes of its answer."""
    numbers = [checker.number(t) for t in given]
    accepted = [t for t, n in zip(given, numbers) if n == 0]
    listings = iter(records.answers(driver, b"".join(b"reset\n" + t + b"?listing\n" for t in accepted)))
    out = [(n, b"refused\t%d\n" % n if n else next(listings)) for n in numbers]
    assert next(listings, None) is None
    return out


class Program:
    """Runs a program on one text after the other; its input and output are files in memory."""

    def __init__(self, path):
        self.path = path
        self.files = [os.memfd_create(name, 0) for name in ("in", "out")]
        self.actions = [(os.POSIX_SPAWN_DUP2, f, k) for k, f in enumerate(self.files)]

    def __call__(self, text):
        """The bytes that it prints, and its status."""
        for f, content in zip(self.files, (text, b"")):
            os.ftruncate(f, 0)
            os.pwrite(f, content, 0)
            os.lseek(f, 0, os.SEEK_SET)
        child = os.posix_spawn(self.path, [self.path], {}, file_actions=self.actions)
        status = os.waitstatus_to_exitcode(os.waitpid(child, 0)[1])
        out = self.files[1]
        return os.pread(out, os.fstat(out).st_size, 0), status


def keep(path, text, why):
    """Leaves a text in the folder where the script was started."""
    with open(path, "wb") as f:
        f.write(text)
    print("%s: %s" % (path, why))


class Kind:
    """The counts of one kind of text."""

    def __init__(self, name, numbers=NUMBERS):
        self.name, self.numbers, self.counts, self.differ = name, numbers, collections.Counter(), 0

    def count(self, number, agrees, label, text, why):
        self.counts[number] += 1
        if not agrees:
            self.differ += 1
            if self.differ <= KEPT:
                keep("differs-" + label, text, why)

    def compare(self, program, given, answers, label):
        for k, (text, (number, want)) in enumerate(zip(given, answers)):
            got, status = program(text)
            why = "status %d, want %r, got %r" % (status, want[:60], got[:60])
            self.count(number, got == want and status == 0, "%s-%d" % (label, k), text, why)

    def read(self, reader, calls, label):
        """Calls that read a listing, by the library."""
        for k, call in enumerate(calls):
            number, record = listing.answer(*call)
            why = "want %d of type %d, counts %r, lengths %r" % (number, *call[1:])
            self.count(number, reader.agrees(call, number, record), "%s-%d" % (label, k), call[0], why)

    def show(self):
        refused = " ".join("%d:%d" % (n, c) for n, c in sorted(self.counts.items()) if n)
        print("kind\t%s\t%d\t%d\t%s\t%d" % (self.name, sum(self.counts.values()), self.counts[0], refused or "-", self.differ))

    def right(self):
        """Nothing differs, and in a long run every number was met."""
        missing = [n for n in self.numbers if not self.counts[n]] if self.counts.total() >= LONG else []
        if missing:
            print("%s: never seen: %s" % (self.name, missing))
        return not self.differ and not missing


def both(seed):
    """A seed's studies, and a damaged text of each."""
    studies, r = [t for _, t in texts.texts(seed)], records.Rng(seed ^ 0x5DEECE66D)
    return studies, [damage.damaged(r, t)[1] for t in studies]


def listings_of(r, given, answers):
    """The calls that read the listings of the accepted studies, and those of damaged listings."""
    calls = [readback.call_of(text, want) for text, (number, want) in zip(given, answers) if number == 0]
    return calls, [readback.damaged(r, call) for call in calls for _ in range(DAMAGED)]


def fuzz(out, seed, limit):
    driver, program = os.path.join(out, "driver"), Program(os.path.join(out, "weights"))
    reader = readback.Reader(os.path.join(out, "libpelmetsavory.so"))
    kinds, first, begun = (Kind("studies"), Kind("damaged texts")), seed, time.time()
    readers = Kind("listings of the program", (0,)), Kind("damaged, of the program", readback.NUMBERS)
    enough = (lambda: time.time() - begun >= float(limit[:-1])) if limit.endswith("s") else (lambda: kinds[0].counts.total() >= int(limit))
    while seed == first or not enough():
        texts_of = both(seed)
        answers = [judged(driver, given) for given in texts_of]
        for kind, given, told in zip(kinds, texts_of, answers):
            kind.compare(program, given, told, "%d-%s" % (seed, kind.name.split()[0]))
        calls = listings_of(records.Rng(seed ^ 0x5851F42D), texts_of[0], answers[0])
        for kind, given, label in zip(readers, calls, ("listings", "damaged-listings")):
            kind.read(reader, given, "%d-%s" % (seed, label))
        seed += 1
    print("studies: seeds %d to %d" % (first, seed - 1))
    for kind in kinds + readers:
        kind.show()
    return all([kind.right() for kind in kinds + readers])


def longest():
    """The study with the longest answer: 195 triplets at 21 points, 118,617 bytes."""
    s = texts.example()
    s.diag, s.type, s.f2 = 3, 4, [0x4000000000000000]
    s.points = [0x3FF0000000000000 + (k << 48) for k in range(21)]
    s.triplets = [[0, 0, 0]] * 195
    return s.text()


def stored(seed):
    """The generator's studies, those of examples/, the longest, damaged texts, and some that are hardly texts."""
    out = [t for _, t in texts.texts(seed)]
    small = [t for t in out if len(t) < 700]
    for name in ("small", "aluminium"):
        with open(os.path.join(here, "..", "..", "examples", name + ".study"), "rb") as f:
            out.append(f.read())
    r = records.Rng(seed + 1)
    out += [longest()] + [damage.damaged(r, r.pick(small))[1] for _ in range(400)]
    return out + [b"", b"\n", b"a" * 16384, b"a" * 16385, b"\n" * 16384, b"a" * 40000]


def corpus(driver, crate, seed):
    given = stored(seed)
    answers = judged(driver, given)
    assert max(len(a) for _, a in answers) == 118617
    records.write(crate, b"".join(b"%06d\n" % len(t) + t for t in given), b"".join(a for _, a in answers))
    counts = collections.Counter(n for n, _ in answers)
    assert sorted(counts) == sorted(NUMBERS)
    print("seed %d: %d texts, %d accepted, refused %s"
          % (seed, len(given), counts.pop(0), " ".join("%d:%d" % nc for nc in sorted(counts.items()))))


def valgrind(out, seed, count):
    program = os.path.join(out, "weights")
    command = ["valgrind", "-q", "--error-exitcode=9", "--max-stackframe=8388608", program]
    given = [t for two in zip(*both(seed)) for t in two]
    r, clean = records.Rng(seed), 0
    for _ in range(count):
        text = r.pick(given)
        plain = subprocess.run([program], input=text, stdout=subprocess.PIPE).stdout
        done = subprocess.run(command, input=text, capture_output=True)
        clean += done.returncode == 0 and not done.stderr and done.stdout == plain
    print("valgrind: %d of %d texts clean" % (clean, count))
    return clean == count


def main():
    a = sys.argv[1:]
    if len(a) == 4 and a[0] == "fuzz":
        return fuzz(a[1], int(a[2]), a[3])
    if len(a) in (3, 4) and a[0] == "corpus":
        return corpus(a[1], a[2], int(a[3]) if len(a) > 3 else records.SEED) is None
    if len(a) == 4 and a[0] == "valgrind":
        return valgrind(a[1], int(a[2]), int(a[3]))
    sys.exit(__doc__)


if __name__ == "__main__":
    sys.exit(0 if main() else 1)
