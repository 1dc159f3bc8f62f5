"""What the scripts of the stored samples share: numbers by chance, records in blocks, and requests to the driver of the Rust.

The stored input of a replaying program is a row of blocks, each a line of six digits (its count of bytes) and those bytes: lines of
fields parted by one tab. The program's crate says what its records are.
"""
import collections
import math
import os
import struct
import subprocess
import sys

BLOCK = 65536
SEED = 20261115
# Whole numbers at the ends of 64 bits.
FAR = [2**63 - 1, -2**63, -2**63 + 1]


class Rng:
    """splitmix64: the same numbers on every machine."""

    def __init__(self, seed):
        self.state = seed % 2**64

    def next(self):
        self.state = (self.state + 0x9E3779B97F4A7C15) % 2**64
        z = self.state
        z = (z ^ (z >> 30)) * 0xBF58476D1CE4E5B9 % 2**64
        z = (z ^ (z >> 27)) * 0x94D049BB133111EB % 2**64
        return z ^ (z >> 31)

    def below(self, n):
        return self.next() % n

    def between(self, a, b):
        return a + self.below(b - a + 1)

    def unit(self):
        return (self.next() >> 11) / 2.0**53

    def pick(self, xs):
        return xs[self.below(len(xs))]

    def chance(self, p):
        return self.unit() < p

    def shuffled(self, xs):
        xs = list(xs)
        for i in range(len(xs) - 1, 0, -1):
            j = self.below(i + 1)
            xs[i], xs[j] = xs[j], xs[i]
        return xs


# ---- floats and fields

def bits(x):
    return struct.unpack(">Q", struct.pack(">d", x))[0]


def real(b):
    return struct.unpack(">d", struct.pack(">Q", b))[0]


def hexed(x):
    return "%016x" % bits(x)


def unhexed(field):
    return real(int(field, 16))


def up(x):
    return math.nextafter(x, math.inf)


def down(x):
    return math.nextafter(x, -math.inf)


def spelled(x):
    return hexed(x) if isinstance(x, float) else str(x)


def flat(rows):
    return [x for row in rows for x in row]


def line(*fields):
    """One record: a list stands for its count and its numbers, a float for the digits of its bits."""
    out = []
    for f in fields:
        if isinstance(f, (list, tuple)):
            out.append(str(len(f)))
            out += map(spelled, f)
        else:
            out.append(spelled(f))
    return "\t".join(out) + "\n"


def blocks(groups):
    """Groups of records, each kept whole, packed into blocks."""
    out, now = [], b""
    for g in groups:
        g = b"".join(r if isinstance(r, bytes) else r.encode() for r in g)
        assert len(g) <= BLOCK, len(g)
        if len(now) + len(g) > BLOCK:
            out.append(now)
            now = b""
        now += g
    if now:
        out.append(now)
    return b"".join(b"%06d\n" % len(b) + b for b in out)


# ---- the driver; its source says what it answers

def request(tag, *fields):
    return "\t".join([tag, *map(spelled, fields)])


def grid_request(grid):
    kind, mesh, addresses, gp_map = grid
    return [request("grid", kind, *mesh), request("addr", *addresses), request("map", *gp_map)]


def answers(driver, text):
    """The driver's answers to all that the text asks, each as its bytes."""
    out = subprocess.run([driver], input=text, stdout=subprocess.PIPE, check=True).stdout
    return out.split(b".\n")[:-1]


def ask(driver, requests):
    """The answers to request lines, each a list of lines of fields."""
    told = answers(driver, "".join(r + "\n" for r in requests).encode())
    assert len(told) == sum(r.startswith("?") for r in requests)
    return [[l.split("\t") for l in t.decode().splitlines()] for t in told]


def tables(driver):
    """The four built-in tables, each as 288 numbers."""
    told = ask(driver, [request("?table", d) for d in range(4)])
    out = [[int(x) for x in t[0]] for t in told]
    assert [len(t) for t in out] == [288] * 4
    return out


# ---- a sample

class Cases:
    """Groups of records. A record that needs the Rust's answer is made by `finish`."""

    def __init__(self, driver, names):
        self.driver, self.names = driver, names
        self.groups, self.requests, self.waiting = [], [], []
        self.counts = {kind: [] for kind in names}
        self.seen = collections.Counter()

    def put(self, record):
        self.groups[-1].append(record)

    def wait(self, requests, make):
        """A record that `make` makes of the answer."""
        self.requests += ["reset"] + requests
        self.waiting.append((self.groups[-1], len(self.groups[-1]), make))
        self.put(None)

    def finish(self):
        for (group, i, make), answer in zip(self.waiting, ask(self.driver, self.requests), strict=True):
            group[i] = make(answer)

    def write(self, crate, seed):
        """The program's input and output; what the sample holds is printed."""
        self.finish()
        expected = "".join(summary(name, self.counts[kind]) for kind, name in self.names.items())
        write(crate, blocks(self.groups), expected.encode())
        print("seed", seed)
        print(expected, end="")
        for what in sorted(self.seen):
            print(what, self.seen[what])


def summary(name, counts):
    """The line that a program prints for a kind of case; counts: refusal number (0 accepted) of each case."""
    refused = ["%d:%d" % (n, counts.count(n)) for n in range(1, 30) if n in counts]
    return "\t".join([name, "cases", str(len(counts)), "agree", str(len(counts)), "differ", "0", "refused"] + refused) + "\n"


def write(crate, stdin, stdout):
    for name, content in (("stdin", stdin), ("stdout", stdout)):
        with open(os.path.join(crate, name), "wb") as f:
            f.write(content)


def main(doc, make):
    """The command DRIVER CRATE_FOLDER [SEED] of a sample."""
    if not 3 <= len(sys.argv) <= 4:
        sys.exit(doc)
    make(sys.argv[1], sys.argv[2], int(sys.argv[3]) if len(sys.argv) > 3 else SEED)
