#!/usr/bin/env python3
"""Writes a study of fcc aluminium: the phonons that a phonon at one grid point can decay into or meet.

    aluminium.py > aluminium.study

The model: each atom is bound to its twelve nearest neighbours by springs of 21 N/m, which puts the highest frequency near 9.7 THz as
measured. One atom a cell, so three bands. Grid of 3 by 3 by 3 points with every image of a point that lies as near to the origin as
the nearest (kind 2). Type 2: frequencies in THz at all 27 triplets of one grid point whose wave vectors add up to a reciprocal lattice
vector, and eight frequency points.
"""
import itertools
import math
import struct
import sys

MESH = 3
SPRING = 21.0                                   # N/m
MASS = 26.9815 * 1.66053907e-27                 # kg
THZ = 1e12
POINTS = [1.0, 3.0, 5.0, 7.0, 9.0, 11.0, 13.0, 15.0]

# Neighbours in units of half the cubic cell, and the reciprocal cell's vectors in units of one over the cubic cell.
NEIGHBOURS = [v for v in itertools.product((-1, 0, 1), repeat=3) if sum(map(abs, v)) == 2]
RECIPROCAL = [(-1, 1, 1), (1, -1, 1), (1, 1, -1)]
DIAGONALS = [(1, 1, 1), (-1, 1, 1), (1, -1, 1), (1, 1, -1)]


def cartesian(address):
    """A grid address as a vector, in units of one over the cubic cell times the mesh."""
    return [sum(address[k] * RECIPROCAL[k][i] for k in range(3)) for i in range(3)]


def norm2(v):
    return sum(x * x for x in v)


def eigenvalues(a):
    """Of a symmetric 3 by 3 matrix, by Jacobi's rotations, ascending."""
    a = [row[:] for row in a]
    for _ in range(60):
        p, q = max(((0, 1), (0, 2), (1, 2)), key=lambda pq: abs(a[pq[0]][pq[1]]))
        if a[p][q] == 0.0:
            break
        angle = 0.5 * math.atan2(2.0 * a[p][q], a[q][q] - a[p][p])
        c, s = math.cos(angle), math.sin(angle)
        for k in range(3):
            a[k][p], a[k][q] = c * a[k][p] - s * a[k][q], s * a[k][p] + c * a[k][q]
        for k in range(3):
            a[p][k], a[q][k] = c * a[p][k] - s * a[q][k], s * a[p][k] + c * a[q][k]
    return sorted(a[i][i] for i in range(3))


def frequencies(address, mesh=MESH):
    """The three frequencies in THz at a grid point."""
    if address == (0, 0, 0):
        return [0.0, 0.0, 0.0]
    q = [x / mesh for x in cartesian(address)]
    d = [[0.0] * 3 for _ in range(3)]
    for n in NEIGHBOURS:
        phase = math.pi * sum(q[i] * n[i] for i in range(3))
        for i in range(3):
            for j in range(3):
                d[i][j] += SPRING / MASS * (1.0 - math.cos(phase)) * n[i] * n[j] / 2.0
    return [math.sqrt(max(x, 0.0)) / (2.0 * math.pi * THZ) for x in eigenvalues(d)]


def grid(mesh=MESH):
    """For each grid index the addresses that are nearest to the origin, group after group; and where each group starts."""
    addresses, starts = [], [0]
    for r2, r1, r0 in itertools.product(range(mesh), repeat=3):
        images = [tuple(r - mesh * k for r, k in zip((r0, r1, r2), shift)) for shift in itertools.product((-1, 0, 1, 2), repeat=3)]
        least = min(norm2(cartesian(a)) for a in images)
        addresses += sorted(a for a in images if norm2(cartesian(a)) == least)
        starts.append(len(addresses))
    return addresses, starts


def shortest_diagonal():
    """The number of the table."""
    lengths = [norm2(cartesian(d)) for d in DIAGONALS]
    return lengths.index(min(lengths))


def triplets_of(index, addresses, starts, mesh=MESH):
    """All triplets of the grid point at a grid index: of the images, those whose sum is shortest, the first of them."""
    def group(address):
        r0, r1, r2 = (x % mesh for x in address)
        i = (r2 * mesh + r1) * mesh + r0
        return range(starts[i], starts[i + 1])

    first = starts[index]
    triplets = []
    for i in range(mesh**3):
        second = addresses[starts[i]]
        third = tuple(-a - b for a, b in zip(addresses[first], second))
        triplets.append(min(
            ((first, g1, g2) for g1 in group(second) for g2 in group(third)),
            key=lambda t: (norm2(cartesian([sum(addresses[g][k] for g in t) for k in range(3)])), t)))
    return triplets


def main():
    addresses, starts = grid()

    def hexadecimal(x):
        return struct.pack(">d", x).hex()

    bands = [x for a in addresses for x in frequencies(a)]
    rows = [("grid", 2, MESH, MESH, MESH), ("diag", shortest_diagonal()), ("type", 2), ("bands", 3, 3)]
    rows += [("addr",) + a for a in addresses]
    rows += [("map", s) for s in starts]
    rows += [("f1", hexadecimal(x)) for x in bands]
    rows += [("f2", hexadecimal(x)) for x in bands]
    rows += [("point", hexadecimal(x)) for x in POINTS]
    rows += [("triplet",) + t for t in triplets_of(1, addresses, starts)]
    sys.stdout.write("".join("\t".join(map(str, r)) + "\n" for r in rows))


if __name__ == "__main__":
    main()
