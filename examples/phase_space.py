#!/usr/bin/env python3
"""Plots the phase space of three-phonon processes in fcc aluminium: how many carry scattering, triplet by triplet.

    phase_space.py PICTURE.png

The model of aluminium.py on a grid of 10 by 10 by 10 points. The phonons are the three at one grid point, q; each of its 1,000 triplets
(q, q', q'') has 27 entries, one for each frequency at q and pair of bands at q' and q''. An entry is open where one of its weights is other
than zero: the phonon decays into the pair, or meets one of it. Needs the Python package (foreign/README.md) and matplotlib.
"""
import sys

import numpy as np

import aluminium as al
import pelmetsavory as pm

MESH = 10
POINT = 4  # the grid index of q


def sheet():
    """The weights of all triplets of q, at its own three frequencies; and the addresses of the grid."""
    addresses, starts = al.grid(MESH)
    triplets = al.triplets_of(POINT, addresses, starts, MESH)
    f = np.array([al.frequencies(a, MESH) for a in addresses])
    table = pm.all_relative_grid_address()[al.shortest_diagonal()]
    study = pm.Study(pm.Grid(2, [MESH] * 3, addresses, starts), table, 2, f, f, points=f[triplets[0][0]], triplets=triplets)
    made = pm.Sheet(study)
    made.carry_on(0)
    return made, np.array(addresses)


def plot(made, addresses, path):
    """The open count of each triplet over the length of q'; triplets that share both are one spot, whose area tells how many."""
    import matplotlib

    matplotlib.use("Agg")
    import matplotlib.pyplot as plt

    counts, entries = made.open_counts(), made.flags[0].size
    q = lambda point: np.array(al.cartesian(addresses[point])) / MESH
    lengths = [np.linalg.norm(q(second)) for _, second, _ in made.study.triplets]
    spots, times = np.unique(np.column_stack([np.round(lengths, 9), counts]), axis=0, return_counts=True)
    figure, axes = plt.subplots(figsize=(8, 5), layout="constrained")
    axes.scatter(spots[:, 0], spots[:, 1], s=6 * times, alpha=0.6, linewidths=0)
    axes.set(xlabel="length of q' (1 / cubic cell); the area of a spot: how many triplets", ylabel=f"open entries of a triplet, of {entries}", ylim=(-0.7, None),
             title=f"fcc aluminium, q = ({', '.join(f'{x:g}' for x in q(made.study.triplets[0, 0]))}): "
                   f"{counts.sum():,} of {counts.size * entries:,} entries carry scattering")
    figure.savefig(path, dpi=100)


def main():
    if len(sys.argv) != 2:
        sys.exit(__doc__)
    made, addresses = sheet()
    counts = made.open_counts()
    print(f"{len(counts)} triplets, {counts.sum()} of {made.flags.size} entries open, {(made.flags == 0).sum()} have flag 0")
    plot(made, addresses, sys.argv[1])


if __name__ == "__main__":
    main()
