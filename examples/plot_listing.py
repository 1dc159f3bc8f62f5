#!/usr/bin/env python3
"""Plots a stored listing: how strong the processes at each frequency point are, and how many of them carry scattering.

    plot_listing.py aluminium.listing PICTURE.png --type 2 --counts 27 8 3 3 --frequencies 1 3 5 7 9 11 13 15 --unit THz

The listing is all that is read. It does not say its type, its counts (triplets, points, bands of the second point, bands of the third) and its
frequencies: those are told. Without --frequencies the axis has the numbers of the points. Needs the Python package (foreign/README.md) and
matplotlib.
"""
import argparse
import os
import sys

import numpy as np

import pelmetsavory as pm

OUTPUTS = {  # of each type its outputs, at which sum or difference of the pair's frequencies they lie, and what happens there
    2: ("g2, at f1 + f2: decays into the pair", "g0 - g1, at f2 - f1 and f1 - f2: meets one of the pair"),
    3: ("g2, at f1 + f2: decays into the pair", "g0 - g1, at f2 - f1 and f1 - f2: meets one of the pair", "(g0 + g1) + g2: either"),
    4: ("g0, at f2 - f1",),
}


def strengths(weights):
    """The magnitudes of each output (outputs, points), added over triplets and bands. (Where each pair is listed in both orders, g0 - g1 itself adds
    up to zero.)"""
    return np.abs(weights).sum((1, 3, 4))


def counts_at_points(weights, flags):
    """How many entries of each point (points,) have a weight other than zero, and how many have flag 0."""
    return (weights != 0).any(0).sum((0, 2, 3)), (flags == 0).sum((0, 2, 3))


def plot(weights, flags, tp_type, frequencies, unit, title, path):
    """Strengths above, counts below, over the same axis."""
    import matplotlib

    matplotlib.use("Agg")
    import matplotlib.pyplot as plt

    points = weights.shape[2]
    x = np.arange(points) if frequencies is None else np.array(frequencies)
    order = np.argsort(x, kind="stable")
    figure, (above, below) = plt.subplots(2, sharex=True, figsize=(8, 6.5), height_ratios=[3, 2], layout="constrained")
    for values, words, line in zip(strengths(weights), OUTPUTS[tp_type], ("o-", "s--", "^:")):
        above.plot(x[order], values[order], line, label=words)
    above.set(ylabel=f"sum of |weights| (1/{unit or 'frequency'})", title=title, ylim=(0, None))
    above.legend()
    entries, width = flags[:, 0].size, 0.35 * (np.diff(np.unique(x)).min() if len(np.unique(x)) > 1 else 1)
    carry, inside = counts_at_points(weights, flags)
    below.bar(x - width / 2, 100 * inside / entries, width, label="flag 0: the point lies in a box", color="tab:gray", alpha=0.5)
    below.bar(x + width / 2, 100 * carry / entries, width, label="carries scattering: a weight other than 0", color="tab:green")
    below.set(ylabel=f"share of {entries:,} entries (%)", ylim=(0, 100))
    below.set_xlabel("number of the frequency point" if frequencies is None else f"frequency ({unit})" if unit else "frequency")
    below.set_xticks(np.unique(x)) if points <= 20 else None
    below.legend(loc="lower center", bbox_to_anchor=(0.5, 1), ncol=2, frameon=False)
    for axes in above, below:
        axes.grid(alpha=0.3)
        axes.set_axisbelow(True)
    figure.savefig(path, dpi=100)


def main():
    parser = argparse.ArgumentParser(description=__doc__, formatter_class=argparse.RawDescriptionHelpFormatter)
    parser.add_argument("listing", help="what the program `weights` printed, as a file")
    parser.add_argument("picture", help="the picture that is written, a .png")
    parser.add_argument("--type", type=int, required=True, help="2, 3 or 4")
    parser.add_argument("--counts", type=int, nargs=4, required=True, metavar=("TRIPLETS", "POINTS", "B1", "B2"))
    parser.add_argument("--frequencies", type=float, nargs="+", metavar="F", help="of each point its frequency")
    parser.add_argument("--unit", help="of the frequencies, such as THz")
    given = parser.parse_args()
    triplets, points, b1, b2 = given.counts
    if given.frequencies is not None and len(given.frequencies) != points:
        parser.error(f"{points} points have {points} frequencies, not {len(given.frequencies)}")
    with open(given.listing, "rb") as f:
        text = f.read()
    try:
        weights, flags = pm.read_listing(text, given.type, given.counts)
    except pm.Refused as refusal:
        sys.exit(f"{given.listing}: {refusal}")
    if not triplets:
        sys.exit(f"{given.listing}: without triplets there is nothing to plot")
    carry, inside = counts_at_points(weights, flags)
    for k, (sums, open_, flagged) in enumerate(zip(strengths(weights).T, carry, inside)):
        print(f"point {k}:", *(f"{x:.6g}" for x in sums), f"- {open_} of {flags[:, 0].size} entries carry scattering, {flagged} have flag 0")
    title = f"{os.path.basename(given.listing)}: {triplets:,} triplets, {points:,} points, {b1} by {b2} bands, type {given.type}"
    plot(weights, flags, given.type, given.frequencies, given.unit, title, given.picture)


if __name__ == "__main__":
    main()
