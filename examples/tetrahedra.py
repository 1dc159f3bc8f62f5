#!/usr/bin/env python3
"""Draws the six tetrahedra of a cell around a main diagonal, as the library's generator gives them.

    tetrahedra.py PICTURE.svg [DIAGONAL]

The diagonal is 0 to 3, for 1,1,1; -1,1,1; 1,-1,1; 1,1,-1, and 0 where none is given. Six ways lead from one of its ends to the other along three
different edges of the cell; the four places that a way passes are the corners of a tetrahedron. `docs/tetrahedra.svg` is the picture of diagonal 0.
Needs the Python package (foreign/README.md), and nothing else.
"""
import argparse
import math

import pelmetsavory as pm

DIAGONALS = (1, 1, 1), (-1, 1, 1), (1, -1, 1), (1, 1, -1)
AXES = "xyz"
RIGHT, DOWN, AWAY = (108, 76, 0), (20, -28, -127), (-73, 104, -34)  # an edge of the cell along x, y, z: on the page, and away from the eye
VERTICES = [[x, y, z] for x in (0, 1) for y in (0, 1) for z in (0, 1)]
FAR, NEAR = [int(x > 0) for x in AWAY], [int(x < 0) for x in AWAY]  # the vertices that lie behind all others and before them
LIGHT = (2, -3, 4)  # where the light comes from
INK, GREY, PALE, RED, COLOURS = "#1f2933", "#52606d", "#9aa5b1", "#d1242f", ("#1368b0", "#18794e", "#8a3ffc")
TINTS = (244, 196, 96), (150, 205, 160), (140, 190, 235), (240, 160, 150), (195, 165, 230), (165, 210, 215)
WIDTH, HEIGHT = 1112, 640


def ways(number):
    """The six ways of a diagonal, each its order of axes and its four places in the unit cell: of the generated rows those with the first place at
    zero, whose corners all lie from there towards the other end."""
    diagonal, found = DIAGONALS[number], []
    for row in pm.generated_relative_grid_address()[number].tolist():
        if all(x in (0, d) for corner in row for x, d in zip(corner, diagonal)):
            row = sorted(row, key=lambda corner: sum(map(abs, corner)))
            places = [[x + (d < 0) for x, d in zip(corner, diagonal)] for corner in row]
            axes = [next(k for k in range(3) if a[k] != b[k]) for a, b in zip(places, places[1:])]
            found.append((axes, places))
    return sorted(found)


def dot(a, b):
    return sum(x * y for x, y in zip(a, b))


def less(a, b):
    return [x - y for x, y in zip(a, b)]


def named(place):
    return ",".join(map(str, place))


class Panel:
    """A part of the page, where the cell's middle lies at a point."""

    def __init__(self, x, y, size=1.0):
        self.x, self.y, self.size, self.lines = x, y, size, []

    def at(self, place):
        """Where a place of the cell is on the page."""
        p = [c - 0.5 for c in place]
        return self.x + self.size * dot(p, RIGHT), self.y + self.size * dot(p, DOWN)

    def line(self, a, b, colour, width, more=""):
        (x1, y1), (x2, y2) = self.at(a), self.at(b)
        self.lines.append(f'<line x1="{x1:.1f}" y1="{y1:.1f}" x2="{x2:.1f}" y2="{y2:.1f}" stroke="{colour}" stroke-width="{width}"{more}/>')

    def arrow(self, a, b, colour, width=3.0):
        (x1, y1), (x2, y2) = self.at(a), self.at(b)
        u, v = x2 - x1, y2 - y1
        length = math.sqrt(u * u + v * v)
        u, v = u / length, v / length
        tip, back, side = 5, 17, 5.5
        p, q = (x2 - back * u, y2 - back * v), (x2 - tip * u, y2 - tip * v)
        head = (q, (p[0] - side * v, p[1] + side * u), (p[0] + side * v, p[1] - side * u))
        self.lines.append(f'<line x1="{x1 + 4 * u:.1f}" y1="{y1 + 4 * v:.1f}" x2="{p[0]:.1f}" y2="{p[1]:.1f}" stroke="{colour}" stroke-width="{width}"/>')
        self.lines.append(f'<polygon points="{points(head)}" fill="{colour}"/>')

    def words(self, x, y, text, size=12, anchor="middle", colour=INK, more=""):
        self.lines.append(f'<text x="{x:.1f}" y="{y:.1f}" font-size="{size}" text-anchor="{anchor}" fill="{colour}"{more}>{text}</text>')

    def label(self, place):
        """The name of a vertex, on its outer side: beside the drawing, and of the two vertices in its middle below and above."""
        (x, y), halo = self.at(place), ' stroke="white" stroke-width="3" stroke-linejoin="round" paint-order="stroke"'
        if place in (FAR, NEAR):
            self.words(x, y + (17 if place == FAR else -9), named(place), 12, "middle", INK, halo)
        else:
            right, low = x > self.x, y > self.y
            self.words(x + (7 if right else -7), y + (15 if low else -6), named(place), 12, "start" if right else "end", INK, halo)

    def spot(self, place, colour=INK):
        x, y = self.at(place)
        self.lines.append(f'<circle cx="{x:.1f}" cy="{y:.1f}" r="3.6" fill="{colour}"/>')

    def cell(self, wanted=lambda a, b: True):
        """The edges of the cell that are wanted; those behind are dashed."""
        for a in VERTICES:
            for b in VERTICES:
                if a < b and sum(map(abs, less(a, b))) == 1 and wanted(a, b):
                    self.line(a, b, PALE, 1.2, ' stroke-dasharray="4 4"' if FAR in (a, b) else "")

    def solid(self, axes, places, tint, opacity, arrows):
        """A tetrahedron: the faces and edges that are turned away, and then those before them. Edges are the way, the diagonal and two more."""
        faces = []
        for k in range(4):
            a, b, c = places[:k] + places[k + 1 :]
            (p, q, r), (s, t, w) = less(b, a), less(c, a)
            normal = [q * w - r * t, r * s - p * w, p * t - q * s]
            if dot(normal, less(places[k], a)) > 0:
                normal = [-x for x in normal]
            lit = dot(normal, LIGHT) / math.sqrt(dot(normal, normal) * dot(LIGHT, LIGHT))
            shade = "#%02x%02x%02x" % tuple(round(min(255, c * (0.92 + 0.16 * lit))) for c in tint)
            faces.append((dot(normal, AWAY) < 0, f'<polygon points="{points(map(self.at, (a, b, c)))}" fill="{shade}" fill-opacity="{opacity}"/>'))
        for front in (False, True):
            self.lines += [drawn for before, drawn in faces if before == front]
            for i, j in ((0, 2), (1, 3), (0, 3), (0, 1), (1, 2), (2, 3)):
                if front != any(faces[k][0] for k in range(4) if k not in (i, j)):
                    continue  # an edge is before where one of its two faces is
                if (i, j) == (0, 3):
                    self.line(places[i], places[j], RED, 3)
                elif j == i + 1 and arrows:
                    self.arrow(places[i], places[j], COLOURS[axes[i]])
                else:
                    self.line(places[i], places[j], COLOURS[axes[i]] if j == i + 1 else GREY, 2 if j == i + 1 else 1.1)


def points(corners):
    return " ".join(f"{x:.1f},{y:.1f}" for x, y in corners)


def coloured(axes):
    """The order of the axes, each in its colour."""
    return ", ".join(f'<tspan fill="{COLOURS[k]}">{AXES[k]}</tspan>' for k in axes)


def whole_cell(panel, start, end):
    """The cell with its diagonal, and the three axes."""
    panel.cell()
    for k in range(3):
        zero, one = [0, 0, 0], [int(j == k) for j in range(3)]
        panel.arrow(zero, one, COLOURS[k])
        x, y = panel.at([c / 2 for c in one])
        panel.words(x + (0, 5, -10)[k], y + (20, 15, 4)[k], AXES[k], 17, "middle", COLOURS[k], ' font-style="italic" font-weight="bold"')
    panel.line(start, end, RED, 3)
    for place in VERTICES:
        panel.spot(place, RED if place in (start, end) else PALE)
        panel.label(place)


def one_way(panel, axes, places, tint):
    """A tetrahedron in the cell: the way in arrows, the diagonal, the four places."""
    panel.cell(lambda a, b: NEAR not in (a, b))
    panel.solid(axes, places, tint, 0.5, True)
    panel.cell(lambda a, b: NEAR in (a, b) and not (a in places and b in places))
    for place in places:
        panel.spot(place, RED if place in (places[0], places[3]) else INK)
        panel.label(place)


def apart(panel, found):
    """All six, each moved away from the diagonal, the farthest first."""
    moved = []
    for (axes, places), tint in zip(found, TINTS):
        step = [sum(p[k] for p in places) / 4 - 0.5 for k in range(3)]
        moved.append((-dot(step, AWAY), axes, [[x + 1.5 * s for x, s in zip(p, step)] for p in places], tint))
    for _, axes, places, tint in sorted(moved):
        panel.solid(axes, places, tint, 0.8, False)


def picture(number):
    """The SVG, as text."""
    found = ways(number)
    start, end = found[0][1][0], found[0][1][3]
    diagonal = named(DIAGONALS[number])
    head = Panel(0, 0)
    head.words(24, 38, f"The six tetrahedra around the main diagonal {diagonal}", 21, "start", INK, ' font-weight="bold"')
    head.words(24, 62, f"Six ways lead from {named(start)} to {named(end)} along three different edges. The four places that a way passes are the corners of a "
               "tetrahedron.", 13.5, "start")
    columns, rows = (148, 420, 692, 964), (202, 478)
    panels = [head, Panel(columns[0], rows[0]), Panel(columns[0], rows[1], 0.78)]
    whole_cell(panels[1], start, end)
    panels[1].words(columns[0], rows[0] + 128, f'the cell, its edges and its <tspan fill="{RED}">diagonal</tspan>', 14)
    apart(panels[2], found)
    panels[2].words(columns[0], rows[1] + 128, "all six, moved apart", 14)
    for n, ((axes, places), tint) in enumerate(zip(found, TINTS)):
        panel = Panel(columns[1 + n % 3], rows[n // 3])
        one_way(panel, axes, places, tint)
        panel.words(panel.x, panel.y + 128, coloured(axes), 18, "middle", INK, ' font-weight="bold"')
        panels.append(panel)
    lines = [f'<svg xmlns="http://www.w3.org/2000/svg" viewBox="0 0 {WIDTH} {HEIGHT}" width="{WIDTH}" height="{HEIGHT}" font-family="Helvetica, Arial, sans-serif">']
    lines.append(f"<title>The six tetrahedra of a cell around its main diagonal {diagonal}</title>")
    lines.append(f'<rect width="{WIDTH}" height="{HEIGHT}" fill="white"/>')
    return "\n".join(lines + [line for panel in panels for line in panel.lines] + ["</svg>"]) + "\n"


def diagonal_number(given):
    if given not in ("0", "1", "2", "3"):
        raise argparse.ArgumentTypeError(f"0, 1, 2 or 3 is wanted, not {given!r}")
    return int(given)


def main():
    parser = argparse.ArgumentParser(description=__doc__, formatter_class=argparse.RawDescriptionHelpFormatter)
    parser.add_argument("picture", metavar="PICTURE.svg", help="the picture that is written")
    parser.add_argument("diagonal", metavar="DIAGONAL", nargs="?", type=diagonal_number, default=0, help="0 to 3; 0 where none is given")
    given = parser.parse_args()
    for axes, places in ways(given.diagonal):
        print(", ".join(AXES[k] for k in axes) + ":", " - ".join(map(named, places)))
    with open(given.picture, "w", encoding="utf-8", newline="\n") as f:
        f.write(picture(given.diagonal))


if __name__ == "__main__":
    main()
