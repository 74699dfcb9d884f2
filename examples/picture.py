#!/usr/bin/env python3
"""Draws the ellipses of a problem of order 2 and the box that the program gives them, as SVG.

    target/bin/judge < examples/ellipse.summary | python3 examples/picture.py examples/ellipse.txt

The argument is the problem's text form, and standard input has what the program printed for it; examples/picture runs both. The ellipses
are those of the eight matrices at the ends of the bounds, each with the four pairs of linear terms at their ends; the box comes from the
program's `side` lines.
"""

import itertools
import math
import os
import sys

WIDTH = 400
MARGIN = 40
TURNS = 72


def problem(path):
    """The numbers of a text form: low, high, both ends of the linear terms, limit, centre."""
    words = []
    for line in open(path, encoding="utf-8"):
        words += line.split("#")[0].split()
    numbers = lambda name, count: [int(word) for word in words[words.index(name) + 1 :][:count]]
    ends = [numbers(name if name in words else "linear", 2) for name in ("linear_low", "linear_high")]
    return numbers("low", 4), numbers("high", 4), ends, numbers("limit", 1)[0], numbers("centre", 2)


def ellipse(m11, m12, m22, a, limit):
    """Points of the rim of x'Mx + 2a'x = limit."""
    det = m11 * m22 - m12 * m12
    middle = (-(m22 * a[0] - m12 * a[1]) / det, -(m11 * a[1] - m12 * a[0]) / det)
    radius = math.sqrt(limit - a[0] * middle[0] - a[1] * middle[1])
    root = math.sqrt(m11)
    below = m12 / root
    last = math.sqrt(m22 - below * below)
    for k in range(TURNS):
        angle = 2 * math.pi * k / TURNS
        y = radius * math.sin(angle) / last
        x = (radius * math.cos(angle) - below * y) / root
        yield middle[0] + x, middle[1] + y


def main():
    if sys.argv[1:] == ["--help"]:
        print(__doc__, end="")
        return
    if len(sys.argv) != 2 or not os.path.isfile(sys.argv[1]):
        print("picture.py: it takes the file of a problem's text form; picture.py --help says more", file=sys.stderr)
        sys.exit(2)
    low, high, ends, limit, centre = problem(sys.argv[1])
    sides = [[int(word) for word in line.split()[1:]] for line in sys.stdin if line.startswith("side ")]
    if len(sides) != 2:
        sys.exit("picture: the program gave no box of order 2")
    (left, right), (bottom, top) = sides
    scale = (WIDTH - 2 * MARGIN) / (right - left)
    height = round((top - bottom) * scale) + 2 * MARGIN
    place = lambda x, y: (MARGIN + (x - left) * scale, height - MARGIN - (y - bottom) * scale)
    point = lambda x, y: "%.1f,%.1f" % place(x, y)
    print(f'<svg xmlns="http://www.w3.org/2000/svg" viewBox="0 0 {WIDTH} {height}" width="{WIDTH}" height="{height}" font-family="sans-serif" font-size="13">')
    print(f'<rect width="{WIDTH}" height="{height}" fill="white"/>')
    x, y = place(left, top)
    print(f'<rect x="{x:.1f}" y="{y:.1f}" width="{(right - left) * scale:.1f}" height="{(top - bottom) * scale:.1f}" fill="#eef3fb" stroke="#2b5c9e" stroke-width="2"/>')
    both = (low[0], high[0]), (low[1], high[1]), (low[3], high[3]), *zip(*ends)
    for m11, m12, m22, *a in sorted(set(itertools.product(*both))):
        rim = " ".join(point(*p) for p in ellipse(m11, m12, m22, a, limit))
        print(f'<polygon points="{rim}" fill="#f4b942" fill-opacity="0.05" stroke="#b5761b" stroke-width="0.7"/>')
    x, y = place(*centre)
    print(f'<circle cx="{x:.1f}" cy="{y:.1f}" r="4" fill="#2b5c9e"/>')
    print(f'<text x="{x + 8:.1f}" y="{y - 8:.1f}" fill="#2b5c9e">centre ({centre[0]}, {centre[1]})</text>')
    for label, at, anchor in (
        (f"{left}", place(left, bottom), "middle"),
        (f"{right}", place(right, bottom), "middle"),
    ):
        print(f'<text x="{at[0]:.1f}" y="{at[1] + 20:.1f}" text-anchor="{anchor}">{label}</text>')
    for label, at in ((f"{bottom}", place(left, bottom)), (f"{top}", place(left, top))):
        print(f'<text x="{at[0] - 8:.1f}" y="{at[1] + 5:.1f}" text-anchor="end">{label}</text>')
    print("</svg>")


main()
