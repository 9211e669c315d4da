#!/usr/bin/env python3
"""Rods with one form demanded of each: `bench/rods.py FORM SEED N T FOLDER`, FORM one of line, circle and cylinder, writes a
frame file with the tolerance T in units, a points file of N points, and the form as numbers, which plain Rust reads in place
of frames. The same words give the same bytes.

A rod leads along (2, 3, 6). Of a line the points are those of its middle, of a cylinder those of its surface, and of a circle
those of one section; they are off by up to 1,000 units, so that a tolerance just below 2,000 takes many cells to reject.
"""
import math
import sys
from pathlib import Path

sys.path.insert(0, str(Path(__file__).resolve().parent))
from generate import Draws

DIRECTION = (2, 3, 6)
# Each form: the kind of its frame, the shape of its feature, its group, and half the rod's length and its radius in units.
FORMS = {
    "line": ("straightness", "axis", 0, 1_000_000, 0),
    "circle": ("circularity", "pin", 1, 0, 100_000),
    "cylinder": ("cylindricity", "pin", 0, 200_000, 100_000),
}
# Axes of circles and cylinders are looked for within 2^SHIFT units of the origin.
SHIFT = 12
NOISE = 1_000


def label(form):
    """The name of the one requirement."""
    return "f#1" if form == "circle" else "f"


def frame_file(form, tolerance):
    """The text of the frame file."""
    kind, shape, *_ = FORMS[form]
    lines = ["version = 1", f"shift = {SHIFT}", "", "[[feature]]", 'name = "rod"', f'shape = "{shape}"']
    lines += [f"direction = {[*DIRECTION]}", "point = [0, 0, 0]", "", "[[frame]]", 'name = "f"', f'kind = "{kind}"']
    return "\n".join([*lines, 'features = ["rod"]', f"tolerance = {tolerance}"]) + "\n"


def place(draws, half, radius):
    """A place of the rod: so far along, and so far off its axis."""
    along = draws.within(half)
    a, b = draws.within(1_000_000), draws.within(1_000_000)
    length = math.isqrt(a * a + b * b) or 1
    off = radius + draws.within(NOISE)
    a, b = off * a // length, off * b // length
    # (2, 3, 6), (3, -6, 2) and (6, 2, -3) are at right angles, and each is 7 long
    return (2 * along + 3 * a + 6 * b) // 7, (3 * along - 6 * a + 2 * b) // 7, (6 * along + 2 * a - 3 * b) // 7


def points_file(form, seed, n):
    """The text of the points file."""
    _, _, group, half, radius = FORMS[form]
    draws = Draws(seed)
    rows = ("rod,{},{},{},{}".format(group, *place(draws, half, radius)) for _ in range(n))
    return "\n".join(["feature,group,x,y,z", *rows]) + "\n"


def numbers_file(form, tolerance):
    """The form as numbers: its label, its direction and its own point, its shift and its tolerance."""
    return " ".join(map(str, ["form", label(form), form, *DIRECTION, 0, 0, 0, SHIFT, tolerance])) + "\n"


def write_rod(form, seed, n, tolerance, folder):
    """Writes f.toml, p.csv and f.toml.numbers."""
    frame_text, points_text = frame_file(form, tolerance), points_file(form, seed, n)
    numbers = numbers_file(form, tolerance)
    for name, text in (("f.toml", frame_text), ("p.csv", points_text), ("f.toml.numbers", numbers)):
        (Path(folder) / name).write_text(text)


if __name__ == "__main__":
    write_rod(sys.argv[1], *map(int, sys.argv[2:5]), sys.argv[5])
