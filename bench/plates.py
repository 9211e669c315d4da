#!/usr/bin/env python3
"""Plates with their drawing's demands: `bench/plates.py SEED N FOLDER` writes a frame file, a points file of some N points, and
the conditions of each group as numbers, which plain Rust reads in place of frames. The same words give the same bytes.

The bottom is datum A, the back B and the left side C. A position of four holes and a profile of the top are one group, and the
parallelism of the top and the perpendicularity of the right side are one each. One hole is out of place, so that the first
group is rejected; both others are accepted.
"""
import collections
import sys
from pathlib import Path

sys.path.insert(0, str(Path(__file__).resolve().parent.parent / "tests"))
from generate import Draws
from slow import frames, kinds

FEATURES = [
    ("base", "plane", (0, 0, 1), (0, 0, 0)),
    ("back", "plane", (0, 1, 0), (0, 0, 0)),
    ("left", "plane", (1, 0, 0), (0, 0, 0)),
    ("top", "plane", (0, 0, -1), (0, 0, 100_000)),
    ("right", "plane", (-1, 0, 0), (2_000_000, 0, 0)),
    *((f"h{i + 1}", "axis", (0, 0, 1), (200_000 + 1_600_000 * (i % 2), 200_000 + 600_000 * (i // 2), 0)) for i in range(4)),
]
SIZE = (2_000_000, 1_000_000, 100_000)

FRAMES = [
    ("pos", "position", ["h1", "h2", "h3", "h4"], 100),
    ("top", "profile", ["top"], 60),
    ("par", "parallelism", ["top"], 40),
    ("square", "perpendicularity", ["right"], 40),
]
DATUMS = {"pos": "ABC", "top": "ABC", "par": "A", "square": "AB"}


def frame_file():
    """The text of the frame file."""
    lines = ["version = 1", "turn = 12", "shift = 8"]
    for name, shape, direction, point in FEATURES:
        lines += ["", "[[feature]]", f'name = "{name}"', f'shape = "{shape}"', f"direction = {[*direction]}", f"point = {[*point]}"]
    for name, feature in zip("ABC", ("base", "back", "left")):
        lines += ["", "[[datum]]", f'name = "{name}"', f'feature = "{feature}"', "slack = 10"]
    for name, kind, features, tolerance in FRAMES:
        names = ", ".join(f'"{it}"' for it in features)
        datums = ", ".join(f'"{it}"' for it in DATUMS[name])
        lines += ["", "[[frame]]", f'name = "{name}"', f'kind = "{kind}"', f"features = [{names}]"]
        lines += [f"tolerance = {tolerance}", f"datums = [{datums}]"]
    return "\n".join(lines) + "\n"


def on_plane(draws, direction, point, noise):
    """A place of the plate on one of its sides, off by the noise into the material."""
    return [it + d * noise if d else draws.next() % SIZE[axis] for axis, (it, d) in enumerate(zip(point, direction))]


# How the points are shared out, in parts of 16: the sides, and the four holes together.
SHARES = {"base": 3, "back": 2, "left": 1, "top": 4, "right": 2, "h1": 1, "h2": 1, "h3": 1, "h4": 1}
# How far, in units, the points of the sides are off.
ROUGH = {"base": 6, "back": 6, "left": 6, "top": 20, "right": 30}
# How far one hole is out of place along x.
GAP = 60


def rows_of(draws, n):
    """The points by features: the groups 1 to 3 of a datum feature are its contact groups."""
    for name, shape, direction, point in FEATURES:
        for at in range(max(4, n * SHARES[name] // 16)):
            group = at % 3 + 1 if name in ("base", "back", "left") else 0
            if shape == "plane":
                x, y, z = on_plane(draws, direction, point, 0 if at < 3 else draws.next() % (ROUGH[name] + 1))
            else:
                x, y, z = point[0] + draws.within(10), point[1] + draws.within(10), draws.next() % SIZE[2]
                x += GAP * (name == "h4")
            yield name, group, x, y, z


def points_file(seed, n):
    """The text of the points file."""
    rows = rows_of(Draws(seed), n)
    return "\n".join(["feature,group,x,y,z", *("{},{},{},{},{}".format(*it) for it in rows)]) + "\n"


Point = collections.namedtuple("Point", "number feature group at")


def condition_line(it):
    """A condition as numbers."""
    def or_none(value):
        return "-" if value is None else value

    word, low, high = it.demand
    bounds = f"{or_none(low)} {or_none(high)}" if word == "within" else high
    group = "-" if it.group is None else it.group[0].group
    numbers = [*(it.surface.direction or (0, 0, 0)), *it.surface.point]
    return " ".join(map(str, ["c", it.surface.word, *numbers, word, bounds, it.judged[0].feature, group, it.offset]))


def numbers_file(frame_text, points_text):
    """The conditions of each group as numbers."""
    rows = [it.split(",") for it in points_text.splitlines()[1:]]
    table = [Point(number, row[0], int(row[1]), tuple(map(int, row[2:]))) for number, row in enumerate(rows, 1)]
    points = {}
    for it in table:
        points.setdefault(it.feature, []).append(it)
    file = frames.read(frame_text.encode(), points)
    found = kinds.Kinds(file, points)
    centre = file.centre or table[0].at
    lines = ["turn {} shift {} centre {} {} {}".format(-1 if file.turn is None else file.turn, file.shift, *centre)]
    for group in found.groups():
        conditions = found.task(group, table).conditions
        lines += [f"group {kinds.label(group)} {max(it.offset for it in conditions)}", *map(condition_line, conditions)]
    return "\n".join(lines) + "\n"


def write_plate(seed, n, folder):
    """Writes f.toml, p.csv and f.toml.numbers."""
    frame_text, points_text = frame_file(), points_file(seed, n)
    numbers = numbers_file(frame_text, points_text)
    for name, text in (("f.toml", frame_text), ("p.csv", points_text), ("f.toml.numbers", numbers)):
        (Path(folder) / name).write_text(text)


if __name__ == "__main__":
    write_plate(int(sys.argv[1]), int(sys.argv[2]), sys.argv[3])
