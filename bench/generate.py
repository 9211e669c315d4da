#!/usr/bin/env python3
"""Writes a points file of a part to standard output: `bench/generate.py PART SEED N`.

The same words give the same bytes on each machine. Coordinates are in units of 0.1 micrometre.

    saddle  z = x * y / 100,000 over a square of 1,000 by 1,000: flat to 10, and to nothing less than about 5
    corners four corners of that square by turns, the last of them at height 10
    tilt    near the plane 3x = 10z, off by at most 5
    noise   anywhere in a cube of half side 1,000,000
    cube    on the surface of that cube, its eight corners first
    sphere  on a sphere of radius 1,000,000, rounded towards its middle: as wide along each direction as along another
    equal   one place
    late    one place, but for the last point: no centre holds at tolerance 0, and only the last point tells
    make    x and y within 1,000,000, z from 0 to 100
    rod     on both end circles of a round rod of radius 1,000 and length 4,000,000, which leads along (2, 3, 6): nearly as wide
            along each direction across the rod as along another, so that a reject has many leaves for few points
"""
import math
import sys


class Draws:
    """Whole numbers from 0 to 2^31 - 1, by a linear rule modulo 2^64."""

    def __init__(self, seed):
        self.state = seed

    def next(self):
        self.state = (self.state * 6364136223846793005 + 1442695040888963407) % 2**64
        return self.state >> 33

    def within(self, size):
        """A number from -size to size."""
        return self.next() % (2 * size + 1) - size


def saddle(draws, at, n):
    x, y = draws.next() % 1001, draws.next() % 1001
    return x, y, x * y // 100_000


def corners(draws, at, n):
    x, y = at % 2, at // 2 % 2
    return 1_000 * x, 1_000 * y, 10 * x * y


def tilt(draws, at, n):
    x, y = 10 * draws.within(100_000), draws.within(1_000_000)
    return x, y, 3 * x // 10 + draws.within(5)


def noise(draws, at, n):
    return draws.within(1_000_000), draws.within(1_000_000), draws.within(1_000_000)


def cube(draws, at, n):
    if at < 8:
        return tuple(1_000_000 if at >> axis & 1 else -1_000_000 for axis in range(3))
    point = list(noise(draws, at, n))
    face = draws.next() % 6
    point[face % 3] = 1_000_000 if face < 3 else -1_000_000
    return tuple(point)


def sphere(draws, at, n):
    point = noise(draws, at, n)
    length = math.isqrt(sum(it * it for it in point)) or 1
    return tuple(int(math.copysign(1_000_000 * abs(it) // length, it)) for it in point)


def equal(draws, at, n):
    return 123, -456, 789


def late(draws, at, n):
    return (1_000_000, 10, 10) if at == n - 1 else (0, 0, 0)


def make(draws, at, n):
    return draws.within(1_000_000), draws.within(1_000_000), draws.next() % 101


def rod(draws, at, n):
    # (2, 3, 6), (3, -6, 2) and (6, 2, -3) are at right angles, and each is 7 long
    along = 2_000_000 if at % 2 else -2_000_000
    a, b = draws.within(1_000_000), draws.within(1_000_000)
    length = math.isqrt(a * a + b * b) or 1
    a, b = 1_000 * a // length, 1_000 * b // length
    return (2 * along + 3 * a + 6 * b) // 7, (3 * along - 6 * a + 2 * b) // 7, (6 * along + 2 * a - 3 * b) // 7


PARTS = {it.__name__: it for it in (saddle, corners, tilt, noise, cube, sphere, equal, late, make, rod)}


def text_of(part, seed, n):
    """The bytes of a points file."""
    draws = Draws(seed)
    name = "gen" if part == "make" else part
    lines = ["feature,group,x,y,z"]
    lines += ["{},0,{},{},{}".format(name, *PARTS[part](draws, at, n)) for at in range(n)]
    return "\n".join(lines) + "\n"


def main(words):
    if len(words) != 3 or words[0] not in PARTS:
        print(f"generate.py PART SEED N, where PART is one of {' '.join(PARTS)}", file=sys.stderr)
        return 2
    sys.stdout.write(text_of(words[0], int(words[1]), int(words[2])))
    return 0


if __name__ == "__main__":
    sys.exit(main(sys.argv[1:]))
