"""Intervals (low, high) of whole numbers, rounded outward, and comparisons with roots that round nothing."""
import math

from slow.cells import ONE


def add(a, b):
    return a[0] + b[0], a[1] + b[1]


def sub(a, b):
    return a[0] - b[1], a[1] - b[0]


def scale(a, k):
    return (a[0] * k, a[1] * k) if k >= 0 else (a[1] * k, a[0] * k)


def mul(a, b):
    products = [x * y for x in a for y in b]
    return min(products), max(products)


def square(a):
    ends = sorted(it * it for it in a)
    return (0 if a[0] <= 0 <= a[1] else ends[0]), ends[1]


def floor_and_ceiling(low, low_by, high, high_by):
    return low // low_by, -(-high // high_by)


def quot(n, d):
    """The quotients in 2^-30 of members of n by members of d, which are above 0."""
    return floor_and_ceiling(n[0] * ONE, d[1] if n[0] >= 0 else d[0], n[1] * ONE, d[0] if n[1] >= 0 else d[1])


def narrow(a, bits):
    return floor_and_ceiling(a[0], 1 << bits, a[1], 1 << bits)


def root(a):
    low, high = math.isqrt(a[0]), math.isqrt(a[1])
    return low, high + (high * high < a[1])


def total(terms):
    first, *others = terms
    for it in others:
        first = add(first, it)
    return first


def dot(intervals, numbers):
    return total(scale(it, k) for it, k in zip(intervals, numbers))


def cross(a, b):
    """The cross product of two triples of intervals."""
    return [sub(mul(a[i], b[j]), mul(a[j], b[i])) for i, j in ((1, 2), (2, 0), (0, 1))]


def squares(triple):
    return total(square(it) for it in triple)


def passes(s, h, n2):
    """Whether s is more than h times the root of n2."""
    return s * abs(s) > h * abs(h) * n2
