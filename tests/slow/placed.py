"""Placements of a part, and the written tests of conditions over a box of them."""
import collections

from slow.cells import ONE, Task
from slow.intervals import add, cross, dot, mul, narrow, passes, quot, root, scale, square, squares, sub, total

# A surface is a word (plane, axis, ball), a direction and a point. A demand is a word and its numbers in half units.
Surface = collections.namedtuple("Surface", "word direction point")
Demand = collections.namedtuple("Demand", "word lo hi")
# `judged` are the points that the condition speaks of, `group` those of its contact group, and `offset` is 0, 1 or 2.
Condition = collections.namedtuple("Condition", "surface demand judged group offset")


def within(lo, hi):
    return Demand("within", lo, hi)


def spread(t):
    return Demand("spread", None, t)


def contact(hi):
    return Demand("contact", None, hi)


def hug_inner(slack):
    return Demand("hug inner", None, slack)


def hug_outer(slack):
    return Demand("hug outer", None, slack)


def matrix(q):
    """The nine entries of the rotations whose four numbers lie in a box, in 2^-30."""
    (w, x, y, z), length2 = q, total(square(it) for it in q)
    ww, xx, yy, zz = (square(it) for it in q)

    def pair(sign, a, b, c, d):
        first, second = mul(a, b), mul(c, d)
        return scale(add(first, second) if sign > 0 else sub(first, second), 2)

    numerators = [
        [sub(sub(add(ww, xx), yy), zz), pair(-1, x, y, w, z), pair(+1, x, z, w, y)],
        [pair(+1, x, y, w, z), sub(add(sub(ww, xx), yy), zz), pair(-1, y, z, w, x)],
        [pair(-1, x, z, w, y), pair(+1, y, z, w, x), add(sub(sub(ww, xx), yy), zz)],
    ]
    return [[quot(it, length2) for it in row] for row in numerators]


class Placed:
    """The part over a box of placements: images of its points, in fine units, and their values at a surface."""

    def __init__(self, base, q, translation, offsets):
        self.base, self.matrix, self.translation, self.offsets = base, matrix(q), translation, offsets
        self.known = {}

    def turned(self, point):
        if point.number not in self.known:
            at = [p - a for p, a in zip(point.at, self.base)]
            self.known[point.number] = [narrow(dot(row, at), 14) for row in self.matrix]
        return self.known[point.number]

    def image(self, point, offset):
        found = [add(a, b) for a, b in zip(self.turned(point), self.translation)]
        return [add(a, b) for a, b in zip(found, self.offsets[offset - 1])] if offset else found

    def from_surface(self, condition, point):
        image = self.image(point, condition.offset)
        return [(low - (a << 16), high - (a << 16)) for (low, high), a in zip(image, condition.surface.point)]

    def value(self, condition, point):
        """The value of a point: along a plane's direction, or its squared distance from an axis or a ball's centre."""
        word, d, _ = condition.surface
        if word == "plane":
            is_spread = condition.demand.word == "spread"
            return dot(self.turned(point) if is_spread else self.from_surface(condition, point), d)
        y = self.from_surface(condition, point)
        return squares(cross([(it, it) for it in d], y) if word == "axis" else y)


def length2_of(surface):
    return 1 if surface.word == "ball" else sum(it * it for it in surface.direction)


class Judged:
    """One condition over a box: whether some evidence refutes it, and whether it holds."""

    def __init__(self, condition, placed):
        self.condition, self.placed, self.n2 = condition, placed, length2_of(condition.surface)
        self.is_plane = condition.surface.word == "plane"
        self.word, self.lo, self.hi = condition.demand

    def value(self, point):
        return self.placed.value(self.condition, point)

    def length(self, point):
        """The value along a plane's direction, or the distance itself."""
        return self.value(point) if self.is_plane else root(self.value(point))

    def is_above(self, s, h):
        """Whether a value s, in fine units times the direction's length, is more than h half units."""
        return passes(s, h << 15, self.n2)

    def is_past(self, c, h):
        """Whether a squared distance c is more than that of h half units, which are no less than 0."""
        return c > (h * h * self.n2) << 30

    def is_outside(self, point):
        """Whether all values of a point lie outside of the condition's bounds."""
        low, high = self.value(point)
        if self.is_plane:
            return self.hi is not None and self.is_above(low, self.hi) or self.lo is not None and self.is_above(-high, -self.lo)
        is_far = self.hi is not None and (self.hi < 0 or self.is_past(low, self.hi))
        return is_far or self.lo is not None and self.lo > 0 and high < (self.lo * self.lo * self.n2) << 30

    def is_inside(self, point):
        """Whether no value of a point lies outside of them."""
        low, high = self.value(point)
        if self.is_plane:
            above = self.hi is not None and self.is_above(high, self.hi)
            return not above and not (self.lo is not None and self.is_above(-low, -self.lo))
        is_far = self.hi is not None and (self.hi < 0 or self.is_past(high, self.hi))
        return not is_far and (self.lo is None or self.lo <= 0 or low >= (self.lo * self.lo * self.n2) << 30)

    def ends(self, points):
        return [self.length(it) for it in points]

    def refuted_by(self, a, b):
        """Whether these two points of the condition refute it, of which either may be None."""
        if self.word == "within":
            return a is not None and b is None and self.is_outside(a)
        if self.word == "spread":
            return a is not None and b is not None and self.is_above(self.length(a)[0] - self.length(b)[1], self.hi)
        if self.word == "contact":
            return a is None and b is None and all(self.is_above(low, self.hi) for low, _ in self.ends(self.condition.group))
        group = self.ends(self.condition.group)
        if self.word == "hug inner":
            return a is None and b is not None and self.is_above(min(it[0] for it in group) - self.length(b)[1], self.hi)
        return b is None and a is not None and self.is_above(self.length(a)[0] - max(it[1] for it in group), self.hi)

    def first_with(self, end, best):
        """The first point whose low or high end is the greatest or the least."""
        return best(self.condition.judged, key=lambda it: self.length(it)[end])

    def first_evidence(self):
        """The two points that are compared, each None where the demand names none; None where they don't refute."""
        pairs = {
            "within": lambda: (next((it for it in self.condition.judged if self.is_outside(it)), None), None),
            "spread": lambda: (self.first_with(0, max), self.first_with(1, min)),
            "contact": lambda: (None, None),
            "hug inner": lambda: (None, self.first_with(1, min)),
            "hug outer": lambda: (self.first_with(0, max), None),
        }
        a, b = pairs[self.word]()
        return (a, b) if self.refuted_by(a, b) else None

    def holds(self):
        if self.word == "within":
            return all(self.is_inside(it) for it in self.condition.judged)
        if self.word == "contact":
            return any(not self.is_above(high, self.hi) for _, high in self.ends(self.condition.group))
        ends = self.ends(self.condition.judged)
        if self.word == "spread":
            return not self.is_above(max(it[1] for it in ends) - min(it[0] for it in ends), self.hi)
        group = self.ends(self.condition.group)
        if self.word == "hug inner":
            return not self.is_above(min(it[1] for it in group) - min(it[0] for it in ends), self.hi)
        return not self.is_above(max(it[1] for it in ends) - max(it[0] for it in group), self.hi)


class Placement(Task):
    """Conditions that one placement has to meet. A root is the leading number of a rotation.

    `turn` is None for all rotations. `centre` and `shift` say where the first point of the table may go.
    """

    def __init__(self, table, conditions, turn, shift, centre, offsets):
        k = turn or 0
        ratios = [(-(ONE >> k), 31 - k)] * 3
        translation = [((it - (1 << shift)) << 16, shift + 17) for it in centre]
        own = [(-(1 << shift + 16), shift + 17)] * 3 * offsets
        super().__init__(4 if turn is None else 1, ratios + translation + own)
        self.table, self.conditions = table, conditions

    def placed(self, lead, box):
        q = [*box[:lead - 1], (ONE, ONE), *box[lead - 1:3]]
        return Placed(self.table[0].at, q, box[3:6], [box[6:9], box[9:12]])

    def evidence(self, lead, box):
        placed = self.placed(lead, box)
        for number, condition in enumerate(self.conditions, 1):
            found = Judged(condition, placed).first_evidence()
            if found:
                return (number, *(it.number if it else 0 for it in found))
        return None

    def refutes(self, lead, box, condition, a, b):
        """Evidence names points that the condition is about, or 0 for none."""
        if not 1 <= condition <= len(self.conditions):
            return False
        asked = self.conditions[condition - 1]
        known = {0: None, **{it.number: it for it in asked.judged}}
        return a in known and b in known and Judged(asked, self.placed(lead, box)).refuted_by(known[a], known[b])

    def holds(self, lead, box):
        placed = self.placed(lead, box)
        return all(Judged(it, placed).holds() for it in self.conditions)
