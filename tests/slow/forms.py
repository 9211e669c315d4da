"""The forms: flatness, and those about an axis. The points that are judged are a list; evidence has their numbers."""
from slow.cells import ONE, Task
from slow.intervals import cross, narrow, passes, root, squares, sub


def with_lead(axis, others, lead):
    """Three entries: `lead` at the axis, counted from 0, and the others at the other axes in their order."""
    return [*others[:axis], lead, *others[axis:]]


class Flat(Task):
    """All points between two planes that are the tolerance apart. A root is the axis at which directions have 1."""

    def __init__(self, judged, tolerance):
        super().__init__(3, [(-ONE, 31)] * 2)
        self.judged, self.tolerance = judged, tolerance
        self.places = {it.number: it.at for it in judged}
        # A point that is listed twice says nothing more than at its first number.
        self.numbers = {}
        for it in judged:
            self.numbers.setdefault(it.at, it.number)

    def ends(self, box, at):
        """The least and the greatest value of a point along the directions of a box, taken from the first point."""
        first = self.judged[0].at
        products = [sorted((low * (x - a), high * (x - a))) for (low, high), x, a in zip(box, at, first)]
        return sum(it[0] for it in products), sum(it[1] for it in products)

    def are_apart(self, box, low, high):
        """Whether a least value passes a greatest one by more than the tolerance times the greatest length in the box."""
        return passes(low - high, self.tolerance, sum(max(low * low, high * high) for low, high in box))

    def evidence(self, axis, ratios):
        """The first point with the greatest least value, and the first with the least greatest one."""
        box = with_lead(axis - 1, ratios, (ONE, ONE))
        ends = [self.ends(box, at) for at in self.numbers]
        low, high = max(it[0] for it in ends), min(it[1] for it in ends)
        if not self.are_apart(box, low, high):
            return None
        numbers = list(self.numbers.values())
        return 1, numbers[[it[0] for it in ends].index(low)], numbers[[it[1] for it in ends].index(high)]

    def refutes(self, axis, ratios, condition, a, b):
        if condition != 1 or a not in self.places or b not in self.places:
            return False
        box = with_lead(axis - 1, ratios, (ONE, ONE))
        return self.are_apart(box, self.ends(box, self.places[a])[0], self.ends(box, self.places[b])[1])

    def direction(self, axis, at):
        return with_lead(axis - 1, at, ONE)

    def holds(self, axis, ratios):
        n = self.direction(axis, [it for it, _ in ratios])
        values = [n[0] * x + n[1] * y + n[2] * z for x, y, z in self.numbers]
        return not passes(max(values) - min(values), self.tolerance, sum(it * it for it in n))


class AboutAxis(Task):
    """A form about an axis: of each judged point c, the square of its distance, and of the direction m, its squared length.

    Both are intervals; the distance has the unit of the root of c, and a tolerance of t units that of t times the root of m.
    """

    def __init__(self, roots, coordinates, judged, own_point, tolerance):
        super().__init__(roots, coordinates)
        self.judged, self.own_point, self.tolerance = judged, own_point, tolerance

    def from_axis(self, point, offsets):
        """A point from the form's own, less the offsets, in fine units."""
        return [sub(((p - a) << 16, (p - a) << 16), u) for p, a, u in zip(point.at, self.own_point, offsets)]

    def values(self, at, box):
        """The numbers of the judged points with their c, and m."""
        n, offsets, product, m = self.taken_apart(at, box)
        return [(it.number, squares(product(n, self.from_axis(it, offsets)))) for it in self.judged], m


class FreeAxis(AboutAxis):
    """The direction is free. A root is the axis at which it has 1; after its ratios come two offsets at the others."""

    def __init__(self, judged, own_point, tolerance, reach):
        super().__init__(3, [(-ONE, 31)] * 2 + [(-(1 << reach + 16), reach + 17)] * 2, judged, own_point, tolerance)

    def taken_apart(self, axis, box):
        n, offsets = with_lead(axis - 1, box[:2], (ONE, ONE)), with_lead(axis - 1, box[2:], (0, 0))
        return n, offsets, lambda n, y: [narrow(it, 30) for it in cross(n, y)], narrow(squares(n), 28)


class Line(FreeAxis):
    """Straightness of a median line: all points in a cylinder whose diameter is the tolerance."""

    def __init__(self, judged, tolerance):
        super().__init__(judged, judged[0].at, tolerance, max(tolerance - 1, 0).bit_length())

    def is_outside(self, c, m):
        return 4 * c[0] > self.tolerance ** 2 * m[1]

    def evidence(self, axis, box):
        found, m = self.values(axis, box)
        return next(((1, number, 0) for number, c in found if self.is_outside(c, m)), None)

    def refutes(self, axis, box, condition, a, b):
        found, m = self.values(axis, box)
        return condition == 1 and b == 0 and any(number == a and self.is_outside(c, m) for number, c in found)

    def holds(self, axis, box):
        found, m = self.values(axis, box)
        return all(4 * c[1] <= self.tolerance ** 2 * m[0] for _, c in found)


class Ring:
    """All points between two circles or two cylinders about the axis, whose radii differ by the tolerance at most."""

    def distances(self, at, box):
        found, m = self.values(at, box)
        return [(number, root(c)) for number, c in found], m

    def evidence(self, at, box):
        found, m = self.distances(at, box)
        a = max(found, key=lambda it: it[1][0])
        b = min(found, key=lambda it: it[1][1])
        return (1, a[0], b[0]) if passes(a[1][0] - b[1][1], self.tolerance, m[1]) else None

    def refutes(self, at, box, condition, a, b):
        found, m = self.distances(at, box)
        known = dict(found)
        return condition == 1 and a in known and b in known and passes(known[a][0] - known[b][1], self.tolerance, m[1])

    def holds(self, at, box):
        found, m = self.distances(at, box)
        spread = max(it[1] for _, it in found) - min(it[0] for _, it in found)
        return not passes(spread, self.tolerance, m[0])


class Cylinder(Ring, FreeAxis):
    pass


class Circle(Ring, AboutAxis):
    """Circularity in a section: the direction is stated, and the two offsets stand at the axes that don't lead."""

    def __init__(self, judged, own_point, tolerance, reach, direction):
        super().__init__(1, [(-(1 << reach + 16), reach + 17)] * 2, judged, own_point, tolerance)
        self.direction = [(it, it) for it in direction]
        sizes = [abs(it) for it in direction]
        self.lead = sizes.index(max(sizes))
        m = sum(it * it for it in direction) << 32
        self.length2 = m, m

    def taken_apart(self, _, box):
        return self.direction, with_lead(self.lead, box, (0, 0)), cross, self.length2
