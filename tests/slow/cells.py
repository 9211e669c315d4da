"""Cells, and what every task has: roots, halves, centres and the finest level."""

ONE = 1 << 30  # a ratio of 1


class Cell:
    """A box of a root: for each coordinate which of its pieces the box has, after the halvings that the level says."""

    def __init__(self, root, index, level=0):
        self.root, self.index, self.level = root, index, level
        self.below = self.evidence = None

    def halves(self):
        """Both halves along the coordinate whose turn it is, the lower one first."""
        turn = self.level % len(self.index)
        found = []
        for side in (0, 1):
            index = list(self.index)
            index[turn] = 2 * index[turn] + side
            found.append(Cell(self.root, index, self.level + 1))
        return found


class Task:
    """Roots from 1, and coordinates: the low end of each in a root, and its width as a power of two.

    A kind of task says of a box, which is a list of intervals (low, high) by coordinates, what refutes it and whether it
    holds. The box of a single place has intervals with equal ends.
    """

    def __init__(self, roots, coordinates):
        self.count, self.coordinates = roots, coordinates
        self.finest = len(coordinates) * min(bits - 1 for _, bits in coordinates)

    def roots(self):
        return [Cell(root, [0] * len(self.coordinates)) for root in range(1, self.count + 1)]

    def box(self, cell):
        turns, more = divmod(cell.level, len(cell.index))
        found = []
        for place, ((low, bits), piece) in enumerate(zip(self.coordinates, cell.index)):
            width = 1 << (bits - turns - (place < more))
            found.append((low + piece * width, low + (piece + 1) * width))
        return found

    def centre(self, cell):
        return [(low + high) // 2 for low, high in self.box(cell)]

    def is_in_range(self, root, at):
        """Whether a witness has a root of the task, as many numbers as it has coordinates, and each in its root's box."""
        fits = 1 <= root <= self.count and len(at) == len(self.coordinates)
        return fits and all(low <= it <= low + (1 << bits) for it, (low, bits) in zip(at, self.coordinates))

    def evidence_of(self, cell):
        """The first evidence that refutes the cell, as (condition, a, b), or None."""
        return self.evidence(cell.root, self.box(cell))

    def is_refuted_by(self, cell, condition, a, b):
        return self.refutes(cell.root, self.box(cell), condition, a, b)

    def holds_at(self, root, at):
        return self.holds(root, [(it, it) for it in at])

    def is_decided(self, cell):
        return self.evidence_of(cell) is not None or self.holds_at(cell.root, self.centre(cell))
