"""From frames to groups: the table of kinds, which frames are judged together, and what each group asks."""
import collections

from slow.forms import Circle, Cylinder, Flat, Line
from slow.frames import FORMS, ORIENTATIONS, Broken
from slow.placed import Condition, Placement, Surface, contact, hug_inner, hug_outer, spread, within

MOST_CONDITIONS, MOST_OFFSETS = 4_096, 2

# A requirement by its printed name: the frame, and whether it is its lower segment. `section` is that of a circularity.
Requirement = collections.namedtuple("Requirement", "name frame is_lower section")


def plane_of(feature):
    return Surface("plane", feature.direction, feature.point)


def axis_of(feature):
    return Surface("axis", feature.direction, feature.point)


def groups_of(points):
    """The points by their groups, in ascending order."""
    found = {}
    for it in points:
        found.setdefault(it.group, []).append(it)
    return dict(sorted(found.items()))


class Kinds:
    """The table of kinds over a frame file and the points of its features."""

    def __init__(self, file, points):
        self.file, self.points = file, points

    # ---- datum words

    def datum_word(self, word):
        datum = self.file.datums[word.name]
        feature = self.file.features[datum.feature]
        judged = self.points[feature.name]
        if word.at_boundary:
            demand = within(datum.boundary, None) if feature.shape == "hole" else within(None, datum.boundary)
            return [Condition(axis_of(feature), demand, judged, None, 0)]
        contacts = [it for group, it in groups_of(judged).items() if group]
        if feature.shape == "plane":
            first = [Condition(plane_of(feature), within(0, None), judged, None, 0)]
            return first + [Condition(plane_of(feature), contact(2 * datum.slack), judged, it, 0) for it in contacts]
        hug = hug_inner if feature.shape == "hole" else hug_outer
        return [Condition(axis_of(feature), hug(2 * datum.slack), judged, it, 0) for it in contacts]

    # ---- features of a frame

    def located(self, feature, material, t):
        """The row of position for a feature that is an axis, a hole or a pin."""
        if material == "rfs":
            return within(None, t)
        if material == "mmc":
            return within(feature.mmc - t, None) if feature.shape == "hole" else within(None, feature.mmc + t)
        return within(None, feature.lmc + t) if feature.shape == "hole" else within(feature.lmc - t, None)

    def position(self, frame, t, offset):
        for feature in map(self.file.features.get, frame.features):
            demand = self.located(feature, frame.material, t)
            yield Condition(axis_of(feature), demand, self.points[feature.name], None, offset)

    def orientation(self, frame):
        offset = 0
        for feature in map(self.file.features.get, frame.features):
            judged = self.points[feature.name]
            if feature.shape == "plane":
                yield Condition(plane_of(feature), spread(2 * frame.tolerance), judged, None, 0)
            else:
                offset += 1
                yield Condition(axis_of(feature), self.located(feature, frame.material, frame.tolerance), judged, None, offset)

    def profile(self, frame):
        t = frame.tolerance
        less, more = (t, t) if frame.above is None else (2 * (t - frame.above), 2 * frame.above)
        for feature in map(self.file.features.get, frame.features):
            if feature.shape == "plane":
                surface, middle = plane_of(feature), 0
            else:
                surface = Surface("ball", None, feature.point) if feature.shape == "sphere" else axis_of(feature)
                middle = 2 * feature.radius
            yield Condition(surface, within(middle - less, middle + more), self.points[feature.name], None, 0)

    def runout(self, frame):
        first = self.file.features[self.file.datums[frame.datums[0].name].feature]
        for feature in map(self.file.features.get, frame.features):
            surface = plane_of(first) if feature.shape == "plane" else axis_of(first)
            judged = self.points[feature.name]
            elements = groups_of(judged).values() if frame.kind == "circular_runout" else [judged]
            for it in elements:
                yield Condition(surface, spread(2 * frame.tolerance), it, None, 0)

    # ---- requirements and groups

    def words_of(self, requirement):
        return requirement.frame.lower_datums if requirement.is_lower else requirement.frame.datums

    def conditions_of_words(self, words):
        return [condition for word in words for condition in self.datum_word(word)]

    def conditions_of(self, requirement):
        frame = requirement.frame
        if requirement.is_lower:
            return list(self.position(frame, frame.lower, 1))
        if frame.kind == "position":
            return list(self.position(frame, frame.tolerance, 0))
        if frame.kind in ORIENTATIONS:
            return list(self.orientation(frame))
        return list(self.profile(frame) if frame.kind == "profile" else self.runout(frame))

    def requirements_of(self, frame):
        if frame.kind == "circularity":
            sections = dict.fromkeys(it.group for it in self.points[frame.features[0]])
            return [Requirement(f"{frame.name}#{it}", frame, False, it) for it in sections]
        upper = [Requirement(frame.name, frame, False, None)]
        return upper + ([Requirement(f"{frame.name}/lower", frame, True, None)] if frame.lower is not None else [])

    def joins(self, requirement):
        """Whether a requirement is judged together with others of the same words."""
        frame = requirement.frame
        return frame.kind in ("position", "profile") and bool(frame.datums) and not requirement.is_lower and not frame.separate

    def groups(self):
        """The groups of requirements in order. A group that passes a limit is a fault of the frame that makes it so."""
        found, joined, sizes = [], {}, {}
        for row, frame in enumerate(self.file.frames, 1):
            for requirement in self.requirements_of(frame):
                words = tuple(self.words_of(requirement))
                group = joined.get(words) if self.joins(requirement) else None
                if group is None:
                    group = len(found)
                    found.append([])
                    sizes[group] = len(self.conditions_of_words(words))
                    if self.joins(requirement):
                        joined[words] = group
                found[group].append(requirement)
                if frame.kind in FORMS:
                    continue
                own = self.conditions_of(requirement)
                sizes[group] += len(own)
                if max(it.offset for it in own) > MOST_OFFSETS:
                    raise Broken(32, row, 3)
                if sizes[group] > MOST_CONDITIONS:
                    raise Broken(34, row, 3)
        return found

    def form_task(self, requirement):
        frame = requirement.frame
        feature = self.file.features[frame.features[0]]
        judged = self.points[feature.name]
        if frame.kind == "flatness":
            return Flat(judged, frame.tolerance)
        if frame.kind == "straightness":
            return Line(judged, frame.tolerance)
        if frame.kind == "cylindricity":
            return Cylinder(judged, feature.point, frame.tolerance, self.file.shift)
        section = [it for it in judged if it.group == requirement.section]
        return Circle(section, feature.point, frame.tolerance, self.file.shift, feature.direction)

    def task(self, group, table):
        """What a group asks."""
        if group[0].frame.kind in FORMS:
            return self.form_task(group[0])
        conditions = self.conditions_of_words(self.words_of(group[0]))
        conditions += [it for requirement in group for it in self.conditions_of(requirement)]
        offsets = max(it.offset for it in conditions)
        centre = self.file.centre or table[0].at
        return Placement(table, conditions, self.file.turn, self.file.shift, centre, offsets)


def label(group):
    return "+".join(it.name for it in group)
