"""The frame file: its tables, or its first fault."""
import collections
import re
import tomllib

from slow.points import BYTE_ORDER_MARK

SHAPES = ("plane", "hole", "pin", "axis", "sphere")
ROUND = ("hole", "pin", "sphere")
FORMS = ("flatness", "straightness", "circularity", "cylindricity")
ORIENTATIONS = ("parallelism", "perpendicularity", "angularity")
RUNOUTS = ("circular_runout", "total_runout")
KINDS = (*FORMS, *ORIENTATIONS, "position", "profile", *RUNOUTS)
MATERIALS = ("rfs", "mmc", "lmc")
# The shapes of the features that a kind may have at rfs. At mmc and lmc position and orientation have holes and pins.
AT_RFS = {
    "flatness": ("plane",), "straightness": ("axis",), "circularity": ("hole", "pin"), "cylindricity": ("hole", "pin"),
    **dict.fromkeys(ORIENTATIONS, ("plane", "axis")), "position": ("axis",), "profile": ("plane", *ROUND),
    **dict.fromkeys(RUNOUTS, ("plane", "hole", "pin")),
}
NAME = r"[A-Za-z0-9_-]{1,32}"
WORD = re.compile(rf"({NAME})(\(M\))?")
KEYS = {
    0: ("version", "turn", "shift", "centre", "feature", "datum", "frame"),
    1: ("name", "shape", "direction", "point", "radius", "mmc", "lmc"),
    2: ("name", "feature", "slack", "boundary"),
    3: ("name", "kind", "features", "tolerance", "datums", "material", "above", "lower", "lower_datums", "separate"),
}

Feature = collections.namedtuple("Feature", KEYS[1])
Datum = collections.namedtuple("Datum", KEYS[2])
Frame = collections.namedtuple("Frame", KEYS[3])
# A datum word: the name of the datum, and whether `(M)` stands behind it.
Word = collections.namedtuple("Word", "name at_boundary")
# `turn` is None for all rotations. Features and datums are dictionaries by their names; they keep their order.
File = collections.namedtuple("File", "turn shift centre features datums frames")


class Broken(Exception):
    """The first fault of a frame file: its code, row and column."""


def is_number(value):
    return type(value) is int


def is_text(value):
    return type(value) is str


def is_truth(value):
    return type(value) is bool


def is_table(value):
    return type(value) is dict


def list_of(is_element):
    return lambda value: type(value) is list and all(map(is_element, value))


def is_name(text):
    return re.fullmatch(NAME, text) is not None


class Table:
    """A table and its place. A key is taken once, and tested in the order of the calls."""

    def __init__(self, values, row=0, column=0):
        self.values, self.row, self.column = values, row, column
        self.want(22, set(values) <= set(KEYS[column]))

    def want(self, code, is_so):
        if not is_so:
            raise Broken(code, self.row, self.column)

    def take(self, key, is_kind, is_needed=True, absent=None):
        if key not in self.values:
            self.want(23, not is_needed)
            return absent
        self.want(24, is_kind(self.values[key]))
        return self.values[key]

    def number(self, key, least, greatest, is_needed=False, absent=None):
        found = self.take(key, is_number, is_needed, absent)
        self.want(25, found is None or least <= found <= greatest)
        return found

    def triple(self, key, size, is_needed=True):
        found = self.take(key, list_of(is_number), is_needed)
        self.want(25, found is None or len(found) == 3 and all(abs(it) <= size for it in found))
        return found

    def one_of(self, key, words, absent=None):
        found = self.take(key, is_text, absent is None, absent)
        self.want(25, found in words)
        return found

    def own_name(self, earlier):
        found = self.take("name", is_text)
        self.want(25, is_name(found))
        self.want(28, found not in earlier)
        return found


def parsed(text):
    """The table of a TOML document in UTF-8 whose numbers fit 64 bits. One byte order mark is passed over.

    `tomllib` reads TOML 1.0. What 1.1 adds, a line end or a last comma in an inline table and some escapes, isn't read here.
    """
    try:
        found = tomllib.loads(text.removeprefix(BYTE_ORDER_MARK).decode())
    except (ValueError, RecursionError):
        raise Broken(20, 0, 0) from None
    waiting = [found]
    while waiting:
        value = waiting.pop()
        waiting += value.values() if is_table(value) else value if type(value) is list else ()
        if is_number(value) and not -1 << 63 <= value < 1 << 63:
            raise Broken(20, 0, 0)
    return found


def read_feature(table, earlier, points):
    name = table.own_name(earlier)
    table.want(26, name in points)
    shape = table.one_of("shape", SHAPES)
    direction = table.triple("direction", 1_000, shape != "sphere")
    table.want(30, direction is None or any(direction))
    point = table.triple("point", 8_000_000)
    sizes = [table.number("radius", 0, 8_000_000), *(table.number(key, 0, 16_000_000) for key in ("mmc", "lmc"))]
    return Feature(name, shape, direction, point, *sizes)


def read_datum(table, earlier, features):
    name = table.own_name(earlier)
    feature = table.take("feature", is_text)
    table.want(25, is_name(feature))
    table.want(26, feature in features)
    return Datum(name, feature, table.number("slack", 0, 10_000, absent=10), table.number("boundary", 0, 16_000_000))


def read_words(table, key, datums):
    """The datum words of a key, or none where it is absent."""
    texts = table.take(key, list_of(is_text), False, [])
    parts = [WORD.fullmatch(it) for it in texts]
    table.want(25, len(texts) <= 3 and all(parts))
    names = [it[1] for it in parts]
    table.want(28, len(set(names)) == len(names))
    table.want(27, all(it in datums for it in names))
    return [Word(it[1], it[2] is not None) for it in parts]


def read_names(table, kind, features):
    names = table.take("features", list_of(is_text))
    table.want(25, 1 <= len(names) <= (1 if kind in FORMS else 64) and all(map(is_name, names)))
    table.want(28, len(set(names)) == len(names))
    table.want(26, all(it in features for it in names))
    return names


def read_frame(table, earlier, features, datums):
    name, kind = table.own_name(earlier), table.one_of("kind", KINDS)
    names = read_names(table, kind, features)
    tolerance = table.number("tolerance", 0, 16_000_000, True)
    words, material = read_words(table, "datums", datums), table.one_of("material", MATERIALS, "rfs")
    above, lower = table.number("above", 0, tolerance), table.number("lower", 0, tolerance)
    lower_words = read_words(table, "lower_datums", datums)
    separate = table.take("separate", is_truth, False, False)
    return Frame(name, kind, names, tolerance, words, material, above, lower, lower_words, separate)


def is_allowed(frame, features, datums):
    """What a frame may state together."""
    shapes = [features[it].shape for it in frame.features]
    is_movable = frame.kind in ORIENTATIONS or frame.kind == "position"
    allowed = AT_RFS[frame.kind] if frame.material == "rfs" else ("hole", "pin") if is_movable else ()
    bases = [(features[datums[it.name].feature].shape, it.at_boundary) for it in frame.datums]
    is_candidate = all(shape in ("hole", "pin") or shape == "plane" and not at_boundary for shape, at_boundary in bases)
    if frame.kind in FORMS:
        are_words = not bases
    elif frame.kind in ORIENTATIONS:
        are_words = bool(bases)
    elif frame.kind in RUNOUTS:
        are_words = bool(bases) and bases[0][0] in ("hole", "pin") and not any(it for _, it in bases)
    else:
        are_words = True
    is_composite = frame.lower is not None or bool(frame.lower_datums)
    return (
        all(it in allowed for it in shapes) and is_candidate and are_words
        and (frame.above is None or frame.kind == "profile") and (not is_composite or frame.kind == "position")
        and (not frame.lower_datums or frame.lower is not None)
        and frame.lower_datums == frame.datums[:len(frame.lower_datums)]
    )


def has_numbers(frame, features, datums):
    """Whether each word with `(M)` has its boundary, and each feature the sizes that the frame needs."""
    of = [features[it] for it in frame.features]
    sizes = {"rfs": lambda it: True, "mmc": lambda it: it.mmc is not None, "lmc": lambda it: it.lmc is not None}
    are_round = frame.kind != "profile" or all(it.radius is not None for it in of if it.shape in ROUND)
    return all(datums[it.name].boundary is not None for it in frame.datums if it.at_boundary) and all(map(sizes[frame.material], of)) and are_round


def has_contacts(frame, features, datums, points):
    """Whether each datum word without `(M)` has enough contact groups for its place."""
    for place, word in enumerate(frame.datums):
        feature = features[datums[word.name].feature]
        groups = {it.group for it in points[feature.name]} - {0}
        if not word.at_boundary and len(groups) < (3 - place if feature.shape == "plane" else 3):
            return False
    return True


def read(text, points):
    """The frame file that the bytes stand for, beside the points of each feature. Its first fault is raised."""
    top = Table(parsed(text))
    version = top.take("version", is_number)
    top.want(21, version == 1)
    turn = top.take("turn", lambda it: is_number(it) or is_text(it), False, "all")
    top.want(25, 0 <= turn <= 20 if is_number(turn) else turn == "all")
    shift, centre = top.number("shift", 0, 25, absent=25), top.triple("centre", 8_000_000, False)
    lists = {}
    for key, most in (("feature", 1_024), ("datum", 64), ("frame", 256)):
        lists[key] = top.take(key, list_of(is_table), key == "frame", [])
        top.want(23, key != "frame" or lists[key])
        top.want(25, len(lists[key]) <= most)
    features, datums, frames = {}, {}, {}
    for row, it in enumerate(lists["feature"], 1):
        found = read_feature(Table(it, row, 1), features, points)
        features[found.name] = found
    for row, it in enumerate(lists["datum"], 1):
        found = read_datum(Table(it, row, 2), datums, features)
        datums[found.name] = found
    for row, it in enumerate(lists["frame"], 1):
        table = Table(it, row, 3)
        found = read_frame(table, frames, features, datums)
        table.want(31, is_allowed(found, features, datums))
        table.want(23, has_numbers(found, features, datums))
        table.want(29, has_contacts(found, features, datums, points))
        frames[found.name] = found
    return File(None if turn == "all" else turn, shift, centre, features, datums, list(frames.values()))
