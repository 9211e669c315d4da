"""The points file."""
import collections

from slow.words import LONGEST, bytes_of, input_fault

HEADER = [b"feature", b"group", b"x", b"y", b"z"]
BYTE_ORDER_MARK = b"\xef\xbb\xbf"
NAME_BYTES = frozenset(b"abcdefghijklmnopqrstuvwxyzABCDEFGHIJKLMNOPQRSTUVWXYZ0123456789_-")
RANGES = [(0, 999)] + [(-8_000_000, 8_000_000)] * 3

# A point by its number from 1, the name of its feature, its group and its coordinates.
Point = collections.namedtuple("Point", "number feature group at")


def records(text):
    """The records of a text: commas, double quotes, and lines that end in LF, CR LF or CR. A blank line is none."""
    found, fields, field, state = [], [], bytearray(), "record"
    for byte in text:
        ends = byte in b"\r\n"
        if state == "record" and ends:
            continue
        if state in ("record", "field") and byte == ord('"'):
            state = "quoted"
        elif state == "quoted":
            if byte == ord('"'):
                state = "quote"
            else:
                field.append(byte)
        elif state == "quote" and byte == ord('"'):
            field.append(byte)
            state = "quoted"
        elif byte == ord(","):
            fields.append(bytes(field))
            field, state = bytearray(), "field"
        elif ends:
            found.append(fields + [bytes(field)])
            fields, field, state = [], bytearray(), "record"
        else:
            field.append(byte)
            state = "plain"
    if state != "record":
        found.append(fields + [bytes(field)])
    return found


def number(field):
    """The whole number that a field spells, or None."""
    text = field.strip(b" \t")
    digits = text[1:] if text[:1] in (b"+", b"-") else text
    if not digits or any(byte not in b"0123456789" for byte in digits):
        return None
    size = int(digits)
    return -size if text[:1] == b"-" else size


def points(text):
    """The points of a points file, or its first fault as (code, row, column)."""
    for _ in range(2):
        text = text[3:] if text.startswith(BYTE_ORDER_MARK) else text
    found = records(text)
    if not found or found[0] != HEADER:
        return (10, 1, 0)
    table = []
    for row, fields in enumerate(found[1:], 2):
        if len(fields) != 5:
            return (11, row, 0)
        if len(table) == 200_000:
            return (15, row, 0)
        if not 1 <= len(fields[0]) <= 32 or not NAME_BYTES.issuperset(fields[0]):
            return (12, row, 1)
        numbers = []
        for column, (field, (least, greatest)) in enumerate(zip(fields[1:], RANGES), 2):
            value = number(field)
            if value is None:
                return (13, row, column)
            if not least <= value <= greatest:
                return (14, row, column)
            numbers.append(value)
        table.append(Point(len(table) + 1, fields[0].decode(), numbers[0], tuple(numbers[1:])))
    return table or (16, 2, 0)


def load(name):
    """The points of the file of this name."""
    text = bytes_of(name)
    found = (17, 0, 0) if len(text) > LONGEST else points(text)
    if isinstance(found, tuple):
        raise input_fault(name, *found)
    return found
