"""Faults, numbers of words, and files."""
import os

LONGEST = 134_217_728  # bytes of a file that is loaded


class Fault(Exception):
    """A text that ends the run, and its status."""

    def __init__(self, text, status):
        self.text, self.status = text, status


def wrong_words():
    return Fault("gdteval: wrong words\n", 4)


def input_fault(name, code, row, column):
    return Fault(f"input {name} code {code} row {row} column {column}\n", 3)


def plain(word, limit):
    """The number below a limit that a word of bytes spells without a sign and without a leading zero, or None."""
    is_spelled = word.isdigit() and len(word) <= 20 and (word == b"0" or word[:1] != b"0")
    return int(word) if is_spelled and int(word) < limit else None


def in_range(word, least, greatest):
    """The number that a word of a command spells."""
    found = plain(word.encode(), greatest + 1)
    if found is None or found < least:
        raise wrong_words()
    return found


def bytes_of(name):
    """The bytes of a file, or one more than the longest has."""
    try:
        with open(os.fsencode(name), "rb") as file:
            return file.read(LONGEST + 1)
    except (OSError, ValueError):
        raise Fault(f"gdteval: cannot read {name}\n", 5) from None


def store(name, text):
    try:
        with open(os.fsencode(name), "wb") as file:
            file.write(text.encode())
    except (OSError, ValueError):
        raise Fault("", 6) from None
