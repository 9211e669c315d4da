"""The text of a certificate: what it states, or its first wrong line."""
import collections

from slow.points import NAME_BYTES
from slow.words import Fault, plain

REQUIREMENT_BYTES = NAME_BYTES | frozenset(b"/#")
MOST_WORDS = 14  # those of the longest witness

Group = collections.namedtuple("Group", "line verdict head nodes")


def broken(line, code):
    return Fault(f"invalid line {line} code {code}\n", 8)


def heading(words):
    """What line 2 says: None of the written requirement, or the name of a probe."""
    if words == [b"plain"]:
        return None
    is_probe = len(words) == 3 and words[0] == b"probe" and plain(words[2], 16_000_001) is not None
    if not is_probe or not 1 <= len(words[1]) <= 48 or not REQUIREMENT_BYTES.issuperset(words[1]):
        raise broken(2, 41)
    return words[1]


def sized(words, line, name, least, greatest):
    """The number behind a name."""
    found = plain(words[1], greatest + 1) if len(words) == 2 and words[0] == name else None
    if found is None or found < least:
        raise broken(line, 41)
    return found


def head_line(words, line):
    """What one of the first four lines says."""
    if line == 1 and words != [b"gdcert", b"1"]:
        raise broken(1, 40)
    if line == 2:
        return heading(words)
    if line == 3:
        return sized(words, 3, b"share", 0, 1_000_000)
    return sized(words, 4, b"groups", 1, 300_000) if line == 4 else None


def numbers_of(words, line):
    found = [plain(word, 1 << 32) for word in words]
    if None in found:
        raise broken(line, 43)
    return found


def signed(word, line):
    minus = word[:1] == b"-"
    size = plain(word[1:] if minus else word, 1 << 62)
    if size is None or minus and size == 0:
        raise broken(line, 43)
    return -size if minus else size


def group_line(words, line, number_due):
    """The verdict of a group's first line, or None of the line `end`."""
    if words[0] == b"end":
        if len(words) > 1:
            raise broken(line, 44)
        return None
    if words[0] != b"group":
        raise broken(line, 42)
    is_known = len(words) == 3 and words[2] in (b"accept", b"reject", b"open")
    found = plain(words[1], 1 << 32) if len(words) > 1 else None
    if found is None:
        raise broken(line, 43 if is_known else 44)
    if found != number_due:
        raise broken(line, 42)
    if not is_known:
        raise broken(line, 44)
    return words[2]


def witness_line(words, line):
    if words[0] != b"w":
        raise broken(line, 42)
    if not 4 <= len(words) <= MOST_WORDS:
        raise broken(line, 44)
    root, = numbers_of(words[1:2], line)
    return root, [signed(word, line) for word in words[2:]]


def counts_line(words, line):
    if words[0] != b"at":
        raise broken(line, 42)
    if len(words) != 5 or words[4] not in (b"budget", b"floor"):
        raise broken(line, 44)
    return (*numbers_of(words[1:4], line), words[4])


def tree_line(words, line, verdict):
    """The kind of a cell's line, and the numbers of its evidence."""
    if words[0] == b"r" and len(words) == 4:
        return "r", *numbers_of(words[1:], line)
    if words == [b"s"] or words == [b"o"] and verdict == b"open":
        return words[0].decode(),
    raise broken(line, 44)


def certificate(text):
    """The heading, the share, the count that is told and the groups of a text. Its first fault is raised."""
    *lines, behind = text.split(b"\n")
    head, groups, due = [], [], "head"
    for line, spelled in enumerate(lines, 1):
        words = spelled.split(b" ", MOST_WORDS)
        if due == "nothing":
            raise broken(line, 46)
        if due == "head":
            head.append(head_line(words, line))
            due = "group" if line == 4 else "head"
        elif due == "witness":
            groups[-1] = groups[-1]._replace(head=witness_line(words, line))
            due = "group"
        elif due == "counts":
            groups[-1] = groups[-1]._replace(head=counts_line(words, line))
            due = "cell"
        elif due == "cell" and words[0] not in (b"group", b"end"):
            groups[-1].nodes.append(tree_line(words, line, groups[-1].verdict))
        else:
            verdict = group_line(words, line, len(groups) + 1)
            if verdict:
                groups.append(Group(line, verdict, None, []))
            due = {None: "nothing", b"accept": "witness", b"reject": "cell", b"open": "counts"}[verdict]
    if due != "nothing" or behind:
        raise broken(len(lines) + 1, 46 if due == "nothing" else 45)
    return (*head[1:], groups)
