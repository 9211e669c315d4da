"""What a certificate says of tasks, decided line by line."""
from slow.certificate import broken, certificate
from slow.words import LONGEST


def check_tree(task, group, first, last):
    """The lines of a tree, of which the first has this number. `last` is the level of an open group, and None of a reject."""
    waiting = list(reversed(task.roots()))
    for line, (kind, *evidence) in enumerate(group.nodes, first):
        if not waiting:
            raise broken(line, 54)
        cell = waiting.pop()
        if kind == "r":
            if not task.is_refuted_by(cell, *evidence):
                raise broken(line, 50)
            continue
        if kind == "s" and cell.level == task.finest:
            raise broken(line, 57)
        is_at_place = last is None or (cell.level < last if kind == "s" else cell.level == last)
        if not is_at_place or last is not None and task.is_decided(cell):
            raise broken(line, 56)
        if kind == "s":
            waiting.extend(reversed(cell.halves()))
    if waiting:
        raise broken(first + len(group.nodes), 53)


def check_open(task, group, share):
    level, undecided, spent, reason = group.head
    check_tree(task, group, group.line + 2, level)
    kinds = [node[0] for node in group.nodes]
    would_pass = spent + undecided > share and level != task.finest
    is_so = undecided == kinds.count("o") and spent == kinds.count("s") and undecided and spent <= share
    if not is_so or not (would_pass if reason == b"budget" else level == task.finest):
        raise broken(group.line + 1, 56)


def check_accept(task, group):
    root, at = group.head
    if not task.is_in_range(root, at):
        raise broken(group.line + 1, 52)
    if not task.holds_at(root, at):
        raise broken(group.line + 1, 51)


def check(tasks, text):
    """Raises the first fault of a certificate of these tasks, in their order."""
    if len(text) > LONGEST:
        raise broken(0, 46)
    probe, share, stated, groups = certificate(text)
    if probe is not None:
        raise broken(2, 55)
    if len(groups) != len(tasks) or stated != len(tasks):
        raise broken(4, 55)
    for task, group in zip(tasks, groups):
        if group.verdict == b"accept":
            check_accept(task, group)
        elif group.verdict == b"reject":
            check_tree(task, group, group.line + 1, None)
        else:
            check_open(task, group, share)
