"""The search, and the lines of what it found."""
import collections

# accept: the level, the root and the numbers. reject: the leaves. open: the level, undecided, spent and the reason.
Verdict = collections.namedtuple("Verdict", "word counts lines")


def lines_of_tree(roots):
    """The lines of the cells that a search went over, each before those below it."""
    waiting, lines = list(reversed(roots)), []
    while waiting:
        cell = waiting.pop()
        if cell.below:
            waiting += reversed(cell.below)
        lines.append("s" if cell.below else "r {} {} {}".format(*cell.evidence) if cell.evidence else "o")
    return lines


def first_that_holds(task, cells):
    for cell in cells:
        at = task.centre(cell)
        if task.holds_at(cell.root, at):
            return cell.root, at
    return None


def search(task, budget):
    """The verdict of a task at a budget, by the levels of its cells."""
    roots = task.roots()
    cells, spent = roots, 0
    for level in range(task.finest + 1):
        for cell in cells:
            cell.evidence = task.evidence_of(cell)
        cells = [cell for cell in cells if cell.evidence is None]
        found = first_that_holds(task, cells)
        if found:
            return Verdict("accept", (level, *found), ["w " + " ".join(map(str, [found[0], *found[1]]))])
        if not cells:
            return Verdict("reject", (spent + len(roots),), lines_of_tree(roots))
        reason = "floor" if level == task.finest else "budget" if spent + len(cells) > budget else None
        if reason:
            counts = level, len(cells), spent, reason
            return Verdict("open", counts, ["at {} {} {} {}".format(*counts), *lines_of_tree(roots)])
        spent += len(cells)
        for cell in cells:
            cell.below = cell.halves()
        cells = [half for cell in cells for half in cell.below]


def certificate_of(share, verdicts):
    """The text of a certificate of these verdicts, one a group."""
    lines = ["gdcert 1", "plain", f"share {share}", f"groups {len(verdicts)}"]
    for number, verdict in enumerate(verdicts, 1):
        lines += [f"group {number} {verdict.word}", *verdict.lines]
    return "".join(f"{line}\n" for line in [*lines, "end"])
