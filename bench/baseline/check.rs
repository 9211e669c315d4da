//! The check of a certificate of flatness: each line is decided from the points, without a search.

use crate::certificate::{Body, Certificate, Fault, Head, Node};
use crate::flat::{self, Cell, FINEST, NO_LEAD, ONE, Reason};
use crate::points::Columns;

/// The line after that of the only group.
const BEHIND_GROUP: u32 = 6;

/// The task of flatness that the lines are decided for.
struct Task<'a> {
    points: &'a Columns<'a>,
    tolerance: u32,
}

/// What a tree is of: a rejected group, or an open one whose tree goes down to a level.
#[derive(Clone, Copy)]
enum Kind {
    Reject,
    Open { last: u32 },
}

impl Task<'_> {
    /// Whether two points, by their numbers from 1, lie further apart than the tolerance along each direction of a cell.
    fn is_refuted(&self, cell: &Cell, level: u32, a: u32, b: u32) -> bool {
        let is_point = |it: u32| (1..=self.points.axes[0].len()).contains(&(it as usize));
        if !is_point(a) || !is_point(b) {
            return false;
        }
        let within = cell.directions(level);
        let (low, _) = flat::span::<NO_LEAD>(&within, self.points, a as usize - 1);
        let (_, high) = flat::span::<NO_LEAD>(&within, self.points, b as usize - 1);
        flat::is_above(low - high, self.tolerance, within.length2())
    }

    /// Whether something refutes a cell, or its centre holds.
    fn is_decided(&self, cell: &Cell, level: u32) -> bool {
        flat::first_evidence(self.points, self.tolerance, &cell.directions(level)).is_some()
            || flat::holds(self.points, self.tolerance, &cell.centre(level))
    }

    /// What is wrong with the line of a cell.
    fn line_code(&self, kind: Kind, cell: &Cell, level: u32, node: Node) -> Option<u32> {
        match (node, kind) {
            (Node::Refuted { condition, a, b }, _) => {
                (condition != 1 || !self.is_refuted(cell, level, a, b)).then_some(50)
            }
            (Node::Split, _) if level == FINEST => Some(57),
            (Node::Split, Kind::Reject) => None,
            (Node::Split, Kind::Open { last }) => (self.is_decided(cell, level) || last <= level).then_some(56),
            (Node::Left, Kind::Reject) => Some(56),
            (Node::Left, Kind::Open { last }) => (self.is_decided(cell, level) || level != last).then_some(56),
        }
    }

    /// Walks a tree whose first line has this number: the cells that wait for their lines are the halves of split ones.
    fn walk(&self, kind: Kind, first: u32, tree: &[Node]) -> Result<(), Fault> {
        let mut waiting: Vec<(Cell, u32)> = Cell::roots().into_iter().rev().map(|root| (root, 0)).collect();
        for (line, &node) in (first..).zip(tree) {
            let Some((cell, level)) = waiting.pop() else {
                return Err(Fault { line, code: 54 });
            };
            if let Some(code) = self.line_code(kind, &cell, level, node) {
                return Err(Fault { line, code });
            }
            if node == Node::Split {
                waiting.extend([1, 0].map(|side| (cell.half(level, side), level + 1)));
            }
        }
        if waiting.is_empty() { Ok(()) } else { Err(Fault { line: first + tree.len() as u32, code: 53 }) }
    }

    fn accept(&self, root: u32, at: &[i64]) -> Result<(), Fault> {
        let fault = |code| Err(Fault { line: BEHIND_GROUP, code });
        let &[a, b] = at else {
            return fault(52);
        };
        if !(1..=3).contains(&root) || a.abs() > ONE || b.abs() > ONE {
            return fault(52);
        }
        let direction = flat::direction(root as usize - 1, [a, b]);
        if flat::holds(self.points, self.tolerance, &direction) { Ok(()) } else { fault(51) }
    }
}

/// Whether a reason and counts are those of an open verdict for the budget.
fn are_right_counts(budget: u32, (level, undecided, spent): (u32, u32, u32), reason: Reason, tree: &[Node]) -> bool {
    let count = |of: Node| tree.iter().filter(|it| **it == of).count();
    let is_past = u64::from(spent) + u64::from(undecided) > u64::from(budget);
    let fits = match reason {
        Reason::Budget => is_past && level != FINEST,
        Reason::Floor => level == FINEST,
    };
    undecided > 0
        && undecided as usize == count(Node::Left)
        && spent as usize == count(Node::Split)
        && spent <= budget
        && fits
}

/// The first wrong line of a certificate of flatness, if any is wrong.
pub fn check(points: &Columns, tolerance: u32, certificate: &Certificate) -> Result<(), Fault> {
    let task = Task { points, tolerance };
    if certificate.head != Head::Plain {
        return Err(Fault { line: 2, code: 55 });
    }
    let [group] = certificate.groups.as_slice() else {
        return Err(Fault { line: 4, code: 55 });
    };
    if certificate.stated != 1 {
        return Err(Fault { line: 4, code: 55 });
    }
    match group {
        Body::Accept { root, at } => task.accept(*root, at),
        Body::Reject { tree } => task.walk(Kind::Reject, BEHIND_GROUP, tree),
        Body::Open { level, undecided, spent, reason, tree } => {
            task.walk(Kind::Open { last: *level }, BEHIND_GROUP + 1, tree)?;
            let are_right = are_right_counts(certificate.share, (*level, *undecided, *spent), *reason, tree);
            if are_right { Ok(()) } else { Err(Fault { line: BEHIND_GROUP, code: 56 }) }
        }
    }
}
