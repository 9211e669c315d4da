//! Flatness by cells of directions, level by level, in exact whole numbers.

use crate::points::Columns;

/// A ratio of 1.
pub const ONE: i64 = 1 << 30;
pub const FINEST: u32 = 60;
/// How many axes a direction may lead along.
const ROOTS: usize = 3;

/// A box of directions: 1 along one axis, and an interval of ratios at each of the two others, in ascending order.
#[derive(Clone, Copy)]
pub struct Cell {
    pub axis: usize,
    index: [i64; 2],
}

/// The least and the greatest entry of the directions of a cell along each axis.
pub struct Directions {
    pub lo: [i64; 3],
    pub hi: [i64; 3],
}

/// How often a level has halved a ratio, the first (0) or the second (1).
fn halvings(ratio: u32, level: u32) -> u32 {
    (level + 1 - ratio) / 2
}

/// 1 at an axis, and the ratios at the two others.
pub fn direction(axis: usize, [a, b]: [i64; 2]) -> [i64; 3] {
    match axis {
        0 => [ONE, a, b],
        1 => [a, ONE, b],
        _ => [a, b, ONE],
    }
}

impl Cell {
    /// The whole roots.
    pub fn roots() -> [Cell; ROOTS] {
        [0, 1, 2].map(|axis| Cell { axis, index: [0; 2] })
    }

    /// The ratios so many half widths above the low ends.
    fn ratios(&self, level: u32, half_widths: i64) -> [i64; 2] {
        [0, 1].map(|it: u32| {
            let half = ONE >> halvings(it, level);
            (2 * self.index[it as usize] + half_widths) * half - ONE
        })
    }

    fn corner(&self, level: u32, half_widths: i64) -> [i64; 3] {
        direction(self.axis, self.ratios(level, half_widths))
    }

    pub fn centre_ratios(&self, level: u32) -> [i64; 2] {
        self.ratios(level, 1)
    }

    pub fn centre(&self, level: u32) -> [i64; 3] {
        self.corner(level, 1)
    }

    pub fn directions(&self, level: u32) -> Directions {
        Directions { lo: self.corner(level, 0), hi: self.corner(level, 2) }
    }

    /// One of both halves, along the ratio whose turn it is at this level.
    pub fn half(&self, level: u32, side: i64) -> Cell {
        let mut index = self.index;
        let ratio = (level % 2) as usize;
        index[ratio] = 2 * index[ratio] + side;
        Cell { axis: self.axis, index }
    }
}

impl Directions {
    /// The greatest squared length of the directions.
    pub fn length2(&self) -> i128 {
        (0..3).map(|axis| square(self.lo[axis]).max(square(self.hi[axis]))).sum()
    }
}

fn square(it: i64) -> i128 {
    i128::from(it) * i128::from(it)
}

/// Whether a value lies above the tolerance times a length, both squared.
pub fn is_above(value: i64, tolerance: u32, length2: i128) -> bool {
    value > 0 && square(value) > square(i64::from(tolerance)) * length2
}

/// What refutes a cell: a condition and two points of it, by their numbers from 1. Flatness is one condition.
#[derive(Clone, Copy)]
pub struct Evidence {
    pub condition: u32,
    pub farthest: u32,
    pub nearest: u32,
}

/// Points are looked at in blocks of so many.
const BLOCK: usize = 512;
/// No axis is known to lead.
pub const NO_LEAD: usize = 3;

/// Both ends of an entry times a difference, in order. A negative difference turns them round.
#[inline(always)]
fn scale(lo: i64, hi: i64, apart: i32) -> (i64, i64) {
    let (lo, hi) = (lo as i32, hi as i32);
    let (below, above) = if apart < 0 { (hi, lo) } else { (lo, hi) };
    (i64::from(below) * i64::from(apart), i64::from(above) * i64::from(apart))
}

/// The least and the greatest value of a point along a box that leads along an axis, taken from the first point.
#[inline(always)]
pub fn span<const AXIS: usize>(within: &Directions, points: &Columns, at: usize) -> (i64, i64) {
    let (mut low, mut high) = (0, 0);
    for (axis, column) in points.axes.iter().enumerate() {
        let apart = column[at] - column[0];
        let (below, above) = match axis == AXIS {
            true => (i64::from(apart) << 30, i64::from(apart) << 30),
            false => scale(within.lo[axis], within.hi[axis], apart),
        };
        low += below;
        high += above;
    }
    (low, high)
}

/// Of the least values of the points along a box the first greatest, and of their greatest values the first least, where
/// these two lie further apart than the tolerance along each direction of the box.
pub fn first_evidence(points: &Columns, tolerance: u32, within: &Directions) -> Option<Evidence> {
    match (0..3).find(|&axis| within.lo[axis] == ONE && within.hi[axis] == ONE) {
        Some(0) => first_evidence_by::<0>(points, tolerance, within),
        Some(1) => first_evidence_by::<1>(points, tolerance, within),
        Some(_) => first_evidence_by::<2>(points, tolerance, within),
        None => first_evidence_by::<NO_LEAD>(points, tolerance, within),
    }
}

/// The same where an axis is known to lead.
///
/// A block is known by its extremes, and the points are looked up in the two blocks that have the extremes of all first.
fn first_evidence_by<const AXIS: usize>(points: &Columns, tolerance: u32, within: &Directions) -> Option<Evidence> {
    let points = &points.same_length();
    let count = points.axes[0].len();
    let (mut farthest, mut nearest) = ((0, 0), (0, 0));
    for from in (1..count).step_by(BLOCK) {
        let (mut low, mut high) = (farthest.0, nearest.0);
        for at in from..count.min(from + BLOCK) {
            let it = span::<AXIS>(within, points, at);
            low = low.max(it.0);
            high = high.min(it.1);
        }
        if low > farthest.0 {
            farthest = (low, from);
        }
        if high < nearest.0 {
            nearest = (high, from);
        }
    }
    is_above(farthest.0 - nearest.0, tolerance, within.length2()).then(|| {
        let far = (farthest.1..count).find(|&at| span::<AXIS>(within, points, at).0 == farthest.0);
        let near = (nearest.1..count).find(|&at| span::<AXIS>(within, points, at).1 == nearest.0);
        Evidence { condition: 1, farthest: far.unwrap_or(count) as u32 + 1, nearest: near.unwrap_or(count) as u32 + 1 }
    })
}

/// Whether the points lie within the tolerance along a direction. It ends at the first block with which they don't.
pub fn holds(points: &Columns, tolerance: u32, n: &[i64; 3]) -> bool {
    let points = &points.same_length();
    let [x, y, z] = points.axes;
    let [a, b, c] = n.map(|entry| i64::from(entry as i32));
    let value = |at: usize| a * i64::from(x[at]) + b * i64::from(y[at]) + c * i64::from(z[at]);
    let length2 = n.iter().map(|&it| square(it)).sum();
    let (mut least, mut most) = (value(0), value(0));
    for from in (1..x.len()).step_by(BLOCK) {
        for at in from..x.len().min(from + BLOCK) {
            let it = value(at);
            least = least.min(it);
            most = most.max(it);
        }
        if is_above(most - least, tolerance, length2) {
            return false;
        }
    }
    true
}

/// What was found in a cell.
enum Found {
    Refuted(Evidence),
    Undecided { holds: bool },
}

fn bound(points: &Columns, tolerance: u32, cell: &Cell, level: u32) -> Found {
    match first_evidence(points, tolerance, &cell.directions(level)) {
        Some(evidence) => Found::Refuted(evidence),
        None => Found::Undecided { holds: holds(points, tolerance, &cell.centre(level)) },
    }
}

/// Why a search stops without a verdict.
#[derive(Clone, Copy, PartialEq)]
pub enum Reason {
    Budget,
    Floor,
}

impl Reason {
    pub fn word(self) -> &'static str {
        match self {
            Reason::Budget => "budget",
            Reason::Floor => "floor",
        }
    }
}

/// What refutes each cell of a level, in order, and nothing for an undecided one.
pub type Level = Vec<Option<Evidence>>;

/// How a search ends. Its levels are kept, as the certificate of a reject or of an open needs them.
pub enum Outcome {
    Accept { level: u32, root: u32, at: Vec<i64> },
    Reject { levels: Vec<Level> },
    Open { reason: Reason, level: u32, undecided: usize, spent: usize, levels: Vec<Level> },
}

impl Outcome {
    /// The line that is printed, and the status.
    pub fn answer(&self) -> (String, u8) {
        match self {
            Outcome::Accept { level, root, at } => {
                let [x, y, z] = direction(*root as usize - 1, [at[0], at[1]]);
                (format!("accept level {level} direction {x} {y} {z}\n"), 0)
            }
            _ => (self.report(), self.status()),
        }
    }

    /// What a report says of a group that ended so, on a line.
    pub fn report(&self) -> String {
        match self {
            Outcome::Accept { level, .. } => format!("accept level {level}\n"),
            Outcome::Reject { levels } => format!("reject leaves {}\n", levels.iter().flatten().flatten().count()),
            Outcome::Open { reason, level, undecided, spent, .. } => {
                let reason = reason.word();
                format!("open {reason} level {level} undecided {undecided} spent {spent}\n")
            }
        }
    }

    /// The status of this verdict alone.
    pub fn status(&self) -> u8 {
        match self {
            Outcome::Accept { .. } => 0,
            Outcome::Reject { .. } => 1,
            Outcome::Open { .. } => 2,
        }
    }
}

/// How the search of a budget ends.
pub fn judge(points: &Columns, tolerance: u32, budget: u32) -> Outcome {
    let mut cells = Cell::roots().to_vec();
    let mut levels = Vec::new();
    let mut spent = 0;
    for level in 0..=FINEST {
        let found: Vec<Found> = cells.iter().map(|cell| bound(points, tolerance, cell, level)).collect();
        let holding = found.iter().position(|it| matches!(it, Found::Undecided { holds: true }));
        if let Some(at) = holding {
            let cell = cells[at];
            return Outcome::Accept { level, root: cell.axis as u32 + 1, at: cell.centre_ratios(level).to_vec() };
        }
        let mut kept = Level::with_capacity(cells.len());
        let mut halves = Vec::new();
        for (cell, found) in cells.iter().zip(found) {
            match found {
                Found::Refuted(it) => kept.push(Some(it)),
                Found::Undecided { .. } => {
                    kept.push(None);
                    halves.extend([cell.half(level, 0), cell.half(level, 1)]);
                }
            }
        }
        levels.push(kept);
        let undecided = halves.len() / 2;
        if undecided == 0 {
            return Outcome::Reject { levels };
        }
        if level == FINEST || spent + undecided > budget as usize {
            let reason = if level == FINEST { Reason::Floor } else { Reason::Budget };
            return Outcome::Open { reason, level, undecided, spent, levels };
        }
        spent += undecided;
        cells = halves;
    }
    unreachable!("the search ends at the finest level")
}
