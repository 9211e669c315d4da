//! Cells of coordinates that are halved by turns, and the search over them, level by level.

use crate::flat::{Evidence, Level, Outcome, Reason};

/// 1 as a ratio, and a unit in fine units, as bits.
pub const ONE: i64 = 1 << 30;
pub const FINE: u32 = 16;
/// The most coordinates: three ratios, a translation and two offsets.
pub const MOST: usize = 12;

/// Both ends of each coordinate.
pub type Ends = [[i64; 2]; MOST];

/// The low end of a coordinate in a root, and its width as a power of two.
pub struct Coordinate {
    low: i64,
    bits: u32,
}

impl Coordinate {
    /// A ratio within 2^-turn.
    pub fn ratio(turn: u32) -> Coordinate {
        Coordinate { low: -(ONE >> turn), bits: 31 - turn }
    }

    /// A length within 2^shift units of a middle, in units.
    pub fn about(middle: i64, shift: u32) -> Coordinate {
        Coordinate { low: (middle - (1 << shift)) << FINE, bits: shift + FINE + 1 }
    }
}

#[derive(Clone, Copy)]
pub struct Cell {
    pub root: usize,
    index: [i64; MOST],
}

pub struct Grid {
    pub roots: usize,
    pub coordinates: Vec<Coordinate>,
}

impl Grid {
    fn finest(&self) -> u32 {
        let least = self.coordinates.iter().map(|it| it.bits - 1).min();
        least.unwrap_or(0) * self.coordinates.len() as u32
    }

    fn ends(&self, cell: &Cell, level: u32) -> Ends {
        let count = self.coordinates.len() as u32;
        let mut ends = [[0; 2]; MOST];
        for (at, coordinate) in self.coordinates.iter().enumerate() {
            let halved = level / count + u32::from((at as u32) < level % count);
            let width = 1 << (coordinate.bits - halved);
            let low = coordinate.low + cell.index[at] * width;
            ends[at] = [low, low + width];
        }
        ends
    }

    fn centre(&self, cell: &Cell, level: u32) -> Ends {
        self.ends(cell, level).map(|[low, high]| [(low + high) >> 1; 2])
    }

    fn halves(&self, cell: &Cell, level: u32) -> [Cell; 2] {
        [0, 1].map(|side| {
            let mut half = *cell;
            let turn = level as usize % self.coordinates.len();
            half.index[turn] = 2 * half.index[turn] + side;
            half
        })
    }
}

/// What is asked of a place, over boxes of places: a root, and both ends of each coordinate.
pub trait Task {
    fn label(&self) -> &str;

    fn grid(&self) -> &Grid;

    /// The first evidence that refutes a box.
    fn evidence(&self, root: usize, ends: &Ends) -> Option<Evidence>;

    /// Whether a single place holds.
    fn holds(&self, root: usize, at: &Ends) -> bool;
}

fn accept(grid: &Grid, cell: &Cell, level: u32) -> Outcome {
    let at = grid.centre(cell, level).map(|ends| ends[0]);
    Outcome::Accept { level, root: cell.root as u32 + 1, at: at[..grid.coordinates.len()].to_vec() }
}

/// How the search of a budget ends.
pub fn judge(task: &dyn Task, budget: u32) -> Outcome {
    let (grid, finest) = (task.grid(), task.grid().finest());
    let mut cells: Vec<Cell> = (0..grid.roots).map(|root| Cell { root, index: [0; MOST] }).collect();
    let (mut levels, mut spent) = (Vec::new(), 0);
    for level in 0..=finest {
        let kept: Level = cells.iter().map(|cell| task.evidence(cell.root, &grid.ends(cell, level))).collect();
        let open: Vec<Cell> = cells.iter().zip(&kept).filter(|(_, it)| it.is_none()).map(|(cell, _)| *cell).collect();
        if let Some(cell) = open.iter().find(|cell| task.holds(cell.root, &grid.centre(cell, level))) {
            return accept(grid, cell, level);
        }
        levels.push(kept);
        let undecided = open.len();
        if undecided == 0 {
            return Outcome::Reject { levels };
        }
        if level == finest || spent + undecided > budget as usize {
            let reason = if level == finest { Reason::Floor } else { Reason::Budget };
            return Outcome::Open { reason, level, undecided, spent, levels };
        }
        spent += undecided;
        cells = open.iter().flat_map(|cell| grid.halves(cell, level)).collect();
    }
    unreachable!("the search ends at the finest level")
}
