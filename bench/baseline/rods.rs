//! Forms about an axis as tasks over cells. A form is handed in as numbers.

use crate::axis::{Axes, Interval, Points, Shape, line_evidence, line_holds, ring_evidence, ring_holds};
use crate::cells::{Coordinate, Ends, Grid, ONE, Task};
use crate::flat::Evidence;
use crate::points::Table;
use crate::words::Words;

pub struct Form<'a> {
    label: String,
    grid: Grid,
    shape: Shape,
    direction: [i64; 3],
    points: Points<'a>,
    tolerance: u32,
}

/// 1, 2 or 3 less 1: the first axis along which a direction has its greatest entry in size.
fn leading_axis(direction: &[i64; 3]) -> usize {
    let most = direction.iter().map(|it| it.abs()).max();
    direction.iter().position(|it| Some(it.abs()) == most).unwrap_or(0)
}

/// What stands at an axis, and two others at the other axes in ascending order.
fn about_axis(axis: usize, at: Interval, [a, b]: [Interval; 2]) -> [Interval; 3] {
    match axis {
        0 => [at, a, b],
        1 => [a, at, b],
        _ => [a, b, at],
    }
}

impl Form<'_> {
    fn axes(&self, root: usize, ends: &Ends) -> Axes {
        match self.shape {
            Shape::Circle => {
                let offset = about_axis(leading_axis(&self.direction), [0; 2], [ends[0], ends[1]]);
                Axes { n: self.direction.map(|it| [it; 2]), offset }
            }
            _ => {
                let n = about_axis(root, [ONE; 2], [ends[0], ends[1]]);
                Axes { n, offset: about_axis(root, [0; 2], [ends[2], ends[3]]) }
            }
        }
    }
}

impl Task for Form<'_> {
    fn label(&self) -> &str {
        &self.label
    }

    fn grid(&self) -> &Grid {
        &self.grid
    }

    fn evidence(&self, root: usize, ends: &Ends) -> Option<Evidence> {
        let axes = self.axes(root, ends);
        let [farthest, nearest] = match self.shape {
            Shape::Line => line_evidence(&self.points, &axes, self.tolerance),
            shape => ring_evidence(&self.points, &axes, shape, self.tolerance),
        }?;
        Some(Evidence { condition: 1, farthest, nearest })
    }

    fn holds(&self, root: usize, at: &Ends) -> bool {
        let axes = self.axes(root, at);
        match self.shape {
            Shape::Line => line_holds(&self.points, &axes, self.tolerance),
            shape => ring_holds(&self.points, &axes, shape, self.tolerance),
        }
    }
}

/// The form of a line `form LABEL SHAPE DIRECTION POINT SHIFT TOLERANCE`, over all points of a table. A line's own point is the
/// first of them, and its axis lies within 2^b units of that, with the least b of which 2^b is at least the tolerance.
pub fn form_of<'a>(words: &mut Words, table: &'a Table, numbers: &'a [u32]) -> Form<'a> {
    let label = words.next().to_owned();
    let shape = match words.next() {
        "line" => Shape::Line,
        "circle" => Shape::Circle,
        _ => Shape::Cylinder,
    };
    let (direction, point, shift) = (words.three(), words.three(), words.number() as u32);
    let tolerance = words.number() as u32;
    let (own, shift) = match shape {
        Shape::Line => (table.rows[0].at, tolerance.next_power_of_two().trailing_zeros()),
        _ => (point, shift),
    };
    let offsets = [Coordinate::about(0, shift), Coordinate::about(0, shift)];
    let grid = match shape {
        Shape::Circle => Grid { roots: 1, coordinates: offsets.into() },
        _ => Grid { roots: 3, coordinates: [Coordinate::ratio(0), Coordinate::ratio(0)].into_iter().chain(offsets).collect() },
    };
    Form { label, grid, shape, direction, points: Points { axes: table.columns().axes, numbers, own }, tolerance }
}
