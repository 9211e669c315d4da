//! Forms about an axis over boxes of axes in plain Rust, with the standard library alone: the same drawn boxes, the same points,
//! the same formulas, the same checksums. It is written for a fair comparison of time. Nothing of it is proved.
//!
//! Ends are in 64 bits where they fit, and roots are taken of the extremes of a box alone.

#[allow(dead_code, reason = "the centres of cells are judged in whole searches alone")]
mod axis;
mod kernels;
mod roots;

use axis::{Axes, Points, Shape, line_evidence, ring_evidence};
use kernels::{CALLS, Draws, ONE, Turn, rows};
use std::process::ExitCode;

/// How many points the feature has, and the direction of the section.
const MEMBERS: i32 = 1_000;
const DIRECTION: [i64; 3] = [1, 2, 2];

fn members() -> [Vec<i32>; 3] {
    [7_919, 104_729, 29_989].map(|step| {
        let inner = (1..MEMBERS).map(|at| at * step % 20_001);
        inner.chain([60_000]).collect()
    })
}

impl Draws {
    /// Directions that lead along z, with offsets off it.
    fn free(&mut self) -> Axes {
        let one = ONE as i64;
        let n = [self.ratio(), self.ratio(), [one, one]];
        Axes { n, offset: [self.ratio(), self.ratio(), [0, 0]] }
    }

    /// The direction of the section, which leads along y.
    fn section(&mut self) -> Axes {
        let (u, v) = (self.ratio(), self.ratio());
        Axes { n: DIRECTION.map(|it| [it, it]), offset: [u, [0, 0], v] }
    }
}

#[inline(never)]
fn judged(all: &[Axes], start: i128, pair: impl Fn(&Axes) -> Option<[u32; 2]>) -> i128 {
    all.iter().fold(start, |sum, axes| match pair(axes) {
        None => sum.wrapping_add(1),
        Some([a, b]) => (sum ^ i128::from(a)).wrapping_add(b.into()),
    })
}

/// A kernel with its boxes: one turn, from a checksum to the next.
fn work(kernel: &str) -> Option<Turn> {
    let columns = members();
    let numbers: Vec<u32> = (0..MEMBERS as u32).collect();
    let own = [0, 1, 2].map(|axis| i64::from(columns[axis][0]));
    let points = move |all: &[Axes], start, find: &dyn Fn(&Points, &Axes) -> Option<[u32; 2]>| {
        let points = Points { axes: columns.each_ref().map(Vec::as_slice), numbers: &numbers, own };
        judged(all, start, |axes| find(&points, axes))
    };
    Some(match kernel {
        "line" => {
            let all = rows(CALLS, Draws::free);
            Box::new(move |sum| points(&all, sum, &|points, axes| line_evidence(points, axes, 124_000)))
        }
        "circle" => {
            let all = rows(CALLS, Draws::section);
            Box::new(move |sum| points(&all, sum, &|points, axes| ring_evidence(points, axes, Shape::Circle, 28_000)))
        }
        "cylinder" => {
            let all = rows(CALLS, Draws::free);
            Box::new(move |sum| points(&all, sum, &|points, axes| ring_evidence(points, axes, Shape::Cylinder, 70_000)))
        }
        _ => return None,
    })
}

fn main() -> ExitCode {
    kernels::run("forms", work)
}
