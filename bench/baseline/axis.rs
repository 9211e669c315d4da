//! Lines, circles and cylinders over boxes of axes, in exact whole numbers (docs/FORMATS.md, "Forms about an axis"). Ends are in
//! 64 bits where they fit, and roots are taken of the extremes of a box alone.

use crate::roots::{isqrt_ceil, isqrt_floor, signed_square};

/// A unit in fine units, as bits, and how many bits the entries of a free direction have.
const FINE: u32 = 16;
const RATIO: u32 = 30;

/// An interval in 64 bits, and one in 128.
pub type Interval = [i64; 2];
type Wide = [i128; 2];

#[derive(Clone, Copy, PartialEq)]
pub enum Shape {
    Line,
    Circle,
    Cylinder,
}

/// A box of axes: of directions, in 2^-30 but for a circle, and of offsets from the form's own point in fine units.
pub struct Axes {
    pub n: [Interval; 3],
    pub offset: [Interval; 3],
}

/// The points that a form judges: the columns of all, the places in them, and the form's own point.
pub struct Points<'a> {
    pub axes: [&'a [i32]; 3],
    pub numbers: &'a [u32],
    pub own: [i64; 3],
}

fn square(a: Interval) -> Wide {
    let [p, q] = a.map(|it| i128::from(it) * i128::from(it));
    [if a[0] <= 0 && 0 <= a[1] { 0 } else { p.min(q) }, p.max(q)]
}

fn squares([a, b, c]: [Interval; 3]) -> Wide {
    let (a, b, c) = (square(a), square(b), square(c));
    [a[0] + b[0] + c[0], a[1] + b[1] + c[1]]
}

#[inline(always)]
fn product(a: Interval, b: Interval) -> Wide {
    let times = |x: i64, y: i64| i128::from(x) * i128::from(y);
    let (ac, ad, bc, bd) = (times(a[0], b[0]), times(a[0], b[1]), times(a[1], b[0]), times(a[1], b[1]));
    [ac.min(ad).min(bc.min(bd)), ac.max(ad).max(bc.max(bd))]
}

/// An entry of a cross product with a free direction.
#[inline(always)]
fn ratio_minor(n: Interval, z: Interval, m: Interval, y: Interval) -> Interval {
    let (a, b) = (product(n, z), product(m, y));
    [((a[0] - b[1]) >> RATIO) as i64, -((b[0] - a[1]) >> RATIO) as i64]
}

/// The same with a direction of whole entries, one of a kind.
#[inline(always)]
fn whole_minor(n: Interval, z: Interval, m: Interval, y: Interval) -> Interval {
    let scale = |a: Interval, k: i64| {
        let (p, q) = (a[0] * k, a[1] * k);
        [p.min(q), p.max(q)]
    };
    let (a, b) = (scale(z, n[0]), scale(y, m[0]));
    [a[0] - b[1], a[1] - b[0]]
}

fn floor_root(c: i128) -> i128 {
    isqrt_floor(c as u128) as i128
}

fn ceil_root(c: i128) -> i128 {
    isqrt_ceil(c as u128) as i128
}

impl Points<'_> {
    /// The squared distance of the point at a place in the table from the axes.
    #[inline(always)]
    fn value<const IS_CIRCLE: bool>(&self, within: &Axes, number: u32) -> Wide {
        let from = |axis: usize| {
            let apart = (i64::from(self.axes[axis][number as usize]) - self.own[axis]) << FINE;
            [apart - within.offset[axis][1], apart - within.offset[axis][0]]
        };
        let (n, y) = (&within.n, [from(0), from(1), from(2)]);
        let minor = if IS_CIRCLE { whole_minor } else { ratio_minor };
        squares([minor(n[1], y[2], n[2], y[1]), minor(n[2], y[0], n[0], y[2]), minor(n[0], y[1], n[1], y[0])])
    }

    /// The greatest of the ends of one side, and the least of those of the other.
    fn extremes<const IS_CIRCLE: bool>(&self, within: &Axes, most: usize, least: usize) -> (i128, i128) {
        self.numbers.iter().fold((i128::MIN, i128::MAX), |found, &number| {
            let it = self.value::<IS_CIRCLE>(within, number);
            (found.0.max(it[most]), found.1.min(it[least]))
        })
    }

    fn ring<const IS_CIRCLE: bool>(&self, within: &Axes, tolerance: u32) -> Option<[u32; 2]> {
        let (far, near) = self.extremes::<IS_CIRCLE>(within, 0, 1);
        let (far, near) = (floor_root(far), ceil_root(near));
        if signed_square(far - near) <= limit(tolerance, length2::<IS_CIRCLE>(within)[1]) {
            return None;
        }
        let first = |test: &dyn Fn(Wide) -> bool| {
            let found = self.numbers.iter().find(|&&number| test(self.value::<IS_CIRCLE>(within, number)));
            found.map(|number| number + 1)
        };
        Some([first(&|it| it[0] >= far * far)?, first(&|it| it[1] <= near * near)?])
    }
}

/// The squared length of the directions, in squares of fine units.
fn length2<const IS_CIRCLE: bool>(within: &Axes) -> Wide {
    let it = squares(within.n);
    if IS_CIRCLE { it.map(|end| end << (2 * FINE)) } else { [it[0] >> 28, -(-it[1] >> 28)] }
}

/// The square of the tolerance, in fine units times the direction's length.
fn limit(tolerance: u32, length2: i128) -> i128 {
    i128::from(tolerance) * i128::from(tolerance) * length2
}

/// The first point that lies outside the cylinder about each axis of a box.
pub fn line_evidence(points: &Points, within: &Axes, tolerance: u32) -> Option<[u32; 2]> {
    let most = limit(tolerance, length2::<false>(within)[1]);
    let outside = |&&number: &&u32| 4 * points.value::<false>(within, number)[0] > most;
    points.numbers.iter().find(outside).map(|number| [number + 1, 0])
}

/// The farthest and the nearest point, where they lie further apart than the tolerance from each axis of a box.
pub fn ring_evidence(points: &Points, within: &Axes, shape: Shape, tolerance: u32) -> Option<[u32; 2]> {
    match shape {
        Shape::Circle => points.ring::<true>(within, tolerance),
        _ => points.ring::<false>(within, tolerance),
    }
}

/// Whether all points lie in the cylinder about an axis.
pub fn line_holds(points: &Points, within: &Axes, tolerance: u32) -> bool {
    let most = limit(tolerance, length2::<false>(within)[0]);
    points.numbers.iter().all(|&number| 4 * points.value::<false>(within, number)[1] <= most)
}

/// Whether the distances of the points from an axis differ by at most the tolerance.
pub fn ring_holds(points: &Points, within: &Axes, shape: Shape, tolerance: u32) -> bool {
    let ((far, near), length2) = match shape {
        Shape::Circle => (points.extremes::<true>(within, 1, 0), length2::<true>(within)),
        _ => (points.extremes::<false>(within, 1, 0), length2::<false>(within)),
    };
    signed_square(ceil_root(far) - floor_root(near)) <= limit(tolerance, length2[0])
}
