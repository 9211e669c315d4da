//! Conditions over cells of placements in plain Rust, with the standard library alone: the same drawn cells, the same points, the
//! same formulas, the same checksums. It is written for a fair comparison of time. Nothing of it is proved.
//!
//! Ends are in 64 bits but for squares, the matrix is made once a cell, and roots are taken of the extremes alone.

mod kernels;
mod roots;

use kernels::{CALLS, Draws, ONE, Turn, rows};
use roots::{isqrt_ceil, isqrt_floor, signed_square};
use std::process::ExitCode;

/// How many points the feature has.
const MEMBERS: i32 = 1_000;
/// A half unit in fine units, and the direction of the plane and the axis. The surfaces go through the first point.
const HALF: i128 = 1 << 15;
const DIRECTION: [i64; 3] = [1, 2, 2];

/// An interval in 64 bits, and one in 128.
type Iv = [i64; 2];
type Wide = [i128; 2];

fn floor_root(c: i128) -> i128 {
    isqrt_floor(c as u128) as i128
}

fn ceil_root(c: i128) -> i128 {
    isqrt_ceil(c as u128) as i128
}

// ---- intervals

fn add(a: Iv, b: Iv) -> Iv {
    [a[0] + b[0], a[1] + b[1]]
}

fn sub(a: Iv, b: Iv) -> Iv {
    [a[0] - b[1], a[1] - b[0]]
}

fn scale(a: Iv, k: i64) -> Iv {
    let (p, q) = (a[0] * k, a[1] * k);
    [p.min(q), p.max(q)]
}

fn square(a: Iv) -> Wide {
    let [p, q] = a.map(|z| i128::from(z) * i128::from(z));
    [if a[0] <= 0 && 0 <= a[1] { 0 } else { p.min(q) }, p.max(q)]
}

fn total(a: [Wide; 3]) -> Wide {
    [a[0][0] + a[1][0] + a[2][0], a[0][1] + a[1][1] + a[2][1]]
}

// ---- the matrix of a cell

fn wide_sub(a: Wide, b: Wide) -> Wide {
    [a[0] - b[1], a[1] - b[0]]
}

fn wide_add(a: Wide, b: Wide) -> Wide {
    [a[0] + b[0], a[1] + b[1]]
}

fn twice(a: Wide) -> Wide {
    [2 * a[0], 2 * a[1]]
}

fn product(a: Iv, b: Iv) -> Wide {
    let times = |x: i64, y: i64| i128::from(x) * i128::from(y);
    let (ac, ad, bc, bd) = (times(a[0], b[0]), times(a[0], b[1]), times(a[1], b[0]), times(a[1], b[1]));
    [ac.min(ad).min(bc.min(bd)), ac.max(ad).max(bc.max(bd))]
}

fn quotient(n: Wide, d: Wide) -> Iv {
    let below = if 0 <= n[0] { d[1] } else { d[0] };
    let above = if 0 <= n[1] { d[0] } else { d[1] };
    let top = n[1] * ONE;
    let up = if top <= 0 { top / above } else { (top - 1) / above + 1 };
    [(n[0] * ONE).div_euclid(below) as i64, up as i64]
}

type Vector = [Iv; 3];
type Matrix = [Vector; 3];

#[inline(never)]
fn matrix(q: &[Iv; 4]) -> Matrix {
    let s = q.map(square);
    let norm = wide_add(wide_add(s[0], s[1]), wide_add(s[2], s[3]));
    let on = |i: usize, j: usize, k: usize| quotient(wide_sub(wide_add(s[0], s[i]), wide_add(s[j], s[k])), norm);
    let (p01, p02, p03) = (product(q[0], q[1]), product(q[0], q[2]), product(q[0], q[3]));
    let (p12, p13, p23) = (product(q[1], q[2]), product(q[1], q[3]), product(q[2], q[3]));
    let more = |a: Wide, b: Wide| quotient(twice(wide_add(a, b)), norm);
    let less = |a: Wide, b: Wide| quotient(twice(wide_sub(a, b)), norm);
    [
        [on(1, 2, 3), less(p12, p03), more(p13, p02)],
        [more(p12, p03), on(2, 1, 3), less(p23, p01)],
        [less(p13, p02), more(p23, p01), on(3, 1, 2)],
    ]
}

// ---- the points of the feature, and the cells

struct Points {
    x: Vec<i32>,
    y: Vec<i32>,
    z: Vec<i32>,
    feature: Vec<u32>,
    group: Vec<u32>,
}

fn members() -> Points {
    let mut points = Points { x: vec![], y: vec![], z: vec![], feature: vec![], group: vec![] };
    for at in 1..=MEMBERS {
        let far = at == MEMBERS;
        points.x.push(if far { 60_000 } else { at * 7_919 % 20_001 });
        points.y.push(if far { 60_000 } else { at * 104_729 % 20_001 });
        points.z.push(if far { 60_000 } else { at * 29_989 % 20_001 });
        points.feature.push(at as u32 - 1);
        if !far {
            points.group.push(at as u32 - 1);
        }
    }
    points
}

struct Place {
    matrix: Matrix,
    shift: Vector,
    first: Vector,
}

impl Points {
    /// A point less the first one, in units.
    fn from_base(&self, number: u32) -> [i64; 3] {
        let at = number as usize;
        [self.x[at] - self.x[0], self.y[at] - self.y[0], self.z[at] - self.z[0]].map(i64::from)
    }
}

// ---- values of a point

impl Place {
    fn turned(&self, v: [i64; 3]) -> Vector {
        self.matrix.map(|row| {
            let it = add(add(scale(row[0], v[0]), scale(row[1], v[1])), scale(row[2], v[2]));
            [it[0] >> 14, -(-it[1] >> 14)]
        })
    }

    /// The translation with the first offset; the surfaces go through the first point.
    fn translation(&self) -> Vector {
        [0, 1, 2].map(|i| add(self.shift[i], self.first[i]))
    }
}

fn moved(x: Vector, by: Vector) -> Vector {
    [0, 1, 2].map(|i| add(x[i], by[i]))
}

fn along(x: Vector) -> Iv {
    add(add(scale(x[0], DIRECTION[0]), scale(x[1], DIRECTION[1])), scale(x[2], DIRECTION[2]))
}

fn across(x: Vector) -> Wide {
    let d = DIRECTION;
    total([
        square(sub(scale(x[2], d[1]), scale(x[1], d[2]))),
        square(sub(scale(x[0], d[2]), scale(x[2], d[0]))),
        square(sub(scale(x[1], d[0]), scale(x[0], d[1]))),
    ])
}

fn from_point(x: Vector) -> Wide {
    total(x.map(square))
}

// ---- comparisons

fn length2() -> i128 {
    DIRECTION.iter().map(|&d| i128::from(d * d)).sum()
}

/// The square of so many half units, with their sign, for a direction.
fn limit(h: i64) -> i128 {
    signed_square(i128::from(h) * HALF) * length2()
}

fn is_more(s: i128, limit: i128) -> bool {
    signed_square(s) > limit
}

/// The least and the greatest of some values, by both ends.
struct Extremes<T> {
    least: [T; 2],
    greatest: [T; 2],
}

fn extremes<T: Ord + Copy>(numbers: &[u32], value: impl Fn(u32) -> [T; 2]) -> Option<Extremes<T>> {
    let (&first, rest) = numbers.split_first()?;
    let first = value(first);
    Some(rest.iter().fold(Extremes { least: first, greatest: first }, |found, &number| {
        let it = value(number);
        Extremes {
            least: [found.least[0].min(it[0]), found.least[1].min(it[1])],
            greatest: [found.greatest[0].max(it[0]), found.greatest[1].max(it[1])],
        }
    }))
}

type Pair = Option<[u32; 2]>;

fn first(numbers: &[u32], test: impl Fn(u32) -> bool) -> Option<u32> {
    numbers.iter().find(|&&number| test(number)).map(|number| number + 1)
}

/// The evidence that refutes a condition over a cell.
fn plane(points: &Points, place: &Place, h: i64) -> Pair {
    let (top, low, by) = (limit(h), limit(-h), place.translation());
    let outside = |number: u32| {
        let [lo, hi] = along(moved(place.turned(points.from_base(number)), by)).map(i128::from);
        signed_square(lo) > top || signed_square(hi) < low
    };
    Some([first(&points.feature, outside)?, 0])
}

fn axis(points: &Points, place: &Place, h: i64) -> Pair {
    let (top, by) = (limit(h), place.translation());
    Some([first(&points.feature, |number| across(moved(place.turned(points.from_base(number)), by))[0] > top)?, 0])
}

fn ball(points: &Points, place: &Place, h: i64) -> Pair {
    let (top, by) = (signed_square(i128::from(h) * HALF), place.translation());
    Some([first(&points.feature, |number| from_point(moved(place.turned(points.from_base(number)), by))[0] > top)?, 0])
}

fn spread(points: &Points, place: &Place, t: i64) -> Pair {
    let value = |number: u32| along(place.turned(points.from_base(number)));
    let it = extremes(&points.feature, value)?;
    if !is_more(i128::from(it.greatest[0] - it.least[1]), limit(t)) {
        return None;
    }
    let far = first(&points.feature, |number| value(number)[0] >= it.greatest[0])?;
    let near = first(&points.feature, |number| value(number)[1] <= it.least[1])?;
    Some([far, near])
}

fn contact(points: &Points, place: &Place, h: i64) -> Pair {
    let by = place.translation();
    let it = extremes(&points.group, |number| along(moved(place.turned(points.from_base(number)), by)))?;
    is_more(i128::from(it.least[0]), limit(h)).then_some([0, 0])
}

fn hug(points: &Points, place: &Place, slack: i64) -> Pair {
    let by = place.translation();
    let value = |number: u32| across(moved(place.turned(points.from_base(number)), by));
    let all = extremes(&points.feature, value)?;
    let group = extremes(&points.group, value)?;
    let nearest = floor_root(all.greatest[0]);
    if !is_more(nearest - ceil_root(group.greatest[1]), limit(slack)) {
        return None;
    }
    Some([first(&points.feature, |number| value(number)[0] >= nearest * nearest)?, 0])
}

// ---- draws, and turns

impl Draws {
    fn turn(&mut self) -> [Iv; 4] {
        [[1 << 30; 2], self.ratio(), self.ratio(), self.ratio()]
    }

    fn lengths(&mut self) -> Vector {
        [(); 3].map(|()| self.ratio())
    }

    fn place(&mut self) -> Place {
        let turn = self.turn();
        let (shift, first) = (self.lengths(), self.lengths());
        self.lengths();
        Place { matrix: matrix(&turn), shift, first }
    }
}

#[inline(never)]
fn matrices(rows: &[[Iv; 4]], start: i128) -> i128 {
    rows.iter().fold(start, |sum, q| {
        let m = matrix(q);
        let end = |e: usize| m.iter().flatten().map(|it| i128::from(it[e])).sum::<i128>();
        (sum ^ end(0)).wrapping_add(end(1))
    })
}

#[inline(never)]
fn judged(places: &[Place], start: i128, pair: impl Fn(&Place) -> Pair) -> i128 {
    places.iter().fold(start, |sum, place| match pair(place) {
        None => sum.wrapping_add(1),
        Some([a, b]) => (sum ^ i128::from(a)).wrapping_add(b.into()),
    })
}

/// A kernel with its rows: one turn, from a checksum to the next.
fn work(kernel: &str) -> Option<Turn> {
    let points = members();
    let places = rows(CALLS, Draws::place);
    Some(match kernel {
        "matrix" => {
            let rows = rows(CALLS, Draws::turn);
            Box::new(move |sum| matrices(&rows, sum))
        }
        "plane" => Box::new(move |sum| judged(&places, sum, |place| plane(&points, place, 182_800))),
        "axis" => Box::new(move |sum| judged(&places, sum, |place| axis(&points, place, 182_800))),
        "ball" => Box::new(move |sum| judged(&places, sum, |place| ball(&points, place, 181_800))),
        "spread" => Box::new(move |sum| judged(&places, sum, |place| spread(&points, place, 90_000))),
        "contact" => Box::new(move |sum| judged(&places, sum, |place| contact(&points, place, -20_000))),
        "hug" => Box::new(move |sum| judged(&places, sum, |place| hug(&points, place, 60_000))),
        _ => return None,
    })
}

fn main() -> ExitCode {
    kernels::run("conditions", work)
}
