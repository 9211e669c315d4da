//! Groups of conditions over cells of placements, in exact whole numbers. The conditions are handed in as
//! numbers, and are those of plates: zones about planes, axes and balls, differences along planes, and contact of planes.

use crate::cells::{Coordinate, Ends, FINE, Grid, ONE, Task};
use crate::flat::Evidence;
use crate::points::Table;
use crate::words::Words;

/// How many bits finer a turned entry is than the fine units that it is narrowed to.
const NARROW: u32 = 14;
/// A half unit in fine units.
const HALF: i128 = 1 << 15;

/// An interval in 64 bits, and one in 128.
type Interval = [i64; 2];
type Wide = [i128; 2];
type Vector = [Interval; 3];

fn add(a: Interval, b: Interval) -> Interval {
    [a[0] + b[0], a[1] + b[1]]
}

fn sub(a: Interval, b: Interval) -> Interval {
    [a[0] - b[1], a[1] - b[0]]
}

#[inline(always)]
fn scale(a: Interval, k: i64) -> Interval {
    let (p, q) = (a[0] * k, a[1] * k);
    [p.min(q), p.max(q)]
}

fn square(a: Interval) -> Wide {
    let [p, q] = a.map(|it| i128::from(it) * i128::from(it));
    [if a[0] <= 0 && 0 <= a[1] { 0 } else { p.min(q) }, p.max(q)]
}

fn total([a, b, c]: [Wide; 3]) -> Wide {
    [a[0] + b[0] + c[0], a[1] + b[1] + c[1]]
}

fn dot(x: &Vector, d: [i64; 3]) -> Interval {
    add(add(scale(x[0], d[0]), scale(x[1], d[1])), scale(x[2], d[2]))
}

fn signed_square(it: i128) -> i128 {
    it * it.abs()
}

// ---- the matrix of a box of rotations

fn wide_add(a: Wide, b: Wide) -> Wide {
    [a[0] + b[0], a[1] + b[1]]
}

fn wide_sub(a: Wide, b: Wide) -> Wide {
    [a[0] - b[1], a[1] - b[0]]
}

fn product(a: Interval, b: Interval) -> Wide {
    let times = |x: i64, y: i64| i128::from(x) * i128::from(y);
    let (ac, ad, bc, bd) = (times(a[0], b[0]), times(a[0], b[1]), times(a[1], b[0]), times(a[1], b[1]));
    [ac.min(ad).min(bc.min(bd)), ac.max(ad).max(bc.max(bd))]
}

fn quotient(n: Wide, d: Wide) -> Interval {
    let below = if 0 <= n[0] { d[1] } else { d[0] };
    let above = if 0 <= n[1] { d[0] } else { d[1] };
    let one = i128::from(ONE);
    [(n[0] * one).div_euclid(below) as i64, -((-n[1] * one).div_euclid(above)) as i64]
}

/// The entries of the rotations of a box of quaternions, in 2^-30.
fn matrix(q: &[Interval; 4]) -> [Vector; 3] {
    let s = q.map(square);
    let norm = wide_add(wide_add(s[0], s[1]), wide_add(s[2], s[3]));
    let on = |i: usize, j: usize, k: usize| quotient(wide_sub(wide_add(s[0], s[i]), wide_add(s[j], s[k])), norm);
    let twice = |a: Wide| quotient([2 * a[0], 2 * a[1]], norm);
    let (p01, p02, p03) = (product(q[0], q[1]), product(q[0], q[2]), product(q[0], q[3]));
    let (p12, p13, p23) = (product(q[1], q[2]), product(q[1], q[3]), product(q[2], q[3]));
    [
        [on(1, 2, 3), twice(wide_sub(p12, p03)), twice(wide_add(p13, p02))],
        [twice(wide_add(p12, p03)), on(2, 1, 3), twice(wide_sub(p23, p01))],
        [twice(wide_sub(p13, p02)), twice(wide_add(p23, p01)), on(3, 1, 2)],
    ]
}

// ---- conditions

enum Surface {
    Plane,
    Axis,
    Ball,
}

/// What is asked of the distances from a surface, as squares of fine units with their sign.
enum Demand {
    Within { low: Option<i128>, high: Option<i128> },
    Spread { most: i128 },
    Contact { most: i128 },
}

struct Condition {
    surface: Surface,
    direction: [i64; 3],
    /// The surface's point, in fine units.
    point: [i64; 3],
    demand: Demand,
    /// The points that it speaks of: their numbers from 1, and each less the first point of the table.
    numbers: Vec<u32>,
    apart: Vec<[i64; 3]>,
    /// Which offset moves them, from 1, or 0.
    offset: usize,
}

/// A box of placements: the matrices of its rotations, its translations and both offsets.
struct Placed {
    matrix: [Vector; 3],
    shift: Vector,
    offsets: [Vector; 2],
}

/// A single point of a box, for which no interval is wider.
const NO_OFFSET: Vector = [[0; 2]; 3];

impl Condition {
    fn turned(&self, placed: &Placed, at: usize) -> Vector {
        placed.matrix.map(|row| {
            let [low, high] = dot(&row, self.apart[at]);
            [low >> NARROW, -(-high >> NARROW)]
        })
    }

    /// The translation with the offset, less the surface's point.
    fn translation(&self, placed: &Placed) -> Vector {
        [0, 1, 2].map(|axis| {
            let moved = match self.offset {
                0 => placed.shift[axis],
                offset => add(placed.shift[axis], placed.offsets[offset - 1][axis]),
            };
            moved.map(|end| end - self.point[axis])
        })
    }

    /// A point's values, as squares with their sign where they lie along a direction.
    fn squares(&self, placed: &Placed, by: &Vector, at: usize) -> Wide {
        let turned = self.turned(placed, at);
        let x = [0, 1, 2].map(|axis| add(turned[axis], by[axis]));
        let d = self.direction;
        match self.surface {
            Surface::Plane => dot(&x, d).map(|it| signed_square(i128::from(it))),
            Surface::Axis => total([
                square(sub(scale(x[2], d[1]), scale(x[1], d[2]))),
                square(sub(scale(x[0], d[2]), scale(x[2], d[0]))),
                square(sub(scale(x[1], d[0]), scale(x[0], d[1]))),
            ]),
            Surface::Ball => total(x.map(square)),
        }
    }

    /// The value of a point along the direction, wherever the part is moved to.
    fn along(&self, placed: &Placed, at: usize) -> Interval {
        dot(&self.turned(placed, at), self.direction)
    }

    /// The first greatest low end and the first least high end of the values along the direction.
    fn extremes(&self, placed: &Placed) -> [(i64, usize); 2] {
        let first = self.along(placed, 0);
        let (mut far, mut near) = ((first[0], 0), (first[1], 0));
        for at in 1..self.apart.len() {
            let [low, high] = self.along(placed, at);
            if low > far.0 {
                far = (low, at);
            }
            if high < near.0 {
                near = (high, at);
            }
        }
        [far, near]
    }

    /// Two points that refute the condition over a box, 0 where the demand names none.
    fn refuted(&self, placed: &Placed) -> Option<[u32; 2]> {
        match self.demand {
            Demand::Within { low, high } => {
                let by = self.translation(placed);
                let outside = |&at: &usize| {
                    let value = self.squares(placed, &by, at);
                    high.is_some_and(|it| value[0] > it) || low.is_some_and(|it| value[1] < it)
                };
                (0..self.apart.len()).find(outside).map(|at| [self.numbers[at], 0])
            }
            Demand::Spread { most } => {
                let [far, near] = self.extremes(placed);
                let is_more = signed_square(i128::from(far.0 - near.0)) > most;
                is_more.then(|| [self.numbers[far.1], self.numbers[near.1]])
            }
            Demand::Contact { most } => {
                let by = self.translation(placed);
                let misses = (0..self.apart.len()).all(|at| self.squares(placed, &by, at)[0] > most);
                misses.then_some([0, 0])
            }
        }
    }

    /// Whether a single placement meets the condition.
    fn holds(&self, placed: &Placed) -> bool {
        let by = self.translation(placed);
        let all = 0..self.apart.len();
        match self.demand {
            Demand::Within { low, high } => all.into_iter().all(|at| {
                let value = self.squares(placed, &by, at);
                !high.is_some_and(|it| value[1] > it) && !low.is_some_and(|it| value[0] < it)
            }),
            Demand::Spread { most } => {
                let (least, greatest) = all.fold((i64::MAX, i64::MIN), |(least, greatest), at| {
                    let [low, high] = self.along(placed, at);
                    (least.min(low), greatest.max(high))
                });
                signed_square(i128::from(greatest - least)) <= most
            }
            Demand::Contact { most } => all.into_iter().any(|at| self.squares(placed, &by, at)[1] <= most),
        }
    }
}

// ---- the task

pub struct Group {
    label: String,
    grid: Grid,
    conditions: Vec<Condition>,
}

impl Group {
    fn placed(&self, root: usize, ends: &Ends) -> Placed {
        let mut q = [[ONE; 2]; 4];
        let mut ratios = ends.iter();
        for (at, entry) in q.iter_mut().enumerate() {
            if at != root {
                *entry = *ratios.next().expect("three ratios");
            }
        }
        let vector = |from: usize| [ends[from], ends[from + 1], ends[from + 2]];
        let offset = |from: usize| if from < self.grid.coordinates.len() { vector(from) } else { NO_OFFSET };
        Placed { matrix: matrix(&q), shift: vector(3), offsets: [offset(6), offset(9)] }
    }
}

impl Task for Group {
    fn label(&self) -> &str {
        &self.label
    }

    fn grid(&self) -> &Grid {
        &self.grid
    }

    fn evidence(&self, root: usize, ends: &Ends) -> Option<Evidence> {
        let placed = self.placed(root, ends);
        let found = self.conditions.iter().zip(1..).find_map(|(it, number)| Some((number, it.refuted(&placed)?)));
        found.map(|(condition, [farthest, nearest])| Evidence { condition, farthest, nearest })
    }

    fn holds(&self, root: usize, at: &Ends) -> bool {
        let placed = self.placed(root, at);
        self.conditions.iter().all(|it| it.holds(&placed))
    }
}

// ---- the numbers of conditions

/// The signed square, for a direction, of so many half units.
fn limit(half_units: i64, length2: i128) -> i128 {
    signed_square(i128::from(half_units) * HALF) * length2
}

fn condition_of(words: &mut Words, table: &Table) -> Condition {
    let surface = match words.next() {
        "plane" => Surface::Plane,
        "axis" => Surface::Axis,
        _ => Surface::Ball,
    };
    let direction = words.three();
    let point = words.three().map(|it| it << FINE);
    let length2 = match surface {
        Surface::Ball => 1,
        _ => direction.iter().map(|&it| i128::from(it * it)).sum(),
    };
    let is_plane = matches!(surface, Surface::Plane);
    let demand = match words.next() {
        "within" => {
            let (low, high) = (words.some(), words.some());
            // no distance from an axis or a ball is below 0
            let low = low.filter(|&it| is_plane || it > 0);
            Demand::Within { low: low.map(|it| limit(it, length2)), high: high.map(|it| limit(it, length2)) }
        }
        "spread" => Demand::Spread { most: limit(words.number(), length2) },
        _ => Demand::Contact { most: limit(words.number(), length2) },
    };
    let feature = table.names[words.next().as_bytes()];
    let group = words.some();
    let offset = words.number() as usize;
    let base = table.rows[0].at;
    let is_judged = |row: &crate::points::Row| row.feature == feature && group.is_none_or(|it| i64::from(row.group) == it);
    let (numbers, apart) = (1..)
        .zip(&table.rows)
        .filter(|(_, row)| is_judged(row))
        .map(|(number, row)| (number, [0, 1, 2].map(|axis| row.at[axis] - base[axis])))
        .unzip();
    Condition { surface, direction, point, demand, numbers, apart, offset }
}

/// The groups of a text of numbers: a line `turn K shift S centre X Y Z`, with K -1 for all rotations; for each group a line
/// `group LABEL OFFSETS`, and then its conditions, one a line.
pub fn groups_of(text: &str, table: &Table) -> Vec<Group> {
    let mut lines = text.lines();
    let mut head = Words::of(lines.next().expect("a first line"));
    let turn = { head.next(); head.number() };
    let shift = { head.next(); head.number() as u32 };
    let centre = { head.next(); head.three() };
    let mut groups: Vec<Group> = Vec::new();
    for line in lines {
        let mut words = Words::of(line);
        if words.next() == "group" {
            let (label, offsets) = (words.next().to_owned(), words.number());
            let mut coordinates: Vec<_> = (0..3).map(|_| Coordinate::ratio(turn.max(0) as u32)).collect();
            coordinates.extend(centre.map(|middle| Coordinate::about(middle, shift)));
            coordinates.extend((0..3 * offsets).map(|_| Coordinate::about(0, shift)));
            let grid = Grid { roots: if turn < 0 { 4 } else { 1 }, coordinates };
            groups.push(Group { label, grid, conditions: Vec::new() });
        } else {
            let condition = condition_of(&mut words, table);
            groups.last_mut().expect("a group before its conditions").conditions.push(condition);
        }
    }
    groups
}
