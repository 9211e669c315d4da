//! The arithmetic of gd_int and gd_interval in plain Rust, with the standard library alone: the same drawn numbers, the
//! same formulas, the same checksums. It is written for a fair comparison of time. Nothing of it is proved.

mod kernels;
mod roots;

use kernels::{CALLS, Draws, ONE, Turn, rows};
use roots::{isqrt_ceil, isqrt_floor, signed_square};
use std::cmp::Ordering;
use std::process::ExitCode;

/// How many points one call of a direction takes.
const POINTS: u32 = 4_096;

#[derive(Clone, Copy)]
struct Iv {
    lo: i128,
    hi: i128,
}

fn add(a: Iv, b: Iv) -> Iv {
    Iv { lo: a.lo + b.lo, hi: a.hi + b.hi }
}

fn scale(a: Iv, k: i128) -> Iv {
    let (p, q) = (a.lo * k, a.hi * k);
    Iv { lo: p.min(q), hi: p.max(q) }
}

fn mul(a: Iv, b: Iv) -> Iv {
    let (ac, ad, bc, bd) = (a.lo * b.lo, a.lo * b.hi, a.hi * b.lo, a.hi * b.hi);
    Iv { lo: ac.min(ad).min(bc.min(bd)), hi: ac.max(ad).max(bc.max(bd)) }
}

fn div_ceil(a: i128, b: i128) -> i128 {
    if a <= 0 { a / b } else { (a - 1) / b + 1 }
}

fn quot(n: Iv, d: Iv) -> Iv {
    let below = if 0 <= n.lo { d.hi } else { d.lo };
    let above = if 0 <= n.hi { d.lo } else { d.hi };
    Iv { lo: (n.lo * ONE).div_euclid(below), hi: div_ceil(n.hi * ONE, above) }
}

fn root(a: Iv) -> Iv {
    Iv { lo: isqrt_floor(a.lo as u128) as i128, hi: isqrt_ceil(a.hi as u128) as i128 }
}

fn cmp_root(s: i128, h: i128, n2: i128) -> Ordering {
    signed_square(s).cmp(&(signed_square(h) * n2))
}

impl Draws {
    fn wide(&mut self) -> i128 {
        let high = self.small();
        i128::from(high) * (1 << 31) + i128::from(self.small())
    }

    fn interval(&mut self) -> Iv {
        let lo = self.wide() - (1 << 61);
        Iv { lo, hi: lo + self.wide() / 2 }
    }

    fn fraction(&mut self) -> [Iv; 2] {
        let n = self.interval();
        let lo = self.wide() + (1 << 60);
        [n, Iv { lo, hi: lo + self.wide() }]
    }

    fn radicand(&mut self) -> i128 {
        let high = self.wide();
        high * (1 << 62) + self.wide()
    }

    fn square(&mut self) -> Iv {
        let lo = self.radicand();
        Iv { lo, hi: lo + self.wide() * (1 << 62) }
    }

    fn sides(&mut self) -> [i128; 3] {
        let s = self.wide() - (1 << 61);
        let h = i128::from(self.small()) - (1 << 30);
        [s, h, self.wide()]
    }

    fn point(&mut self) -> [i64; 3] {
        [(); 3].map(|()| self.small() % 16_000_001 - 8_000_000)
    }

    fn direction(&mut self) -> [[i64; 2]; 3] {
        [(); 3].map(|()| self.ratio())
    }
}

fn mixed(sum: i128, lo: i128, hi: i128) -> i128 {
    (sum ^ lo).wrapping_add(hi)
}

fn with(sum: i128, it: Iv) -> i128 {
    mixed(sum, it.lo, it.hi)
}

#[inline(never)]
fn products(rows: &[[Iv; 2]], start: i128) -> i128 {
    rows.iter().fold(start, |sum, &[a, b]| with(sum, mul(a, b)))
}

#[inline(never)]
fn quotients(rows: &[[Iv; 2]], start: i128) -> i128 {
    rows.iter().fold(start, |sum, &[n, d]| with(sum, quot(n, d)))
}

#[inline(never)]
fn roots(rows: &[Iv], start: i128) -> i128 {
    rows.iter().fold(start, |sum, &it| with(sum, root(it)))
}

#[inline(never)]
fn integer_roots(rows: &[u128], start: i128) -> i128 {
    rows.iter().fold(start, |sum, &a| mixed(sum, 0, isqrt_floor(a) as i128))
}

#[inline(never)]
fn std_roots(rows: &[u128], start: i128) -> i128 {
    rows.iter().fold(start, |sum, a| mixed(sum, 0, a.isqrt() as i128))
}

#[inline(never)]
fn comparisons(rows: &[[i128; 3]], start: i128) -> i128 {
    rows.iter().fold(start, |sum, &[s, h, n2]| {
        let order = match cmp_root(s, h, n2) {
            Ordering::Less => 1,
            Ordering::Equal => 2,
            Ordering::Greater => 3,
        };
        mixed(sum, order, order)
    })
}

#[inline(never)]
fn wide_ends(n: &[Iv; 3], points: &[[i64; 3]]) -> Iv {
    let mut ends = Iv { lo: i128::MIN, hi: i128::MAX };
    for &[x, y, z] in points {
        let it = add(add(scale(n[0], x.into()), scale(n[1], y.into())), scale(n[2], z.into()));
        ends.lo = ends.lo.max(it.lo);
        ends.hi = ends.hi.min(it.hi);
    }
    ends
}

fn term([lo, hi]: [i64; 2], coordinate: i64) -> [i64; 2] {
    let (a, b) = (lo * coordinate, hi * coordinate);
    [a.min(b), a.max(b)]
}

#[inline(never)]
fn ends(n: &[[i64; 2]; 3], points: &[[i64; 3]]) -> [i64; 2] {
    let (mut lo, mut hi) = (i64::MIN, i64::MAX);
    for &[x, y, z] in points {
        let (x, y, z) = (term(n[0], x), term(n[1], y), term(n[2], z));
        lo = lo.max(x[0] + y[0] + z[0]);
        hi = hi.min(x[1] + y[1] + z[1]);
    }
    [lo, hi]
}

/// A kernel with its rows: one turn, from a checksum to the next.
fn work(kernel: &str) -> Option<Turn> {
    let points = rows(POINTS, Draws::point);
    let directions = rows(CALLS, Draws::direction);
    Some(match kernel {
        "mul" => {
            let rows = rows(CALLS, |draws| [draws.interval(), draws.interval()]);
            Box::new(move |sum| products(&rows, sum))
        }
        "quot" => {
            let rows = rows(CALLS, Draws::fraction);
            Box::new(move |sum| quotients(&rows, sum))
        }
        "cmp_root" => {
            let rows = rows(CALLS, Draws::sides);
            Box::new(move |sum| comparisons(&rows, sum))
        }
        "root" => {
            let rows = rows(CALLS, Draws::square);
            Box::new(move |sum| roots(&rows, sum))
        }
        "isqrt" | "isqrt_std" => {
            let rows = rows(CALLS, |draws| draws.radicand() as u128);
            let turn = if kernel == "isqrt" { integer_roots } else { std_roots };
            Box::new(move |sum| turn(&rows, sum))
        }
        "dot_128" => {
            let wide = |[lo, hi]: [i64; 2]| Iv { lo: lo.into(), hi: hi.into() };
            let directions: Vec<_> = directions.into_iter().map(|n| n.map(wide)).collect();
            Box::new(move |start| directions.iter().fold(start, |sum, n| with(sum, wide_ends(n, &points))))
        }
        "dot_64" => Box::new(move |start| {
            directions.iter().map(|n| ends(n, &points)).fold(start, |sum, [lo, hi]| mixed(sum, lo.into(), hi.into()))
        }),
        _ => return None,
    })
}

fn main() -> ExitCode {
    kernels::run("arithmetic", work)
}
