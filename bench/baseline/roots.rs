//! Integer roots and signed squares, with the standard library alone. Nothing of it is proved.

/// The root by a guess that is tested, with std's where the test fails.
pub fn isqrt_floor(a: u128) -> u128 {
    let guess = guessed_root(a);
    let square = guess * guess;
    if square <= a && a - square <= 2 * guess { guess } else { a.isqrt() }
}

/// The root of `a` shifted up to 127 or 128 bits, by the root of the leading 64 and one step of Newton's.
fn guessed_root(a: u128) -> u128 {
    let half = (a.leading_zeros() / 2).min(63);
    let wide = a << (2 * half);
    let near = u128::from(near_root((wide >> 64) as u64)) << 32;
    let root = (near.wrapping_add(wide / near) / 2).min(u128::from(u64::MAX));
    if root * root > wide { root.saturating_sub(1) >> half } else { root >> half }
}

/// A number near the root of `a`, which has 63 or 64 bits: a parabola through the roots, and two steps of Newton's.
fn near_root(a: u64) -> u64 {
    let leading = a >> 48;
    let bend = (leading * leading * 20_730) >> 16;
    let first = 16_992 + ((leading * 68_945).saturating_sub(bend) >> 16);
    let near = (first + (a >> 32) / first) / 2 * 65_536;
    near.wrapping_add(a / near) / 2 + 1
}

pub fn isqrt_ceil(a: u128) -> u128 {
    let root = isqrt_floor(a);
    if root * root == a { root } else { root + 1 }
}

pub fn signed_square(z: i128) -> i128 {
    z * z.abs()
}
