//! What the programs of single kernels share, with the standard library alone: drawn numbers, and the words of a run.
//! Nothing of it is proved.

use std::process::ExitCode;
use std::time::Instant;

/// How many calls a turn has.
pub const CALLS: u32 = 256;
/// 1 as a ratio. Ratios are in 2^-30.
pub const ONE: i128 = 1 << 30;

/// Numbers that depend on the seed alone.
pub struct Draws(u64);

impl Draws {
    pub fn small(&mut self) -> i64 {
        self.0 = self.0.wrapping_mul(6_364_136_223_846_793_005).wrapping_add(1_442_695_040_888_963_407);
        (self.0 >> 33) as i64
    }

    /// The ends of a ratio, at most 2^20 apart.
    pub fn ratio(&mut self) -> [i64; 2] {
        let lo = self.small() % ((1 << 31) - (1 << 20)) - (1 << 30);
        [lo, lo + self.small() % (1 << 20)]
    }
}

pub fn rows<T>(count: u32, draw: impl Fn(&mut Draws) -> T) -> Vec<T> {
    let mut draws = Draws(7);
    (0..count).map(|_| draw(&mut draws)).collect()
}

/// One turn of a kernel over its rows, from a checksum to the next.
pub type Turn = Box<dyn Fn(i128) -> i128>;

/// Runs the turns that the words of the command ask for. Prints their checksum and, if asked, how many nanoseconds they took.
pub fn run(program: &str, work: impl Fn(&str) -> Option<Turn>) -> ExitCode {
    let words: Vec<String> = std::env::args().skip(1).collect();
    let words: Vec<&str> = words.iter().map(String::as_str).collect();
    let asked = match words[..] {
        [kernel, turns] | [kernel, turns, "time"] => work(kernel).zip(turns.parse::<u32>().ok()),
        _ => None,
    };
    let Some((turn, turns)) = asked else {
        eprintln!("{program}: KERNEL TURNS [time]");
        return ExitCode::from(4);
    };
    let start = Instant::now();
    let sum = (0..turns).fold(0, |sum, _| turn(sum));
    let nanoseconds = start.elapsed().as_nanos();
    match words.get(2) {
        Some(_) => println!("{sum} {nanoseconds}"),
        None => println!("{sum}"),
    }
    ExitCode::SUCCESS
}
