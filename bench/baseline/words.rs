//! The words of a line, one at a time.

pub struct Words<'a>(std::str::SplitWhitespace<'a>);

impl<'a> Words<'a> {
    pub fn of(line: &'a str) -> Words<'a> {
        Words(line.split_whitespace())
    }

    pub fn next(&mut self) -> &'a str {
        self.0.next().expect("a word more")
    }

    pub fn number(&mut self) -> i64 {
        self.next().parse().expect("a number")
    }

    /// A number, or `-`.
    pub fn some(&mut self) -> Option<i64> {
        match self.next() {
            "-" => None,
            word => Some(word.parse().expect("a number")),
        }
    }

    pub fn three(&mut self) -> [i64; 3] {
        [self.number(), self.number(), self.number()]
    }
}
