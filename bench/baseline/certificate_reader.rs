//! The reader of a certificate's text.

use crate::certificate::{Body, Certificate, Fault, Head, Node};
use crate::flat::Reason;

/// The code of a misspelled line. It stands for each of the codes 40 to 46, between which it makes no difference.
const MISSPELLED: u32 = 45;

/// The words of a line.
type Words<'a> = std::slice::Split<'a, u8, fn(&u8) -> bool>;

/// The lines of a text, each of which ends in LF, and the number of the last one that was taken.
struct Lines<'a> {
    rest: &'a [u8],
    number: u32,
}

impl<'a> Lines<'a> {
    fn fault(&self) -> Fault {
        Fault { line: self.number, code: MISSPELLED }
    }

    fn next(&mut self) -> Result<Words<'a>, Fault> {
        self.number += 1;
        let end = self.rest.iter().position(|&byte| byte == b'\n').ok_or_else(|| self.fault())?;
        let line = &self.rest[..end];
        self.rest = &self.rest[end + 1..];
        Ok(line.split(|&byte| byte == b' '))
    }

    /// What the words of the next line spell.
    fn read<T>(&mut self, spelled: impl FnOnce(&mut Words<'a>) -> Option<T>) -> Result<T, Fault> {
        let mut words = self.next()?;
        spelled(&mut words).filter(|_| words.next().is_none()).ok_or_else(|| self.fault())
    }

    fn is_at(&self, word: &[u8]) -> bool {
        self.rest.starts_with(word)
    }
}

/// A number without a sign and without a leading zero.
fn number(word: &[u8], limit: u64) -> Option<u64> {
    let is_spelled = (1..=19).contains(&word.len()) && (word == b"0" || word[0] != b'0');
    let mut value = 0;
    for byte in word.iter().filter(|_| is_spelled) {
        value = 10 * value + u64::from(byte.is_ascii_digit().then(|| byte - b'0')?);
    }
    (is_spelled && value < limit).then_some(value)
}

fn next_number(words: &mut Words, limit: u64) -> Option<u32> {
    number(words.next()?, limit).map(|it| it as u32)
}

/// A number below 2^32.
fn next_count(words: &mut Words) -> Option<u32> {
    next_number(words, 1 << 32)
}

/// A number below 2^62 in size. Zero has no sign.
fn signed(word: &[u8]) -> Option<i64> {
    match word {
        [b'-', digits @ ..] => number(digits, 1 << 62).filter(|&it| it > 0).map(|it| -(it as i64)),
        digits => number(digits, 1 << 62).map(|it| it as i64),
    }
}

fn is_requirement(word: &[u8]) -> bool {
    let is_byte = |byte: &u8| byte.is_ascii_alphanumeric() || b"_-/#".contains(byte);
    (1..=48).contains(&word.len()) && word.iter().all(is_byte)
}

fn head(words: &mut Words) -> Option<Head> {
    match words.next()? {
        b"plain" => Some(Head::Plain),
        b"probe" if is_requirement(words.next()?) => next_number(words, 16_000_001).map(|_| Head::Probe),
        _ => None,
    }
}

/// A word and the number after it.
fn sized(words: &mut Words, word: &[u8], limit: u64) -> Option<u32> {
    if words.next()? == word { next_number(words, limit) } else { None }
}

fn node(words: &mut Words) -> Option<Node> {
    match words.next()? {
        b"s" => Some(Node::Split),
        b"o" => Some(Node::Left),
        b"r" => Some(Node::Refuted { condition: next_count(words)?, a: next_count(words)?, b: next_count(words)? }),
        _ => None,
    }
}

/// The lines of a tree, up to the next group or the end.
fn tree(lines: &mut Lines) -> Result<Vec<Node>, Fault> {
    let mut tree = Vec::new();
    while !lines.is_at(b"group") && !lines.is_at(b"end") {
        tree.push(lines.read(node)?);
    }
    Ok(tree)
}

fn witness(words: &mut Words) -> Option<Body> {
    let root = sized(words, b"w", 1 << 32)?;
    let at: Vec<i64> = words.map(signed).collect::<Option<_>>()?;
    (2..=12).contains(&at.len()).then_some(Body::Accept { root, at })
}

fn reason(word: &[u8]) -> Option<Reason> {
    [Reason::Budget, Reason::Floor].into_iter().find(|it| it.word().as_bytes() == word)
}

/// A level, its undecided cells, those that were split before, and why the search stopped.
fn stop(words: &mut Words) -> Option<(u32, u32, u32, Reason)> {
    Some((sized(words, b"at", 1 << 32)?, next_count(words)?, next_count(words)?, reason(words.next()?)?))
}

fn body(lines: &mut Lines, verdict: &[u8]) -> Result<Body, Fault> {
    match verdict {
        b"accept" => lines.read(witness),
        b"reject" => {
            let first = lines.number + 1;
            let tree = tree(lines)?;
            match (first..).zip(&tree).find(|it| *it.1 == Node::Left) {
                Some((line, _)) => Err(Fault { line, code: MISSPELLED }),
                None => Ok(Body::Reject { tree }),
            }
        }
        b"open" => {
            let (level, undecided, spent, reason) = lines.read(stop)?;
            Ok(Body::Open { level, undecided, spent, reason, tree: tree(lines)? })
        }
        _ => Err(lines.fault()),
    }
}

/// The certificate whose text the bytes are, or the first line that isn't of one.
pub fn read(text: &[u8]) -> Result<Certificate, Fault> {
    let mut lines = Lines { rest: text, number: 0 };
    lines.read(|words| (words.next()? == b"gdcert" && words.next()? == b"1").then_some(()))?;
    let head = lines.read(head)?;
    let share = lines.read(|words| sized(words, b"share", 1_000_001))?;
    let stated = lines.read(|words| sized(words, b"groups", 300_001).filter(|&it| it > 0))?;
    let mut groups = Vec::new();
    while lines.is_at(b"group") {
        let expected = groups.len() as u32 + 1;
        let verdict = lines.read(|words| (sized(words, b"group", 1 << 32)? == expected).then(|| words.next())?)?;
        groups.push(body(&mut lines, verdict)?);
    }
    lines.read(|words| (words.next()? == b"end").then_some(()))?;
    if lines.rest.is_empty() {
        Ok(Certificate { head, share, stated, groups })
    } else {
        Err(Fault { line: lines.number + 1, code: MISSPELLED })
    }
}
