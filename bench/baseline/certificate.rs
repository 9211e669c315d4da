//! The certificate of a verdict: its text, and back.

use crate::flat::{Evidence, Level, Outcome, Reason};
use std::io::Write;
use std::slice;

/// A line of a tree of cells in preorder.
#[derive(Clone, Copy, PartialEq)]
pub enum Node {
    Split,
    Refuted { condition: u32, a: u32, b: u32 },
    Left,
}

pub enum Body {
    Accept { root: u32, at: Vec<i64> },
    Reject { tree: Vec<Node> },
    Open { level: u32, undecided: u32, spent: u32, reason: Reason, tree: Vec<Node> },
}

/// What the verdicts are for: the requirements as they are written, or one of them at another tolerance.
#[derive(PartialEq)]
pub enum Head {
    Plain,
    Probe,
}

pub struct Certificate {
    pub head: Head,
    pub share: u32,
    pub stated: u32,
    pub groups: Vec<Body>,
}

/// The first wrong line of a text, from 1.
pub struct Fault {
    pub line: u32,
    pub code: u32,
}

/// The cells of a level that have no line yet.
type Cells<'a> = slice::Iter<'a, Option<Evidence>>;

/// The lines of the next cell of the first level, and of those below it.
fn push_cell(levels: &mut [Cells], tree: &mut Vec<Node>) {
    let (level, below) = levels.split_first_mut().expect("a level for each cell");
    match level.next().expect("a cell for each half") {
        &Some(Evidence { condition, farthest: a, nearest: b }) => tree.push(Node::Refuted { condition, a, b }),
        None if below.is_empty() => tree.push(Node::Left),
        None => {
            tree.push(Node::Split);
            push_cell(below, tree);
            push_cell(below, tree);
        }
    }
}

/// The tree of some levels, all roots in order.
fn tree_of(levels: &[Level]) -> Vec<Node> {
    let mut tree = Vec::with_capacity(levels.iter().map(Vec::len).sum());
    let mut cells: Vec<Cells> = levels.iter().map(|level| level.iter()).collect();
    for _ in 0..levels[0].len() {
        push_cell(&mut cells, &mut tree);
    }
    tree
}

impl Body {
    fn of(outcome: &Outcome) -> Body {
        match outcome {
            Outcome::Accept { root, at, .. } => Body::Accept { root: *root, at: at.clone() },
            Outcome::Reject { levels } => Body::Reject { tree: tree_of(levels) },
            Outcome::Open { reason, level, undecided, spent, levels } => Body::Open {
                level: *level,
                undecided: *undecided as u32,
                spent: *spent as u32,
                reason: *reason,
                tree: tree_of(levels),
            },
        }
    }
}

impl Certificate {
    /// The certificate of how some searches ended that had this budget each.
    pub fn of(outcomes: &[Outcome], share: u32) -> Certificate {
        let groups = outcomes.iter().map(Body::of).collect();
        Certificate { head: Head::Plain, share, stated: outcomes.len() as u32, groups }
    }
    /// The text of a certificate without a probe.
    pub fn text(&self) -> Vec<u8> {
        let mut text = Vec::new();
        self.write(&mut text).expect("a list of bytes takes all");
        text
    }

    fn write(&self, text: &mut Vec<u8>) -> std::io::Result<()> {
        write!(text, "gdcert 1\nplain\nshare {}\ngroups {}\n", self.share, self.stated)?;
        for (number, body) in (1..).zip(&self.groups) {
            match body {
                Body::Accept { root, at } => {
                    write!(text, "group {number} accept\nw {root}")?;
                    at.iter().try_for_each(|it| write!(text, " {it}"))?;
                    writeln!(text)?;
                }
                Body::Reject { tree } => {
                    writeln!(text, "group {number} reject")?;
                    write_tree(text, tree)?;
                }
                Body::Open { level, undecided, spent, reason, tree } => {
                    writeln!(text, "group {number} open\nat {level} {undecided} {spent} {}", reason.word())?;
                    write_tree(text, tree)?;
                }
            }
        }
        writeln!(text, "end")
    }
}

fn write_tree(text: &mut Vec<u8>, tree: &[Node]) -> std::io::Result<()> {
    tree.iter().try_for_each(|node| match node {
        Node::Split => writeln!(text, "s"),
        Node::Refuted { condition, a, b } => writeln!(text, "r {condition} {a} {b}"),
        Node::Left => writeln!(text, "o"),
    })
}
