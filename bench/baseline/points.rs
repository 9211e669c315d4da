//! The points file: its records, its grammar, and the table of points.

use std::collections::HashMap;
use std::fs::File;
use std::io::{self, Read};

const LONGEST: u64 = 134_217_728;
const MOST_POINTS: usize = 200_000;
const BYTE_ORDER_MARK: &[u8] = b"\xef\xbb\xbf";
const HEADER: [&[u8]; 5] = [b"feature", b"group", b"x", b"y", b"z"];

pub struct Row {
    pub feature: u32,
    pub group: u32,
    pub at: [i64; 3],
}

/// The coordinates of the points, axis by axis.
#[derive(Clone, Copy)]
pub struct Columns<'a> {
    pub axes: [&'a [i32]; 3],
}

impl Columns<'_> {
    /// The same, cut to one length that the compiler sees.
    #[inline(always)]
    pub fn same_length(&self) -> Self {
        let count = self.axes[0].len();
        Columns { axes: self.axes.map(|axis| &axis[..count]) }
    }
}

#[derive(Default)]
pub struct Table {
    pub rows: Vec<Row>,
    pub axes: [Vec<i32>; 3],
    pub names: HashMap<Vec<u8>, u32>,
}

impl Table {
    pub fn columns(&self) -> Columns<'_> {
        Columns { axes: self.axes.each_ref().map(Vec::as_slice) }
    }
}

pub struct Fault {
    pub code: u32,
    pub row: usize,
    pub column: usize,
}

/// The bytes of a file, or `None` where it is longer than a file may be.
pub fn load(name: &str) -> io::Result<Option<Vec<u8>>> {
    let mut bytes = Vec::new();
    File::open(name)?.take(LONGEST + 1).read_to_end(&mut bytes)?;
    Ok((bytes.len() as u64 <= LONGEST).then_some(bytes))
}

/// The records of a text, one at a time.
struct Records<'a> {
    text: &'a [u8],
    /// The bytes of all fields of the record, and where each field ends in them.
    bytes: Vec<u8>,
    ends: Vec<usize>,
}

#[derive(PartialEq)]
enum State {
    StartField,
    Plain,
    Quoted,
    AfterQuote,
}

impl Records<'_> {
    fn field(&self, at: usize) -> &[u8] {
        let start = if at == 0 { 0 } else { self.ends[at - 1] };
        &self.bytes[start..self.ends[at]]
    }

    /// Reads the next record. A blank line is none.
    fn next(&mut self) -> bool {
        self.bytes.clear();
        self.ends.clear();
        let blank = self.text.iter().take_while(|&&byte| byte == b'\r' || byte == b'\n').count();
        self.text = &self.text[blank..];
        if self.text.is_empty() {
            return false;
        }
        let mut state = State::StartField;
        for (at, &byte) in self.text.iter().enumerate() {
            state = match (state, byte) {
                (State::StartField, b'"') => State::Quoted,
                (State::Quoted, b'"') => State::AfterQuote,
                (State::AfterQuote, b'"') => {
                    self.bytes.push(byte);
                    State::Quoted
                }
                (State::Quoted, _) => {
                    self.bytes.push(byte);
                    State::Quoted
                }
                (_, b',') => {
                    self.ends.push(self.bytes.len());
                    State::StartField
                }
                (_, b'\r' | b'\n') => {
                    self.ends.push(self.bytes.len());
                    self.text = &self.text[at + 1..];
                    return true;
                }
                _ => {
                    self.bytes.push(byte);
                    State::Plain
                }
            };
        }
        self.ends.push(self.bytes.len());
        self.text = &[];
        true
    }
}

/// The whole number that a field spells. A number past 64 bits stands at their end.
fn number(field: &[u8]) -> Option<i64> {
    let is_blank = |&byte: &u8| byte == b' ' || byte == b'\t';
    let start = field.iter().take_while(|byte| is_blank(byte)).count();
    let end = field.len() - field[start..].iter().rev().take_while(|byte| is_blank(byte)).count();
    let (minus, digits) = match &field[start..end] {
        [b'-', digits @ ..] => (true, digits),
        [b'+', digits @ ..] => (false, digits),
        digits => (false, digits),
    };
    if digits.is_empty() {
        return None;
    }
    let mut size: i64 = 0;
    for &byte in digits {
        if !byte.is_ascii_digit() {
            return None;
        }
        size = size.saturating_mul(10).saturating_add(i64::from(byte - b'0'));
    }
    Some(if minus { -size } else { size })
}

fn is_name(field: &[u8]) -> bool {
    let is_name_byte = |byte: &u8| byte.is_ascii_alphanumeric() || *byte == b'_' || *byte == b'-';
    (1..=32).contains(&field.len()) && field.iter().all(is_name_byte)
}

/// The table of a text, or its first fault.
pub fn read(text: &[u8]) -> Result<Table, Fault> {
    let text = text.strip_prefix(BYTE_ORDER_MARK).unwrap_or(text);
    let text = text.strip_prefix(BYTE_ORDER_MARK).unwrap_or(text);
    let mut records = Records { text, bytes: Vec::new(), ends: Vec::new() };
    let is_header = records.next() && records.ends.len() == 5 && (0..5).all(|at| records.field(at) == HEADER[at]);
    if !is_header {
        return Err(Fault { code: 10, row: 1, column: 0 });
    }
    let mut table = Table::default();
    while records.next() {
        let row = table.rows.len() + 2;
        let fault = |code, column| Fault { code, row, column };
        if records.ends.len() != 5 {
            return Err(fault(11, 0));
        }
        if table.rows.len() == MOST_POINTS {
            return Err(fault(15, 0));
        }
        let name = records.field(0);
        if !is_name(name) {
            return Err(fault(12, 1));
        }
        let number_in = |at: usize, least: i64, greatest: i64| {
            let value = number(records.field(at)).ok_or_else(|| fault(13, at + 1))?;
            if (least..=greatest).contains(&value) { Ok(value) } else { Err(fault(14, at + 1)) }
        };
        let group = number_in(1, 0, 999)? as u32;
        let coordinate = |at| number_in(at, -8_000_000, 8_000_000);
        let at = [coordinate(2)?, coordinate(3)?, coordinate(4)?];
        let feature = match table.names.get(name) {
            Some(&feature) => feature,
            None => {
                let feature = table.names.len() as u32;
                table.names.insert(name.to_vec(), feature);
                feature
            }
        };
        table.rows.push(Row { feature, group, at });
        for (axis, coordinate) in table.axes.iter_mut().zip(at) {
            axis.push(coordinate as i32);
        }
    }
    if table.rows.is_empty() {
        return Err(Fault { code: 16, row: 2, column: 0 });
    }
    Ok(table)
}
