//! `gdteval flat`, `gdteval checkflat` and the searches of `gdteval judge` in plain Rust, with the standard library alone: the
//! same words, texts and statuses.
//! Of a certificate that is misspelled only the line is that of gdteval, and not which of the codes 40 to 46.
//! It is written for a fair comparison of time and as a second opinion on each answer. Nothing of it is proved.

mod axis;
mod cells;
mod certificate;
mod certificate_reader;
mod check;
mod flat;
mod placed;
mod points;
mod rods;
mod roots;
mod words;

use cells::Task;
use certificate::{Certificate, Fault};
use std::fs;
use std::io::Write;
use std::process::ExitCode;
use words::Words;

const WRONG_WORDS: &str = "gdteval: wrong words\n";

/// A number without a sign and without a leading zero.
fn number(word: &str, least: u32, greatest: u32) -> Option<u32> {
    let is_spelled = word.bytes().all(|byte| byte.is_ascii_digit()) && (word == "0" || !word.starts_with('0'));
    let value = word.parse().ok().filter(|_| is_spelled)?;
    (least..=greatest).contains(&value).then_some(value)
}

/// What is printed, and the status.
type Answer = (String, u8);

fn wrong_words() -> Answer {
    (WRONG_WORDS.into(), 4)
}

fn cannot_read(file: &str) -> Answer {
    (format!("gdteval: cannot read {file}\n"), 5)
}

/// The table of a points file, or what is said of the file.
fn table_of(file: &str) -> Result<points::Table, Answer> {
    let refused = |code, row, column| (format!("input {file} code {code} row {row} column {column}\n"), 3);
    let bytes = points::load(file).map_err(|_| cannot_read(file))?.ok_or_else(|| refused(17, 0, 0))?;
    points::read(&bytes).map_err(|points::Fault { code, row, column }| refused(code, row, column))
}

/// Judges a points file, and stores the certificate where a file is named for it.
fn judge(file: &str, tolerance: u32, budget: u32, stored: Option<&str>) -> Result<Answer, Answer> {
    let table = table_of(file)?;
    let outcome = [flat::judge(&table.columns(), tolerance, budget)];
    if let Some(stored) = stored {
        fs::write(stored, Certificate::of(&outcome, budget).text()).map_err(|_| (String::new(), 6))?;
    }
    Ok(outcome[0].answer())
}

/// The groups of a file that states them as numbers: a form over all points, or groups of conditions.
fn groups_of<'a>(text: &str, table: &'a points::Table, all: &'a [u32]) -> Vec<Box<dyn Task + 'a>> {
    match text.strip_prefix("form ") {
        Some(form) => vec![Box::new(rods::form_of(&mut Words::of(form), table, all))],
        None => placed::groups_of(text, table).into_iter().map(|it| Box::new(it) as Box<dyn Task>).collect(),
    }
}

/// Judges the groups of a frame file, which a file beside it states as numbers.
fn judge_groups(frames: &str, file: &str, stored: &str, budget: u32) -> Result<Answer, Answer> {
    let table = table_of(file)?;
    let numbers = format!("{frames}.numbers");
    let text = fs::read_to_string(&numbers).map_err(|_| cannot_read(&numbers))?;
    let all: Vec<u32> = (0..table.rows.len() as u32).collect();
    let groups = groups_of(&text, &table, &all);
    let share = budget / groups.len() as u32;
    let outcomes: Vec<_> = groups.iter().map(|group| cells::judge(group.as_ref(), share)).collect();
    fs::write(stored, Certificate::of(&outcomes, share).text()).map_err(|_| (String::new(), 6))?;
    let has = |status| outcomes.iter().any(|it| it.status() == status);
    let status = [1, 2].into_iter().find(|&it| has(it)).unwrap_or(0);
    let line = |(number, (group, outcome)): (u32, (&Box<dyn Task>, &flat::Outcome))| {
        format!("group {number} {} {}", group.label(), outcome.report())
    };
    let lines: String = (1..).zip(groups.iter().zip(&outcomes)).map(line).collect();
    Ok((format!("{lines}status {status}\n"), status))
}

/// Decides a certificate for a points file.
fn check(file: &str, tolerance: u32, stored: &str) -> Result<Answer, Answer> {
    let table = table_of(file)?;
    let invalid = |Fault { line, code }| (format!("invalid line {line} code {code}\n"), 8);
    let too_long = Fault { line: 0, code: 46 };
    let bytes = points::load(stored).map_err(|_| cannot_read(stored))?.ok_or_else(|| invalid(too_long))?;
    let certificate = certificate_reader::read(&bytes).map_err(invalid)?;
    check::check(&table.columns(), tolerance, &certificate).map_err(invalid)?;
    Ok(("valid\n".into(), 0))
}

fn answer(words: &[&str]) -> Answer {
    let tolerance_in = |word| number(word, 0, 16_000_000);
    let said = match words {
        &["flat", file, tolerance, budget, ref stored @ ..] if stored.len() <= 1 => tolerance_in(tolerance)
            .zip(number(budget, 1, 1_000_000))
            .map(|(tolerance, budget)| judge(file, tolerance, budget, stored.first().copied())),
        &["judge", frames, file, stored, budget, "text"] => {
            number(budget, 1, 1_000_000).map(|budget| judge_groups(frames, file, stored, budget))
        }
        &["checkflat", file, tolerance, stored] => {
            tolerance_in(tolerance).map(|tolerance| check(file, tolerance, stored))
        }
        _ => None,
    };
    said.map_or_else(wrong_words, |it| it.unwrap_or_else(|refused| refused))
}

fn main() -> ExitCode {
    let words: Option<Vec<String>> = std::env::args_os().skip(1).map(|word| word.into_string().ok()).collect();
    let (text, status) = match &words {
        Some(words) => answer(&words.iter().map(String::as_str).collect::<Vec<_>>()),
        None => wrong_words(),
    };
    let mut out = std::io::stdout().lock();
    match out.write_all(text.as_bytes()).and_then(|()| out.flush()) {
        Ok(()) => ExitCode::from(status),
        Err(_) => ExitCode::from(6),
    }
}
