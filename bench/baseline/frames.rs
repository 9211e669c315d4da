//! The frame file in plain Rust, with the standard library alone, for a fair comparison of time: the text of gd_bench's
//! kernel `frames`, a reader of what it has of TOML, and the same look-ups and tests of ranges, counts and contact groups
//! as docs/FORMATS.md has. It is no whole reader of TOML. Nothing of it is proved.

use std::collections::{BTreeMap, HashMap, HashSet};
use std::fmt::Write;
use std::process::ExitCode;
use std::time::Instant;

const WRONG_WORDS: &str = "frames: frames TURNS [time]";
const PLANES: u32 = 64;
const FEATURES: u32 = 1_024;
const FRAMES: u32 = 256;
const MEMBERS: u32 = 64;

// ---- the text

fn points() -> Vec<(String, u32)> {
    let planes = (0..PLANES).flat_map(|at| (1..=3).map(move |group| (format!("f{at}"), group)));
    planes.chain((PLANES..FEATURES).map(|at| (format!("f{at}"), 0))).collect()
}

fn file_text() -> String {
    let mut text = String::from("version = 1\nturn = 'all'\n");
    for at in 0..FEATURES {
        let shape = if at < PLANES { "plane" } else { "axis" };
        let _ = write!(text, "[[feature]]\nname = 'f{at}'\nshape = '{shape}'\ndirection = [0, 0, 1]\npoint = [{at}, 0, 0]\n");
    }
    for at in 0..PLANES {
        let _ = write!(text, "[[datum]]\nname = 'd{at}'\nfeature = 'f{at}'\nslack = 20\n");
    }
    for at in 0..FRAMES {
        let first = at % 62;
        let _ = write!(text, "[[frame]]\nname = 'frame{at}'\nkind = 'position'\ntolerance = 100\nseparate = true\n");
        let _ = write!(text, "datums = ['d{first}', 'd{}', 'd{}']\nfeatures = [", first + 1, first + 2);
        for member in 0..MEMBERS {
            let _ = write!(text, "'f{}', ", PLANES + (at % 15) * MEMBERS + member);
        }
        text.push_str("]\n");
    }
    text
}

// ---- what the file has of TOML

enum Value {
    Number(i64),
    Text(String),
    Truth(bool),
    List(Vec<Value>),
    Table(Table),
}

type Table = BTreeMap<String, Value>;

struct Reader<'a> {
    bytes: &'a [u8],
    at: usize,
}

impl Reader<'_> {
    fn peek(&self) -> u8 {
        self.bytes.get(self.at).copied().unwrap_or(0)
    }

    fn skip(&mut self, blanks: &[u8]) {
        while self.at < self.bytes.len() && blanks.contains(&self.bytes[self.at]) {
            self.at += 1;
        }
    }

    fn take(&mut self, byte: u8) -> Option<()> {
        (self.peek() == byte).then(|| self.at += 1)
    }

    /// A bare key, and the blanks behind it.
    fn key(&mut self) -> Option<String> {
        let start = self.at;
        while matches!(self.peek(), b'a'..=b'z' | b'A'..=b'Z' | b'0'..=b'9' | b'_' | b'-') {
            self.at += 1;
        }
        let key = std::str::from_utf8(&self.bytes[start..self.at]).ok()?;
        self.skip(b" \t");
        (!key.is_empty()).then(|| key.to_owned())
    }

    fn value(&mut self) -> Option<Value> {
        match self.peek() {
            b'\'' => self.text(),
            b'[' => self.list(),
            b't' | b'f' => match self.key()?.as_str() {
                "true" => Some(Value::Truth(true)),
                "false" => Some(Value::Truth(false)),
                _ => None,
            },
            _ => self.number(),
        }
    }

    fn text(&mut self) -> Option<Value> {
        self.take(b'\'')?;
        let start = self.at;
        while !matches!(self.peek(), b'\'' | b'\n' | 0) {
            self.at += 1;
        }
        let text = std::str::from_utf8(&self.bytes[start..self.at]).ok()?.to_owned();
        self.take(b'\'')?;
        Some(Value::Text(text))
    }

    fn number(&mut self) -> Option<Value> {
        let start = self.at;
        while matches!(self.peek(), b'0'..=b'9' | b'+' | b'-') {
            self.at += 1;
        }
        let word = std::str::from_utf8(&self.bytes[start..self.at]).ok()?;
        word.parse().ok().map(Value::Number)
    }

    fn list(&mut self) -> Option<Value> {
        self.take(b'[')?;
        let mut items = Vec::new();
        loop {
            self.skip(b" \t\r\n");
            if self.take(b']').is_some() {
                return Some(Value::List(items));
            }
            items.push(self.value()?);
            self.skip(b" \t\r\n");
            if self.take(b',').is_none() {
                self.take(b']')?;
                return Some(Value::List(items));
            }
        }
    }

    /// The head of a table of a list of tables.
    fn head(&mut self) -> Option<String> {
        self.take(b'[')?;
        self.take(b'[')?;
        let name = self.key()?;
        self.take(b']')?;
        self.take(b']')?;
        Some(name)
    }
}

fn document(bytes: &[u8]) -> Option<Table> {
    std::str::from_utf8(bytes).ok()?;
    let mut reader = Reader { bytes, at: 0 };
    let mut root = Table::new();
    let mut list = None;
    loop {
        reader.skip(b" \t\r\n");
        if reader.at == bytes.len() {
            return Some(root);
        }
        if reader.peek() == b'[' {
            let name = reader.head()?;
            let Value::List(tables) = root.entry(name.clone()).or_insert_with(|| Value::List(Vec::new())) else {
                return None;
            };
            tables.push(Value::Table(Table::new()));
            list = Some(name);
        } else {
            let key = reader.key()?;
            reader.take(b'=')?;
            reader.skip(b" \t");
            let value = reader.value()?;
            let table = match &list {
                None => &mut root,
                Some(name) => match root.get_mut(name) {
                    Some(Value::List(tables)) => match tables.last_mut() {
                        Some(Value::Table(table)) => table,
                        _ => return None,
                    },
                    _ => return None,
                },
            };
            if table.insert(key, value).is_some() {
                return None;
            }
            reader.skip(b" \t\r");
            reader.take(b'\n')?;
        }
    }
}

// ---- keys: each gives its value, or the code of the fault

type Read<T> = Result<T, u32>;

fn only(table: &Table, keys: &[&str]) -> Read<()> {
    if table.keys().all(|key| keys.contains(&key.as_str())) { Ok(()) } else { Err(22) }
}

fn needed<'a>(table: &'a Table, key: &str) -> Read<&'a Value> {
    table.get(key).ok_or(23)
}

fn number(value: &Value, most: i64) -> Read<i64> {
    match value {
        Value::Number(n) if (0..=most).contains(n) => Ok(*n),
        Value::Number(_) => Err(25),
        _ => Err(24),
    }
}

fn optional(table: &Table, key: &str, most: i64) -> Read<Option<i64>> {
    table.get(key).map(|value| number(value, most)).transpose()
}

fn text(value: &Value) -> Read<&str> {
    if let Value::Text(text) = value { Ok(text) } else { Err(24) }
}

fn is_name(text: &str) -> bool {
    let is_of_name = |byte: u8| byte.is_ascii_alphanumeric() || byte == b'_' || byte == b'-';
    (1..=32).contains(&text.len()) && text.bytes().all(is_of_name)
}

fn name(value: &Value) -> Read<&str> {
    let text = text(value)?;
    if is_name(text) { Ok(text) } else { Err(25) }
}

fn list(value: &Value) -> Read<&[Value]> {
    if let Value::List(items) = value { Ok(items) } else { Err(24) }
}

fn three(value: &Value, most: u64) -> Read<[i64; 3]> {
    let whole = |item: &Value| if let Value::Number(n) = item { Ok(*n) } else { Err(24) };
    let numbers = list(value)?.iter().map(whole).collect::<Read<Vec<_>>>()?;
    match numbers[..] {
        [x, y, z] if [x, y, z].iter().all(|n| n.unsigned_abs() <= most) => Ok([x, y, z]),
        _ => Err(25),
    }
}

fn tables<'a>(root: &'a Table, key: &str, most: usize) -> Read<Vec<&'a Table>> {
    let Some(value) = root.get(key) else { return Ok(Vec::new()) };
    let table = |item: &'a Value| if let Value::Table(table) = item { Ok(table) } else { Err(24) };
    let tables = list(value)?.iter().map(table).collect::<Read<Vec<_>>>()?;
    if tables.len() <= most { Ok(tables) } else { Err(25) }
}

fn texts(value: &Value) -> Read<Vec<&str>> {
    list(value)?.iter().map(text).collect()
}

// ---- tables

#[derive(Clone, Copy, PartialEq, Eq)]
enum Shape {
    Plane,
    Hole,
    Pin,
    Axis,
    Sphere,
}

#[derive(Clone, Copy, PartialEq, Eq)]
enum Kind {
    Form,
    Orientation,
    Position,
    Profile,
    CircularRunout,
    TotalRunout,
}

#[derive(Clone, Copy, PartialEq, Eq)]
enum Material {
    Rfs,
    Mmc,
    Lmc,
}

#[expect(dead_code, reason = "what is read is kept, and not judged here")]
struct Feature {
    feature: u32,
    shape: Shape,
    direction: [i64; 3],
    point: [i64; 3],
    radius: Option<i64>,
    mmc: Option<i64>,
    lmc: Option<i64>,
}

#[expect(dead_code, reason = "what is read is kept, and not judged here")]
struct Datum {
    name: String,
    feature: usize,
    slack: i64,
    boundary: Option<i64>,
}

#[derive(Clone, Copy, PartialEq, Eq)]
struct Word {
    datum: usize,
    at_mmb: bool,
}

#[expect(dead_code, reason = "what is read is kept, and not judged here")]
struct Frame {
    name: String,
    kind: Kind,
    features: Vec<usize>,
    tolerance: i64,
    datums: Vec<Word>,
    material: Material,
    above: Option<i64>,
    lower: Option<i64>,
    lower_datums: Vec<Word>,
    separate: bool,
}

/// The places of names, of which each is new.
#[derive(Default)]
struct Names(HashMap<String, usize>);

impl Names {
    fn add(&mut self, name: &str) -> Read<()> {
        let place = self.0.len();
        if self.0.insert(name.to_owned(), place).is_some() { Err(28) } else { Ok(()) }
    }
}

/// The points: the numbers of the features, and how many groups each has, with 0 and without.
#[derive(Default)]
struct Points {
    numbers: HashMap<String, u32>,
    rows: Vec<(u32, u32)>,
}

impl Points {
    fn of(rows: &[(String, u32)]) -> Points {
        let mut points = Points::default();
        for (name, group) in rows {
            let next = points.numbers.len() as u32;
            let feature = *points.numbers.entry(name.clone()).or_insert(next);
            points.rows.push((feature, *group));
        }
        points
    }

    fn counts(&self) -> (Vec<usize>, Vec<usize>) {
        let (mut all, mut contacts) = (vec![0; self.numbers.len()], vec![0; self.numbers.len()]);
        let mut met = HashSet::new();
        for &(feature, group) in &self.rows {
            if met.insert(u64::from(feature) * 1_000 + u64::from(group)) {
                all[feature as usize] += 1;
                contacts[feature as usize] += usize::from(group != 0);
            }
        }
        (all, contacts)
    }
}

fn new_name<'a>(table: &'a Table, names: &mut Names) -> Read<&'a str> {
    let it = name(needed(table, "name")?)?;
    names.add(it)?;
    Ok(it)
}

fn feature(table: &Table, points: &Points, names: &mut Names) -> Read<Feature> {
    only(table, &["name", "shape", "direction", "point", "radius", "mmc", "lmc"])?;
    let feature = *points.numbers.get(new_name(table, names)?).ok_or(26u32)?;
    let shape = match text(needed(table, "shape")?)? {
        "plane" => Shape::Plane,
        "hole" => Shape::Hole,
        "pin" => Shape::Pin,
        "axis" => Shape::Axis,
        "sphere" => Shape::Sphere,
        _ => return Err(25),
    };
    let direction = match table.get("direction") {
        Some(value) => three(value, 1_000)?,
        None if shape == Shape::Sphere => [0, 0, 1],
        None => return Err(23),
    };
    if direction == [0, 0, 0] {
        return Err(30);
    }
    let point = three(needed(table, "point")?, 8_000_000)?;
    let radius = optional(table, "radius", 8_000_000)?;
    let (mmc, lmc) = (optional(table, "mmc", 16_000_000)?, optional(table, "lmc", 16_000_000)?);
    Ok(Feature { feature, shape, direction, point, radius, mmc, lmc })
}

fn datum(table: &Table, features: &Names, names: &mut Names) -> Read<Datum> {
    only(table, &["name", "feature", "slack", "boundary"])?;
    let it = new_name(table, names)?.to_owned();
    let feature = *features.0.get(name(needed(table, "feature")?)?).ok_or(26u32)?;
    let slack = optional(table, "slack", 10_000)?.unwrap_or(10);
    let boundary = optional(table, "boundary", 16_000_000)?;
    Ok(Datum { name: it, feature, slack, boundary })
}

fn kind(word: &str) -> Read<Kind> {
    Ok(match word {
        "flatness" | "straightness" | "circularity" | "cylindricity" => Kind::Form,
        "parallelism" | "perpendicularity" | "angularity" => Kind::Orientation,
        "position" => Kind::Position,
        "profile" => Kind::Profile,
        "circular_runout" => Kind::CircularRunout,
        "total_runout" => Kind::TotalRunout,
        _ => return Err(25),
    })
}

/// Names of which none stands twice.
fn once(names: &[&str]) -> Read<()> {
    let mut met = HashSet::new();
    if names.iter().all(|name| met.insert(*name)) { Ok(()) } else { Err(28) }
}

fn places(value: &Value, kind: Kind, features: &Names) -> Read<Vec<usize>> {
    let names = texts(value)?;
    let most = if kind == Kind::Form { 1 } else { 64 };
    if !(1..=most).contains(&names.len()) || !names.iter().all(|name| is_name(name)) {
        return Err(25);
    }
    once(&names)?;
    names.iter().map(|name| features.0.get(*name).copied().ok_or(26)).collect()
}

fn words(table: &Table, key: &str, datums: &Names) -> Read<Vec<Word>> {
    let Some(value) = table.get(key) else { return Ok(Vec::new()) };
    let texts = texts(value)?;
    let parts: Vec<_> = texts.iter().map(|text| text.strip_suffix("(M)").map_or((*text, false), |name| (name, true))).collect();
    if parts.len() > 3 || !parts.iter().all(|(name, _)| is_name(name)) {
        return Err(25);
    }
    once(&parts.iter().map(|(name, _)| *name).collect::<Vec<_>>())?;
    let word = |&(name, at_mmb): &(&str, bool)| datums.0.get(name).map(|&datum| Word { datum, at_mmb }).ok_or(27);
    parts.iter().map(word).collect()
}

fn frame(table: &Table, features: &Names, datums: &Names, names: &mut Names) -> Read<Frame> {
    let keys = ["name", "kind", "features", "tolerance", "datums", "material", "above", "lower", "lower_datums", "separate"];
    only(table, &keys)?;
    let it = new_name(table, names)?.to_owned();
    let kind = kind(text(needed(table, "kind")?)?)?;
    let places = places(needed(table, "features")?, kind, features)?;
    let tolerance = number(needed(table, "tolerance")?, 16_000_000)?;
    let of_datums = words(table, "datums", datums)?;
    let material = match table.get("material").map(text).transpose()? {
        None | Some("rfs") => Material::Rfs,
        Some("mmc") => Material::Mmc,
        Some("lmc") => Material::Lmc,
        Some(_) => return Err(25),
    };
    let (above, lower) = (optional(table, "above", tolerance)?, optional(table, "lower", tolerance)?);
    let lower_datums = words(table, "lower_datums", datums)?;
    let separate = match table.get("separate") {
        None => false,
        Some(Value::Truth(truth)) => *truth,
        Some(_) => return Err(24),
    };
    Ok(Frame { name: it, kind, features: places, tolerance, datums: of_datums, material, above, lower, lower_datums, separate })
}

// ---- what a frame needs, and its limits

fn is_cylinder(shape: Shape) -> bool {
    matches!(shape, Shape::Hole | Shape::Pin)
}

/// Whether a frame states nothing that may not be stated together. The form kinds are one here, which saves a look.
fn is_allowed(frame: &Frame, features: &[Feature], datums: &[Datum]) -> bool {
    let takes = |shape: Shape| match (frame.kind, frame.material) {
        (Kind::Form, Material::Rfs) => true,
        (Kind::Orientation, Material::Rfs) => matches!(shape, Shape::Plane | Shape::Axis),
        (Kind::Position, Material::Rfs) => shape == Shape::Axis,
        (Kind::Orientation | Kind::Position, _) => is_cylinder(shape),
        (Kind::Profile, Material::Rfs) => shape != Shape::Axis,
        (Kind::CircularRunout | Kind::TotalRunout, Material::Rfs) => shape == Shape::Plane || is_cylinder(shape),
        _ => false,
    };
    let shape_of = |word: &Word| features[datums[word.datum].feature].shape;
    let words = &frame.datums;
    let by_kind = match frame.kind {
        Kind::Form => words.is_empty(),
        Kind::Orientation => !words.is_empty(),
        Kind::Position | Kind::Profile => true,
        Kind::CircularRunout | Kind::TotalRunout => {
            words.first().is_some_and(|first| is_cylinder(shape_of(first))) && words.iter().all(|word| !word.at_mmb)
        }
    };
    let lower = frame.lower.is_some() || frame.lower_datums.is_empty();
    frame.features.iter().all(|&place| takes(features[place].shape))
        && words.iter().all(|word| is_cylinder(shape_of(word)) || (shape_of(word) == Shape::Plane && !word.at_mmb))
        && by_kind
        && (frame.kind == Kind::Profile || frame.above.is_none())
        && (frame.kind == Kind::Position || (frame.lower.is_none() && frame.lower_datums.is_empty()))
        && lower
        && words.starts_with(&frame.lower_datums)
}

fn has_numbers(frame: &Frame, features: &[Feature], datums: &[Datum]) -> bool {
    let has_size = |feature: &Feature| {
        let diameter = match frame.material {
            Material::Rfs => true,
            Material::Mmc => feature.mmc.is_some(),
            Material::Lmc => feature.lmc.is_some(),
        };
        let is_round = is_cylinder(feature.shape) || feature.shape == Shape::Sphere;
        diameter && (frame.kind != Kind::Profile || !is_round || feature.radius.is_some())
    };
    frame.datums.iter().all(|word| !word.at_mmb || datums[word.datum].boundary.is_some())
        && frame.features.iter().all(|&place| has_size(&features[place]))
}

fn judge(frame: &Frame, features: &[Feature], datums: &[Datum], contacts: &[usize]) -> Read<()> {
    if !is_allowed(frame, features, datums) {
        return Err(31);
    }
    if !has_numbers(frame, features, datums) {
        return Err(23);
    }
    let least = |place: usize, word: &Word| match features[datums[word.datum].feature].shape {
        Shape::Plane => 3usize.saturating_sub(place),
        Shape::Hole | Shape::Pin if !word.at_mmb => 3,
        _ => 0,
    };
    let met = |word: &Word| contacts[features[datums[word.datum].feature].feature as usize];
    if frame.datums.iter().enumerate().any(|(place, word)| met(word) < least(place, word)) {
        return Err(29);
    }
    Ok(())
}

fn words_count(words: &[Word], features: &[Feature], datums: &[Datum], contacts: &[usize]) -> usize {
    let count = |word: &Word| {
        let feature = &features[datums[word.datum].feature];
        let met = contacts[feature.feature as usize];
        match feature.shape {
            Shape::Plane => 1 + met,
            _ if word.at_mmb => 1,
            _ => met,
        }
    };
    words.iter().map(count).sum()
}

fn features_count(frame: &Frame, features: &[Feature], groups: &[usize]) -> usize {
    let count = |&place: &usize| if frame.kind == Kind::CircularRunout { groups[features[place].feature as usize] } else { 1 };
    frame.features.iter().map(count).sum()
}

fn is_joined(frame: &Frame) -> bool {
    matches!(frame.kind, Kind::Position | Kind::Profile) && !frame.datums.is_empty() && !frame.separate
}

fn limits(at: usize, frames: &[Frame], features: &[Feature], datums: &[Datum], counts: &(Vec<usize>, Vec<usize>)) -> Read<()> {
    let (frame, (groups, contacts)) = (&frames[at], counts);
    let offsets = frame.features.iter().filter(|&&place| features[place].shape != Shape::Plane).count();
    if frame.kind == Kind::Orientation && offsets > 2 {
        return Err(32);
    }
    let joins = |other: &&Frame| is_joined(frame) && is_joined(other) && frame.datums == other.datums;
    let others: usize = frames[..at].iter().filter(joins).map(|other| features_count(other, features, groups)).sum();
    let whole = words_count(&frame.datums, features, datums, contacts) + others + features_count(frame, features, groups);
    let lower = words_count(&frame.lower_datums, features, datums, contacts) + frame.features.len();
    if whole > 4_096 || (frame.lower.is_some() && lower > 4_096) { Err(34) } else { Ok(()) }
}

struct File {
    features: Vec<Feature>,
    frames: Vec<Frame>,
}

fn read(bytes: &[u8], points: &Points) -> Read<File> {
    let root = document(bytes).ok_or(20u32)?;
    only(&root, &["version", "turn", "shift", "centre", "feature", "datum", "frame"])?;
    match needed(&root, "version")? {
        Value::Number(1) => {}
        Value::Number(_) => return Err(21),
        _ => return Err(24),
    }
    match root.get("turn") {
        None => {}
        Some(Value::Text(text)) if text == "all" => {}
        Some(Value::Text(_)) => return Err(25),
        Some(value) => _ = number(value, 20)?,
    }
    optional(&root, "shift", 25)?;
    root.get("centre").map(|value| three(value, 8_000_000)).transpose()?;
    let of_features = tables(&root, "feature", 1_024)?;
    let of_datums = tables(&root, "datum", 64)?;
    let of_frames = tables(&root, "frame", 256)?;
    if of_frames.is_empty() {
        return Err(23);
    }
    let mut feature_names = Names::default();
    let features = of_features.into_iter().map(|it| feature(it, points, &mut feature_names)).collect::<Read<Vec<_>>>()?;
    let mut datum_names = Names::default();
    let datums = of_datums.into_iter().map(|it| datum(it, &feature_names, &mut datum_names)).collect::<Read<Vec<_>>>()?;
    let counts = points.counts();
    let (mut names, mut frames) = (Names::default(), Vec::new());
    for table in of_frames {
        let it = frame(table, &feature_names, &datum_names, &mut names)?;
        judge(&it, &features, &datums, &counts.1)?;
        frames.push(it);
    }
    for at in 0..frames.len() {
        limits(at, &frames, &features, &datums, &counts)?;
    }
    Ok(File { features, frames })
}

fn sum_of(file: &File) -> i128 {
    let of_frame = |frame: &Frame| {
        let places: usize = frame.features.iter().sum();
        let words: usize = frame.datums.iter().map(|word| word.datum).sum();
        i128::from(frame.tolerance) + (places + words) as i128
    };
    file.features.len() as i128 + file.frames.iter().map(of_frame).sum::<i128>()
}

/// One turn, from a checksum to the next. A file that is refused gives -1.
#[inline(never)]
fn read_once(text: &str, points: &Points, start: i128) -> i128 {
    read(text.as_bytes(), points).map_or(-1, |file| start.wrapping_add(sum_of(&file)))
}

fn main() -> ExitCode {
    let words: Vec<String> = std::env::args().skip(1).collect();
    let words: Vec<&str> = words.iter().map(String::as_str).collect();
    let (&["frames", turns] | &["frames", turns, "time"]) = &words[..] else {
        eprintln!("{WRONG_WORDS}");
        return ExitCode::from(4);
    };
    let Ok(turns) = turns.parse::<u32>() else {
        eprintln!("{WRONG_WORDS}");
        return ExitCode::from(4);
    };
    let (points, text) = (Points::of(&points()), file_text());
    let start = Instant::now();
    let sum = (0..turns).fold(0, |sum, _| read_once(&text, &points, sum));
    let nanoseconds = start.elapsed().as_nanos();
    match words.get(2) {
        Some(_) => println!("{sum} {nanoseconds}"),
        None => println!("{sum}"),
    }
    ExitCode::SUCCESS
}
