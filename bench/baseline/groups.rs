//! The groups of a frame file in plain Rust, with the standard library alone, for a fair comparison of time: of the file and the
//! points of gd_bench's kernel `groups` the same conditions, each with its points by an index, and the same labels. The file
//! is there as tables; all kinds that it doesn't have are left out. Nothing of it is proved.

#[allow(dead_code, reason = "nothing is drawn here")]
mod kernels;

use kernels::Turn;
use std::process::ExitCode;

const PLANES: u32 = 3;
const AXES: u32 = 1_021;
const FRAMES: u32 = 256;
const POINTS: u32 = 200_000;

// ---- the file and the points

#[derive(Clone, Copy)]
struct Feature {
    feature: u32,
    is_plane: bool,
    direction: [i64; 3],
    point: [i64; 3],
}

struct Datum {
    feature: usize,
    slack: i64,
}

struct Frame {
    name: String,
    tolerance: i64,
    features: Vec<usize>,
    datums: Vec<usize>,
}

struct File {
    features: Vec<Feature>,
    datums: Vec<Datum>,
    frames: Vec<Frame>,
}

fn file() -> File {
    let features = (0..PLANES + AXES).map(|at| Feature {
        feature: at,
        is_plane: at < PLANES,
        direction: [0, 0, 1],
        point: [at.into(), 0, 0],
    });
    let datums = (0..PLANES as usize).map(|feature| Datum { feature, slack: 20 });
    let frames = (0..FRAMES).map(|at| {
        let members = if at == 255 { 4 } else { 16 };
        let features = (0..members).map(|member| (PLANES + (at * 16 + member) % AXES) as usize).collect();
        Frame { name: format!("frame{at}"), tolerance: at.into(), features, datums: vec![0, 1, 2] }
    });
    File { features: features.collect(), datums: datums.collect(), frames: frames.collect() }
}

/// The feature and the group of each point.
fn labels() -> Vec<(u32, u32)> {
    let planes = (0..PLANES).flat_map(|at| (1..=3).map(move |group| (at, group)));
    planes.chain((9..POINTS).map(|at| (PLANES + (at - 9) % AXES, 0))).collect()
}

// ---- the index

struct Index {
    labels: Vec<(u32, u32)>,
    by_feature: Vec<u32>,
    by_group: Vec<u32>,
}

impl Index {
    fn of(labels: Vec<(u32, u32)>) -> Index {
        let all = 0..labels.len() as u32;
        let (mut by_feature, mut by_group): (Vec<u32>, Vec<u32>) = (all.clone().collect(), all.collect());
        by_feature.sort_by_key(|&number| labels[number as usize].0);
        by_group.sort_by_key(|&number| labels[number as usize]);
        Index { labels, by_feature, by_group }
    }

    fn of_feature(&self, feature: u32) -> &[u32] {
        let key = |number: u32| self.labels[number as usize].0;
        let from = self.by_feature.partition_point(|&number| key(number) < feature);
        let rest = &self.by_feature[from..];
        &rest[..rest.partition_point(|&number| key(number) <= feature)]
    }

    fn of_group(&self, feature: u32, group: u32) -> &[u32] {
        let key = |number: u32| self.labels[number as usize];
        let from = self.by_group.partition_point(|&number| key(number) < (feature, group));
        let rest = &self.by_group[from..];
        &rest[..rest.partition_point(|&number| key(number) <= (feature, group))]
    }

    /// The groups from 1 on of a feature, ascending.
    fn contacts(&self, feature: u32) -> Vec<u32> {
        let mut groups = Vec::new();
        let mut from = 1;
        loop {
            let at = self.by_group.partition_point(|&number| self.labels[number as usize] < (feature, from));
            match self.by_group.get(at).map(|&number| self.labels[number as usize]) {
                Some((found, group)) if found == feature => groups.push(group),
                _ => return groups,
            }
            from = groups[groups.len() - 1] + 1;
        }
    }
}

// ---- conditions and groups

#[expect(dead_code, reason = "what is made is kept, and not judged here")]
enum Surface {
    Plane { direction: [i64; 3], point: [i64; 3] },
    Axis { direction: [i64; 3], point: [i64; 3] },
}

#[expect(dead_code, reason = "what is made is kept, and not judged here")]
enum Demand {
    Within { low: Option<i64>, high: Option<i64> },
    Contact { high: i64 },
}

#[expect(dead_code, reason = "what is made is kept, and not judged here")]
struct Condition<'a> {
    surface: Surface,
    demand: Demand,
    feature: u32,
    group: Option<u32>,
    offset: u32,
    points: &'a [u32],
    whole: &'a [u32],
}

struct Group<'a> {
    label: String,
    conditions: Vec<Condition<'a>>,
}

fn condition<'a>(index: &'a Index, of: &Feature, demand: Demand, group: Option<u32>) -> Condition<'a> {
    let &Feature { feature, is_plane, direction, point } = of;
    let surface = if is_plane { Surface::Plane { direction, point } } else { Surface::Axis { direction, point } };
    let whole = index.of_feature(feature);
    let points = group.map_or(whole, |group| index.of_group(feature, group));
    Condition { surface, demand, feature, group, offset: 0, points, whole }
}

fn push_datum<'a>(file: &File, index: &'a Index, datum: usize, into: &mut Vec<Condition<'a>>) {
    let Datum { feature, slack } = file.datums[datum];
    let feature = &file.features[feature];
    into.push(condition(index, feature, Demand::Within { low: Some(0), high: None }, None));
    for group in index.contacts(feature.feature) {
        into.push(condition(index, feature, Demand::Contact { high: 2 * slack }, Some(group)));
    }
}

/// The groups of position frames: those with the same datum words are one, where the first of them stands.
fn groups<'a>(file: &File, index: &'a Index) -> Vec<Group<'a>> {
    let mut found: Vec<Vec<usize>> = Vec::new();
    for (at, frame) in file.frames.iter().enumerate() {
        match found.iter_mut().find(|group| file.frames[group[0]].datums == frame.datums) {
            Some(group) => group.push(at),
            None => found.push(vec![at]),
        }
    }
    found.iter().map(|frames| group(file, index, frames)).collect()
}

fn group<'a>(file: &File, index: &'a Index, frames: &[usize]) -> Group<'a> {
    let mut conditions = Vec::new();
    let mut label = String::new();
    for &datum in &file.frames[frames[0]].datums {
        push_datum(file, index, datum, &mut conditions);
    }
    for frame in frames.iter().map(|&at| &file.frames[at]) {
        if !label.is_empty() {
            label.push('+');
        }
        label.push_str(&frame.name);
        for &feature in &frame.features {
            let demand = Demand::Within { low: None, high: Some(frame.tolerance) };
            conditions.push(condition(index, &file.features[feature], demand, None));
        }
    }
    Group { label, conditions }
}

// ---- checksums

fn sum_of_conditions(conditions: &[Condition]) -> i128 {
    conditions.iter().fold(0i128, |sum, it| {
        let first = it.points.first().copied().unwrap_or(0);
        (sum ^ i128::from(it.feature))
            .wrapping_add(it.group.unwrap_or(0).into())
            .wrapping_add(first.into())
            .wrapping_mul(31)
            .wrapping_add(it.points.len() as i128)
    })
}

/// One turn, from a checksum to the next: the groups are made once.
#[inline(never)]
fn group_once(file: &File, index: &Index, start: i128) -> i128 {
    let made = groups(file, index);
    let conditions = made.iter().fold(0i128, |sum, it| sum.wrapping_add(sum_of_conditions(&it.conditions)));
    let labels: usize = made.iter().map(|it| it.label.len()).sum();
    start.wrapping_add(conditions.wrapping_add(labels as i128))
}

fn work(kernel: &str) -> Option<Turn> {
    if kernel != "groups" {
        return None;
    }
    let (file, index) = (file(), Index::of(labels()));
    Some(Box::new(move |sum| group_once(&file, &index, sum)))
}

fn main() -> ExitCode {
    kernels::run("groups", work)
}
