//! Whole calls of searches by BIC: refusals, noise, search, backtrack and clearing on our side.

use crate::inputs::Random;
use crate::series::fraction;
use crate::timing::{Best, Row};
use overbrindle::lent::{detect, Areas, SearchSettings, SLOT};
use overbrindle::{CostFunction, Pelt, Penalty};
use std::hint::black_box;

/// How many series there are of each sort; a row has the sum of their times.
const SERIES: usize = 3;
const POOL: u32 = 9;

/// A sort of search.
#[derive(Clone, Copy)]
pub struct Sort {
    pub normal: bool,
    pub channels: usize,
    pub changes: usize,
}

impl Sort {
    pub fn name(self) -> String {
        let cost = if self.normal { "Normal" } else { "L2" };
        let channels = match self.channels {
            1 => "1 channel".into(),
            many => format!("{many} channels"),
        };
        match self.changes {
            0 => format!("{cost}, {channels}, steady"),
            changes => format!("{cost}, {channels}, {changes} changes"),
        }
    }
}

/// Noise of about variance 1, with the changes of level that `sort` asks, at even distances and in all
/// channels at once, each by 3 to 6.
fn series(random: &mut Random, n: usize, sort: Sort) -> Vec<Vec<f64>> {
    let channel = |random: &mut Random| {
        let mut level = 0.0;
        let mut readings = Vec::new();
        let mut piece = 0;
        for at in 0..n {
            if at * (sort.changes + 1) / n != piece {
                piece += 1;
                let size = 3.0 + 3.0 * fraction(random);
                level += if random.below(2) == 0 { size } else { -size };
            }
            let bell = (0..12).map(|_| fraction(random)).sum::<f64>() - 6.0;
            readings.push(level + bell);
        }
        readings
    };
    (0..sort.channels).map(|_| channel(random)).collect()
}

/// Room that is lent for all calls. A search leaves it zero.
struct Room {
    cuts: Vec<usize>,
    floats: Vec<f64>,
    indices: Vec<usize>,
    pool: Vec<f64>,
}

impl Room {
    fn new(n: usize, channels: usize, slots: usize) -> Self {
        Room {
            cuts: vec![0; n / 2],
            floats: vec![0.0; (2 * channels + 2) * (n + 1)],
            indices: vec![0; 3 * (n + 1)],
            pool: vec![0.0; slots * SLOT],
        }
    }

    /// The number of the refusal, or 0, and how many cuts.
    fn search(&mut self, sort: Sort, readings: &[f64], lengths: &[usize]) -> (u32, usize) {
        let areas = Areas {
            cuts: &mut self.cuts,
            floats: &mut self.floats,
            indices: &mut self.indices,
            pool: &mut self.pool,
        };
        let settings = SearchSettings {
            cost: sort.normal.into(),
            penalty_kind: 0,
            penalty: 0.0,
            min_segment_len: 2,
        };
        let said = detect(false, settings, readings, lengths, areas);
        (said.number, said.count)
    }
}

/// Room with as many slots as this search asks, to the next ten.
fn enough_room(sort: Sort, readings: &[f64], lengths: &[usize]) -> Room {
    for slots in (1..).map(|tens| 10 * tens) {
        let mut room = Room::new(lengths[0], sort.channels, slots);
        if room.search(sort, readings, lengths).0 != POOL {
            return room;
        }
    }
    unreachable!("there are fewer candidates than readings")
}

fn rust(sort: Sort) -> pelt::Pelt {
    let cost = match sort.normal {
        true => pelt::CostFunction::Normal,
        false => pelt::CostFunction::L2,
    };
    pelt::Pelt::new(cost, pelt::Penalty::Bic).expect("a search")
}

/// The times of a search of these channels, and how many cuts were found.
fn timed(best: Best, sort: Sort, channels: &[Vec<f64>]) -> ((f64, f64), usize) {
    let lengths: Vec<usize> = channels.iter().map(Vec::len).collect();
    let readings = channels.concat();
    let signals: Vec<&[f64]> = channels.iter().map(Vec::as_slice).collect();
    let pelt = rust(sort);
    let due = pelt
        .detect_multi(&signals)
        .expect("one length")
        .changepoints;
    let mut room = enough_room(sort, &readings, &lengths);
    let (_, count) = room.search(sort, &readings, &lengths);
    if room.cuts[..count] != due {
        println!("{}: the cuts are not the Rust's", sort.name());
    }
    let mut work = || {
        black_box(room.search(sort, black_box(&readings), &lengths));
    };
    let mut work_theirs = || drop(black_box(pelt.detect_multi(black_box(&signals))));
    (best.of(&mut work, &mut work_theirs), count)
}

/// The times of a sort at n readings, and how many cuts were found.
pub fn row(best: Best, random: &mut Random, n: usize, sort: Sort) -> (Row, usize) {
    let (mut ours, mut theirs, mut found) = (0.0, 0.0, 0);
    for _ in 0..SERIES {
        let (times, count) = timed(best, sort, &series(random, n, sort));
        found += count;
        ours += times.0;
        theirs += times.1;
    }
    let many = SERIES as f64;
    (
        Row::new(sort.name(), ours / many, theirs / many),
        found / SERIES,
    )
}

/// A Normal search of one channel of another kind, with its name.
pub fn normal_row(best: Best, name: &str, channel: Vec<f64>) -> Row {
    let sort = Sort {
        normal: true,
        channels: 1,
        changes: 0,
    };
    let (times, found) = timed(best, sort, &[channel]);
    Row::new(format!("{name} ({found} found)"), times.0, times.1)
}

/// All sorts of the table.
pub fn sorts() -> Vec<Sort> {
    let mut sorts = Vec::new();
    for (normal, numbers) in [(false, &[1, 2, 3, 8][..]), (true, &[1, 8])] {
        for &channels in numbers {
            for changes in [0, 16, 64, 128] {
                sorts.push(Sort {
                    normal,
                    channels,
                    changes,
                });
            }
        }
    }
    sorts
}

/// What the package costs beside the search itself: it lends new room for each call.
pub fn package(best: Best, random: &mut Random, n: usize) -> Row {
    let sort = Sort {
        normal: false,
        channels: 1,
        changes: 16,
    };
    let made = series(random, n, sort);
    let signals: Vec<&[f64]> = made.iter().map(Vec::as_slice).collect();
    let pelt = rust(sort);
    let ours = Pelt::new(CostFunction::L2, Penalty::Bic).expect("a search");
    let mut work = || drop(black_box(ours.detect_multi(black_box(&signals))));
    let mut work_theirs = || drop(black_box(pelt.detect_multi(black_box(&signals))));
    let times = best.of(&mut work, &mut work_theirs);
    Row::new(
        "L2, 1 channel, 16 changes, by the package",
        times.0,
        times.1,
    )
}
