//! The runs of channels on which noise variances, their sums, costs over the channels and penalties
//! are stored. All draw from one generator, so every run of the program makes the same.

use crate::inputs::Random;
use crate::series::{SeriesKind, SERIES_KINDS};

/// Series made for their differences.
const DIFFERENCE_KINDS: [SeriesKind; 3] = [even_steps, near_ties, near_floor];

/// A centre and a scale: ordinary values, values so small that their squares are subnormal, and values
/// so large that their squares are infinite.
pub const SIZES: [(f64, f64); 3] = [(2.0, 1.0), (0.0, 1e-155), (0.0, 1e200)];

/// Channels of one length, the segments whose costs are asked, and the area lent for the differences.
pub struct Run {
    pub channels: Vec<Vec<f64>>,
    pub segments: Vec<(usize, usize)>,
    pub place: usize,
    pub size: usize,
}

impl Run {
    /// In an area with room for the differences, and some to spare.
    fn new(random: &mut Random, made: Vec<Vec<f64>>, segments: Vec<(usize, usize)>) -> Self {
        let channels: Vec<Vec<f64>> = made.into_iter().map(quiet).collect();
        let steps = channels[0].len().saturating_sub(1);
        let place = random.below(4) as usize;
        let size = place + steps + random.below(4) as usize;
        Run {
            channels,
            segments,
            place,
            size,
        }
    }

    /// One channel, in an area that has a place for each difference and none to spare.
    pub fn full(channel: Vec<f64>) -> Self {
        let size = channel.len() - 1;
        Run {
            channels: vec![channel],
            segments: Vec::new(),
            place: 0,
            size,
        }
    }

    /// In an area that is too short by a place.
    fn without_room(mut self) -> Self {
        self.place += 1;
        self.size = self.place + self.length().saturating_sub(1) - 1;
        self
    }

    pub fn length(&self) -> usize {
        self.channels[0].len()
    }

    pub fn signals(&self) -> Vec<&[f64]> {
        self.channels.iter().map(Vec::as_slice).collect()
    }

    /// How many places of the area are +0 afterwards; nothing where it has no room for them.
    pub fn cleared(&self) -> Option<usize> {
        let steps = self.length().saturating_sub(1);
        (self.place + steps <= self.size).then_some(steps)
    }
}

/// The same with quiet NaNs, of every sign and payload. What the Rust's `f64::min` and `f64::max` make of
/// a signalling one is open, and on some platforms it is NaN where they pass over a quiet one; by
/// docs/RULES.md NaNs count as one value.
pub fn quiet(readings: Vec<f64>) -> Vec<f64> {
    let quieted = |x: f64| match x.is_nan() {
        true => f64::from_bits(x.to_bits() | 1 << 51),
        false => x,
    };
    readings.into_iter().map(quieted).collect()
}

/// Equal differences, as far as values of this size have them.
fn even_steps(_: &mut Random, centre: f64, scale: f64, count: usize) -> Vec<f64> {
    (0..count)
        .map(|i| centre + 0.5 * scale * i as f64)
        .collect()
}

/// 0 and back from it by one of four neighbouring values: differences that are the same or next to
/// each other, and means of two that lie halfway.
fn near_ties(random: &mut Random, _: f64, scale: f64, count: usize) -> Vec<f64> {
    let mut away = || f64::from_bits(scale.to_bits() + random.below(4));
    let reading = |i| if i % 2 == 0 { 0.0 } else { away() };
    (0..count).map(reading).collect()
}

/// A median difference whose estimate is about the least one, which the last reading's range gives.
fn near_floor(random: &mut Random, _: f64, scale: f64, count: usize) -> Vec<f64> {
    let least = 1e-6 * scale * (0.6745 * std::f64::consts::SQRT_2);
    let away = f64::from_bits(least.to_bits() + random.below(9) - 4);
    let reading = |i| if i % 2 == 0 { 0.0 } else { away };
    let mut readings: Vec<f64> = (0..count).map(reading).collect();
    if let Some(last) = readings.iter_mut().skip(3).last() {
        *last = scale;
    }
    readings
}

pub fn kinds() -> Vec<SeriesKind> {
    [&SERIES_KINDS[..], &DIFFERENCE_KINDS[..]].concat()
}

fn all_segments(n: usize) -> Vec<(usize, usize)> {
    let ends = |start| (start + 1..=n).map(move |end| (start, end));
    (0..n).flat_map(ends).collect()
}

/// Empty, backward, and past the end.
fn no_segments(n: usize) -> Vec<(usize, usize)> {
    vec![(n, n), (n, n - 1), (0, n + 1)]
}

fn some_segments(random: &mut Random, n: usize, count: usize) -> Vec<(usize, usize)> {
    let mut segment = || {
        let start = random.below(n as u64) as usize;
        (start, start + 1 + random.below((n - start) as u64) as usize)
    };
    (0..count).map(|_| segment()).collect()
}

/// A channel of each kind and size with each number of readings from 0 to 9, and two longer ones.
fn single(random: &mut Random) -> Vec<Run> {
    let mut runs = Vec::new();
    for kind in kinds() {
        for (centre, scale) in SIZES {
            let longer = [0; 2].map(|_| 10 + random.below(60) as usize);
            for count in (0..10).chain(longer) {
                let channel = kind(random, centre, scale, count);
                runs.push(Run::new(random, vec![channel], Vec::new()));
            }
        }
    }
    runs
}

/// For each number of channels a run of each kind, all channels of one size, with all segments and some
/// that are none.
fn of_one_kind(random: &mut Random) -> Vec<Run> {
    let mut runs = Vec::new();
    for count in 1..=8 {
        for kind in kinds() {
            let n = 1 + random.below(5) as usize;
            let (centre, scale) = SIZES[random.below(5).saturating_sub(2) as usize];
            let channels = (0..count).map(|_| kind(random, centre, scale, n));
            let channels: Vec<_> = channels.collect();
            let segments = [all_segments(n), no_segments(n)].concat();
            runs.push(Run::new(random, channels, segments));
        }
    }
    runs
}

/// For each number of channels runs whose channels are of different kinds and sizes, all with finite
/// costs, with all segments.
fn mixed(random: &mut Random) -> Vec<Run> {
    let plain = [&SERIES_KINDS[..5], &DIFFERENCE_KINDS[..]].concat();
    let mut runs = Vec::new();
    for count in 1..=8 {
        for _ in 0..12 {
            let n = 2 + random.below(5) as usize;
            let mut channels = Vec::new();
            for _ in 0..count {
                let kind = plain[random.below(plain.len() as u64) as usize];
                let (centre, scale) = SIZES[random.below(4).saturating_sub(2) as usize];
                channels.push(kind(random, centre, scale, n));
            }
            runs.push(Run::new(random, channels, all_segments(n)));
        }
    }
    runs
}

/// The longest channel, and longer ones beside each other.
fn long(random: &mut Random) -> Vec<Run> {
    let mut runs = Vec::new();
    for (count, n) in [(1, 4096), (2, 250), (8, 101)] {
        let channels = (0..count).map(|_| SERIES_KINDS[2](random, 5.0, 1.0, n));
        let channels: Vec<_> = channels.collect();
        let segments = some_segments(random, n, 20);
        runs.push(Run::new(random, channels, segments));
    }
    runs
}

/// Of the short ones every seventh is in an area without room.
pub fn runs(random: &mut Random) -> Vec<Run> {
    let mut short = single(random);
    short.extend(of_one_kind(random));
    short.extend(mixed(random));
    let lend = |(at, run): (usize, Run)| match at % 7 {
        6 => run.without_room(),
        _ => run,
    };
    let mut runs: Vec<Run> = short.into_iter().enumerate().map(lend).collect();
    runs.extend(long(random));
    runs
}
