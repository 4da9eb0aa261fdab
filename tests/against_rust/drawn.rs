//! The families of calls that are compared. Those of searches, charts and pieces whose answers are
//! stored are drawn again with the seed, and more are drawn about every limit.

use crate::calls::{Call, Lent, Settings, SLOT};
use crate::case::Case;
use crate::charts::{Chart, Kind, RunLength};
use crate::edges;
use crate::editions::{self, FIRST, SECOND};
use crate::families::{self, any_settings, exhaustive, l2, normal, L2_BIC, NORMAL_BIC};
use crate::inputs::Random;
use crate::middles;
use crate::noises::Noise;
use crate::pieces::{self, Piece};
use crate::runs::{self, kinds, quiet, Run, SIZES};
use crate::searches::Search;
use crate::series::{self, SERIES_KINDS};
use crate::{charted, charted::usual, series::Settings as ChartSettings};
use std::rc::Rc;

/// Makes some cases of a family.
pub type Drawn = fn(&mut Random) -> Vec<Case>;

/// A family, and how many of a million cases are of it.
pub struct Family {
    pub name: String,
    pub share: usize,
    pub draw: Box<dyn Fn(&mut Random) -> Vec<Case>>,
}

/// Of a million cases, how many are of each family whose answers are stored, in the order in which they
/// stand there. All short series are made here, with longer ones.
const STORED_SHARES: [usize; 19] = [
    0, 240_000, 40_000, 50_000, 20_000, 20_000, 6_000, 210, 20_000, 8_000, 1_392, 60_000, 38, 600,
    2_000, 6_000, 492, 62, 20_000,
];

const DRAWN: [(&str, usize, Drawn); 16] = [
    ("about every limit", 120_000, about_limits),
    ("about 4,096 readings", 260, about_longest),
    (
        "about 4,096 readings, refused",
        1_000,
        about_longest_refused,
    ),
    (
        "numbers that name no cost or penalty",
        4_000,
        unknown_numbers,
    ),
    ("CUSUM records", 70_000, |random| {
        records(random, Kind::Cusum)
    }),
    ("EWMA records", 110_000, |random| {
        records(random, Kind::Ewma)
    }),
    ("CUSUM signal points", 40_000, |random| {
        points(random, Kind::Cusum)
    }),
    ("EWMA signal points", 60_000, |random| {
        points(random, Kind::Ewma)
    }),
    ("numbers that name no edition", 4_000, unknown_editions),
    ("charts of 4,095 to 4,097 readings", 600, longest_charts),
    ("run lengths", 20_000, run_lengths),
    ("noise variances", 30_000, |random| {
        noises(random, runs::runs)
    }),
    (
        "noise variances whose middle is hard to find",
        12_000,
        |random| noises(random, middles::of_any_length),
    ),
    ("pieces", 60_000, all_pieces),
    ("pieces of nearly equal readings", 20_000, nearly_equal),
    ("pieces about 4,096 readings", 600, longest_pieces),
];

pub fn families() -> Vec<Family> {
    let stored = families::FAMILIES.into_iter().zip(STORED_SHARES);
    let stored = stored.map(|((name, family), share)| Family {
        name: format!("{name}, as stored ones"),
        share,
        draw: Box::new(move |random| family(random).into_iter().map(search).collect()),
    });
    let drawn = DRAWN.into_iter().chain(edges::EDGES);
    let drawn = drawn.map(|(name, share, draw)| Family {
        name: name.into(),
        share,
        draw: Box::new(draw),
    });
    stored
        .filter(|family| family.share > 0)
        .chain(drawn)
        .collect()
}

pub fn search(call: Call) -> Case {
    let numbers = None;
    Case::Search(Search { call, numbers })
}

pub fn pick<T: Copy>(random: &mut Random, values: &[T]) -> T {
    values[random.below(values.len() as u64) as usize]
}

/// All series of up to 7 readings over a few values, and of up to 6 on two channels, every `step`th.
pub fn all_short(step: usize) -> Vec<Case> {
    let nan = f64::NAN;
    let infinity = f64::INFINITY;
    let four = [l2(1.0), L2_BIC, normal(1.0), NORMAL_BIC];
    let by_three = four.map(|settings| families::at_least(settings, 3));
    let large = [l2(1e300), L2_BIC, NORMAL_BIC];
    let tiny = [l2(5e-324), L2_BIC, normal(5e-324)];
    let mut calls = Vec::new();
    for n in 0..=7 {
        calls.extend(exhaustive(&[0.0, 1.0, 4.0], n, 1, step, &four));
        calls.extend(exhaustive(&[0.0, 1.0, 4.0], n, 1, step, &by_three));
        let not_finite = [1.0, nan, infinity, -infinity];
        calls.extend(exhaustive(
            &not_finite,
            n,
            1,
            step,
            &[l2(1.0), L2_BIC, NORMAL_BIC],
        ));
        calls.extend(exhaustive(&[0.0, 1e200, -1e200], n, 1, step, &large));
        calls.extend(exhaustive(&[0.0, -0.0, 5e-324], n, 1, step, &tiny));
    }
    for n in 0..=6 {
        calls.extend(exhaustive(&[0.0, 4.0], n, 2, step, &four));
    }
    calls.extend(exhaustive(&[0.0, 1.0, 1e200], 4, 2, step, &four));
    calls.extend(exhaustive(&[0.0, 4.0], 4, 3, step, &four));
    calls.into_iter().map(search).collect()
}

/// A place short, exactly enough, or some more.
fn near(random: &mut Random, size: usize) -> usize {
    match random.below(16) {
        0 => size.saturating_sub(1),
        1..=3 => size + 1 + random.below(4) as usize,
        _ => size,
    }
}

/// A search of channels of one length, in room about what is asked, with slots from 0 to 41.
fn search_about(random: &mut Random, n: usize, channels: usize, settings: Settings) -> Call {
    let kind = pick(random, &kinds());
    let (centre, scale) = SIZES[random.below(5).saturating_sub(2) as usize];
    let made: Vec<Vec<f64>> = (0..channels)
        .map(|_| kind(random, centre, scale, n))
        .collect();
    let mut readings = quiet(made.concat());
    if random.below(8) == 0 && !readings.is_empty() {
        let place = random.below(readings.len() as u64) as usize;
        readings[place] = pick(random, &[f64::NAN, f64::INFINITY, -f64::INFINITY]);
    }
    let slots = match random.below(3) {
        0 => random.below(42) as usize,
        _ => 41,
    };
    let pool = slots * SLOT + pick(random, &[0, 0, 1, SLOT - 1]);
    let exactly = Lent::exactly(n, channels, pool);
    let lent = Lent {
        cuts: near(random, exactly.cuts),
        floats: near(random, exactly.floats),
        indices: near(random, exactly.indices),
        pool,
    };
    Call {
        multi: channels != 1 || random.below(2) == 0,
        strict: random.below(3) == 0,
        settings,
        readings: Rc::new(readings),
        lengths: vec![n as u64; channels],
        lent,
    }
}

/// Readings about twice the minimum length, and none; every number of channels that decides something;
/// a length or a reading more or less than there should be.
fn about_limits(random: &mut Random) -> Vec<Case> {
    let mut cases = Vec::new();
    for _ in 0..512 {
        let m = 2 + random.below(5) as usize;
        let channels = pick(random, &[0, 1, 1, 1, 2, 2, 3, 8, 9]);
        let n = pick(
            random,
            &[0, 1, 2, 2 * m - 1, 2 * m, 2 * m, 2 * m + 1, 4 * m],
        );
        let mut settings = any_settings(random, n, 1.0);
        settings.given = Some(match random.below(24) {
            0 => random.below(2),
            _ => m as u64,
        });
        if random.below(24) == 0 {
            settings.custom = Some(pick(random, &[0.0, -0.0, -1.0, f64::NAN, f64::INFINITY]));
        }
        let mut call = search_about(random, n, channels, settings);
        if channels > 0 && random.below(12) == 0 {
            let place = random.below(channels as u64) as usize;
            match random.below(2) {
                // The sum stays, so that only the lengths differ.
                0 if n > 0 && channels > 1 => {
                    call.lengths[place] -= 1;
                    call.lengths[(place + 1) % channels] += 1;
                }
                _ => call.lengths[place] = pick(random, &[0, 1, n as u64 + 1, 1 << 63, u64::MAX]),
            }
            call.multi = true;
        }
        cases.push(search(call));
    }
    cases
}

/// The longest series, in pieces of a few hundred readings.
fn stepped(random: &mut Random, n: usize, channels: usize) -> Vec<f64> {
    let mut readings = Vec::new();
    let pieces = 8 + random.below(40) as usize;
    for _ in 0..channels {
        let levels: Vec<f64> = (0..=pieces).map(|_| random.below(9) as f64 * 2.5).collect();
        let reading = |at: usize| levels[at * pieces / n] + series::fraction(random) * 3.0;
        readings.extend((0..n).map(reading));
    }
    readings
}

fn longest(random: &mut Random, n: usize, channels: usize, settings: Settings) -> Call {
    let mut call = Call {
        multi: channels > 1 || random.below(2) == 0,
        strict: random.below(2) == 0,
        settings,
        readings: Rc::new(stepped(random, n, channels)),
        lengths: vec![n as u64; channels],
        lent: Lent::exactly(n, channels, pick(random, &[41, 90]) * SLOT),
    };
    if random.below(8) == 0 {
        let place = random.below((n * channels) as u64) as usize;
        Rc::make_mut(&mut call.readings)[place] = pick(random, &[f64::NAN, f64::INFINITY]);
    }
    call
}

fn about_longest(random: &mut Random) -> Vec<Case> {
    let channels = pick(random, &[1, 1, 1, 1, 2, 2, 3, 8]);
    let n = pick(random, &[4095, 4096, 4096, 4096]);
    let settings = pick(random, &[L2_BIC, L2_BIC, NORMAL_BIC, l2(30.0), l2(5.0)]);
    vec![search(longest(random, n, channels, settings))]
}

/// One reading, or one place of room, away from an answer.
fn about_longest_refused(random: &mut Random) -> Vec<Case> {
    let channels = pick(random, &[1, 2, 3, 8, 9]);
    let n = pick(random, &[4096, 4097, 4097]);
    let settings = pick(random, &[L2_BIC, NORMAL_BIC, l2(30.0)]);
    let mut call = longest(random, n, channels, settings);
    if n == 4096 {
        match random.below(4) {
            0 => call.lent.cuts -= 1,
            1 => call.lent.floats -= 1,
            2 => call.lent.indices -= 1,
            _ => call.lengths[0] += 1,
        }
        call.multi = true;
    }
    vec![search(call)]
}

/// A search whose cost or penalty is no number of the boundary: refused before all else.
fn unknown_numbers(random: &mut Random) -> Vec<Case> {
    let numbers = [0, 1, 2, 3, 255, 256, 1 << 31, u32::MAX];
    let mut cases = about_limits(random);
    for case in &mut cases {
        if let Case::Search(search) = case {
            let settings = search.call.settings;
            let known = (settings.normal.into(), settings.custom.is_some().into());
            search.numbers = Some(match random.below(2) {
                0 => (pick(random, &numbers[2..]), known.1),
                _ => (known.0, pick(random, &numbers[2..])),
            });
        }
    }
    cases
}

fn chart_cases(random: &mut Random, kind: Kind) -> Vec<(ChartSettings, Vec<f64>)> {
    let settings = match kind {
        Kind::Cusum => series::CUSUM_SETTINGS,
        Kind::Ewma => series::EWMA_SETTINGS,
    };
    let mut cases = charted::short_cases(random, &settings);
    cases.extend(charted::refused_cases(random, kind));
    cases
}

/// A chart in room of exactly as many places as readings; at times an area has a place less, or more.
pub fn chart(
    random: &mut Random,
    kind: Kind,
    (settings, readings): (ChartSettings, Vec<f64>),
) -> Chart {
    let mut spare = [0; 6];
    if random.below(2) == 0 {
        spare = spare.map(|_| random.below(4) as isize);
    }
    if random.below(8) == 0 {
        spare[random.below(6) as usize] = -1;
    }
    Chart {
        kind,
        edition: FIRST,
        by_new: settings.by_new,
        settings: settings.values,
        readings: Rc::new(readings),
        points: false,
        spare,
    }
}

/// An EWMA chart by each edition, the first before the second, and a CUSUM chart, which has none, as it is.
pub fn by_each_edition(chart: Chart) -> Vec<Case> {
    let editions = match chart.kind {
        Kind::Cusum => vec![FIRST],
        Kind::Ewma => vec![FIRST, SECOND],
    };
    let by = |edition| {
        Case::Chart(Chart {
            edition,
            ..chart.clone()
        })
    };
    editions.into_iter().map(by).collect()
}

fn records(random: &mut Random, kind: Kind) -> Vec<Case> {
    let cases = chart_cases(random, kind).into_iter();
    cases
        .flat_map(|case| by_each_edition(chart(random, kind, case)))
        .collect()
}

fn points(random: &mut Random, kind: Kind) -> Vec<Case> {
    let mut cases = records(random, kind);
    for case in &mut cases {
        if let Case::Chart(chart) = case {
            chart.points = true;
        }
    }
    cases
}

/// EWMA charts whose edition is no number of the boundary: refused before all else. Those of which settings are
/// refused too come first.
fn unknown_editions(random: &mut Random) -> Vec<Case> {
    let cases = chart_cases(random, Kind::Ewma).into_iter().rev();
    let unknown = |case| {
        Case::Chart(Chart {
            edition: pick(random, &editions::UNKNOWN),
            points: random.below(2) == 0,
            ..chart(random, Kind::Ewma, case)
        })
    };
    cases.map(unknown).collect()
}

fn longest_charts(random: &mut Random) -> Vec<Case> {
    let kind = pick(random, &[Kind::Cusum, Kind::Ewma]);
    let settings = match kind {
        Kind::Cusum => pick(random, &series::CUSUM_SETTINGS)(random),
        Kind::Ewma => pick(random, &series::EWMA_SETTINGS)(random),
    };
    let [target, sigma, ..] = settings.values;
    let n = pick(random, &[4095, 4096, 4096, 4097]);
    let readings = pick(random, &SERIES_KINDS)(random, target, sigma, n);
    let mut longest = chart(random, kind, (settings, readings));
    longest.points = random.below(2) == 0;
    by_each_edition(longest)
}

fn run_lengths(random: &mut Random) -> Vec<Case> {
    let asked = charted::run_lengths(random).into_iter();
    let case = |(settings, level, upper): (ChartSettings, f64, bool)| {
        let sum = match random.below(32) {
            0 => pick(random, &[2, 3, u32::MAX]),
            _ => u32::from(!upper),
        };
        Case::RunLength(RunLength {
            by_new: settings.values[2..] == usual(Kind::Cusum)[2..] && random.below(2) == 0,
            settings: settings.values,
            level,
            sum,
        })
    };
    asked.map(case).collect()
}

/// A noise variance of each channel of these runs; at times at a place that no area has.
fn noises(random: &mut Random, runs: fn(&mut Random) -> Vec<Run>) -> Vec<Case> {
    let mut cases = Vec::new();
    for run in runs(random) {
        for channel in run.channels {
            let place = match random.below(32) {
                0 => pick(random, &[run.size, run.size + 1, usize::MAX]),
                _ => run.place,
            };
            cases.push(Case::Noise(Noise {
                readings: Rc::new(channel),
                place,
                size: run.size,
            }));
        }
    }
    cases
}

/// In any order, so that a few of them are of many kinds.
fn all_pieces(random: &mut Random) -> Vec<Case> {
    let mut pieces = pieces::pieces(random);
    for last in (1..pieces.len()).rev() {
        pieces.swap(last, random.below(last as u64 + 1) as usize);
    }
    pieces.into_iter().map(Case::Piece).collect()
}

fn nearly_equal(random: &mut Random) -> Vec<Case> {
    pieces::nearly_equal(random)
        .into_iter()
        .map(Case::Piece)
        .collect()
}

fn longest_pieces(random: &mut Random) -> Vec<Case> {
    let n = pick(random, &[4095, 4096, 4096, 4097]);
    let readings = Rc::new(pick(random, &SERIES_KINDS)(random, 2.0, 1.0, n));
    let places = [0, 1, n / 2, n - 1, n, n + 1, usize::MAX];
    let cases = [0; 8].map(|_| {
        let (start, end) = (pick(random, &places), pick(random, &places));
        let readings = Rc::clone(&readings);
        Case::Piece(Piece {
            readings,
            start,
            end,
        })
    });
    cases.to_vec()
}
