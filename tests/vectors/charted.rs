//! What the Rust's charts make of a series, and the settings, series and levels that they are asked. The Rust has
//! the first edition of the EWMA chart; the second is that of a copy in which the place is counted.

use crate::inputs::Random;
use crate::series::{self, Settings, SettingsKind, SERIES_KINDS};
use cusum::Cusum;
use ewma::Ewma;

/// The numbers of the refusals of a chart's settings, in the order in which the Rust tests them, and that of
/// a level that is not finite.
const OF_SETTINGS: [u8; 4] = [15, 16, 17, 18];
const NON_FINITE: u8 = 8;
pub const MOST_READINGS: usize = 4096;
/// The numbers of the sides of a record.
pub const NONE: u8 = 0;
pub const ABOVE: u8 = 1;
pub const BELOW: u8 = 2;
pub const BOTH: u8 = 3;
/// Nearly all series are short, so that there is room for many.
const SHORT: [u64; 3] = [16, 80, 300];

/// A record of the Rust, with the side that its values have, and the Rust's own yes or no beside it.
pub struct Record {
    pub values: Vec<f64>,
    pub side: u8,
    pub signal: bool,
    pub index: usize,
}

/// What a chart makes of a series.
pub struct Answer {
    pub records: Vec<Record>,
    pub points: Vec<usize>,
}

impl Answer {
    /// The index of the first record of which the Rust says something else than its side: yes where the side is
    /// none, or no where it is another.
    pub fn contradiction(&self) -> Option<usize> {
        let contradicts = |record: &Record| record.signal != (record.side != NONE);
        self.records.iter().position(contradicts)
    }
}

#[derive(Clone, Copy, Debug, PartialEq)]
pub enum Kind {
    Cusum,
    Ewma,
}

/// The editions of the EWMA chart: the place of a reading is its index and 1, or the number of finite readings up
/// to and with it. A CUSUM chart has none, and does not look at it.
#[derive(Clone, Copy, Debug, PartialEq)]
pub enum Edition {
    First,
    Second,
}

/// The settings and the readings of a case.
pub type Case = (Settings, Vec<f64>);

pub fn cusum_chart(settings: &Settings) -> Option<Cusum> {
    let [target, sigma, k, h] = settings.values;
    match settings.by_new {
        true => Cusum::new(target, sigma),
        false => Cusum::with_params(target, sigma, k, h),
    }
}

pub fn ewma_chart(settings: &Settings) -> Option<Ewma> {
    let [target, sigma, lambda, l_factor] = settings.values;
    match settings.by_new {
        true => Ewma::new(target, sigma),
        false => Ewma::with_params(target, sigma, lambda, l_factor),
    }
}

fn side(above: bool, below: bool) -> u8 {
    match (above, below) {
        (false, false) => NONE,
        (true, false) => ABOVE,
        (false, true) => BELOW,
        (true, true) => BOTH,
    }
}

/// The side of a CUSUM record by rules 5.2 and 5.3: of a reading, and the sums after it.
fn cusum_side(h: f64, reading: f64, [upper, lower]: [f64; 2]) -> u8 {
    let heard = |sum: f64| reading.is_finite() && h < sum;
    side(heard(upper), heard(lower))
}

/// The side of an EWMA record by rules 5.2 and 5.4: of a reading, and the statistic and the limits after it.
pub fn ewma_side(reading: f64, [statistic, ucl, lcl]: [f64; 3]) -> u8 {
    let finite = reading.is_finite();
    side(finite && ucl < statistic, finite && statistic < lcl)
}

/// The h that the chart has: one by `new` has its own.
fn h_of(settings: &Settings) -> f64 {
    match settings.by_new {
        true => usual(Kind::Cusum)[3],
        false => settings.values[3],
    }
}

pub fn cusum_answer(settings: &Settings, readings: &[f64]) -> Option<Answer> {
    let chart = cusum_chart(settings)?;
    let h = h_of(settings);
    let record = |(r, &reading): (cusum::CusumResult, &f64)| Record {
        values: vec![r.s_upper, r.s_lower],
        side: cusum_side(h, reading, [r.s_upper, r.s_lower]),
        signal: r.signal,
        index: r.index,
    };
    let records = chart.analyze(readings).into_iter().zip(readings);
    Some(Answer {
        records: records.map(record).collect(),
        points: chart.signal_points(readings),
    })
}

/// A function of this name that says what the EWMA chart of this library makes of a series. The library is the
/// Rust's file, or a copy of it.
macro_rules! ewma_answers {
    ($name:ident, $library:ident) => {
        pub fn $name(settings: &Settings, readings: &[f64]) -> Option<Answer> {
            let [target, sigma, lambda, l_factor] = settings.values;
            let chart = match settings.by_new {
                true => $library::Ewma::new(target, sigma)?,
                false => $library::Ewma::with_params(target, sigma, lambda, l_factor)?,
            };
            let record = |(r, &reading): ($library::EwmaResult, &f64)| Record {
                values: vec![r.ewma, r.ucl, r.lcl],
                side: $crate::charted::ewma_side(reading, [r.ewma, r.ucl, r.lcl]),
                signal: r.signal,
                index: r.index,
            };
            let records = chart.analyze(readings).into_iter().zip(readings);
            Some(Answer {
                records: records.map(record).collect(),
                points: chart.signal_points(readings),
            })
        }
    };
}
#[allow(unused_imports)]
pub(crate) use ewma_answers;

ewma_answers!(ewma_answer, ewma);
ewma_answers!(ewma_counted_answer, ewma_counted);

/// What the Rust's chart makes of a series, if there is a chart with these settings.
///
/// # Panics
///
/// If the side of a record is none where the Rust signals, or another where it does not, as at a gap.
pub fn answer(
    kind: Kind,
    edition: Edition,
    settings: &Settings,
    readings: &[f64],
) -> Option<Answer> {
    let answer = match (kind, edition) {
        (Kind::Cusum, _) => cusum_answer(settings, readings)?,
        (Kind::Ewma, Edition::First) => ewma_answer(settings, readings)?,
        (Kind::Ewma, Edition::Second) => ewma_counted_answer(settings, readings)?,
    };
    let contradiction = answer.contradiction();
    assert_eq!(contradiction, None, "{kind:?} {:?}", settings.values);
    Some(answer)
}

/// Whether each of a chart's settings is in range, by rule 5.1: the target, sigma, k or lambda, h or L. The
/// Rust is not asked, so that it can't keep away a case in which it is wrong.
pub fn in_range(kind: Kind, [target, sigma, weight, bound]: [f64; 4]) -> [bool; 4] {
    let positive = |x: f64| x.is_finite() && x > 0.0;
    let weighs = match kind {
        Kind::Cusum => weight.is_finite() && weight >= 0.0,
        Kind::Ewma => weight > 0.0 && weight <= 1.0,
    };
    [target.is_finite(), positive(sigma), weighs, positive(bound)]
}

/// The refusals of the settings that are out of range, in the Rust's order.
pub fn refusals(kind: Kind, settings: &Settings) -> Vec<u8> {
    let tests = in_range(kind, settings.values).into_iter().zip(OF_SETTINGS);
    let met = tests.filter(|(within, _)| !within);
    met.map(|(_, number)| number).collect()
}

/// The refusal of settings of which the Rust makes no chart, and none of those of which it does.
///
/// # Panics
///
/// If the Rust made a chart where a setting is out of range, or none where all are in range.
pub fn refused_by(kind: Kind, settings: &Settings, made: bool) -> Option<u8> {
    let refusals = refusals(kind, settings);
    assert_eq!(made, refusals.is_empty(), "{kind:?} {:?}", settings.values);
    refusals.first().copied()
}

/// A series of each kind by settings of each, of several lengths; the first are 0, 1 and 2.
pub fn short_cases(random: &mut Random, kinds: &[SettingsKind]) -> Vec<Case> {
    let mut cases: Vec<Case> = Vec::new();
    for series in SERIES_KINDS {
        for (at, settings) in kinds.iter().enumerate() {
            let drawn = SHORT.map(|most| random.below(most + 1) as usize);
            for count in [&[at % 3], &drawn[..]].concat() {
                let settings = settings(random);
                let [target, sigma, ..] = settings.values;
                let readings = series(random, target, sigma, count);
                cases.push((settings, readings));
            }
        }
    }
    cases
}

/// As many readings as a chart takes, by the first settings: stepped, drifting, and with infinities.
fn long_cases(random: &mut Random, kinds: &[SettingsKind]) -> Vec<Case> {
    let mut cases: Vec<Case> = Vec::new();
    for (settings, at) in kinds.iter().zip([2, 3, 6]) {
        let settings = settings(random);
        let [target, sigma, ..] = settings.values;
        let readings = SERIES_KINDS[at](random, target, sigma, MOST_READINGS);
        cases.push((settings, readings));
    }
    cases
}

/// One setting that is out of range, or at its end, and then every set of settings that are out of range, with
/// few readings.
pub fn refused_cases(random: &mut Random, kind: Kind) -> Vec<Case> {
    let mut all = series::refused(usual(kind));
    all.extend(several_refused(random, kind));
    let refused = |settings| {
        let count = random.below(4) as usize;
        let readings = SERIES_KINDS[1](random, 0.0, 1.0, count);
        (settings, readings)
    };
    all.into_iter().map(refused).collect()
}

/// Settings for every set of those that are out of range, but for the empty set.
pub fn several_refused(random: &mut Random, kind: Kind) -> Vec<Settings> {
    let wrong = (1..16).map(|set| wrong_settings(random, kind, set));
    wrong.map(Settings::with).collect()
}

/// The usual settings, but out of range where the number `set` has a 1: 1 is for the target, 2 for sigma, 4
/// for k or lambda, 8 for h or L.
pub fn wrong_settings(random: &mut Random, kind: Kind, set: usize) -> [f64; 4] {
    let mut values = usual(kind);
    for (place, value) in values.iter_mut().enumerate() {
        if set >> place & 1 == 1 {
            *value = series::out_of_range(random, |x| {
                let mut changed = usual(kind);
                changed[place] = x;
                !in_range(kind, changed)[place]
            });
        }
    }
    values
}

/// Target 0 and sigma 1, and the settings that come with `new`.
pub fn usual(kind: Kind) -> [f64; 4] {
    match kind {
        Kind::Cusum => [0.0, 1.0, 0.5, 5.0],
        Kind::Ewma => [0.0, 1.0, 0.2, 3.0],
    }
}

fn all_cases(random: &mut Random, kind: Kind, kinds: &[SettingsKind]) -> Vec<Case> {
    let mut cases = short_cases(random, kinds);
    cases.extend(long_cases(random, kinds));
    cases.extend(refused_cases(random, kind));
    cases
}

/// The run length of the level, from 1, or 0 where it is not heard.
fn run_length(chart: &Cusum, h: f64, level: f64, upper: bool) -> usize {
    let records = chart.analyze(&[level; MOST_READINGS]);
    let sum = |r: &cusum::CusumResult| if upper { r.s_upper } else { r.s_lower };
    records
        .iter()
        .position(|r| sum(r) > h)
        .map_or(0, |at| at + 1)
}

/// The number of the refusal of a run length, or 0, and the run length.
pub fn run_length_answer(settings: &Settings, level: f64, upper: bool) -> (u8, usize) {
    let made = cusum_chart(settings);
    let refused = refused_by(Kind::Cusum, settings, made.is_some());
    match made {
        Some(_) if !level.is_finite() => (NON_FINITE, 0),
        Some(chart) => (0, run_length(&chart, h_of(settings), level, upper)),
        None => (refused.expect("a refusal"), 0),
    }
}

/// Levels for a chart, each with whether the upper sum is asked: those that are heard after about so
/// many readings, those next to the allowance, and the centre and the ends of the range.
pub fn levels(random: &mut Random, [target, sigma, k, h]: [f64; 4]) -> Vec<(f64, bool)> {
    let mut levels = vec![(target + sigma * k, true), (target - 3.0 * sigma, false)];
    for most in [4, 60, 900, 5000] {
        let away = |readings| sigma * (k + h / (1 + readings) as f64);
        levels.push((target + away(random.below(most)), true));
        levels.push((target - away(random.below(most)), false));
    }
    for level in [target, f64::MAX, 5e-324, f64::NAN, f64::NEG_INFINITY] {
        levels.extend([(level, true), (level, false)]);
    }
    levels
}

/// Run lengths to ask: the rules' example, those about the last reading, levels for three settings of each
/// kind and for settings that are refused, and every set of settings that are refused with a level that is
/// finite and with one that is not.
pub fn run_lengths(random: &mut Random) -> Vec<(Settings, f64, bool)> {
    let last = [4094.0, 4095.0, 4095.5, 4096.0].map(|h| [0.0, 1.0, 0.0, h]);
    let mut asked = vec![(Settings::with([0.0, 1.0, 0.5, 5.0]), 3.0, true)];
    asked.extend(last.map(|values| (Settings::with(values), 1.0, true)));
    asked.extend(last.map(|values| (Settings::with(values), -1.0, false)));
    let mut charts = vec![[0.0, -1.0, 0.5, 5.0]];
    for kind in series::CUSUM_SETTINGS {
        charts.extend([0; 3].map(|_| kind(random).values));
    }
    for values in charts {
        let ask = |(level, upper)| (Settings::with(values), level, upper);
        asked.extend(levels(random, values).into_iter().map(ask));
    }
    for level in [3.0, f64::NAN] {
        let refused = several_refused(random, Kind::Cusum).into_iter();
        asked.extend(refused.map(|settings| (settings, level, true)));
    }
    asked
}

/// CUSUM's examples of docs/RULES.md, and then all others.
pub fn cusum_cases(random: &mut Random) -> Vec<Case> {
    let marked = [vec![3.0; 3], vec![8.0, f64::NAN]];
    let by_new = |readings| {
        let (by_new, values) = (true, usual(Kind::Cusum));
        (Settings { by_new, values }, readings)
    };
    let mut cases: Vec<Case> = marked.into_iter().map(by_new).collect();
    cases.extend(all_cases(random, Kind::Cusum, &series::CUSUM_SETTINGS));
    cases
}

/// EWMA's example of docs/RULES.md, and then all others.
pub fn ewma_cases(random: &mut Random) -> Vec<Case> {
    let marked = [3.0, 3.5].map(|reading| (Settings::with([0.0, 1.0, 1.0, 3.0]), vec![reading]));
    let mut cases: Vec<Case> = marked.into_iter().collect();
    cases.extend(all_cases(random, Kind::Ewma, &series::EWMA_SETTINGS));
    cases
}
