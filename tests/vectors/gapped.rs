//! Series with gaps in every pattern, by settings at which gaps decide something: those on which the second edition
//! of the EWMA chart is asked, which counts no gaps. A gap is a NaN of any pattern, or an infinity.

use crate::charted::{self, Answer, Case, Kind, Record, MOST_READINGS, NONE};
use crate::inputs::{not_numbers, Random};
use crate::rules::{pattern, powi};
use crate::series::{self, pick, Settings, SettingsKind, SERIES_KINDS};

/// Whether the reading of an index, which comes first, is a gap in a series of a number of readings.
pub type Pattern = fn(&mut Random, usize, usize) -> bool;

/// None, one, several on end, every so many, all but one, all, and here and there.
pub const PATTERNS: [Pattern; 14] = [
    |_, _, _| false,
    |_, at, _| at == 0,
    |_, at, n| at == n / 2,
    |_, at, n| at + 1 == n,
    |_, at, n| at < n.div_ceil(3),
    |_, at, n| (n / 3..n - n / 3).contains(&at),
    |_, at, n| at >= n - n / 3,
    |_, at, _| at % 2 == 0,
    |_, at, _| at % 2 == 1,
    |_, at, _| at % 3 != 1,
    |_, at, _| at > 0,
    |_, at, n| at + 1 < n,
    |_, _, _| true,
    |random, _, _| random.below(4) == 0,
];
const EVERY_SECOND: Pattern = PATTERNS[7];
const HERE_AND_THERE: Pattern = PATTERNS[13];

/// Kinds of series: constant, noise, stepped, drifting, halves, overflowing, subnormals and zeros.
const KINDS: [usize; 8] = [0, 1, 2, 3, 4, 9, 11, 12];
const STEPPED: usize = 2;
const HALVES: usize = 4;

const SETTINGS: [SettingsKind; 4] = [halving, small_weight, minus_zero, endless];
/// Settings by which a statistic can be brought between limits: usual ones, those of `new`, and two of these.
const BETWEEN: [SettingsKind; 4] = [
    series::EWMA_SETTINGS[0],
    series::EWMA_SETTINGS[1],
    halving,
    small_weight,
];

/// Most series are short, so that there is room for many.
const SHORT: [u64; 2] = [16, 80];
const TINY: f64 = 1.0 / (1u64 << 60) as f64;

/// Statistics that halves give without rounding, and limits that widen most at the second place.
fn halving(random: &mut Random) -> Settings {
    Settings::with([0.0, 1.0, 0.5, pick(random, &[1.0, 2.0, 4.0])])
}

/// Limits that widen for as long as a series lasts, or that stay next to nothing.
fn small_weight(random: &mut Random) -> Settings {
    let weight = pick(random, &[0.001, TINY]);
    Settings::with([-3.0, 2.0, weight, pick(random, &[0.5, 3.0])])
}

/// A target of -0, from which the limits before the first finite reading have the signs of 0.
fn minus_zero(random: &mut Random) -> Settings {
    let weight = pick(random, &[1.0, 0.5, 0.2]);
    Settings::with([-0.0, 1.0, weight, pick(random, &[1e-300, 0.5, 3.0])])
}

/// L times sigma is infinite: the limits before the first finite reading are NaN.
fn endless(random: &mut Random) -> Settings {
    let target = pick(random, &[0.0, -0.0, 5.0]);
    let weight = pick(random, &[1.0, 0.3, TINY, 1e-300]);
    Settings::with([target, 1e200, weight, 1e200])
}

/// These readings, with gaps in place of some.
fn with_gaps(random: &mut Random, gap: Pattern, mut readings: Vec<f64>) -> Vec<f64> {
    let n = readings.len();
    let missing = not_numbers(random, n);
    for (at, reading) in readings.iter_mut().enumerate() {
        if gap(random, at, n) {
            let not_a_number = f64::from_bits(missing[at]);
            let gaps = [not_a_number, f64::NAN, f64::INFINITY, f64::NEG_INFINITY];
            *reading = pick(random, &gaps);
        }
    }
    readings
}

/// A series of a kind by these settings.
fn case(random: &mut Random, gap: Pattern, settings: Settings, kind: usize, n: usize) -> Case {
    let [target, sigma, ..] = settings.values;
    let readings = SERIES_KINDS[kind](random, target, sigma, n);
    (settings, with_gaps(random, gap, readings))
}

/// How far the limits are from the target at a place.
fn width([_, sigma, lambda, l_factor]: [f64; 4], place: usize) -> f64 {
    let decay = powi(1.0 - lambda, 2 * place as u64);
    l_factor * sigma * (lambda / (2.0 - lambda) * (1.0 - decay)).sqrt()
}

/// A series whose finite readings bring the statistic between the limits of the two editions, above the target or
/// below it, and to the limits where no gap has been.
fn between(random: &mut Random, gap: Pattern, settings: Settings, n: usize) -> Case {
    let [target, _, lambda, _] = settings.values;
    let mut readings = with_gaps(random, gap, vec![target; n]);
    let (mut statistic, mut counted) = (target, 0);
    let finite = readings.iter_mut().enumerate();
    for (at, reading) in finite.filter(|(_, reading)| reading.is_finite()) {
        counted += 1;
        let away = (width(settings.values, counted) + width(settings.values, at + 1)) / 2.0;
        let aim = target + pick(random, &[away, -away]);
        *reading = (aim - (1.0 - lambda) * statistic) / lambda;
        statistic = lambda * *reading + (1.0 - lambda) * statistic;
    }
    (settings, readings)
}

/// Every pattern by settings of each kind, of several lengths, among them 0, 1 and 2, and with statistics between
/// the limits of the editions.
pub fn short_cases(random: &mut Random) -> Vec<Case> {
    let mut cases = Vec::new();
    let kinds: Vec<SettingsKind> = [&series::EWMA_SETTINGS[..], &SETTINGS].concat();
    for (first, kind) in kinds.into_iter().enumerate() {
        for (at, gap) in PATTERNS.into_iter().enumerate() {
            let drawn = SHORT.map(|most| random.below(most + 1) as usize);
            for n in [&[(first + at) % 3], &drawn[..]].concat() {
                let settings = kind(random);
                let sort = pick(random, &KINDS);
                cases.push(case(random, gap, settings, sort, n));
            }
        }
    }
    for kind in BETWEEN {
        for gap in PATTERNS {
            let (settings, n) = (kind(random), 3 + random.below(40) as usize);
            cases.push(between(random, gap, settings, n));
        }
    }
    cases
}

/// As many readings as a chart takes, with many gaps: by a lambda of 0.001, and by `new`.
fn long_cases(random: &mut Random) -> Vec<Case> {
    let slow = Settings::with([0.0, 1.0, 0.001, 3.0]);
    let by_new = Settings {
        by_new: true,
        values: charted::usual(Kind::Ewma),
    };
    let slow = case(random, EVERY_SECOND, slow, STEPPED, MOST_READINGS);
    let usual = case(random, HERE_AND_THERE, by_new, HALVES, MOST_READINGS);
    vec![slow, usual]
}

/// A reading that signals in the second edition alone, gaps alone, and the signs of 0 and NaN before the first
/// finite reading.
fn marked() -> Vec<Case> {
    let (gap, halving) = (f64::NAN, [0.0, 1.0, 0.5, 4.0]);
    let cases = [
        (halving, vec![0.0, gap, 4.54]),
        (halving, vec![gap, f64::INFINITY, f64::NEG_INFINITY]),
        ([-0.0, 1.0, 0.5, 4.0], vec![gap, gap, 1.0]),
        ([0.0, 1e200, 0.5, 1e200], vec![gap, 1.0, gap]),
    ];
    let case = |(values, readings)| (Settings::with(values), readings);
    cases.into_iter().map(case).collect()
}

/// The cases whose answers are stored for the second edition.
pub fn cases(random: &mut Random) -> Vec<Case> {
    let mut cases = marked();
    cases.extend(short_cases(random));
    cases.extend(long_cases(random));
    cases.extend(charted::refused_cases(random, Kind::Ewma));
    cases
}

/// The bits of the limits of a record.
fn limits(record: &Record) -> [u64; 2] {
    [record.values[1], record.values[2]].map(pattern)
}

/// The bits of the limits at place 0.
fn limits_before(settings: &Settings) -> [u64; 2] {
    let [target, sigma, _, l_factor] = settings.values;
    let width = l_factor * sigma * 0.0;
    [target + width, target - width].map(pattern)
}

/// How many records of the second edition have other limits than those of the first on the same series, and how
/// many another side.
///
/// # Panics
///
/// If a statistic or the side of a gap is another; if limits of the second edition are not those that the first
/// gives to the number of finite readings as a place; or if anything differs where there is no gap.
pub fn moved((settings, readings): &Case, first: &Answer, second: &Answer) -> [usize; 2] {
    let (mut place, mut moved, mut turned) = (0, 0, 0);
    for (at, reading) in readings.iter().enumerate() {
        let (one, two) = (&first.records[at], &second.records[at]);
        place += usize::from(reading.is_finite());
        assert_eq!(pattern(one.values[0]), pattern(two.values[0]));
        assert_eq!(one.index, two.index);
        if !reading.is_finite() {
            assert_eq!([one.side, two.side], [NONE; 2]);
        }
        let due = match place {
            0 => limits_before(settings),
            _ => limits(&first.records[place - 1]),
        };
        assert_eq!(limits(two), due, "{:?} at {at}", settings.values);
        moved += usize::from(limits(one) != limits(two));
        turned += usize::from(one.side != two.side);
    }
    assert_eq!(first.records.len(), second.records.len());
    if place == readings.len() {
        assert_eq!((moved, turned), (0, 0));
        assert_eq!(first.points, second.points);
    }
    [moved, turned]
}
