//! Families about edges: room that is exactly full, or one place short; more readings than are taken;
//! conditions of several refusals at once; gaps in every pattern; and series that promise 3 speaks of.

use crate::calls::{Call, Lent, SLOT};
use crate::case::Case;
use crate::charted::{usual, wrong_settings};
use crate::charts::{Chart, Kind, RunLength};
use crate::drawn::{by_each_edition, chart, pick, search, Drawn};
use crate::editions::{self, FIRST, SECOND};
use crate::families::{any_settings, at_least, l2};
use crate::heard::Heard;
use crate::inputs::Random;
use crate::noises::Noise;
use crate::pieces::Piece;
use crate::series::{self, fraction, Settings, SERIES_KINDS};
use crate::{charted, gapped, runs};
use std::rc::Rc;

const MOST_READINGS: usize = 4096;
const NOT_FINITE: [f64; 3] = [f64::NAN, f64::INFINITY, f64::NEG_INFINITY];

pub const EDGES: [(&str, usize, Drawn); 9] = [
    (
        "searches in room exactly full, or a place short",
        6_000,
        full_searches,
    ),
    (
        "charts in room exactly full, or a place short",
        4_000,
        full_charts,
    ),
    (
        "noise variances in room exactly full, or a place short",
        2_000,
        full_noises,
    ),
    (
        "charts refused for several reasons",
        8_000,
        charts_refused_twice,
    ),
    (
        "run lengths refused for several reasons",
        8_000,
        run_lengths_refused_twice,
    ),
    ("gaps in every pattern, EWMA", 30_000, every_gap),
    ("pieces of more than 4,096 readings", 600, too_long_pieces),
    ("levels that are heard (promise 3)", 20_000, heard_levels),
    ("levels that are heard late (promise 3)", 400, heard_late),
];

/// Pairs of readings, each pair at another level: with a small penalty a search cuts between all of them,
/// and no search finds more cuts than that.
fn pairs(n: usize) -> Vec<f64> {
    (0..n).map(|i| (i / 2 % 3) as f64 * 4.0).collect()
}

/// Each area as long as it is, and each by itself a place shorter.
fn shortened(lent: Lent) -> Vec<Lent> {
    let mut all = vec![lent; 5];
    all[1].cuts = lent.cuts.saturating_sub(1);
    all[2].floats = lent.floats - 1;
    all[3].indices = lent.indices - 1;
    all[4].pool = lent.pool.saturating_sub(1);
    all
}

/// A search in the room that is asked and in the slots that it needs, without a float to spare.
fn full_searches(random: &mut Random) -> Vec<Case> {
    let mut cases = Vec::new();
    for at in 0..16 {
        let channels = pick(random, &[1, 1, 2, 2, 3, 8]);
        let n = 2 * (2 + random.below(20) as usize) + usize::from(at % 4 == 0);
        let (channel, settings) = match at % 2 {
            0 => (pairs(n), at_least(l2(1e-3), 2)),
            _ => (
                SERIES_KINDS[2](random, 3.0, 1.0, n),
                any_settings(random, n, 1.0),
            ),
        };
        let mut call = Call {
            multi: channels > 1 || random.below(2) == 0,
            strict: random.below(2) == 0,
            settings,
            readings: Rc::new(vec![channel; channels].concat()),
            lengths: vec![n as u64; channels],
            lent: Lent::exactly(n, channels, 0),
        };
        call.lent.pool = call.ruled_by(true).peak * SLOT;
        let calls = shortened(call.lent).into_iter();
        cases.extend(calls.map(|lent| {
            search(Call {
                lent,
                ..call.clone()
            })
        }));
    }
    cases
}

/// Readings so far above or below the target that each of them signals, some of them with a gap.
fn signalling(random: &mut Random, n: usize) -> Vec<f64> {
    let side = pick(random, &[1.0, -1.0]);
    let reading = |_| side * (20.0 + fraction(random));
    let mut readings: Vec<f64> = (0..n).map(reading).collect();
    if n > 0 && random.below(4) == 0 {
        let place = random.below(n as u64) as usize;
        readings[place] = pick(random, &NOT_FINITE);
    }
    readings
}

/// Charts in which every reading signals, in areas with a place a reading; and with one area, of those
/// that the call writes to, a place shorter.
fn full_charts(random: &mut Random) -> Vec<Case> {
    let mut cases = Vec::new();
    for kind in [Kind::Cusum, Kind::Ewma] {
        let values = match kind {
            Kind::Cusum => 2,
            Kind::Ewma => 3,
        };
        let n = pick(random, &[0, 1, 2, 3, 17, 60, 4095, 4096]);
        let full = Chart {
            kind,
            edition: FIRST,
            by_new: random.below(2) == 0,
            settings: usual(kind),
            readings: Rc::new(signalling(random, n)),
            points: false,
            spare: [0; 6],
        };
        let points = Chart {
            points: true,
            ..full.clone()
        };
        for area in (0..values).chain([3, 4]) {
            let mut short = full.clone();
            short.spare[area] = -1;
            cases.push(short);
        }
        let mut short = points.clone();
        short.spare[5] = -1;
        cases.extend([short, points, full]);
    }
    cases.into_iter().flat_map(by_each_edition).collect()
}

/// EWMA charts by both editions on series with gaps first, in the middle, several on end, last, every so many, all
/// but one, all, here and there, and none; records and signal points in turns.
fn every_gap(random: &mut Random) -> Vec<Case> {
    let mut cases = Vec::new();
    for (at, case) in gapped::short_cases(random).into_iter().enumerate() {
        let gapped = Chart {
            points: at % 2 == 1,
            ..chart(random, Kind::Ewma, case)
        };
        cases.extend(by_each_edition(gapped));
    }
    cases
}

/// From the first place of an area on, or a later one, to its last place or one further.
fn full_noises(random: &mut Random) -> Vec<Case> {
    let mut cases = Vec::new();
    for _ in 0..16 {
        let n = random.below(40) as usize;
        let readings = Rc::new(runs::quiet(SERIES_KINDS[1](random, 2.0, 1.0, n)));
        let place = pick(random, &[0, 0, 1, 7]);
        let size = place + n.saturating_sub(1);
        for size in [size, size.saturating_sub(1)] {
            cases.push(Case::Noise(Noise {
                readings: Rc::clone(&readings),
                place,
                size,
            }));
        }
    }
    cases
}

/// Every set of settings that are out of range, times too many readings or not, times too little room or not,
/// for both calls of both charts, an EWMA chart by each edition and by a number that names none. `at` numbers the
/// rest of a case, and its settings follow faster.
fn charts_refused_twice(random: &mut Random) -> Vec<Case> {
    let mut cases = Vec::new();
    for (at, set) in (0..32).flat_map(|at| (0..16).map(move |set| (at, set))) {
        let (kind, edition) = match at & 3 {
            0 => (Kind::Ewma, pick(random, &editions::UNKNOWN)),
            1 => (Kind::Cusum, FIRST),
            2 => (Kind::Ewma, FIRST),
            _ => (Kind::Ewma, SECOND),
        };
        let points = at & 4 == 0;
        let n = match at & 8 {
            0 => MOST_READINGS + 1 + random.below(3) as usize,
            _ => pick(random, &[0, 1, 3, 40, MOST_READINGS]),
        };
        let mut spare = [0; 6];
        if at & 16 == 0 {
            let area = match points {
                true => 5,
                false => pick(random, &[0, 1, 3, 4]),
            };
            spare[area] = pick(random, &[-1, -(n as isize)]);
        }
        cases.push(Case::Chart(Chart {
            kind,
            edition,
            by_new: set < 4 && random.below(2) == 0,
            settings: wrong_settings(random, kind, set),
            readings: Rc::new(SERIES_KINDS[1](random, 0.0, 1.0, n)),
            points,
            spare,
        }));
    }
    cases
}

/// Every set of settings that are out of range, times a level that is finite or not, times a sum or none.
fn run_lengths_refused_twice(random: &mut Random) -> Vec<Case> {
    let mut cases = Vec::new();
    for (at, set) in (0..4).flat_map(|at| (0..16).map(move |set| (at, set))) {
        let level = match at & 1 {
            0 => pick(random, &NOT_FINITE),
            _ => 6.0 * fraction(random) - 3.0,
        };
        let sum = match at & 2 {
            0 => random.below(2) as u32,
            _ => pick(random, &[2, 3, u32::MAX]),
        };
        cases.push(Case::RunLength(RunLength {
            by_new: set < 4 && random.below(2) == 0,
            settings: wrong_settings(random, Kind::Cusum, set),
            level,
            sum,
        }));
    }
    cases
}

/// Good pieces and bad ones of channels that are too long by one reading, and by many.
fn too_long_pieces(random: &mut Random) -> Vec<Case> {
    let n = pick(random, &[4097, 4097, 4098, 5000, 8192]);
    let readings = Rc::new(pick(random, &SERIES_KINDS)(random, 2.0, 1.0, n));
    let good = [(0, 1), (0, 4096), (1, 4097), (0, n), (n - 1, n)];
    let bad = [
        (0, 0),
        (2, 1),
        (4096, 4096),
        (n, n),
        (0, n + 1),
        (n, n + 1),
        (0, usize::MAX),
        (usize::MAX, 0),
    ];
    let piece = |(start, end)| {
        let readings = Rc::clone(&readings);
        Case::Piece(Piece {
            readings,
            start,
            end,
        })
    };
    good.into_iter().chain(bad).map(piece).collect()
}

/// A reading at the level, next to it on the far side, or well beyond it.
fn at_or_beyond(random: &mut Random, level: f64, sigma: f64, upper: bool) -> f64 {
    let away = sigma * fraction(random);
    let reading = match (random.below(4), upper) {
        (0 | 1, _) => level,
        (2, true) => level.next_up(),
        (2, false) => level.next_down(),
        (_, true) => level + away,
        (_, false) => level - away,
    };
    reading.clamp(-f64::MAX, f64::MAX)
}

/// A stretch of about `run_length` readings at or beyond a level, with gaps between them at times, and then a
/// reading just short of the level, or some noise about the target.
fn stretch(random: &mut Random, asked: &Heard, run_length: usize) -> Vec<f64> {
    let [target, sigma, ..] = asked.settings;
    let upper = asked.sum == 0;
    let count = match random.below(4) {
        0 => run_length - 1,
        1 | 2 => run_length,
        _ => run_length + random.below(5) as usize,
    };
    let gaps = random.below(2) == 0;
    let mut readings = Vec::new();
    for _ in 0..count {
        if gaps && random.below(4) == 0 {
            readings.push(pick(random, &NOT_FINITE));
        }
        readings.push(at_or_beyond(random, asked.level, sigma, upper));
    }
    match (random.below(3), upper) {
        (0, true) => readings.push(asked.level.next_down().max(-f64::MAX)),
        (0, false) => readings.push(asked.level.next_up().min(f64::MAX)),
        (1, _) => {
            let n = random.below(12) as usize;
            readings.extend(SERIES_KINDS[1](random, target, sigma, n));
        }
        _ => readings.extend([target; 2]),
    }
    readings
}

/// A series of some stretches, cut to as many readings as a chart takes; at times it begins with a reading
/// that brings a sum far up, or with one of any value.
fn heard_series(random: &mut Random, asked: &Heard, run_length: usize) -> Vec<f64> {
    let [target, sigma, ..] = asked.settings;
    let mut readings = match random.below(4) {
        0 => vec![(target + pick(random, &[-50.0, 50.0]) * sigma).clamp(-f64::MAX, f64::MAX)],
        1 => SERIES_KINDS[7](random, target, sigma, 3),
        _ => Vec::new(),
    };
    let most = (3 * run_length + 20).min(MOST_READINGS);
    while readings.len() < most {
        readings.extend(stretch(random, asked, run_length));
    }
    readings.truncate(MOST_READINGS);
    readings
}

/// A case for each level that a chart with these settings is asked, with a run length within `lengths`.
fn heard_by(random: &mut Random, settings: Settings, lengths: (usize, usize)) -> Vec<Case> {
    let mut cases = Vec::new();
    for (level, upper) in charted::levels(random, settings.values) {
        let (number, run_length) = charted::run_length_answer(&settings, level, upper);
        let asked = Heard {
            settings: settings.values,
            level,
            sum: u32::from(!upper),
            readings: Rc::new(Vec::new()),
        };
        if number == 0 && (lengths.0..=lengths.1).contains(&run_length) {
            let readings = Rc::new(heard_series(random, &asked, run_length));
            cases.push(Case::Heard(Heard { readings, ..asked }));
        }
    }
    cases
}

fn heard_levels(random: &mut Random) -> Vec<Case> {
    let mut cases = Vec::new();
    for kind in series::CUSUM_SETTINGS {
        let settings = kind(random);
        cases.extend(heard_by(random, settings, (1, 60)));
    }
    cases
}

/// Run lengths up to the last reading that a chart takes.
fn heard_late(random: &mut Random) -> Vec<Case> {
    let mut cases = Vec::new();
    let h = pick(random, &[700.0, 4094.0, 4095.0, 4095.5, 4096.0]);
    let exact = Settings::with([0.0, 1.0, 0.0, h]);
    for (level, sum) in [(1.0, 0), (-1.0, 1)] {
        let run_length = h as usize + 1;
        let mut asked = Heard {
            settings: exact.values,
            level,
            sum,
            readings: Rc::new(vec![level; run_length.min(MOST_READINGS)]),
        };
        cases.push(Case::Heard(asked.clone()));
        asked.readings = Rc::new(heard_series(random, &asked, run_length));
        cases.push(Case::Heard(asked));
    }
    for kind in [series::CUSUM_SETTINGS[0], series::CUSUM_SETTINGS[2]] {
        let settings = kind(random);
        cases.extend(heard_by(random, settings, (61, MOST_READINGS)));
    }
    cases
}
