//! Whole calls of charts, and noise variances, in room that is lent once. The first edition of the EWMA chart stands
//! beside the unmodified Rust, and the second beside a copy of it in which the place is counted.

use crate::inputs::Random;
use crate::series::fraction;
use crate::timing::{Best, Row};
use overbrindle::lent::{self, CusumAreas, CusumSettings, EwmaAreas, EwmaSettings};
use std::hint::black_box;

/// What the Rust's `new` makes of target 0 and sigma 1.
const CUSUM: CusumSettings = CusumSettings {
    target: 0.0,
    sigma: 1.0,
    k: 0.5,
    h: 5.0,
};
pub const LAMBDA: f64 = 0.2;

fn ewma(lambda: f64, edition: u32) -> EwmaSettings {
    EwmaSettings {
        target: 0.0,
        sigma: 1.0,
        lambda,
        l_factor: 3.0,
        edition,
    }
}

/// Noise of about variance 1.
pub fn bell(random: &mut Random) -> f64 {
    (0..12).map(|_| fraction(random)).sum::<f64>() - 6.0
}

/// Noise that drifts, so that a good part of it signals.
pub fn drifting(random: &mut Random, n: usize) -> Vec<f64> {
    (0..n).map(|at| bell(random) + 0.0005 * at as f64).collect()
}

/// Noise, rounded to quarters, about levels that change at every 16th reading, by which records are of every
/// side, none, above, below and both.
pub fn stepped(random: &mut Random, n: usize) -> Vec<f64> {
    let mut level = 0.0;
    let mut reading = |at: usize| {
        if at % 16 == 0 {
            level = [-3.0, 0.0, 3.0][random.below(3) as usize];
        }
        (4.0 * (level + bell(random))).round() / 4.0
    };
    (0..n).map(&mut reading).collect()
}

/// One level, which is the target.
pub fn flat(n: usize) -> Vec<f64> {
    vec![0.0; n]
}

/// These readings with a gap in place of every second one.
pub fn gapped(mut data: Vec<f64>) -> Vec<f64> {
    data.iter_mut().step_by(2).for_each(|x| *x = f64::NAN);
    data
}

/// What the calls of a table are lent, each in turn.
struct Room {
    values: [Vec<f64>; 3],
    side: Vec<u8>,
    index: Vec<usize>,
    points: Vec<usize>,
}

impl Room {
    fn of(n: usize) -> Self {
        Room {
            values: [vec![0.0; n], vec![0.0; n], vec![0.0; n]],
            side: vec![0; n],
            index: vec![0; n],
            points: vec![0; n],
        }
    }
}

/// A row of the two sides.
fn row(best: Best, name: String, mut ours: impl FnMut(), mut theirs: impl FnMut()) -> Row {
    let times = best.of(&mut ours, &mut theirs);
    Row::new(name, times.0, times.1)
}

fn cusum_rows(best: Best, data: &[f64], room: &mut Room) -> Vec<Row> {
    let [first, second, _] = &mut room.values;
    let (side, index, points) = (&mut room.side, &mut room.index, &mut room.points);
    let rust = cusum::Cusum::new(0.0, 1.0).expect("a chart");
    let records = || {
        let areas = CusumAreas {
            s_upper: first,
            s_lower: second,
            side,
            index,
        };
        black_box(lent::cusum_analyze(CUSUM, black_box(data), areas));
    };
    let signals = || {
        black_box(lent::cusum_signal_points(CUSUM, black_box(data), points));
    };
    let analyze = || drop(black_box(rust.analyze(black_box(data))));
    let signal_points = || drop(black_box(rust.signal_points(black_box(data))));
    vec![
        row(best, "CUSUM, analyze".into(), records, analyze),
        row(best, "CUSUM, signal points".into(), signals, signal_points),
    ]
}

/// Rows of our chart of these settings, beside functions that say what the Rust, or a copy of it, makes of readings.
fn ewma_rows_beside<R>(
    (best, data, room): (Best, &[f64], &mut Room),
    settings: EwmaSettings,
    analyze: impl Fn(&[f64]) -> Vec<R>,
    signal_points: impl Fn(&[f64]) -> Vec<usize>,
) -> Vec<Row> {
    let [ewma, ucl, lcl] = &mut room.values;
    let (side, index, points) = (&mut room.side, &mut room.index, &mut room.points);
    let records = || {
        let areas = EwmaAreas {
            ewma,
            ucl,
            lcl,
            side,
            index,
        };
        black_box(lent::ewma_analyze(settings, black_box(data), areas));
    };
    let signals = || {
        black_box(lent::ewma_signal_points(settings, black_box(data), points));
    };
    let analyze = || drop(black_box(analyze(black_box(data))));
    let signal_points = || drop(black_box(signal_points(black_box(data))));
    let name = |what| format!("EWMA, edition {}, {what}", settings.edition);
    vec![
        row(best, name("analyze"), records, analyze),
        row(best, name("signal points"), signals, signal_points),
    ]
}

/// Both editions of the chart with this lambda.
fn rows_of_editions(best: Best, data: &[f64], room: &mut Room, lambda: f64) -> Vec<Row> {
    let rust = ewma::Ewma::with_params(0.0, 1.0, lambda, 3.0).expect("a chart");
    let counted = ewma_counted::Ewma::with_params(0.0, 1.0, lambda, 3.0).expect("a chart");
    let mut rows = ewma_rows_beside(
        (best, data, room),
        ewma(lambda, 1),
        |data| rust.analyze(data),
        |data| rust.signal_points(data),
    );
    rows.extend(ewma_rows_beside(
        (best, data, room),
        ewma(lambda, 2),
        |data| counted.analyze(data),
        |data| counted.signal_points(data),
    ));
    rows
}

/// The EWMA chart alone.
pub fn ewma_rows(best: Best, data: &[f64], lambda: f64) -> Vec<Row> {
    rows_of_editions(best, data, &mut Room::of(data.len()), lambda)
}

fn noise_row(best: Best, data: &[f64], area: &mut [f64]) -> Row {
    let ours = || {
        black_box(lent::noise_variance(black_box(data), area, 0));
    };
    let theirs = || {
        black_box(pelt_opened::opened_noise(black_box(data)));
    };
    row(best, "noise variance".into(), ours, theirs)
}

pub fn rows(best: Best, data: &[f64]) -> Vec<Row> {
    let mut room = Room::of(data.len());
    let mut rows = cusum_rows(best, data, &mut room);
    rows.extend(rows_of_editions(best, data, &mut room, LAMBDA));
    rows.push(noise_row(best, data, &mut room.values[0]));
    rows
}
