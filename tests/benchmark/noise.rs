//! Noise variances of channels of many lengths and kinds. Each kind of series that differs by what is drawn is drawn 16
//! times over, and a row has the mean over them in turn, so that no side learns the branches of one series.

use crate::charts::bell;
use crate::inputs::Random;
use crate::timing::{Best, Row};
use overbrindle::lent;
use std::hint::black_box;

pub const LENGTHS: [usize; 7] = [16, 33, 64, 128, 256, 1024, 4096];
const SERIES: usize = 16;

/// Makes a series of so many readings.
type Kind = fn(&mut Random, usize) -> Vec<f64>;

pub const KINDS: [(&str, Kind); 7] = [
    ("noise", noise),
    ("steps", steps),
    ("four values", four_values),
    ("rising", rising),
    ("falling", falling),
    ("a tenth NaN", a_tenth_nan),
    ("a ramp", ramp),
];

fn noise(random: &mut Random, n: usize) -> Vec<f64> {
    (0..n).map(|_| bell(random)).collect()
}

/// Levels without noise, 8 readings each: most differences are zero.
fn steps(random: &mut Random, n: usize) -> Vec<f64> {
    let mut level = 0.0;
    let mut reading = |at: usize| {
        if at % 8 == 0 {
            level = bell(random);
        }
        level
    };
    (0..n).map(&mut reading).collect()
}

fn four_values(random: &mut Random, n: usize) -> Vec<f64> {
    (0..n).map(|_| random.below(4) as f64).collect()
}

/// Squares: the readings rise, and so do their differences, which the Rust's sort finds in order.
fn rising(_: &mut Random, n: usize) -> Vec<f64> {
    (0..n).map(|at| (at * at) as f64).collect()
}

fn falling(random: &mut Random, n: usize) -> Vec<f64> {
    rising(random, n).into_iter().rev().collect()
}

fn a_tenth_nan(random: &mut Random, n: usize) -> Vec<f64> {
    let mut reading = |_| match random.below(10) {
        0 => f64::NAN,
        _ => bell(random),
    };
    (0..n).map(&mut reading).collect()
}

/// Even steps: all differences are equal.
fn ramp(_: &mut Random, n: usize) -> Vec<f64> {
    (0..n).map(|at| 0.5 * at as f64).collect()
}

/// A row in nanoseconds a call.
pub fn row(best: Best, random: &mut Random, (name, kind): (&str, Kind), n: usize) -> Row {
    let series: Vec<Vec<f64>> = (0..SERIES).map(|_| kind(random, n)).collect();
    let mut area = vec![0.0; n - 1];
    for channel in &series {
        let both = (
            lent::noise_variance(channel, &mut area, 0),
            pelt_opened::opened_noise(channel),
        );
        assert_eq!(both.0.to_bits(), both.1.to_bits(), "{name}, {n} readings");
    }
    let mut ours = || {
        for channel in &series {
            black_box(lent::noise_variance(black_box(channel), &mut area, 0));
        }
    };
    let mut theirs = || {
        for channel in &series {
            black_box(pelt_opened::opened_noise(black_box(channel)));
        }
    };
    let times = best.of(&mut ours, &mut theirs);
    let each = 1e3 / SERIES as f64;
    Row::new(format!("{name}, {n}"), times.0 * each, times.1 * each)
}
