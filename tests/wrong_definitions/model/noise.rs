//! `crates/noise/specs`: Noise.

use crate::areas::{part, rest_of};
use crate::floats::larger;
use crate::medians::{differences, median};
use crate::ranges::{range_of, Range};
use crate::readings::channel_of;

/// A median of differences over 0.6745 * 1.4142135623730951.
fn spread_of(m: f64) -> f64 {
    m / (0.6745 * 1.4142135623730951)
}

/// 1e-6 times the range.
fn floor_of(range: Range) -> f64 {
    1e-6 * (range.hi - range.lo)
}

fn squared(x: f64) -> f64 {
    x * x
}

/// The median of the differences so divided, at least that floor, squared; +0 for fewer than 2 readings.
pub fn noise(xs: &[f64]) -> f64 {
    if xs.len() < 2 {
        return 0.0;
    }
    squared(larger(
        spread_of(median(&differences(xs))),
        floor_of(range_of(xs)),
    ))
}

/// The noise variances of channels 0 to c - 1 of a run, added in that order.
pub fn noise_sum_to(run: &[f64], n: usize, c: usize) -> f64 {
    let mut sum = 0.0;
    for k in 0..c {
        sum += noise(channel_of(run, n, k));
    }
    sum
}

/// An area of `size` floats has room for the differences of n readings at `place`.
fn has_room(size: usize, n: usize, place: usize) -> bool {
    place + n.saturating_sub(1) <= size
}

/// `area` with +0 for the differences of n readings at `place`.
fn cleared(area: &[f64], n: usize, place: usize) -> Vec<f64> {
    let zeros = vec![0.0; n.saturating_sub(1)];
    let rest = rest_of(area, place + zeros.len());
    [part(area, 0, place), &zeros, rest].concat()
}

/// `value`, and `before` with those floats cleared; NaN and `before` as it was where it has no room for them.
pub fn lent(value: f64, n: usize, place: usize, before: &[f64]) -> (f64, Vec<f64>) {
    if has_room(before.len(), n, place) {
        (value, cleared(before, n, place))
    } else {
        (f64::NAN, before.to_vec())
    }
}
