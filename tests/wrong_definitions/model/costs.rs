//! `crates/costs/specs`: Costs, Penalties, Summed.

use crate::elementary::ln;
use crate::floats::get;
use crate::sums::Channel;
use cases::{Cost, Penalty};

// ---- Costs

pub struct Segment {
    pub length: f64,
    pub sum: f64,
    pub sum_of_squares: f64,
}

/// The readings of a channel from a up to b, without b: differences of the running sums about its mean.
pub fn segment_of(channel: &Channel, a: usize, b: usize) -> Segment {
    let between = |sums: &[f64]| get(sums, b, f64::NAN) - get(sums, a, f64::NAN);
    Segment {
        length: b.saturating_sub(a) as f64,
        sum: between(&channel.sums),
        sum_of_squares: between(&channel.squares),
    }
}

/// L2: the sum of squares less length·mean·mean, multiplied left to right.
pub fn l2_cost(s: &Segment) -> f64 {
    let mean = s.sum / s.length;
    s.sum_of_squares - s.length * mean * mean
}

const SMALLEST_NORMAL: f64 = f64::MIN_POSITIVE;

/// Normal: length·ln(variance), with ln of the smallest normal number where variance is at or below 0.
pub fn normal_cost(s: &Segment) -> f64 {
    let variance = l2_cost(s) / s.length;
    if variance <= 0.0 {
        s.length * ln(SMALLEST_NORMAL)
    } else {
        s.length * ln(variance)
    }
}

pub fn cost_of(cost: Cost, s: &Segment) -> f64 {
    match cost {
        Cost::L2 => l2_cost(s),
        Cost::Normal => normal_cost(s),
    }
}

/// Channel costs add in channel order, from +0.
pub fn cost_to(cost: Cost, channels: &[Channel], a: usize, b: usize) -> f64 {
    let mut total = 0.0;
    for channel in channels {
        total += cost_of(cost, &segment_of(channel, a, b));
    }
    total
}

// ---- Penalties

/// BIC: p·ln(n) times the sum of noise variances for L2 (p = 1), times the channels for Normal (p = 2).
fn bic_penalty(cost: Cost, n: usize, channels: f64, noise: f64) -> f64 {
    match cost {
        Cost::L2 => 1.0 * ln(n as f64) * noise,
        Cost::Normal => 2.0 * ln(n as f64) * channels,
    }
}

/// Custom: value times channels.
pub fn penalty_of(penalty: Penalty, cost: Cost, n: usize, channels: usize, noise: f64) -> f64 {
    match penalty {
        Penalty::Bic => bic_penalty(cost, n, channels as f64, noise),
        Penalty::Custom(value) => value * channels as f64,
    }
}

// ---- Summed

/// A segment of k channels of n readings, within the limits of 8 and 4,096, whose sums an area can hold.
fn segment_fits(size: usize, n: usize, k: usize, a: usize, b: usize) -> bool {
    a < b && b <= n && n <= 4096 && k <= 8 && k * (2 * (n + 1)) <= size
}

/// NaN where there is no such segment.
pub fn area_cost(
    cost: Cost,
    channels: &[Channel],
    size: usize,
    n: usize,
    [a, b]: [usize; 2],
) -> f64 {
    if segment_fits(size, n, channels.len(), a, b) {
        cost_to(cost, channels, a, b)
    } else {
        f64::NAN
    }
}
