//! `crates/sums/specs`: Sums. The running sums are kept as tables, so that each is worked out once.

use crate::floats::get;
use crate::readings::channel_of;

/// The sum of the first i readings, from index 0 up.
fn sum_to(xs: &[f64], i: usize) -> f64 {
    let mut sum = 0.0;
    for place in 0..i {
        sum += get(xs, place, f64::NAN);
    }
    sum
}

/// The sum of all over their number.
pub fn mean_of(xs: &[f64]) -> f64 {
    sum_to(xs, xs.len()) / xs.len() as f64
}

/// Reading i less the mean.
fn centred(xs: &[f64], mean: f64, i: usize) -> f64 {
    get(xs, i, f64::NAN) - mean
}

/// A table of the sums of the first 0, 1, .. n terms.
fn running(n: usize, term: impl Fn(usize) -> f64) -> Vec<f64> {
    let mut sums = vec![0.0];
    for i in 0..n {
        sums.push(sums[i] + term(i));
    }
    sums
}

/// The sums of the first readings less the mean, from index 0 up.
pub fn centred_to(xs: &[f64], mean: f64) -> Vec<f64> {
    running(xs.len(), |i| centred(xs, mean, i))
}

/// The sums of their squares.
pub fn squares_to(xs: &[f64], mean: f64) -> Vec<f64> {
    running(xs.len(), |i| centred(xs, mean, i) * centred(xs, mean, i))
}

/// A channel with its mean and the running sums about it.
pub struct Channel {
    pub xs: Vec<f64>,
    pub mean: f64,
    pub sums: Vec<f64>,
    pub squares: Vec<f64>,
}

pub fn summed(xs: &[f64]) -> Channel {
    let mean = mean_of(xs);
    Channel {
        xs: xs.to_vec(),
        mean,
        sums: centred_to(xs, mean),
        squares: squares_to(xs, mean),
    }
}

/// The first k channels of a run, of n readings each.
pub fn channels_of(run: &[f64], n: usize, k: usize) -> Vec<Channel> {
    (0..k).map(|c| summed(channel_of(run, n, c))).collect()
}
