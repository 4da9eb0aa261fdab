//! `crates/cusum/specs`: Chart, RunLength.

use crate::charts::{setting_tests, side_of, InRange};
use crate::floats::{finite, larger};
use crate::refusals::{refusing, tried, Refusal, Test};
use cases::{Chart, CusumResult, Said, Side, Sum};

// ---- Chart

#[derive(Clone, Copy)]
pub struct Cusum {
    target: f64,
    sigma: f64,
    k: f64,
    h: f64,
}

fn with_params(target: f64, sigma: f64, k: f64, h: f64) -> Cusum {
    Cusum {
        target,
        sigma,
        k,
        h,
    }
}

/// `new` has the defaults k 0.5 and h 5.
fn new_of(target: f64, sigma: f64) -> Cusum {
    with_params(target, sigma, 0.5, 5.0)
}

pub fn made(chart: Chart) -> Cusum {
    let [target, sigma, k, h] = chart.values;
    if chart.by_new {
        new_of(target, sigma)
    } else {
        with_params(target, sigma, k, h)
    }
}

/// Target finite; sigma finite and above 0; k finite, not negative; h finite, above 0.
fn in_range(c: &Cusum) -> InRange {
    InRange {
        target: finite(c.target),
        sigma: finite(c.sigma) && 0.0 < c.sigma,
        weight: finite(c.k) && 0.0 <= c.k,
        bound: finite(c.h) && 0.0 < c.h,
    }
}

pub fn tests_of(c: &Cusum) -> Vec<Test> {
    setting_tests(in_range(c))
}

/// How far a reading lies from the target, in units of sigma.
fn score(c: &Cusum, x: f64) -> f64 {
    (x - c.target) / c.sigma
}

/// The record of a chart whose sums are now these: the upper one signals above, the lower one below.
fn moved(c: &Cusum, index: usize, upper: f64, lower: f64) -> CusumResult {
    CusumResult {
        s_upper: upper,
        s_lower: lower,
        side: side_of(c.h < upper, c.h < lower),
        index,
    }
}

/// The record of the reading x after another record: both sums move on; a gap carries them forward, without
/// a signal.
fn step_of(c: &Cusum, before: CusumResult, index: usize, x: f64) -> CusumResult {
    if finite(x) {
        let upper = larger(before.s_upper + score(c, x) - c.k, 0.0);
        let lower = larger(before.s_lower - score(c, x) - c.k, 0.0);
        moved(c, index, upper, lower)
    } else {
        CusumResult {
            side: Side::None,
            index,
            ..before
        }
    }
}

/// Before the first reading both sums are 0.
const FRESH: CusumResult = CusumResult {
    s_upper: 0.0,
    s_lower: 0.0,
    side: Side::None,
    index: 0,
};

pub fn records(c: &Cusum, xs: &[f64]) -> Vec<CusumResult> {
    let mut records = Vec::new();
    let mut before = FRESH;
    for (i, &x) in xs.iter().enumerate() {
        before = step_of(c, before, i, x);
        records.push(before);
    }
    records
}

// ---- RunLength

/// The asked sum of a record.
fn sum_of(sum: Sum, r: &CusumResult) -> f64 {
    match sum {
        Sum::Upper => r.s_upper,
        Sum::Lower => r.s_lower,
    }
}

/// The first reading, 1 to 4,096, at which a fresh chart fed one level has the sum above h; or none.
fn heard(c: &Cusum, v: f64, sum: Sum) -> Vec<usize> {
    let mut before = FRESH;
    for m in 0..4096 {
        before = step_of(c, before, m, v);
        if c.h < sum_of(sum, &before) {
            return vec![m + 1];
        }
    }
    Vec::new()
}

/// The tests of the settings, then 8, at 0, 0, and then the reading.
pub fn run_length(c: &Cusum, v: f64, sum: Sum) -> Said {
    let level = [(!finite(v), Refusal::NonFinite(0, 0))];
    let tests = [&tests_of(c)[..], &level].concat();
    tried(refusing, &tests, || Said::Answered(heard(c, v, sum)))
}
