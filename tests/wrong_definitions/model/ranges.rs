//! `crates/ranges/specs`: Ranges.

use crate::floats::{get, larger, smaller};

#[derive(Clone, Copy)]
pub struct Range {
    pub lo: f64,
    pub hi: f64,
}

/// The lowest of the first i readings, from +infinity on; min passes NaN over.
fn lowest_to(xs: &[f64], i: usize) -> f64 {
    let mut lowest = f64::INFINITY;
    for place in 0..i {
        lowest = smaller(lowest, get(xs, place, f64::NAN));
    }
    lowest
}

/// The highest, from -infinity on.
fn highest_to(xs: &[f64], i: usize) -> f64 {
    let mut highest = f64::NEG_INFINITY;
    for place in 0..i {
        highest = larger(highest, get(xs, place, f64::NAN));
    }
    highest
}

pub fn range_of(xs: &[f64]) -> Range {
    Range {
        lo: lowest_to(xs, xs.len()),
        hi: highest_to(xs, xs.len()),
    }
}

/// Both less the mean.
pub fn about(range: Range, mean: f64) -> Range {
    Range {
        lo: range.lo - mean,
        hi: range.hi - mean,
    }
}
