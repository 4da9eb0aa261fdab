//! The functions that only choose a value or clear a sign: max, min, abs and finite. Their inputs, and
//! what docs/RULES.md says of max and min.

use crate::inputs::{any_patterns, extremes, not_numbers, Kind, Random};

/// Two values.
pub const PAIR_KINDS: [(&str, Kind<(u64, u64)>); 2] = [
    ("ends and NaN in pairs", paired_ends),
    ("any two patterns", any_pairs),
];

pub const VALUE_KINDS: [(&str, Kind<u64>); 3] = [
    ("extremes", extremes),
    ("NaN patterns", not_numbers),
    ("any pattern", any_patterns),
];

/// Each two of the first extremes and NaN patterns, so zeros of both signs, equals and NaNs meet.
fn paired_ends(random: &mut Random, count: usize) -> Vec<(u64, u64)> {
    let half = ((count as f64).sqrt() / 2.0).ceil() as usize;
    let mut ends = extremes(random, half);
    ends.extend(not_numbers(random, half));
    let pairs = |&x: &u64| ends.iter().map(move |&y| (x, y)).collect::<Vec<_>>();
    ends.iter().flat_map(pairs).collect()
}

fn any_pairs(random: &mut Random, count: usize) -> Vec<(u64, u64)> {
    let pair = |_| (random.next(), random.next());
    (0..count).map(pair).collect()
}

/// The other operand of a NaN, and of equals the first.
fn other(x: f64, y: f64, beyond: bool) -> f64 {
    if x.is_nan() || beyond {
        y
    } else {
        x
    }
}

pub fn max(x: f64, y: f64) -> f64 {
    other(x, y, y > x)
}

pub fn min(x: f64, y: f64) -> f64 {
    other(x, y, y < x)
}
