//! `crates/piece/specs`: Spread, Piece.

use crate::costs::{l2_cost, segment_of};
use crate::refusals::{refusing, tried, Refusal, Test};
use crate::sums::summed;
use cases::{pattern, Said};

enum Spread {
    Absent,
    Of(f64),
}

/// The cost, or +0 where it is below 0; a NaN stays.
fn not_below_zero(cost: f64) -> f64 {
    if cost < 0.0 {
        0.0
    } else {
        cost
    }
}

/// None of fewer than two readings; else the cost, or +0 where it is below 0, divided by the length less one.
fn spread_of(n: usize, cost: f64) -> Spread {
    if n < 2 {
        Spread::Absent
    } else {
        Spread::Of(not_below_zero(cost) / (n - 1) as f64)
    }
}

struct Summary {
    length: usize,
    mean: f64,
    spread: Spread,
}

/// Length; mean, the centred mean plus the channel's mean; spread, by the length and the L2 cost.
fn summary_of(xs: &[f64], a: usize, b: usize) -> Summary {
    let channel = summed(xs);
    let s = segment_of(&channel, a, b);
    Summary {
        length: b.saturating_sub(a),
        mean: s.sum / s.length + channel.mean,
        spread: spread_of(b.saturating_sub(a), l2_cost(&s)),
    }
}

/// 6 above 4,096 readings; 12 unless start < end ≤ length.
fn piece_tests(xs: &[f64], a: usize, b: usize) -> Vec<Test> {
    vec![
        (4096 < xs.len(), Refusal::TooLong),
        (!(a < b && b <= xs.len()), Refusal::Piece),
    ]
}

/// What is said of a spread: its bits, or nothing.
fn spread_said(spread: Spread) -> Vec<usize> {
    match spread {
        Spread::Absent => vec![],
        Spread::Of(x) => vec![pattern(x) as usize],
    }
}

/// What is said: the length, the bits of the mean, and the spread; or the refusal.
pub fn summarised(xs: &[f64], a: usize, b: usize) -> Said {
    tried(refusing, &piece_tests(xs, a, b), || {
        let s = summary_of(xs, a, b);
        let values = [s.length, pattern(s.mean) as usize];
        Said::Answered([&values[..], &spread_said(s.spread)].concat())
    })
}
