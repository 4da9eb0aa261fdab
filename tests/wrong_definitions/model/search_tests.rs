//! `crates/search_answer/specs`: Tests, with `crates/search_rules/specs`: Room.

use crate::floats::finite;
use crate::readings::{channel_at, first_length, gap_to, index_at, shape_tests};
use crate::refusals::{Refusal, Test};
use cases::Penalty;

/// 1: a custom penalty is not finite or not above 0.
fn bad_penalty(penalty: Penalty) -> bool {
    match penalty {
        Penalty::Bic => false,
        Penalty::Custom(v) => !(finite(v) && 0.0 < v),
    }
}

/// How long the lent areas are.
#[derive(Clone, Copy)]
pub struct Lengths {
    pub cuts: usize,
    pub floats: usize,
    pub indices: usize,
}

/// 7: n/2 cuts rounded down, (2k + 2)(n + 1) work floats, 3(n + 1) work indices.
fn short_room(n: usize, k: usize, lent: Lengths) -> bool {
    let (n, k) = (n as u128, k as u128);
    (lent.cuts as u128) < n / 2
        || (lent.floats as u128) < (2 * k + 2) * (n + 1)
        || (lent.indices as u128) < 3 * (n + 1)
}

/// 7, then 8 in a strict search only: the lowest channel, then the lowest index that is not finite.
fn room_tests(strict: bool, run: &[f64], n: usize, k: usize, lent: Lengths) -> Vec<Test> {
    let at = gap_to(run, run.len());
    let gap = Refusal::NonFinite(channel_at(n, at), index_at(n, at));
    vec![
        (short_room(n, k, lent), Refusal::Room),
        (strict && at < run.len(), gap),
    ]
}

/// 1 to 8, for a penalty, a minimum length and the lengths of the lent areas.
pub fn search_tests(
    strict: bool,
    penalty: Penalty,
    m: usize,
    run: &[f64],
    lengths: &[usize],
    lent: Lengths,
) -> Vec<Test> {
    let mut tests = vec![
        (bad_penalty(penalty), Refusal::Penalty),
        (m < 2, Refusal::MinLen),
    ];
    tests.extend(shape_tests(lengths, run.len()));
    tests.extend(room_tests(
        strict,
        run,
        first_length(lengths),
        lengths.len(),
        lent,
    ));
    tests
}
