//! `crates/charts/specs`: Sides, Runs, Settings, Answers, Outcomes.

use crate::areas::rest_of;
use crate::refusals::{counted, Refusal, Test};
use cases::{Said, Side};

// ---- Sides

/// By whether a record signals above and below.
pub fn side_of(above: bool, below: bool) -> Side {
    match (above, below) {
        (true, true) => Side::Both,
        (true, false) => Side::Above,
        (false, true) => Side::Below,
        (false, false) => Side::None,
    }
}

/// Whether that is a signal, the Rust's yes or no.
pub fn signals(side: Side) -> bool {
    match side {
        Side::None => false,
        Side::Above => true,
        Side::Below => true,
        Side::Both => true,
    }
}

// ---- Runs

/// The indices whose records signal.
pub fn points<D>(records: &[D], signals: impl Fn(&D) -> bool) -> Vec<usize> {
    let marked = records.iter().enumerate().filter(|(_, r)| signals(r));
    marked.map(|(index, _)| index).collect()
}

/// A lent list with results at its front, and behind them what it held.
fn lent<D: Clone>(results: &[D], entry: &[D]) -> Vec<D> {
    [results, rest_of(entry, results.len())].concat()
}

// ---- Settings

/// Whether each setting is in range: the target, sigma, the weight (k or lambda), the bound (h or L).
pub struct InRange {
    pub target: bool,
    pub sigma: bool,
    pub weight: bool,
    pub bound: bool,
}

/// 15 to 18.
pub fn setting_tests(s: InRange) -> Vec<Test> {
    vec![
        (!s.target, Refusal::Target),
        (!s.sigma, Refusal::Sigma),
        (!s.weight, Refusal::Weight),
        (!s.bound, Refusal::Bound),
    ]
}

// ---- Answers

/// 6 n readings are more than the limit; 7 `room` is less than n.
fn size_tests(n: usize, room: usize) -> Vec<Test> {
    vec![(4096 < n, Refusal::TooLong), (room < n, Refusal::Room)]
}

/// The tests of a chart's settings, and then these.
fn chart_tests(settings: &[Test], n: usize, room: usize) -> Vec<Test> {
    [settings, &size_tests(n, room)].concat()
}

/// The first of them, or a count.
fn chart_answer(settings: &[Test], n: usize, room: usize, count: usize) -> Said {
    counted(&chart_tests(settings, n, room), count)
}

// ---- Outcomes

/// What a call writes: all of it, and nothing where it refuses.
fn provided<'a, D>(said: &Said, written: &'a [D]) -> &'a [D] {
    match said {
        Said::Answered(_) => written,
        Said::Refused(_) => &[],
    }
}

/// `analyze` of n readings: a record for each at the front of the lent ones.
pub fn analyzed<D: Clone>(
    settings: &[Test],
    n: usize,
    records: &[D],
    entry: &[D],
) -> (Said, Vec<D>) {
    let said = chart_answer(settings, n, entry.len(), n);
    let left = lent(provided(&said, records), entry);
    (said, left)
}

/// `signal_points` of n readings, which needs room for as many: the indices at the front of the lent ones.
pub fn signalled(
    settings: &[Test],
    n: usize,
    points: &[usize],
    entry: &[usize],
) -> (Said, Vec<usize>) {
    let said = chart_answer(settings, n, entry.len(), points.len());
    let left = lent(provided(&said, points), entry);
    (said, left)
}
