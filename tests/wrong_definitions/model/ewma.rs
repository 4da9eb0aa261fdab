//! `crates/ewma/specs`: Chart.

use crate::charts::{setting_tests, side_of, InRange};
use crate::elementary::{powi, sqrt};
use crate::floats::finite;
use crate::refusals::Test;
use cases::{Chart, Edition, EwmaResult, Side};

#[derive(Clone, Copy)]
pub struct Ewma {
    target: f64,
    sigma: f64,
    lambda: f64,
    factor: f64,
    edition: Edition,
}

fn with_params(target: f64, sigma: f64, lambda: f64, factor: f64, edition: Edition) -> Ewma {
    Ewma {
        target,
        sigma,
        lambda,
        factor,
        edition,
    }
}

/// `new` has the defaults lambda 0.2 and L 3.
fn new_of(target: f64, sigma: f64, edition: Edition) -> Ewma {
    with_params(target, sigma, 0.2, 3.0, edition)
}

pub fn made(chart: Chart) -> Ewma {
    let [target, sigma, lambda, factor] = chart.values;
    if chart.by_new {
        new_of(target, sigma, chart.edition)
    } else {
        with_params(target, sigma, lambda, factor, chart.edition)
    }
}

/// Target finite; sigma finite and above 0; lambda in (0, 1]; L finite, above 0.
fn in_range(c: &Ewma) -> InRange {
    InRange {
        target: finite(c.target),
        sigma: finite(c.sigma) && 0.0 < c.sigma,
        weight: 0.0 < c.lambda && c.lambda <= 1.0,
        bound: finite(c.factor) && 0.0 < c.factor,
    }
}

pub fn tests_of(c: &Ewma) -> Vec<Test> {
    setting_tests(in_range(c))
}

/// The place of the reading x at an index, after the place before. First edition: the index and 1, gap or
/// not; second: a finite reading has the next place, and a gap stays at the last.
fn place_after(edition: Edition, before: usize, index: usize, x: f64) -> usize {
    match edition {
        Edition::First => index + 1,
        Edition::Second if finite(x) => before + 1,
        Edition::Second => before,
    }
}

/// Half the distance of the limits at a place: L·sigma times the root of
/// lambda / (2 - lambda) · (1 - (1 - lambda)^(2·place)).
fn half_width(c: &Ewma, place: usize) -> f64 {
    let decay = powi(1.0 - c.lambda, 2 * place as u64);
    let variance = c.lambda / (2.0 - c.lambda) * (1.0 - decay);
    c.factor * c.sigma * sqrt(variance)
}

/// The record of a statistic with limits so far from the target.
fn within(c: &Ewma, index: usize, half: f64, side: Side, ewma: f64) -> EwmaResult {
    EwmaResult {
        ewma,
        ucl: c.target + half,
        lcl: c.target - half,
        side,
        index,
    }
}

/// On which side a statistic is strictly outside the limits.
fn outside(c: &Ewma, half: f64, ewma: f64) -> Side {
    side_of(c.target + half < ewma, ewma < c.target - half)
}

/// The statistic moves on to a reading: lambda·x + (1 - lambda)·before.
fn averaged(c: &Ewma, before: f64, x: f64) -> f64 {
    c.lambda * x + (1.0 - c.lambda) * before
}

/// The record of the reading x at an index and a place, after another record; a gap carries the statistic
/// forward, without a signal.
fn step_of(c: &Ewma, place: usize, before: EwmaResult, index: usize, x: f64) -> EwmaResult {
    let half = half_width(c, place);
    let ewma = averaged(c, before.ewma, x);
    if finite(x) {
        within(c, index, half, outside(c, half, ewma), ewma)
    } else {
        within(c, index, half, Side::None, before.ewma)
    }
}

/// What goes from reading to reading: the last record and its place.
type Charted = (EwmaResult, usize);

/// Before the first reading the statistic is the target, and the place is 0.
fn blank(c: &Ewma) -> EwmaResult {
    EwmaResult {
        ewma: c.target,
        ucl: c.target,
        lcl: c.target,
        side: Side::None,
        index: 0,
    }
}

fn fresh(c: &Ewma) -> Charted {
    (blank(c), 0)
}

/// The reading has its place, and then its record.
fn next_of(c: &Ewma, (before, last): Charted, i: usize, x: f64) -> Charted {
    let place = place_after(c.edition, last, i, x);
    (step_of(c, place, before, i, x), place)
}

pub fn records(c: &Ewma, xs: &[f64]) -> Vec<EwmaResult> {
    let mut records = Vec::new();
    let mut state = fresh(c);
    for (i, &x) in xs.iter().enumerate() {
        state = next_of(c, state, i, x);
        records.push(state.0);
    }
    records
}
