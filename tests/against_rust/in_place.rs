//! Module `detection` of the package, by the signatures of the Rust: `None` where the Rust has it, and else the
//! same answer, which is that of the first edition of an EWMA chart. Where it panics, on more channels or readings
//! than the library takes, it is not asked.

use crate::calls::{self, Call};
use crate::charts::{Chart, Kind};
use crate::rules::pattern;
use crate::series::Settings;
use crate::wrapped::{by_settings, cost, penalty, same, Charted, Refused, Row};
use overbrindle::detection::{Cusum, CusumResult, Ewma, EwmaResult, Pelt};

/// The refusals in whose place it panics.
const PANICS: [u32; 2] = [3, 6];

fn panics<T>(due: &Result<T, Refused>) -> bool {
    matches!(due, Err((number, _)) if PANICS.contains(number))
}

/// What a constructor made: nothing exactly where settings are refused.
fn made<T, D>(what: &str, made: Option<T>, due: &Result<D, Refused>) -> Result<Option<T>, String> {
    let found = made.is_none();
    same(&format!("detection: no {what}"), found, by_settings(due))?;
    Ok(made)
}

fn pelt(settings: calls::Settings) -> Option<Pelt> {
    let (cost, penalty) = (cost(settings), penalty(settings));
    match settings.given {
        None => Pelt::new(cost, penalty),
        Some(least) => Pelt::with_min_segment_len(cost, penalty, least as usize),
    }
}

/// The Rust has no strict search.
pub fn search(call: &Call, due: &Result<Vec<usize>, Refused>) -> Result<(), String> {
    if call.strict || panics(due) {
        return Ok(());
    }
    let Some(pelt) = made("search", pelt(call.settings), due)? else {
        return Ok(());
    };
    let (what, found) = match call.multi {
        false => {
            let found = pelt.detect(&call.readings);
            ("detection: detect", Some(found.changepoints))
        }
        true => {
            let found = pelt.detect_multi(&call.signals());
            ("detection: detect_multi", found.map(|f| f.changepoints))
        }
    };
    same(what, found.as_ref(), due.as_ref().ok())
}

fn cusum(settings: &Settings) -> Option<Cusum> {
    let [target, sigma, k, h] = settings.values;
    match settings.by_new {
        true => Cusum::new(target, sigma),
        false => Cusum::with_params(target, sigma, k, h),
    }
}

fn ewma(settings: &Settings) -> Option<Ewma> {
    let [target, sigma, lambda, l_factor] = settings.values;
    match settings.by_new {
        true => Ewma::new(target, sigma),
        false => Ewma::with_params(target, sigma, lambda, l_factor),
    }
}

/// Its records say whether a reading signals, as the Rust's do, and no side.
fn cusum_row(r: &CusumResult) -> Row<bool> {
    let values = [r.s_upper, r.s_lower].map(pattern).to_vec();
    (values, r.signal, r.index)
}

fn ewma_row(r: &EwmaResult) -> Row<bool> {
    let values = [r.ewma, r.ucl, r.lcl].map(pattern).to_vec();
    (values, r.signal, r.index)
}

fn cusum_charted(chart: &Cusum, points: bool, readings: &[f64]) -> Charted<bool> {
    match points {
        true => Charted::Points(chart.signal_points(readings)),
        false => Charted::Records(chart.analyze(readings).iter().map(cusum_row).collect()),
    }
}

fn ewma_charted(chart: &Ewma, points: bool, readings: &[f64]) -> Charted<bool> {
    match points {
        true => Charted::Points(chart.signal_points(readings)),
        false => Charted::Records(chart.analyze(readings).iter().map(ewma_row).collect()),
    }
}

/// The chart's records or its signal points, whichever the case asks for.
pub fn chart(chart: &Chart, due: &Result<Charted<bool>, Refused>) -> Result<(), String> {
    if panics(due) {
        return Ok(());
    }
    let (settings, points, readings) = (chart.made_with(), chart.points, &chart.readings[..]);
    let found = match chart.kind {
        Kind::Cusum => made("CUSUM", cusum(&settings), due)?
            .map(|chart| cusum_charted(&chart, points, readings)),
        Kind::Ewma => {
            made("EWMA", ewma(&settings), due)?.map(|chart| ewma_charted(&chart, points, readings))
        }
    };
    match (found, due) {
        (Some(found), Ok(due)) => found.compare("detection: ", due),
        (found, due) => same("detection: a chart", found.as_ref(), due.as_ref().ok()),
    }
}
