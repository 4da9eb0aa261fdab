//! The package `overbrindle` beside the Rust: which constructors refuse, and every field of every answer and of
//! every refusal. It sizes the room itself, so it meets neither refusal 7 nor refusal 9: there it has to
//! answer what the Rust does.

use crate::calls::{self, Call};
use crate::charted::{self, Answer, Record, ABOVE, BELOW, BOTH};
use crate::charts::{Chart, Kind, RunLength};
use crate::in_place;
use crate::pieces::Piece;
use crate::rules::pattern;
use crate::series::Settings;
use crate::summaries::Told;
use overbrindle::{
    CostFunction, Cusum, CusumResult, Edition, Ewma, EwmaResult, MultiPeltResult, Pelt, PeltResult,
    Penalty, PieceSummary, Refusal, Side, Sum,
};
use std::fmt::Debug;

/// The refusals that are due to settings.
const OF_SETTINGS: [u32; 6] = [1, 2, 15, 16, 17, 18];
const NON_FINITE: u32 = 8;

/// A refusal by its number, with the place of the reading where the number is 8.
pub type Refused = (u32, Option<(usize, usize)>);

/// A refusal of this number, with this place if it has one.
pub fn refused(number: u32, place: (usize, usize)) -> Refused {
    (number, (number == NON_FINITE).then_some(place))
}

fn told(refusal: Refusal) -> Refused {
    (refusal.number(), refusal.place())
}

/// What a call of the package said has to be what is due.
pub fn same<T: PartialEq + Debug>(what: &str, found: T, due: T) -> Result<(), String> {
    match found == due {
        true => Ok(()),
        false => Err(format!("the package's {what}: {found:x?} and not {due:x?}")),
    }
}

/// Whether settings are refused where this is due.
pub fn by_settings<T>(due: &Result<T, Refused>) -> bool {
    matches!(due, Err((number, _)) if OF_SETTINGS.contains(number))
}

/// What a constructor made: the refusals of settings are its own, and it has no others.
fn made<T, D>(
    what: &str,
    made: Result<T, Refusal>,
    due: &Result<D, Refused>,
) -> Result<Option<T>, String> {
    let due = due.as_ref().err().filter(|_| by_settings(due));
    let found = made.as_ref().err().map(|&refusal| told(refusal));
    same(what, found.as_ref(), due)?;
    Ok(made.ok())
}

pub fn cost(settings: calls::Settings) -> CostFunction {
    match settings.normal {
        true => CostFunction::Normal,
        false => CostFunction::L2,
    }
}

pub fn penalty(settings: calls::Settings) -> Penalty {
    settings.custom.map_or(Penalty::Bic, Penalty::Custom)
}

/// A search as the Rust makes it with these settings: by `new`, or with a minimum length.
fn pelt(settings: calls::Settings) -> Result<Pelt, Refusal> {
    let (cost, penalty) = (cost(settings), penalty(settings));
    match settings.given {
        None => Pelt::new(cost, penalty),
        Some(least) => Pelt::with_min_segment_len(cost, penalty, least as usize),
    }
}

/// The search by the one of four functions that the call means, and then by module `detection`, which stands
/// on it and panics where it refuses what it should not.
pub fn search(call: &Call, due: &Result<Vec<usize>, Refused>) -> Result<(), String> {
    search_here(call, due)?;
    in_place::search(call, due)
}

fn search_here(call: &Call, due: &Result<Vec<usize>, Refused>) -> Result<(), String> {
    let Some(pelt) = made("search", pelt(call.settings), due)? else {
        return Ok(());
    };
    let one = |found: PeltResult| found.changepoints;
    let several = |found: MultiPeltResult| found.changepoints;
    let (readings, signals) = (&call.readings[..], call.signals());
    let (what, found) = match (call.multi, call.strict) {
        (false, false) => ("detect", pelt.detect(readings).map(one)),
        (false, true) => ("detect_strict", pelt.detect_strict(readings).map(one)),
        (true, false) => ("detect_multi", pelt.detect_multi(&signals).map(several)),
        (true, true) => {
            let found = pelt.detect_multi_strict(&signals);
            ("detect_multi_strict", found.map(several))
        }
    };
    same(what, &found.map_err(told), due)
}

/// What a chart made of one reading: the bits of its values, what it says of a signal, and the index.
pub type Row<S> = (Vec<u64>, S, usize);

/// What a record here says of a signal: its side, and whether it signals at all, above and below.
type Sided = (Side, [bool; 3]);

fn due_side(record: &Record) -> Sided {
    let side = [Side::None, Side::Above, Side::Below, Side::Both][usize::from(record.side)];
    let above = [ABOVE, BOTH].contains(&record.side);
    let below = [BELOW, BOTH].contains(&record.side);
    (side, [record.signal, above, below])
}

fn cusum_row(r: &CusumResult) -> Row<Sided> {
    let values = [r.s_upper, r.s_lower].map(pattern).to_vec();
    let said = [r.signal(), r.side.is_above(), r.side.is_below()];
    (values, (r.side, said), r.index)
}

fn ewma_row(r: &EwmaResult) -> Row<Sided> {
    let values = [r.ewma, r.ucl, r.lcl].map(pattern).to_vec();
    let said = [r.signal(), r.side.is_above(), r.side.is_below()];
    (values, (r.side, said), r.index)
}

/// A chart as the Rust makes it with these settings: by `new`, or with parameters.
fn cusum(settings: &Settings) -> Result<Cusum, Refusal> {
    let [target, sigma, k, h] = settings.values;
    match settings.by_new {
        true => Cusum::new(target, sigma),
        false => Cusum::with_params(target, sigma, k, h),
    }
}

fn ewma(settings: &Settings, edition: charted::Edition) -> Result<Ewma, Refusal> {
    let [target, sigma, lambda, l_factor] = settings.values;
    let edition = match edition {
        charted::Edition::First => Edition::First,
        charted::Edition::Second => Edition::Second,
    };
    match settings.by_new {
        true => Ewma::new(target, sigma, edition),
        false => Ewma::with_params(target, sigma, lambda, l_factor, edition),
    }
}

/// What a chart answers: its records, each with all of its fields, or its signal points.
#[derive(Debug, PartialEq)]
pub enum Charted<S> {
    Records(Vec<Row<S>>),
    Points(Vec<usize>),
}

impl<S: PartialEq + Debug> Charted<S> {
    /// The first place at which records differ says more than all of them.
    pub fn compare(&self, name: &str, due: &Self) -> Result<(), String> {
        let (Charted::Records(found), Charted::Records(due)) = (self, due) else {
            return same(&format!("{name}signal_points"), self, due);
        };
        same(&format!("{name}number of records"), found.len(), due.len())?;
        for (at, (found, due)) in found.iter().zip(due).enumerate() {
            same(&format!("{name}record {at}"), found, due)?;
        }
        Ok(())
    }
}

fn cusum_charted(chart: &Cusum, points: bool, readings: &[f64]) -> Result<Charted<Sided>, Refusal> {
    Ok(match points {
        true => Charted::Points(chart.signal_points(readings)?),
        false => Charted::Records(chart.analyze(readings)?.iter().map(cusum_row).collect()),
    })
}

fn ewma_charted(chart: &Ewma, points: bool, readings: &[f64]) -> Result<Charted<Sided>, Refusal> {
    Ok(match points {
        true => Charted::Points(chart.signal_points(readings)?),
        false => Charted::Records(chart.analyze(readings)?.iter().map(ewma_row).collect()),
    })
}

/// What the package makes of a chart, if its constructor makes it.
fn charted(
    chart: &Chart,
    edition: charted::Edition,
    due: &Result<Charted<Sided>, Refused>,
) -> Result<Option<Result<Charted<Sided>, Refusal>>, String> {
    let (settings, points, readings) = (chart.made_with(), chart.points, &chart.readings[..]);
    Ok(match chart.kind {
        Kind::Cusum => made("CUSUM", cusum(&settings), due)?
            .map(|chart| cusum_charted(&chart, points, readings)),
        Kind::Ewma => made("EWMA", ewma(&settings, edition), due)?
            .map(|chart| ewma_charted(&chart, points, readings)),
    })
}

/// What the chart has to answer, where its records say this of a signal.
fn due_charted<S>(
    chart: &Chart,
    due: &Result<Answer, u32>,
    said: fn(&Record) -> S,
) -> Result<Charted<S>, Refused> {
    let row = |record: &Record| {
        let values = record.values.iter().map(|&value| pattern(value)).collect();
        (values, said(record), record.index)
    };
    match due {
        Ok(answer) if chart.points => Ok(Charted::Points(answer.points.clone())),
        Ok(answer) => Ok(Charted::Records(answer.records.iter().map(row).collect())),
        Err(number) => Err(refused(*number, (0, 0))),
    }
}

/// The chart's records or its signal points, whichever the case asks for, and then by module `detection`, whose
/// records have the Rust's yes or no in place of a side. It has the first edition alone.
pub fn chart(
    chart: &Chart,
    edition: charted::Edition,
    due: &Result<Answer, u32>,
) -> Result<(), String> {
    chart_here(chart, edition, &due_charted(chart, due, due_side))?;
    match edition {
        charted::Edition::First => {
            in_place::chart(chart, &due_charted(chart, due, |record| record.signal))
        }
        charted::Edition::Second => Ok(()),
    }
}

fn chart_here(
    chart: &Chart,
    edition: charted::Edition,
    due: &Result<Charted<Sided>, Refused>,
) -> Result<(), String> {
    match (charted(chart, edition, due)?, due) {
        (None, _) => Ok(()),
        (Some(Ok(found)), Ok(due)) => found.compare("", due),
        (Some(found), due) => same("chart", &found.map_err(told), due),
    }
}

/// The reading at which the level is heard, 0 for none, or the number of the refusal.
pub fn run_length(asked: &RunLength, (number, reading): (u32, usize)) -> Result<(), String> {
    let due = match number {
        0 => Ok((reading > 0).then_some(reading)),
        _ => Err(refused(number, (0, 0))),
    };
    let Some(chart) = made("CUSUM", cusum(&asked.made_with()), &due)? else {
        return Ok(());
    };
    let sum = [Sum::Upper, Sum::Lower][asked.sum as usize];
    let found = chart.run_length(asked.level, sum);
    same("run_length", found.map_err(told), due)
}

pub fn piece(piece: &Piece, due: Told) -> Result<(), String> {
    let found = overbrindle::piece_summary(&piece.readings, piece.start, piece.end);
    let fields = |s: PieceSummary| (s.length, pattern(s.mean), s.spread.map(pattern));
    let spread = (due.has_spread == 1).then_some(due.spread);
    let due = match due.number {
        0 => Ok((due.length, due.mean, spread)),
        number => Err(refused(number, (0, 0))),
    };
    same("piece_summary", found.map(fields).map_err(told), due)
}

pub fn noise(readings: &[f64], due: u64) -> Result<(), String> {
    let found = pattern(overbrindle::noise_variance(readings));
    same("noise_variance", found, due)
}
