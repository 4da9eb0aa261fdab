//! Summaries of pieces: what they have to be, by the Rust's sums and costs, and whether they are.

use crate::faults::Fault;
use crate::pieces::{Piece, Summary, PIECE};
use crate::rules::pattern;
use crate::{wrapped, Outcome};
use overbrindle::lent;

const TOO_LONG: u32 = 6;
const MOST_READINGS: usize = 4096;

/// What is told of a piece, floats by their bits: the number of the refusal, or 0, and then length, mean, whether
/// there is a spread, 1 or 0, and the spread.
#[derive(Clone, Copy, Debug, PartialEq)]
pub struct Told {
    pub number: u32,
    pub length: usize,
    pub mean: u64,
    pub has_spread: u32,
    pub spread: u64,
}

impl Told {
    fn refused(number: u32) -> Self {
        Told {
            number,
            length: 0,
            mean: 0,
            has_spread: 0,
            spread: 0,
        }
    }
}

fn due(piece: &Piece, fault: Fault) -> Told {
    if piece.readings.len() > MOST_READINGS {
        return Told::refused(TOO_LONG);
    }
    let Some(mut summary) = piece.summary() else {
        return Told::refused(PIECE.into());
    };
    summary.spread = faulty(&summary, fault);
    Told {
        number: 0,
        length: summary.length,
        mean: pattern(summary.mean),
        has_spread: summary.spread.is_some().into(),
        spread: summary.spread.map_or(0, pattern),
    }
}

/// The spread that is due, or a wrong one: as it was before rule 6.2, or by a rule that looks alike.
fn faulty(summary: &Summary, fault: Fault) -> Option<f64> {
    let (length, cost) = (summary.length as f64, summary.l2);
    match summary.spread {
        _ if fault.is("a spread by the length") => Some(cost / length),
        None if fault.is("a spread of one reading") => Some(cost),
        Some(_) if fault.is("a cost below 0 kept") => Some(cost / (length - 1.0)),
        Some(_) if fault.is("a NaN cost is 0") => Some(cost.max(0.0) / (length - 1.0)),
        Some(spread) if fault.is("a NaN spread is none") && spread.is_nan() => None,
        Some(spread) if fault.is("a root of the spread") => Some(spread.sqrt()),
        spread => spread,
    }
}

pub fn check(piece: &Piece, fault: Fault) -> Result<Outcome, String> {
    let due = due(piece, fault);
    let said = lent::piece_summary(&piece.readings, piece.start, piece.end);
    let said = Told {
        number: said.number ^ u32::from(fault.is("piece number")),
        length: said.length ^ usize::from(fault.is("piece length")),
        mean: pattern(said.mean) ^ u64::from(fault.is("piece mean")),
        has_spread: said.has_spread ^ u32::from(fault.is("piece has a spread")),
        spread: pattern(said.spread) ^ u64::from(fault.is("piece spread")),
    };
    if said != due {
        return Err(format!("what is told is {said:x?} and not {due:x?}"));
    }
    wrapped::piece(piece, due)?;
    let summary = piece.summary();
    let outcome = match (due.number, summary) {
        (0, Some(summary)) => format!("summary {}", summary.sort()),
        (TOO_LONG, None) => "refusal 6 before 12".into(),
        (number, _) => format!("refusal {number}"),
    };
    let named = None;
    Ok(Outcome { outcome, named })
}
