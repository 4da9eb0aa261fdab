//! The cases of `replay_cusum` and `replay_ewma` (`tests/vectors/charts.rs`), with room for one result more
//! than a chart takes readings.

use crate::stored::Stored;
use crate::{Call, Chart, CusumResult, Edition, EwmaResult, Outcome, Said, Side, Stated, Sum};
use std::ops::ControlFlow;
use std::rc::Rc;

const ROOM: usize = 4097;

/// What lent indices and records are before a call.
const UNUSED: usize = 9999;
const UNUSED_SUMS: CusumResult = CusumResult {
    s_upper: -7.0,
    s_lower: -8.0,
    side: Side::Both,
    index: UNUSED,
};
const UNUSED_AVERAGE: EwmaResult = EwmaResult {
    ewma: -7.0,
    ucl: -8.0,
    lcl: -9.0,
    side: Side::Both,
    index: UNUSED,
};

fn refused(number: usize, values: Vec<usize>) -> Said {
    Said::Refused(Stated { number, values })
}

/// What a call says: a refusal, or how many results there are.
fn said(refusal: usize, results: usize) -> Said {
    match refusal {
        0 => Said::Answered(vec![results]),
        number => refused(number, vec![]),
    }
}

/// A series: the readings, the refusal's number or 0, and the indices that signal.
struct Series {
    readings: Rc<Vec<f64>>,
    refusal: usize,
    points: Vec<usize>,
}

fn next_series(stored: &mut Stored) -> Series {
    let count = stored.reader.size(2);
    let readings = stored.reader.readings(count);
    let refusal = stored.reader.size(1);
    let count = if refusal == 0 {
        stored.reader.size(2)
    } else {
        0
    };
    let points = (0..count).map(|_| stored.reader.size(2)).collect();
    Series {
        readings,
        refusal,
        points,
    }
}

/// Results at the front of what was lent.
fn lent<T: Clone>(results: &[T], unused: T) -> Vec<T> {
    let mut left = vec![unused; ROOM];
    left[..results.len()].clone_from_slice(results);
    left
}

/// The side that a record's byte stands for. Any other byte is an error of the file.
fn side_of(byte: u8) -> Side {
    match byte {
        0 => Side::None,
        1 => Side::Above,
        2 => Side::Below,
        3 => Side::Both,
        other => panic!("no side has the byte {other}"),
    }
}

fn next_sums(stored: &mut Stored, series: &Series) -> Vec<CusumResult> {
    let count = if series.refusal == 0 {
        series.readings.len()
    } else {
        0
    };
    let record = |_| {
        let [s_upper, s_lower] = stored.reader.floats();
        CusumResult {
            s_upper,
            s_lower,
            side: side_of(stored.reader.letter()),
            index: stored.reader.size(2),
        }
    };
    (0..count).map(record).collect()
}

fn next_averages(stored: &mut Stored, series: &Series) -> Vec<EwmaResult> {
    let count = if series.refusal == 0 {
        series.readings.len()
    } else {
        0
    };
    let record = |_| {
        let [ewma, ucl, lcl] = stored.reader.floats();
        EwmaResult {
            ewma,
            ucl,
            lcl,
            side: side_of(stored.reader.letter()),
            index: stored.reader.size(2),
        }
    };
    (0..count).map(record).collect()
}

/// Compares the indices that a chart marks.
fn points(stored: &mut Stored, call: Call, series: &Series) -> ControlFlow<()> {
    let said = said(series.refusal, series.points.len());
    stored.case(call, Outcome::Points(said, lent(&series.points, UNUSED)))
}

fn cusum_series(stored: &mut Stored, chart: Chart) -> ControlFlow<()> {
    let series = next_series(stored);
    let records = next_sums(stored, &series);
    let readings = Rc::clone(&series.readings);
    points(
        stored,
        Call::CusumPoints(chart, readings, vec![UNUSED; ROOM]),
        &series,
    )?;
    let call = Call::Cusum(chart, Rc::clone(&series.readings), vec![UNUSED_SUMS; ROOM]);
    let said = said(series.refusal, records.len());
    stored.case(call, Outcome::Sums(said, lent(&records, UNUSED_SUMS)))
}

fn ewma_series(stored: &mut Stored, chart: Chart) -> ControlFlow<()> {
    let series = next_series(stored);
    let records = next_averages(stored, &series);
    let readings = Rc::clone(&series.readings);
    points(
        stored,
        Call::EwmaPoints(chart, readings, vec![UNUSED; ROOM]),
        &series,
    )?;
    let call = Call::Ewma(
        chart,
        Rc::clone(&series.readings),
        vec![UNUSED_AVERAGE; ROOM],
    );
    let said = said(series.refusal, records.len());
    stored.case(
        call,
        Outcome::Averages(said, lent(&records, UNUSED_AVERAGE)),
    )
}

/// A level that is not heard is stored as reading 0; 8 has the place 0, 0.
fn run_length(stored: &mut Stored, chart: Chart, sum: Sum) -> ControlFlow<()> {
    let level = stored.reader.float();
    let refusal = stored.reader.size(1);
    let heard = stored.reader.size(2);
    let said = match (refusal, heard) {
        (0, 0) => Said::Answered(vec![]),
        (0, reading) => Said::Answered(vec![reading]),
        (8, _) => refused(8, vec![0, 0]),
        (number, _) => refused(number, vec![]),
    };
    stored.case(Call::RunLength(chart, level, sum), Outcome::Said(said))
}

pub fn cusum_cases(stored: &mut Stored) -> ControlFlow<()> {
    while !stored.reader.ended() {
        stored.begun();
        let letter = stored.reader.letter();
        let values = stored.reader.floats();
        let chart = Chart {
            by_new: letter == b'n',
            values,
            edition: Edition::First,
        };
        match letter {
            b'u' => run_length(stored, chart, Sum::Upper)?,
            b'l' => run_length(stored, chart, Sum::Lower)?,
            _ => cusum_series(stored, chart)?,
        }
    }
    ControlFlow::Continue(())
}

/// By a case's letter: whether an EWMA is made by `new`, and its edition.
fn made_by(letter: u8) -> (bool, Edition) {
    match letter {
        b'n' => (true, Edition::First),
        b'p' => (false, Edition::First),
        b'N' => (true, Edition::Second),
        b'P' => (false, Edition::Second),
        other => panic!("no case of an EWMA has the letter {other}"),
    }
}

pub fn ewma_cases(stored: &mut Stored) -> ControlFlow<()> {
    while !stored.reader.ended() {
        stored.begun();
        let (by_new, edition) = made_by(stored.reader.letter());
        let values = stored.reader.floats();
        let chart = Chart {
            by_new,
            values,
            edition,
        };
        ewma_series(stored, chart)?;
    }
    ControlFlow::Continue(())
}
