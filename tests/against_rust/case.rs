//! A call of any sort: whether its answer is right, how it is printed, and which calls are smaller.

use crate::calls::{Call, Lent};
use crate::charts::{self, Chart, Kind, RunLength};
use crate::faults::Fault;
use crate::heard::Heard;
use crate::lending::Area;
use crate::noises::Noise;
use crate::pieces::Piece;
use crate::searches::{self, Search};
use crate::{summaries, Outcome};
use std::fmt;
use std::rc::Rc;
use std::time::{Duration, Instant};

/// How long a call is shrunk at most.
const SHRINKING: Duration = Duration::from_secs(5);

#[derive(Clone)]
pub enum Case {
    Search(Search),
    Chart(Chart),
    RunLength(RunLength),
    Heard(Heard),
    Piece(Piece),
    Noise(Noise),
}

/// What is lent to calls, one after the other.
#[derive(Default)]
pub struct Lending {
    search: searches::Areas,
    /// The second of a chart are for the other edition.
    chart: [charts::Areas; 2],
    noise: Area,
}

impl Case {
    pub fn check(&self, lending: &mut Lending, fault: Fault) -> Result<Outcome, String> {
        match self {
            Case::Search(search) => search.check(&mut lending.search, fault),
            Case::Chart(chart) => chart.check(&mut lending.chart, fault),
            Case::RunLength(run_length) => run_length.check(fault),
            Case::Heard(heard) => heard.check(fault),
            Case::Piece(piece) => summaries::check(piece, fault),
            Case::Noise(noise) => noise.check(&mut lending.noise, fault),
        }
    }

    /// Calls that are smaller by a step: fewer channels or readings, simpler readings and settings, no
    /// more room than is asked.
    pub fn smaller(&self) -> Vec<Case> {
        match self {
            Case::Search(search) => smaller_searches(search),
            Case::Chart(chart) => smaller_charts(chart),
            Case::RunLength(run_length) => smaller_run_lengths(run_length),
            Case::Heard(heard) => smaller_heard(heard),
            Case::Piece(piece) => smaller_pieces(piece),
            Case::Noise(noise) => smaller_noises(noise),
        }
    }
}

/// Ranges of n readings to leave out, the longest first.
fn ranges(n: usize) -> Vec<(usize, usize)> {
    let mut ranges = Vec::new();
    let mut length = n;
    while length > 0 {
        // A few of each length are enough, since every step begins anew.
        let stride = length.max(n / 64 + 1);
        let starts = (0..n).step_by(stride);
        ranges.extend(starts.map(|start| (start, (start + length).min(n))));
        length /= 2;
    }
    ranges
}

/// Simpler values in place of this one.
fn simpler(value: f64) -> Vec<f64> {
    let tried = [0.0, 1.0, 4.0, value.trunc(), (value * 8.0).trunc() / 8.0];
    let rank = |x: f64| match x {
        0.0 if x.is_sign_positive() => 0,
        1.0 => 1,
        4.0 => 2,
        _ if x == x.trunc() => 3,
        _ if x * 8.0 == (x * 8.0).trunc() => 4,
        _ => 5,
    };
    let better = |x: &f64| x.is_finite() && rank(*x) < rank(value);
    tried.into_iter().filter(better).collect()
}

/// Readings of which one is simpler.
fn simpler_readings(readings: &[f64]) -> Vec<Vec<f64>> {
    let mut all = Vec::new();
    for at in 0..readings.len().min(400) {
        for value in simpler(readings[at]) {
            let mut changed = readings.to_vec();
            changed[at] = value;
            all.push(changed);
        }
    }
    all
}

/// The call with these channels, and as much more or less room than is asked as it had.
fn with_channels(call: &Call, channels: &[Vec<f64>]) -> Call {
    let n_before = call.channels().first().map_or(0, |&n| n as usize);
    let before = Lent::exactly(n_before, call.channels().len(), 0);
    let n = channels.first().map_or(0, Vec::len);
    let after = Lent::exactly(n, channels.len(), 0);
    let moved = |size: usize, before: usize, after: usize| (size + after).saturating_sub(before);
    Call {
        readings: Rc::new(channels.concat()),
        lengths: vec![n as u64; channels.len()],
        lent: Lent {
            cuts: moved(call.lent.cuts, before.cuts, after.cuts),
            floats: moved(call.lent.floats, before.floats, after.floats),
            indices: moved(call.lent.indices, before.indices, after.indices),
            pool: call.lent.pool,
        },
        multi: call.multi,
        ..call.clone()
    }
}

fn smaller_calls(call: &Call) -> Vec<Call> {
    let mut calls = Vec::new();
    let lengths = call.channels();
    let n = lengths.first().copied().unwrap_or(0);
    let whole = lengths.iter().all(|&length| length == n)
        && n.checked_mul(lengths.len() as u64) == Some(call.readings.len() as u64);
    if whole && n > 0 {
        let channels: Vec<Vec<f64>> = call.signals().iter().map(|s| s.to_vec()).collect();
        for at in 0..channels.len() {
            let mut fewer = channels.clone();
            fewer.remove(at);
            if call.multi {
                calls.push(with_channels(call, &fewer));
            }
        }
        for (start, end) in ranges(n as usize) {
            let mut shorter = channels.clone();
            shorter
                .iter_mut()
                .for_each(|channel| drop(channel.drain(start..end)));
            calls.push(with_channels(call, &shorter));
        }
    }
    if !whole && call.multi {
        for at in 0..lengths.len() {
            let mut fewer = call.clone();
            fewer.lengths.remove(at);
            calls.push(fewer);
        }
        for (start, end) in ranges(call.readings.len()) {
            let mut fewer = call.clone();
            Rc::make_mut(&mut fewer.readings).drain(start..end);
            calls.push(fewer);
        }
    }
    for readings in simpler_readings(&call.readings) {
        calls.push(Call {
            readings: Rc::new(readings),
            ..call.clone()
        });
    }
    let exactly = Lent::exactly(n as usize, lengths.len(), call.lent.pool);
    let mut tried = vec![call.lent; 4];
    tried[0].cuts = call.lent.cuts.min(exactly.cuts);
    tried[1].floats = call.lent.floats.min(exactly.floats);
    tried[2].indices = call.lent.indices.min(exactly.indices);
    tried[3].pool = call.lent.pool / 400 * 200;
    for lent in tried {
        let size = |lent: &Lent| lent.cuts + lent.floats + lent.indices + lent.pool;
        if size(&lent) < size(&call.lent) {
            calls.push(Call {
                lent,
                ..call.clone()
            });
        }
    }
    let mut settings = vec![call.settings; 2];
    settings[0].given = call
        .settings
        .given
        .filter(|&m| m != 2)
        .map(|m| m.min(n).max(2));
    settings[1].custom = call
        .settings
        .custom
        .filter(|&value| value == 1.0)
        .or(Some(1.0));
    if settings[0].given != call.settings.given {
        calls.push(Call {
            settings: settings[0],
            ..call.clone()
        });
    }
    if call.settings.custom.is_some_and(|value| value != 1.0) {
        calls.push(Call {
            settings: settings[1],
            ..call.clone()
        });
    }
    calls
}

fn smaller_searches(search: &Search) -> Vec<Case> {
    let numbers = search.numbers;
    let case = |call| Case::Search(Search { call, numbers });
    smaller_calls(&search.call).into_iter().map(case).collect()
}

/// A chart by `new` keeps the last two of its settings.
fn settings_to_shrink(by_new: bool) -> std::ops::Range<usize> {
    0..if by_new { 2 } else { 4 }
}

fn smaller_charts(chart: &Chart) -> Vec<Case> {
    let with = |readings| Chart {
        readings,
        ..chart.clone()
    };
    let smaller = smaller_series(&chart.readings).into_iter();
    let mut charts: Vec<Chart> = smaller.map(with).collect();
    for at in settings_to_shrink(chart.by_new) {
        for value in simpler(chart.settings[at]) {
            let mut changed = chart.clone();
            changed.settings[at] = value;
            charts.push(changed);
        }
    }
    for at in 0..6 {
        if chart.spare[at] > 0 {
            let mut changed = chart.clone();
            changed.spare[at] = 0;
            charts.push(changed);
        }
    }
    charts.into_iter().map(Case::Chart).collect()
}

fn smaller_run_lengths(run_length: &RunLength) -> Vec<Case> {
    let mut smaller = Vec::new();
    for at in settings_to_shrink(run_length.by_new) {
        for value in simpler(run_length.settings[at]) {
            let mut changed = *run_length;
            changed.settings[at] = value;
            smaller.push(Case::RunLength(changed));
        }
    }
    for level in simpler(run_length.level) {
        smaller.push(Case::RunLength(RunLength {
            level,
            ..*run_length
        }));
    }
    smaller
}

/// Readings that are fewer or simpler.
fn smaller_series(readings: &[f64]) -> Vec<Rc<Vec<f64>>> {
    let mut smaller = Vec::new();
    for (start, end) in ranges(readings.len()) {
        let mut shorter = readings.to_vec();
        shorter.drain(start..end);
        smaller.push(Rc::new(shorter));
    }
    smaller.extend(simpler_readings(readings).into_iter().map(Rc::new));
    smaller
}

fn smaller_heard(heard: &Heard) -> Vec<Case> {
    let with = |readings| {
        Case::Heard(Heard {
            readings,
            ..heard.clone()
        })
    };
    smaller_series(&heard.readings)
        .into_iter()
        .map(with)
        .collect()
}

fn smaller_pieces(piece: &Piece) -> Vec<Case> {
    let mut pieces = Vec::new();
    let moved = |place: usize, start: usize, end: usize| match place {
        _ if place >= end => place - (end - start),
        _ => place.min(start),
    };
    for (start, end) in ranges(piece.readings.len()) {
        let mut shorter = piece.readings.to_vec();
        shorter.drain(start..end);
        pieces.push(Piece {
            readings: Rc::new(shorter),
            start: moved(piece.start, start, end),
            end: moved(piece.end, start, end),
        });
    }
    for readings in simpler_readings(&piece.readings) {
        pieces.push(Piece {
            readings: Rc::new(readings),
            ..piece.clone()
        });
    }
    pieces.into_iter().map(Case::Piece).collect()
}

fn smaller_noises(noise: &Noise) -> Vec<Case> {
    let mut noises = Vec::new();
    let mut with = |readings: Vec<f64>, place: usize, size: usize| {
        let readings = Rc::new(readings);
        noises.push(Case::Noise(Noise {
            readings,
            place,
            size,
        }));
    };
    let Noise { place, size, .. } = *noise;
    for (start, end) in ranges(noise.readings.len()) {
        let mut shorter = noise.readings.to_vec();
        shorter.drain(start..end);
        with(shorter, place, size.saturating_sub(end - start));
    }
    for readings in simpler_readings(&noise.readings) {
        with(readings, place, size);
    }
    if 0 < place && place <= size {
        with(noise.readings.to_vec(), 0, size - place);
    }
    noises
}

/// The smallest call that can be reached from this one, each step by a smaller one that still differs,
/// and what differs.
pub fn shrink(case: Case, lending: &mut Lending, fault: Fault) -> (Case, String) {
    let mut smallest = case;
    let started = Instant::now();
    'smaller: loop {
        for case in smallest.smaller() {
            if started.elapsed() > SHRINKING {
                break 'smaller;
            }
            if case.check(lending, fault).is_err() {
                smallest = case;
                continue 'smaller;
            }
        }
        break;
    }
    let what = smallest.check(lending, fault);
    let what = what.err().unwrap_or("it does not differ again".into());
    (smallest, what)
}

/// Values as they are written, and those that a decimal does not tell apart by their bits.
struct Values<'a>(&'a [f64]);

impl fmt::Display for Values<'_> {
    fn fmt(&self, f: &mut fmt::Formatter) -> fmt::Result {
        write!(f, "[")?;
        for (at, value) in self.0.iter().enumerate() {
            let space = if at > 0 { " " } else { "" };
            match value.is_nan() {
                true => write!(f, "{space}NaN:{:x}", value.to_bits())?,
                false => write!(f, "{space}{value:?}")?,
            }
        }
        write!(f, "]")
    }
}

fn constructor(by_new: bool) -> &'static str {
    match by_new {
        true => "new",
        false => "with_params",
    }
}

fn write_chart(f: &mut fmt::Formatter, chart: &Chart) -> fmt::Result {
    let asked = match chart.points {
        true => "signal_points",
        false => "analyze",
    };
    match chart.kind {
        Kind::Cusum => write!(f, "Cusum")?,
        Kind::Ewma => write!(f, "Ewma of edition {}", chart.edition)?,
    }
    let (by, settings) = (constructor(chart.by_new), Values(&chart.settings));
    write!(f, " by {by}, {asked}: settings {settings}")?;
    write!(f, ", areas longer by {:?}", chart.spare)?;
    write!(f, ", readings {}", Values(&chart.readings))
}

impl fmt::Display for Case {
    fn fmt(&self, f: &mut fmt::Formatter) -> fmt::Result {
        match self {
            Case::Search(Search { call, numbers }) => {
                let several = if call.multi { "_multi" } else { "" };
                let strict = if call.strict { "_strict" } else { "" };
                let cost = if call.settings.normal { "Normal" } else { "L2" };
                write!(f, "detect{several}{strict}: {cost}, ")?;
                match call.settings.custom {
                    None => write!(f, "BIC")?,
                    Some(value) => write!(f, "custom {value:?}")?,
                }
                if let Some((cost, kind)) = numbers {
                    write!(f, ", given as the numbers {cost} and {kind}")?;
                }
                let Lent {
                    cuts,
                    floats,
                    indices,
                    pool,
                } = call.lent;
                write!(
                    f,
                    ", m {}, lengths {:?}",
                    call.settings.least(),
                    call.channels()
                )?;
                write!(
                    f,
                    ", {cuts} cuts, {floats} floats, {indices} indices, {pool} pool floats"
                )?;
                write!(f, ", readings {}", Values(&call.readings))
            }
            Case::Chart(chart) => write_chart(f, chart),
            Case::RunLength(asked) => {
                let by = constructor(asked.by_new);
                write!(
                    f,
                    "run_length by {by}: settings {}",
                    Values(&asked.settings)
                )?;
                write!(f, ", level {}, sum {}", Values(&[asked.level]), asked.sum)
            }
            Case::Heard(heard) => {
                write!(f, "promise 3: settings {}", Values(&heard.settings))?;
                write!(f, ", level {}, sum {}", Values(&[heard.level]), heard.sum)?;
                write!(f, ", readings {}", Values(&heard.readings))
            }
            Case::Piece(piece) => {
                let (start, end) = (piece.start, piece.end);
                write!(
                    f,
                    "piece_summary: {start} to {end} of {}",
                    Values(&piece.readings)
                )
            }
            Case::Noise(noise) => {
                write!(f, "noise_variance: place {} of {}", noise.place, noise.size)?;
                write!(f, ", readings {}", Values(&noise.readings))
            }
        }
    }
}
