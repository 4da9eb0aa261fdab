//! Writes stored answers of the Rust's sums, ranges, L2 costs and noise variances, of the piece summaries
//! that follow from them, and of Normal costs and penalties by the logarithm of docs/RULES.md. The crate
//! `replay_sums` has them as its standard input. `tests/vectors/run` makes them.
//!
//! Numbers have their highest byte first, and values are bit patterns, every NaN but a reading's as
//! 7ff8000000000000. A case begins with 33 bytes: a letter and four values.
//!
//! `s`, a piece: its mean, its spread, its L2 cost and its Normal cost. Then the channel: the number of
//! readings in 2 bytes, 8 bytes for each, and a byte that is 0, or 12 where the piece is refused and
//! the values are 0. Then 29 bytes: start and end, 2 bytes each, the channel's mean and range about
//! it, in which a zero has no sign, and a byte that is 1 where the piece has a spread, or 0 where it has
//! none and that value is 0. Then 32 bytes: the running sums at start and end, and those of the squares.
//!
//! `q`, a penalty: a custom value, the sum of the noise variances, and the penalty by BIC for L2 and for
//! Normal. Then 12 bytes: n and the channels, 2 bytes each, and the custom penalty.
//!
//! `r`, a run of channels: the same, where the sum is that of the run's channels. Then 10 bytes, 2 each:
//! the number of readings of all channels; the place of the lent area from which on the differences
//! stand and the area's size; how many places of it are +0 afterwards, which is 0 where it has no room
//! for them and every noise variance is NaN; the number of segments. Then 8 bytes for each reading, 8
//! for the noise variance of each channel, and 20 for each segment: start and end, 2 bytes each, its L2
//! cost and its Normal cost over the channels, which are NaN where the channels have no such segment.
//!
//! `e` ends the cases.

#[allow(dead_code)]
mod inputs;
#[allow(dead_code)]
mod middles;
mod pieces;
#[allow(dead_code)]
mod rules;
mod runs;
#[allow(dead_code)]
mod series;

use inputs::Random;
use pelt_opened::{CostFunction, Penalty};
use pieces::{Piece, PIECE};
use runs::Run;
use std::collections::BTreeMap;
use std::io::{self, BufWriter, Write};

fn write_values(out: &mut impl Write, values: &[f64]) -> io::Result<()> {
    let mut patterns = values.iter().map(|&x| rules::pattern(x).to_be_bytes());
    patterns.try_for_each(|p| out.write_all(&p))
}

/// NaNs as they are.
fn write_readings(out: &mut impl Write, readings: &[f64]) -> io::Result<()> {
    let mut patterns = readings.iter().map(|x| x.to_bits().to_be_bytes());
    patterns.try_for_each(|p| out.write_all(&p))
}

fn write_short(out: &mut impl Write, n: usize) -> io::Result<()> {
    let short = u16::try_from(n).expect("a number of 2 bytes");
    out.write_all(&short.to_be_bytes())
}

/// The Normal cost of a segment, from its L2 cost, with the rules' logarithm.
fn normal_cost(l2: f64, length: f64) -> f64 {
    let variance = l2 / length;
    match variance <= 0.0 {
        true => length * rules::ln(f64::MIN_POSITIVE),
        false => length * rules::ln(variance),
    }
}

fn write_piece(out: &mut impl Write, piece: &Piece) -> io::Result<()> {
    let (readings, start, end) = (&piece.readings[..], piece.start, piece.end);
    let (sums, squares, mean) = pelt_opened::opened_sums(readings);
    let (lo, hi) = pelt_opened::opened_range(readings);
    let (mut values, mut running) = ([0.0; 4], [0.0; 4]);
    let summary = piece.summary();
    let spread = summary.as_ref().and_then(|summary| summary.spread);
    if let Some(summary) = &summary {
        let (l2, length) = (summary.l2, summary.length as f64);
        let spread = spread.unwrap_or(0.0);
        values = [summary.mean, spread, l2, normal_cost(l2, length)];
        running = [sums[start], sums[end], squares[start], squares[end]];
    }
    out.write_all(b"s")?;
    write_values(out, &values)?;
    write_short(out, readings.len())?;
    write_readings(out, readings)?;
    out.write_all(&[if summary.is_some() { 0 } else { PIECE }])?;
    write_short(out, start)?;
    write_short(out, end)?;
    write_values(out, &[mean + 0.0, lo + 0.0, hi + 0.0])?;
    out.write_all(&[u8::from(spread.is_some())])?;
    write_values(out, &running)
}

fn write_pieces(out: &mut impl Write, pieces: &[Piece]) -> io::Result<()> {
    pieces.iter().try_for_each(|piece| write_piece(out, piece))
}

/// How many pieces are refused, and how many have a spread of each sort.
fn say_pieces<'a>(pieces: impl Iterator<Item = &'a Piece>) {
    let mut sorts: BTreeMap<&str, usize> = BTreeMap::new();
    for piece in pieces {
        let summary = piece.summary();
        let sort = summary.map_or("refused", |summary| summary.sort());
        *sorts.entry(sort).or_default() += 1;
    }
    let sorts: Vec<String> = sorts
        .iter()
        .map(|(sort, n)| format!("{n} {sort}"))
        .collect();
    eprintln!("of the pieces {}", sorts.join(", "));
}

/// The penalties by BIC for L2 and for Normal, with this logarithm of n.
fn bic(logarithm: f64, channels: usize, noise: f64) -> [f64; 2] {
    [1.0 * logarithm * noise, 2.0 * logarithm * channels as f64]
}

fn write_penalty(
    out: &mut impl Write,
    letter: u8,
    value: f64,
    noise: f64,
    n: usize,
    channels: usize,
) -> io::Result<()> {
    let [l2, normal] = bic(rules::ln(n as f64), channels, noise);
    out.write_all(&[letter])?;
    write_values(out, &[value, noise, l2, normal])?;
    write_short(out, n)?;
    write_short(out, channels)?;
    write_values(out, &[value * channels as f64])
}

fn write_penalties(out: &mut impl Write, random: &mut Random) -> io::Result<usize> {
    let mut penalties = 0;
    for n in [0, 1, 2, 3, 4, 100, 1000, 4095, 4096] {
        for channels in 0..=8 {
            for noise in [0.0, 1.5, 1e300, f64::INFINITY, f64::NAN] {
                let value = f64::from_bits(random.next());
                write_penalty(out, b'q', value, noise, n, channels)?;
                penalties += 1;
            }
        }
    }
    Ok(penalties)
}

/// What is stored of a run's penalties is the Rust's own `resolve_penalty` but for the logarithm: with
/// the platform's in its place the values are the same.
fn assert_penalties(run: &Run, value: f64) {
    let (signals, n) = (run.signals(), run.length());
    let noise = pelt_opened::opened_noise_sum(&signals);
    let [l2, normal] = bic((n as f64).ln(), signals.len(), noise);
    let custom = value * signals.len() as f64;
    let own = |cost, penalty| pelt_opened::opened_penalty(cost, penalty, n, &signals);
    let rust = [
        own(CostFunction::L2, Penalty::Bic),
        own(CostFunction::Normal, Penalty::Bic),
        own(CostFunction::L2, Penalty::Custom(value)),
        own(CostFunction::Normal, Penalty::Custom(value)),
    ];
    let stored = [l2, normal, custom, custom];
    assert_eq!(rust.map(rules::pattern), stored.map(rules::pattern));
}

/// The L2 cost and the Normal cost of a segment over the channels.
fn costs_of(signals: &[&[f64]], start: usize, end: usize) -> [f64; 2] {
    if start >= end || end > signals[0].len() {
        return [f64::NAN; 2];
    }
    let length = (end - start) as f64;
    let normal = |s: &&[f64]| normal_cost(pelt_opened::opened_l2(s, start, end), length);
    let l2 = pelt_opened::opened_l2_of(signals, start, end);
    [l2, signals.iter().map(normal).sum()]
}

/// One that no search refuses.
fn custom_value(random: &mut Random) -> f64 {
    let accepted = |value: &f64| value.is_finite() && *value > 0.0;
    let mut values = std::iter::repeat_with(|| f64::from_bits(random.next()));
    values.find(accepted).expect("a value")
}

fn write_run(out: &mut impl Write, random: &mut Random, run: &Run) -> io::Result<()> {
    let signals = run.signals();
    let value = custom_value(random);
    assert_penalties(run, value);
    let room = run.cleared().is_some();
    let in_room = |noise: f64| if room { noise } else { f64::NAN };
    let sum = in_room(pelt_opened::opened_noise_sum(&signals));
    write_penalty(out, b'r', value, sum, run.length(), signals.len())?;
    write_short(out, signals.len() * run.length())?;
    write_short(out, run.place)?;
    write_short(out, run.size)?;
    write_short(out, run.cleared().unwrap_or(0))?;
    write_short(out, run.segments.len())?;
    write_readings(out, &signals.concat())?;
    for signal in &signals {
        write_values(out, &[in_room(pelt_opened::opened_noise(signal))])?;
    }
    for &(start, end) in &run.segments {
        write_short(out, start)?;
        write_short(out, end)?;
        write_values(out, &costs_of(&signals, start, end))?;
    }
    Ok(())
}

fn write_runs(out: &mut impl Write, random: &mut Random, runs: &[Run]) -> io::Result<()> {
    runs.iter().try_for_each(|run| write_run(out, random, run))
}

fn main() -> io::Result<()> {
    let mut out = BufWriter::new(io::stdout().lock());
    let mut random = Random::new();
    let pieces = pieces::pieces(&mut random);
    write_pieces(&mut out, &pieces)?;
    let penalties = write_penalties(&mut out, &mut random)?;
    let mut runs = runs::runs(&mut random);
    write_runs(&mut out, &mut random, &runs)?;
    let nearly_equal = pieces::nearly_equal(&mut random);
    write_pieces(&mut out, &nearly_equal)?;
    let middles = middles::runs(&mut random);
    write_runs(&mut out, &mut random, &middles)?;
    runs.extend(middles);
    out.write_all(&[&b"e"[..], &[0; 32]].concat())?;
    let channels: usize = runs.iter().map(|run| run.channels.len()).sum();
    let segments: usize = runs.iter().map(|run| run.segments.len()).sum();
    let runs = runs.len();
    let all = pieces.len() + nearly_equal.len();
    eprintln!("{all} pieces, {penalties} penalties");
    say_pieces(pieces.iter().chain(&nearly_equal));
    eprintln!("{runs} runs, {channels} channels, {segments} segments");
    out.flush()
}
