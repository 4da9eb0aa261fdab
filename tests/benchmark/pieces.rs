//! Summaries of pieces beside a plain twin of them in Rust, which has no such thing.

use crate::timing::{Best, Row};
use overbrindle::lent;
use std::hint::black_box;

/// Length, mean and spread.
type Summary = (usize, f64, Option<f64>);

/// By the rules and in their order, but without a limit of readings.
fn twin(channel: &[f64], start: usize, end: usize) -> Option<Summary> {
    if start >= end || end > channel.len() {
        return None;
    }
    let centre = channel.iter().sum::<f64>() / channel.len() as f64;
    let advance = |(sum, squares): (f64, f64), readings: &[f64]| {
        let add = |(sum, squares), y| (sum + y, squares + y * y);
        readings
            .iter()
            .map(|x| x - centre)
            .fold((sum, squares), add)
    };
    let before = advance((0.0, 0.0), &channel[..start]);
    let after = advance(before, &channel[start..end]);
    let (sum, squares) = (after.0 - before.0, after.1 - before.1);
    let (length, n) = (end - start, (end - start) as f64);
    let cost = squares - n * (sum / n) * (sum / n);
    let cost = if cost < 0.0 { 0.0 } else { cost };
    let spread = (length > 1).then(|| cost / (length - 1) as f64);
    Some((length, sum / n + centre, spread))
}

fn row(best: Best, name: &str, channel: &[f64], start: usize, end: usize) -> Row {
    let said = overbrindle::piece_summary(channel, start, end).expect("a piece");
    let same = Some((said.length, said.mean, said.spread)) == twin(channel, start, end);
    assert!(same, "the twin says something else");
    let mut ours = || {
        black_box(lent::piece_summary(black_box(channel), start, end));
    };
    let mut theirs = || {
        black_box(twin(black_box(channel), start, end));
    };
    let times = best.of(&mut ours, &mut theirs);
    Row::new(name, times.0, times.1)
}

/// The whole channel, its second half, and its first reading, which has no spread.
pub fn rows(best: Best, channel: &[f64]) -> Vec<Row> {
    let n = channel.len();
    vec![
        row(best, "all readings", channel, 0, n),
        row(best, "the second half", channel, n / 2, n),
        row(best, "one reading", channel, 0, 1),
    ]
}
