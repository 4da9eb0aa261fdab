//! Channels made for the search of the middle differences: their differences are of lengths about which the search does
//! something else, and are equal, of two scales, rising, falling, infinite, NaN, or in an order in which every pivot is
//! a bad one. Each is in room that is exactly full.

use crate::inputs::Random;
use crate::runs::Run;

/// Makes so many differences, which are whole numbers or infinite, or NaN.
type Kind = fn(&mut Random, usize) -> Vec<f64>;

const KINDS: [Kind; 12] = [
    equal,
    two_scales,
    four_values,
    rising,
    falling,
    any_order,
    bad_pivots,
    all_nan,
    half_nan,
    some_nan,
    half_infinite,
    infinite_or_nan,
];

/// How many differences: about 8, up to which they are put in order after a round, about 9 and 128, from which on more
/// of them give the pivot, and longer ones.
const COUNTS: [usize; 19] = [
    1, 2, 7, 8, 9, 10, 11, 12, 63, 64, 65, 127, 128, 129, 255, 256, 257, 511, 512,
];

fn equal(random: &mut Random, count: usize) -> Vec<f64> {
    vec![random.below(3) as f64; count]
}

fn two_scales(random: &mut Random, count: usize) -> Vec<f64> {
    let mut step = || match random.below(2) {
        0 => 1.0 + random.below(9) as f64,
        _ => 1e12 + random.below(9) as f64,
    };
    (0..count).map(|_| step()).collect()
}

fn four_values(random: &mut Random, count: usize) -> Vec<f64> {
    (0..count).map(|_| random.below(4) as f64).collect()
}

fn rising(_: &mut Random, count: usize) -> Vec<f64> {
    (0..count).map(|at| 1.0 + at as f64).collect()
}

fn falling(_: &mut Random, count: usize) -> Vec<f64> {
    (0..count).map(|at| (count - at) as f64).collect()
}

fn any_order(random: &mut Random, count: usize) -> Vec<f64> {
    (0..count).map(|_| random.below(1 << 40) as f64).collect()
}

/// The places, of `count`, that give the pivot: 3, 9 or 27 of them, evenly about the middle one.
fn looked_at(count: usize) -> Vec<usize> {
    let (reach, step) = match count {
        0..=8 => (1, count / 3),
        9..=127 => (4, count / 9),
        _ => (13, count / 27),
    };
    let middle = count / 2;
    (0..=2 * reach)
        .map(|at| middle + at * step - reach * step)
        .collect()
}

/// The pivot by the values looked at: of three, or of three such.
fn pivot_of(values: &[f64]) -> f64 {
    if values.len() == 1 {
        return values[0];
    }
    let mut three: Vec<f64> = values.chunks(values.len() / 3).map(pivot_of).collect();
    three.sort_by(f64::total_cmp);
    three[1]
}

/// The places that are looked at have the lowest values of those that are left, so that a round gives up few: of 1,023
/// and more, 16 rounds do not find the middle.
fn bad_pivots(_: &mut Random, count: usize) -> Vec<f64> {
    let mut steps = vec![f64::INFINITY; count];
    let mut left: Vec<usize> = (0..count).collect();
    let (mut next, mut rounds) = (1.0, 0);
    while left.len() > count / 2 {
        let places = looked_at(left.len());
        for &at in &places {
            if steps[left[at]] == f64::INFINITY {
                steps[left[at]] = next;
                next += 1.0;
            }
        }
        let values: Vec<f64> = places.iter().map(|&at| steps[left[at]]).collect();
        let pivot = pivot_of(&values);
        left.retain(|&place| steps[place] > pivot);
        rounds += 1;
    }
    assert!(count < 1023 || rounds > 16, "{rounds} rounds");
    for step in steps.iter_mut().filter(|step| step.is_infinite()) {
        *step = next;
        next += 1.0;
    }
    steps
}

fn all_nan(_: &mut Random, count: usize) -> Vec<f64> {
    vec![f64::NAN; count]
}

/// Of an even number of them the lower middle one is a number, and the upper one NaN; or one number more, or one less.
fn half_nan(random: &mut Random, count: usize) -> Vec<f64> {
    let numbers = (count / 2 + random.below(3) as usize).saturating_sub(1);
    let mut steps = any_order(random, count);
    steps[numbers.min(count)..].fill(f64::NAN);
    steps
}

fn some_nan(random: &mut Random, count: usize) -> Vec<f64> {
    let mut steps = any_order(random, count);
    for step in steps.iter_mut() {
        if random.below(6) == 0 {
            *step = f64::NAN;
        }
    }
    steps
}

fn half_infinite(random: &mut Random, count: usize) -> Vec<f64> {
    let finite = (count / 2 + random.below(4) as usize).saturating_sub(2);
    let mut steps = any_order(random, count);
    steps[finite.min(count)..].fill(f64::INFINITY);
    steps
}

/// The middle ones are infinite, or NaN, or one of each.
fn infinite_or_nan(random: &mut Random, count: usize) -> Vec<f64> {
    let mut steps = half_infinite(random, count);
    let numbers = (count / 2 + random.below(3) as usize).min(count);
    steps[numbers..].fill(f64::NAN);
    steps
}

/// Readings with these differences: up by one and down by the next, so that whole numbers stay exact. Where a difference
/// is infinite the largest value and its opposite take turns, and behind a NaN there are NaNs.
fn readings_of(steps: &[f64]) -> Vec<f64> {
    let mut readings = vec![0.0];
    for (at, &step) in steps.iter().enumerate() {
        let (last, up) = (readings[at], at % 2 == 0);
        readings.push(match step {
            step if step.is_nan() => f64::NAN,
            f64::INFINITY if up => f64::MAX,
            f64::INFINITY => -f64::MAX,
            step if last.is_nan() && up => step,
            step if up => last + step,
            step => last - step,
        });
    }
    readings
}

fn run(random: &mut Random, kind: Kind, count: usize) -> Run {
    Run::full(readings_of(&kind(random, count)))
}

/// One run of each kind and count, and two that 16 rounds do not end.
pub fn runs(random: &mut Random) -> Vec<Run> {
    let of_kind = |kind: Kind| COUNTS.map(|count| (kind, count));
    let asked = KINDS.into_iter().flat_map(of_kind);
    let longest: [(Kind, usize); 2] = [(bad_pivots, 1023), (bad_pivots, 1024)];
    asked
        .chain(longest)
        .map(|(kind, count)| run(random, kind, count))
        .collect()
}

/// One run of each kind, with any number of differences, at times the most that a channel has.
pub fn of_any_length(random: &mut Random) -> Vec<Run> {
    let mut of_kind = |kind| {
        let count = match random.below(16) {
            0 => 4094 + random.below(2) as usize,
            _ => 1 + random.below(700) as usize,
        };
        run(random, kind, count)
    };
    KINDS.into_iter().map(&mut of_kind).collect()
}
