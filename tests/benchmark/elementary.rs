//! Our square root, power and logarithm beside the platform's.

use crate::inputs::Random;
use crate::timing::{Best, Row};
use std::hint::black_box;

const VALUES: usize = 4096;
const PASSES: usize = 100;

/// The platform's root as a function that is called, as ours is, and not an instruction in place.
#[inline(never)]
fn called_sqrt(x: f64) -> f64 {
    x.sqrt()
}

/// `PASSES` passes in which no call waits for another's result.
fn apart<'a, T: Copy>(values: &'a [T], f: impl Fn(T) -> f64 + 'a) -> impl FnMut() + 'a {
    let mut results = vec![0.0; values.len()];
    move || {
        for _ in 0..PASSES {
            for (result, &value) in results.iter_mut().zip(values) {
                *result = f(value);
            }
            black_box(&mut results);
        }
    }
}

/// `PASSES` passes in which each call waits for the one before, and for a multiplication.
fn chained<'a>(values: &'a [f64], f: impl Fn(f64) -> f64 + 'a) -> impl FnMut() + 'a {
    let step = move |y, &value: &f64| f(y * value);
    move || {
        for _ in 0..PASSES {
            black_box(values.iter().fold(1.5, &step));
        }
    }
}

/// Values of 250 sizes about 1.
fn wide_values(random: &mut Random) -> Vec<f64> {
    let value = |_| f64::from_bits((898 + random.below(250)) << 52 | random.next() >> 12);
    (0..VALUES).map(value).collect()
}

/// Values from 1 to 4, with which a chain of roots stays in that range.
fn narrow_values(random: &mut Random) -> Vec<f64> {
    let value = |_| 1.0 + 3.0 * ((random.next() >> 11) as f64 / (1u64 << 53) as f64);
    (0..VALUES).map(value).collect()
}

/// Values between 0.7072 and 1.4142, whose exponent is 0.
fn near_one_values(random: &mut Random) -> Vec<f64> {
    let value = |_| 0.7072 + 0.707 * ((random.next() >> 11) as f64 / (1u64 << 53) as f64);
    (0..VALUES).map(value).collect()
}

/// What a chart asks at each of its places: a base close to 1, and twice the place.
fn chart_values(random: &mut Random) -> Vec<(f64, u64)> {
    let value = |place| {
        let weight = (random.next() >> 11) as f64 / (1u64 << 60) as f64;
        (1.0 - weight, 2 * place)
    };
    (1..=VALUES as u64).map(value).collect()
}

/// A row of microseconds a thousand calls.
fn row(best: Best, name: &str, mut ours: impl FnMut(), mut platform: impl FnMut()) -> Row {
    let (mine, theirs) = best.of(&mut ours, &mut platform);
    let thousands = (PASSES * VALUES) as f64 / 1000.0;
    Row::new(name, mine / thousands, theirs / thousands)
}

pub fn rows(best: Best, random: &mut Random) -> Vec<Row> {
    let wide = wide_values(random);
    let narrow = narrow_values(random);
    let chart = chart_values(random);
    let root = || apart(&wide, overbrindle::sqrt);
    let chain = chained(&narrow, overbrindle::sqrt);
    let powers = apart(&chart, |(x, n)| overbrindle::powi(x, n));
    let platform = apart(&chart, |(x, n)| x.powi(n as i32));
    vec![
        row(best, "sqrt, both called", root(), apart(&wide, called_sqrt)),
        row(
            best,
            "sqrt, the platform's in place",
            root(),
            apart(&wide, f64::sqrt),
        ),
        row(
            best,
            "sqrt, each waits for the last",
            chain,
            chained(&narrow, called_sqrt),
        ),
        row(best, "powi, n twice the place", powers, platform),
    ]
}

/// Logarithms of values of many sizes, of values near 1, and of numbers of readings, as BIC asks them.
pub fn ln_rows(best: Best, random: &mut Random) -> Vec<Row> {
    let kinds = [
        ("ln", wide_values(random)),
        ("ln, near 1", near_one_values(random)),
        (
            "ln, whole numbers up to 4,096",
            (1..=VALUES as u32).map(f64::from).collect(),
        ),
    ];
    let timed = |(name, values): &(&str, Vec<f64>)| {
        let ours = apart(values, overbrindle::ln);
        row(best, name, ours, apart(values, f64::ln))
    };
    kinds.iter().map(timed).collect()
}
