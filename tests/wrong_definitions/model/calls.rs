//! `crates/worked_examples/specs`: Calls, and what stored cases ask besides.

use crate::candidate::lose_inside;
use crate::charts::{analyzed, points, signalled, signals};
use crate::costs::{area_cost, l2_cost, normal_cost, penalty_of, segment_of};
use crate::cuts_answer::output;
use crate::elementary::{ln, powi, sqrt};
use crate::floats::{abs, finite, larger, smaller};
use crate::functional::{functional, Task};
use crate::noise::{lent, noise, noise_sum_to};
use crate::piece::summarised;
use crate::ranges::{about, range_of};
use crate::refusals::{stated, TABLE};
use crate::search_answer::{asked, detected, penalty_value};
use crate::sums::{channels_of, mean_of, summed};
use crate::{cusum, ewma};
use cases::{Ball, Call, Chart, CusumResult, EwmaResult, Function, Outcome};

pub fn outcome(call: &Call) -> Outcome {
    match call {
        Call::Search(s) => detected(s),
        Call::Resolve(s) => Outcome::Values(vec![penalty_value(asked(s))]),
        Call::Cusum(c, xs, entry) => cusum_outcome(*c, xs, entry),
        Call::CusumPoints(c, xs, entry) => cusum_points(*c, xs, entry),
        Call::RunLength(c, level, sum) => {
            Outcome::Said(cusum::run_length(&cusum::made(*c), *level, *sum))
        }
        Call::Ewma(c, xs, entry) => ewma_outcome(*c, xs, entry),
        Call::EwmaPoints(c, xs, entry) => ewma_points(*c, xs, entry),
        Call::Lose(b, balls) => losing(*b, balls),
        other => part_outcome(other),
    }
}

fn cusum_outcome(chart: Chart, xs: &[f64], entry: &[CusumResult]) -> Outcome {
    let c = cusum::made(chart);
    let records = cusum::records(&c, xs);
    let (said, left) = analyzed(&cusum::tests_of(&c), xs.len(), &records, entry);
    Outcome::Sums(said, left)
}

fn cusum_points(chart: Chart, xs: &[f64], entry: &[usize]) -> Outcome {
    let c = cusum::made(chart);
    let found = points(&cusum::records(&c, xs), |r| signals(r.side));
    let (said, left) = signalled(&cusum::tests_of(&c), xs.len(), &found, entry);
    Outcome::Points(said, left)
}

fn ewma_outcome(chart: Chart, xs: &[f64], entry: &[EwmaResult]) -> Outcome {
    let c = ewma::made(chart);
    let records = ewma::records(&c, xs);
    let (said, left) = analyzed(&ewma::tests_of(&c), xs.len(), &records, entry);
    Outcome::Averages(said, left)
}

fn ewma_points(chart: Chart, xs: &[f64], entry: &[usize]) -> Outcome {
    let c = ewma::made(chart);
    let found = points(&ewma::records(&c, xs), |r| signals(r.side));
    let (said, left) = signalled(&ewma::tests_of(&c), xs.len(), &found, entry);
    Outcome::Points(said, left)
}

fn losing(b: Ball, balls: &[Ball]) -> Outcome {
    let mut left = balls.to_vec();
    lose_inside(b, &mut left);
    Outcome::Losing(left)
}

// ---- what stored cases ask besides

fn part_outcome(call: &Call) -> Outcome {
    match call {
        Call::Elementary(function, x, n) => Outcome::Values(vec![value(*function, *x, *n)]),
        Call::Centre(xs) => Outcome::Values(centre(xs)),
        Call::Segment(xs, a, b) => Outcome::Values(segment(xs, *a, *b)),
        Call::Piece(xs, a, b) => Outcome::Said(summarised(xs, *a, *b)),
        Call::Penalty(penalty, cost, n, k, noise) => {
            Outcome::Values(vec![penalty_of(*penalty, *cost, *n, *k, *noise)])
        }
        Call::Noise(xs, area, place) => by_area(noise(xs), xs.len(), *place, area),
        Call::NoiseSum(run, n, k, area, place) => {
            by_area(noise_sum_to(run, *n, *k), *n, *place, area)
        }
        Call::AreaCost(cost, run, n, k, ends, size) => {
            let channels = channels_of(run, *n, *k);
            Outcome::Values(vec![area_cost(*cost, &channels, *size, *n, *ends)])
        }
        Call::Program(input) => Outcome::Bytes(output(input)),
        Call::Number(place) => Outcome::Values(vec![stated(TABLE[*place]).number as f64]),
        other => predecessors(other),
    }
}

fn value(function: Function, x: f64, n: u64) -> f64 {
    match function {
        Function::Sqrt => sqrt(x),
        Function::Powi => powi(x, n),
        Function::Ln => ln(x),
        Function::Max => larger(x, f64::from_bits(n)),
        Function::Min => smaller(x, f64::from_bits(n)),
        Function::Abs => abs(x),
        Function::Finite => f64::from(u8::from(finite(x))),
    }
}

/// Nothing is added to each, so that a zero has no sign: the Rust leaves that sign open.
fn centre(xs: &[f64]) -> Vec<f64> {
    let mean = mean_of(xs);
    let range = about(range_of(xs), mean);
    [mean, range.lo, range.hi].map(|x| x + 0.0).to_vec()
}

fn segment(xs: &[f64], a: usize, b: usize) -> Vec<f64> {
    let c = summed(xs);
    let s = segment_of(&c, a, b);
    let ends = [c.sums[a], c.sums[b], c.squares[a], c.squares[b]];
    [&ends[..], &[l2_cost(&s), normal_cost(&s)]].concat()
}

/// A value, and the area by way of which it was found.
fn by_area(value: f64, n: usize, place: usize, area: &[f64]) -> Outcome {
    let (value, left) = lent(value, n, place, area);
    Outcome::Values([&[value], &left[..]].concat())
}

fn predecessors(call: &Call) -> Outcome {
    let Call::Predecessors(penalty, run, n, k, m, slots) = call else {
        panic!("a call of no known form: {call:?}");
    };
    let state = functional(&Task {
        channels: channels_of(run, *n, *k),
        n: *n,
        m: *m,
        penalty: *penalty,
    });
    Outcome::Predecessors(state.peak <= *slots, state.last)
}
