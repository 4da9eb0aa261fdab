//! Square root, whole power and logarithm, on inputs of every kind.
//!
//! A root has to be the platform's, which IEEE 754 fixes to the bit. It does not fix the other two, so
//! they have to be what rules 4.2 and 4.3 give. How far powers and logarithms are from the
//! platform's is printed and held to nothing; `precision` says more of the logarithm.

use crate::faults::Fault;
use crate::inputs::{Kind, Random, LOGARITHM_KINDS, POWER_KINDS, ROOT_KINDS};
use crate::rules;
use std::fmt::Debug;

/// The largest exponent that a chart asks for, twice the place 4,096.
const LARGEST_CHART_EXPONENT: u64 = 8192;

/// How many results were compared, and how many of them differ.
#[derive(Default)]
pub struct Tally {
    pub compared: usize,
    pub differ: usize,
}

impl Tally {
    pub fn add(&mut self, other: Tally) {
        self.compared += other.compared;
        self.differ += other.differ;
    }
}

/// `count` inputs of each kind.
struct Trial<'a> {
    random: &'a mut Random,
    count: usize,
    fault: Fault,
    tally: Tally,
}

impl Trial<'_> {
    /// Compares the results with what is expected, and prints the first of each kind that differ; prints
    /// the largest distance from the platform's, with an input that has it. The platform gives none for
    /// an input that it is not to be asked.
    fn compare<T: Copy + Debug>(
        &mut self,
        name: &str,
        kinds: &[(&str, Kind<T>)],
        ours: impl Fn(T) -> f64,
        expected: impl Fn(T) -> f64,
        platform: impl Fn(T) -> Option<f64>,
    ) {
        let mut farthest = None;
        let before = self.tally.compared;
        for (kind_name, kind) in kinds {
            for input in kind(self.random, self.count) {
                let got = rules::pattern(ours(input)) ^ u64::from(self.fault.is("elementary"));
                let due = rules::pattern(expected(input));
                self.tally.compared += 1;
                if got != due {
                    self.tally.differ += 1;
                    if self.tally.differ <= 20 {
                        println!("{name}, {kind_name}, {input:x?}: {got:016x} and not {due:016x}");
                    }
                }
                let apart = platform(input).map(|value| distance(f64::from_bits(got), value));
                if apart > farthest.map(|(most, _)| most) {
                    farthest = apart.map(|apart| (apart, input));
                }
            }
        }
        let compared = self.tally.compared - before;
        let (most, input) = farthest.expect("an input");
        print!("{name}: {compared} compared; farthest from the platform's: {most} units in the last place");
        match most {
            0 => println!(),
            _ => println!(", at {input:x?}"),
        }
    }
}

/// How many values two results lie apart, which is their distance in units in the last place.
pub fn distance(a: f64, b: f64) -> u64 {
    match (a.is_nan(), b.is_nan()) {
        (true, true) => 0,
        (false, false) => place(a).abs_diff(place(b)),
        _ => u64::MAX,
    }
}

/// The place of a number among all, counted from the zeros.
fn place(x: f64) -> i64 {
    let magnitude = x.abs().to_bits() as i64;
    if x.is_sign_negative() {
        -magnitude
    } else {
        magnitude
    }
}

/// The logarithm that is due, or one by another last step where a fault asks for it.
fn ln_due(x: f64, fault: Fault) -> f64 {
    let (high, low) = rules::parts_of_ln_2();
    let rounded = high + low;
    if fault.is("ln 2 in one part") {
        rules::ln_by(x, |e, product| e * rounded + product)
    } else if fault.is("a low part that the rounded ln 2 leaves") {
        rules::ln_by(x, |e, product| e * high + (product + e * (rounded - high)))
    } else if fault.is("the high part's product first") {
        rules::ln_by(x, |e, product| (e * high + product) + e * low)
    } else {
        rules::ln(x)
    }
}

/// Compares `count` inputs of each kind, and prints what was found.
pub fn compare(random: &mut Random, count: usize, fault: Fault) -> Tally {
    let tally = Tally::default();
    let mut trial = Trial {
        random,
        count,
        fault,
        tally,
    };
    let root = |x| f64::from_bits(x).sqrt();
    let ours = |x| overbrindle::sqrt(f64::from_bits(x));
    trial.compare("sqrt", &ROOT_KINDS, ours, root, |x| Some(root(x)));
    let ours = |(x, n)| overbrindle::powi(f64::from_bits(x), n);
    let rule = |(x, n)| rules::powi(f64::from_bits(x), n);
    let platform = |(x, n)| {
        let asked = n <= LARGEST_CHART_EXPONENT;
        asked.then(|| f64::from_bits(x).powi(n as i32))
    };
    trial.compare("powi", &POWER_KINDS, ours, rule, platform);
    let ours = |x| overbrindle::ln(f64::from_bits(x));
    let rule = |x| ln_due(f64::from_bits(x), fault);
    let platform = |x| Some(f64::from_bits(x).ln());
    trial.compare("ln", &LOGARITHM_KINDS, ours, rule, platform);
    trial.tally
}
