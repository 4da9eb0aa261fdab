//! How far the logarithm is from the platform's and from the number itself, by the size of the exponent.
//!
//! Printed beside it is the rule of document 01, with ln 2 in one part, which request 10 replaced. Two things
//! are held: that nothing changed where the exponent is 0, and that results for large exponents are as near as
//! the request wants them.

use crate::elementary::{distance, Tally};
use crate::faults::Fault;
use crate::hundred_bits::{ln, Pair};
use crate::inputs::Random;
use crate::rules;

/// A class of inputs by their exponents: its name, whether the exponent is 0 throughout, how far from the
/// logarithm itself a result may be, if that is held, and an input.
struct Class {
    name: &'static str,
    at_zero: bool,
    most: Option<f64>,
    draw: fn(&mut Random, usize) -> f64,
}

/// x = M·2^e, with the M of the rule, which is above 0.7071 and at most 1.4142.
const CLASSES: [Class; 7] = [
    class("|e| at least 500", |random, _| far_exponent(random)).held_to(0.51),
    class("subnormals", |random, _| {
        f64::from_bits((random.next() >> 12 >> random.below(51)).max(1))
    }),
    class("whole numbers from 2 to 4,096", |_, i| {
        (2 + i % 4095) as f64
    }),
    class("from 2 to 4,096", |random, _| scaled(random, 1, 11)),
    class("all normal", |random, _| scaled(random, -1022, 1023)),
    class("e 0 or -1", |random, i| {
        near_one(random) / [1.0, 2.0][i % 2]
    }),
    class("e 0", |random, _| near_one(random)).unchanged(),
];

const fn class(name: &'static str, draw: fn(&mut Random, usize) -> f64) -> Class {
    Class {
        name,
        at_zero: false,
        most: None,
        draw,
    }
}

impl Class {
    const fn held_to(self, most: f64) -> Class {
        Class {
            most: Some(most),
            ..self
        }
    }

    const fn unchanged(self) -> Class {
        Class {
            at_zero: true,
            ..self
        }
    }
}

/// Any M in [1, 2), times a power of two from 2^`low` to 2^`high`.
fn scaled(random: &mut Random, low: i64, high: i64) -> f64 {
    let exponent = 1023 + low + random.below((high - low + 1) as u64) as i64;
    f64::from_bits((exponent as u64) << 52 | random.next() >> 12)
}

fn far_exponent(random: &mut Random) -> f64 {
    match random.below(2) {
        0 => scaled(random, 500, 1023),
        _ => scaled(random, -1022, -501),
    }
}

/// A value above 0.7071 and at most 1.4142, whose exponent by the rule is 0.
fn near_one(random: &mut Random) -> f64 {
    let (least, most) = (0x3fe6_a09e_667f_3bcd, 0x3ff6_a09e_667f_3bcd);
    f64::from_bits(least + 1 + random.below(most - least))
}

/// How far `value` is from what `exact` stands for, in units of its last place.
fn units(value: f64, exact: Pair) -> f64 {
    let exponent = exact.high.to_bits() >> 52 & 0x7ff;
    let unit = f64::from_bits(exponent.saturating_sub(52) << 52);
    ((value - exact.high) - exact.low).abs() / unit
}

// ---- by class

/// What is seen of one rule on one class.
#[derive(Default)]
struct Seen {
    farthest: f64,
    correct: usize,
    from_platform: u64,
}

impl Seen {
    fn note(&mut self, value: f64, exact: Pair, platform: f64) {
        self.farthest = self.farthest.max(units(value, exact));
        self.correct += usize::from(value == exact.high);
        self.from_platform = self.from_platform.max(distance(value, platform));
    }

    fn say(&self, count: usize) -> String {
        let share = 100.0 * self.correct as f64 / count as f64;
        let Seen {
            farthest,
            from_platform,
            ..
        } = self;
        format!("at most {farthest:.3} from ln itself, {share:.2}% correctly rounded, at most {from_platform} from the platform's")
    }
}

/// The logarithm of `x` by the library, or by what a fault puts in its place.
fn said(class: &Class, x: f64, one_part: f64, fault: Fault) -> f64 {
    if fault.is("ln as far off as before") {
        return one_part;
    }
    let flipped = fault.is("ln changed where e is 0") && class.at_zero;
    f64::from_bits(overbrindle::ln(x).to_bits() ^ u64::from(flipped))
}

/// `count` inputs of a class, and what was found, in a line; distances are in units of the last place.
fn compare_class(class: &Class, random: &mut Random, count: usize, fault: Fault) -> Tally {
    let mut tally = Tally::default();
    let (mut now, mut before) = (Seen::default(), Seen::default());
    for i in 0..count {
        let x = (class.draw)(random, i);
        let exact = ln(x);
        let one_part = rules::ln_by(x, |e, product| e * 0.6931471805599453 + product);
        let ours = said(class, x, one_part, fault);
        now.note(ours, exact, x.ln());
        before.note(one_part, exact, x.ln());
        let changed = class.at_zero && ours.to_bits() != one_part.to_bits();
        let far = class.most.is_some_and(|most| units(ours, exact) > most);
        tally.compared += 1;
        if changed || far {
            tally.differ += 1;
            if tally.differ == 1 {
                println!("ln, {}, {:x}: {ours:e}", class.name, x.to_bits());
            }
        }
    }
    let (now, before) = (now.say(count), before.say(count));
    println!("ln, {}: {now}; with ln 2 in one part {before}", class.name);
    tally
}

/// All classes, a line each.
pub fn compare(random: &mut Random, count: usize, fault: Fault) -> Tally {
    let mut tally = Tally::default();
    for class in &CLASSES {
        tally.add(compare_class(class, random, count, fault));
    }
    tally
}
