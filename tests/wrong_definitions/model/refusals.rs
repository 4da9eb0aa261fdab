//! `crates/refusals/specs`: Stated, Tried, Said. An answer is what is said of it.

use cases::{Said, Stated};

#[derive(Clone, Copy)]
pub enum Refusal {
    Penalty,
    MinLen,
    Channels,
    Shape,
    Unequal,
    TooLong,
    Room,
    NonFinite(usize, usize),
    Pool,
    Form,
    Piece,
    Target,
    Sigma,
    Weight,
    Bound,
}

/// In the order of rule 2.1.
pub const TABLE: [Refusal; 15] = [
    Refusal::Penalty,
    Refusal::MinLen,
    Refusal::Channels,
    Refusal::Shape,
    Refusal::Unequal,
    Refusal::TooLong,
    Refusal::Room,
    Refusal::NonFinite(0, 1),
    Refusal::Pool,
    Refusal::Form,
    Refusal::Piece,
    Refusal::Target,
    Refusal::Sigma,
    Refusal::Weight,
    Refusal::Bound,
];

fn plain(number: usize) -> Stated {
    let values = Vec::new();
    Stated { number, values }
}

pub fn stated(refusal: Refusal) -> Stated {
    match refusal {
        Refusal::Penalty => plain(1),
        Refusal::MinLen => plain(2),
        Refusal::Channels => plain(3),
        Refusal::Shape => plain(4),
        Refusal::Unequal => plain(5),
        Refusal::TooLong => plain(6),
        Refusal::Room => plain(7),
        Refusal::NonFinite(channel, index) => Stated {
            number: 8,
            values: vec![channel, index],
        },
        Refusal::Pool => plain(9),
        Refusal::Form => plain(10),
        Refusal::Piece => plain(12),
        Refusal::Target => plain(15),
        Refusal::Sigma => plain(16),
        Refusal::Weight => plain(17),
        Refusal::Bound => plain(18),
    }
}

pub type Test = (bool, Refusal);

/// The first refusal whose test holds, and the result, worked out only then, where none does; `refuse` makes
/// an answer of a refusal.
pub fn tried<A>(
    refuse: impl FnOnce(Refusal) -> A,
    tests: &[Test],
    result: impl FnOnce() -> A,
) -> A {
    match tests.iter().find(|test| test.0) {
        Some(test) => refuse(test.1),
        None => result(),
    }
}

/// The first refusal whose test holds, and the count where none does.
pub fn counted(tests: &[Test], count: usize) -> Said {
    tried(refusing, tests, || Said::Answered(vec![count]))
}

/// What is said of a refusal.
pub fn refusing(refusal: Refusal) -> Said {
    Said::Refused(stated(refusal))
}
