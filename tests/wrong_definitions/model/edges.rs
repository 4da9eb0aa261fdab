//! Searches at whose neighbours the answer changes, where a difference of one rounding can show: between two
//! values of one number the place is sought by halving.

use crate::calls::outcome;
use cases::{drawn, Call, Drawn, Outcome, Random, Said};

/// What a search says and the cuts area that it leaves, in short.
pub fn brief(call: &Call) -> String {
    match outcome(call) {
        Outcome::Searched(Said::Refused(stated), _) => format!("refusal {}", stated.number),
        Outcome::Searched(_, left) => format!("cuts {:?}", left.cuts),
        other => format!("{other:?}"),
    }
}

/// The search with another value, by its bits, at a place.
fn with(search: &Drawn, place: usize, bits: u64) -> Drawn {
    let mut other = search.clone();
    other.values[place] = f64::from_bits(bits);
    other
}

/// The last value from low up to high whose answer is that of low.
fn edge(search: &Drawn, place: usize, mut low: u64, mut high: u64) -> u64 {
    let at_low = brief(&with(search, place, low).call());
    while low + 1 < high {
        let middle = low + (high - low) / 2;
        match brief(&with(search, place, middle).call()) == at_low {
            true => low = middle,
            false => high = middle,
        }
    }
    low
}

/// A search of `n` readings, and where one of its numbers has an edge the searches about it.
pub fn about_edges(random: &mut Random, n: usize) -> Vec<Drawn> {
    let search = drawn(random, n);
    let place = random.below(search.values.len() as u64) as usize;
    let here = search.values[place];
    let there = drawn(random, n).values.get(place).copied().unwrap_or(1.0);
    let (low, high) = (
        f64::min(here, there).to_bits(),
        f64::max(here, there).to_bits(),
    );
    let answers = [low, high].map(|bits| brief(&with(&search, place, bits).call()));
    if answers[0] == answers[1] {
        return vec![search];
    }
    let edge = edge(&search, place, low, high);
    let about = edge.saturating_sub(3).max(1)..edge + 5;
    about.map(|bits| with(&search, place, bits)).collect()
}
