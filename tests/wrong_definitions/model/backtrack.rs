//! `crates/backtrack/specs`: Cuts.

use crate::floats::get;

/// The predecessor of t; 0 where it is not below t, which no search records.
fn predecessor_of(last: &[usize], t: usize) -> usize {
    let tau = get(last, t, 0);
    if tau < t {
        tau
    } else {
        0
    }
}

/// t, its predecessor, and so on back until 0, lowest first.
fn back_from(last: &[usize], t: usize) -> Vec<usize> {
    if t == 0 {
        return Vec::new();
    }
    let mut cuts = back_from(last, predecessor_of(last, t));
    cuts.push(t);
    cuts
}

/// The cuts of n readings: from the predecessor of n back.
pub fn cuts_of(last: &[usize], n: usize) -> Vec<usize> {
    back_from(last, predecessor_of(last, n))
}
