//! `crates/search_answer/specs`: Search, Outcome; `crates/pelt/specs`: Detected.

use crate::areas::rest_of;
use crate::backtrack::cuts_of;
use crate::costs::{cost_to, penalty_of};
use crate::functional::{functional, Task};
use crate::inequality::predecessors;
use crate::noise::noise_sum_to;
use crate::readings::first_length;
use crate::refusals::{refusing, tried, Refusal, Test};
use crate::search_tests::{search_tests, Lengths};
use crate::sums::channels_of;
use cases::{Areas, Cost, Outcome, Penalty, Said, Search, Settings};

// ---- Detected

/// `new` has a minimum length of 2.
pub fn least_of(settings: Settings) -> usize {
    settings.least.unwrap_or(2)
}

// ---- Search

/// What is searched: a run of k channels with n readings each.
#[derive(Clone, Copy)]
pub struct Asked<'a> {
    pub cost: Cost,
    pub penalty: Penalty,
    pub m: usize,
    pub run: &'a [f64],
    pub n: usize,
    pub k: usize,
    pub slots: usize,
}

/// The resolved penalty.
pub fn penalty_value(q: Asked) -> f64 {
    penalty_of(q.penalty, q.cost, q.n, q.k, noise_sum_to(q.run, q.n, q.k))
}

/// By the inequality search.
fn pruned_cuts(q: Asked, penalty: f64) -> Vec<usize> {
    let channels = channels_of(q.run, q.n, q.k);
    let price = |tau, t| cost_to(q.cost, &channels, tau, t);
    cuts_of(&predecessors(price, penalty, q.m, q.n), q.n)
}

/// By the functional search; nothing where its list of living candidates would hold more than the slots,
/// which is 9.
fn functional_cuts(task: &Task, slots: usize) -> Option<Vec<usize>> {
    let s = functional(task);
    if s.peak <= slots {
        Some(cuts_of(&s.last, task.n))
    } else {
        None
    }
}

/// L2 on one or two channels takes the functional search, all else the inequality search.
fn takes_functional(cost: Cost, k: usize) -> bool {
    match cost {
        Cost::L2 => k <= 2,
        Cost::Normal => false,
    }
}

fn cuts_by(q: Asked, penalty: f64) -> Option<Vec<usize>> {
    if takes_functional(q.cost, q.k) {
        let task = Task {
            channels: channels_of(q.run, q.n, q.k),
            n: q.n,
            m: q.m,
            penalty,
        };
        functional_cuts(&task, q.slots)
    } else {
        Some(pruned_cuts(q, penalty))
    }
}

/// A penalty at or below 0 gives no cuts; a NaN penalty goes on.
fn cuts_with(q: Asked, penalty: f64) -> Option<Vec<usize>> {
    if penalty <= 0.0 {
        Some(Vec::new())
    } else {
        cuts_by(q, penalty)
    }
}

/// n below twice the minimum length: no cuts.
pub fn cuts_found(q: Asked) -> Option<Vec<usize>> {
    if (q.n as u128) < 2 * q.m as u128 {
        Some(Vec::new())
    } else {
        cuts_with(q, penalty_value(q))
    }
}

// ---- Outcome

/// The number of cuts, or 9 where the slots do not suffice.
fn found_answer(found: &Option<Vec<usize>>) -> Said {
    match found {
        Some(cuts) => Said::Answered(vec![cuts.len()]),
        None => refusing(Refusal::Pool),
    }
}

/// Cuts fill the front of the cuts area and the rest is unchanged; with 9 all of it is.
fn cuts_left(found: &Option<Vec<usize>>, before: &[usize]) -> Vec<usize> {
    match found {
        Some(cuts) => [cuts, rest_of(before, cuts.len())].concat(),
        None => before.to_vec(),
    }
}

/// A work area is zero, beyond the room asked too.
fn zeros<T: Copy>(zero: T, before: &[T]) -> Vec<T> {
    vec![zero; before.len()]
}

/// A search that nothing refuses before 9.
fn found_outcome(found: Option<Vec<usize>>, before: &Areas) -> Outcome {
    let left = Areas {
        cuts: cuts_left(&found, &before.cuts),
        floats: zeros(0.0, &before.floats),
        indices: zeros(0, &before.indices),
        pool: zeros(0.0, &before.pool),
    };
    Outcome::Searched(found_answer(&found), left)
}

/// A refusal before 9 changes no area.
fn unchanged(before: &Areas, refusal: Refusal) -> Outcome {
    Outcome::Searched(refusing(refusal), before.clone())
}

/// The tests of a search with these settings in these areas.
fn tests_of(s: &Search) -> Vec<Test> {
    let q = asked(s);
    let lent = Lengths {
        cuts: s.areas.cuts.len(),
        floats: s.areas.floats.len(),
        indices: s.areas.indices.len(),
    };
    search_tests(s.strict, q.penalty, q.m, q.run, &s.lengths, lent)
}

/// A search as it is asked for; a slot is 200 floats, and slots are whole ones.
pub fn asked(s: &Search) -> Asked<'_> {
    Asked {
        cost: s.settings.cost,
        penalty: s.settings.penalty,
        m: least_of(s.settings),
        run: &s.run,
        n: first_length(&s.lengths),
        k: s.lengths.len(),
        slots: s.areas.pool.len() / 200,
    }
}

/// The first refusal before 9, or what is found.
pub fn detected(s: &Search) -> Outcome {
    tried(
        |refusal| unchanged(&s.areas, refusal),
        &tests_of(s),
        || found_outcome(cuts_found(asked(s)), &s.areas),
    )
}
