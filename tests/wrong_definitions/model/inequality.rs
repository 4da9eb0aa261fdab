//! `crates/search_rules/specs`: Inequality.

use crate::floats::get;
use crate::minimum::{kept_to, scan_to, Best};

/// F and the predecessors of 0 to n, of which those before t are known, and the candidates, in order.
struct State {
    f: Vec<f64>,
    last: Vec<usize>,
    candidates: Vec<usize>,
}

/// What a segment costs over all channels, the penalty and the minimum length.
struct Task<C: Fn(usize, usize) -> f64> {
    cost: C,
    penalty: f64,
    m: usize,
}

impl<C: Fn(usize, usize) -> f64> Task<C> {
    /// A candidate takes part in the minimum at t from the age of m on.
    fn old_enough(&self, t: usize, tau: usize) -> bool {
        self.m <= t.saturating_sub(tau)
    }

    /// F(tau) and the cost from tau to t; a candidate younger than m is held as minus infinity.
    fn part_of(&self, f: &[f64], t: usize, tau: usize) -> f64 {
        if self.old_enough(t, tau) {
            get(f, tau, f64::NAN) + (self.cost)(tau, t)
        } else {
            f64::NEG_INFINITY
        }
    }

    /// The best at t.
    fn best_at(&self, t: usize, s: &State) -> Best {
        let takes_part = |tau| self.old_enough(t, tau);
        let total = |tau| self.part_of(&s.f, t, tau) + self.penalty;
        scan_to(takes_part, total, &s.candidates)
    }

    /// A candidate stays exactly when its part is below F(t) plus the penalty.
    fn stays_at(&self, t: usize, f: &[f64], ft: f64, tau: usize) -> bool {
        self.part_of(f, t, tau) < ft + self.penalty
    }

    /// Step t: F(t) and its predecessor are noted, candidates go, then t joins.
    fn step_of(&self, t: usize, s: &mut State) {
        let best = self.best_at(t, s);
        let stays = |tau| self.stays_at(t, &s.f, best.cost, tau);
        let mut candidates = kept_to(stays, &s.candidates);
        candidates.push(t);
        s.candidates = candidates;
        s.f[t] = best.cost;
        s.last[t] = best.tau;
    }
}

/// F(0) is minus the penalty; t runs from m to n.
pub fn predecessors(
    cost: impl Fn(usize, usize) -> f64,
    penalty: f64,
    m: usize,
    n: usize,
) -> Vec<usize> {
    let mut state = State {
        f: vec![0.0; n + 1],
        last: vec![0; n + 1],
        candidates: vec![0],
    };
    state.f[0] = -penalty;
    let task = Task { cost, penalty, m };
    for t in m..=n {
        task.step_of(t, &mut state);
    }
    state.last
}
