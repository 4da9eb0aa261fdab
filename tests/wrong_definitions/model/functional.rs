//! `crates/search_rules/specs`: Functional.

use crate::candidate::{ball_of, cut_losing, is_dominated, lose_inside, restrict, Candidate};
use crate::costs::{cost_to, segment_of};
use crate::floats::{abs, get};
use crate::minimum::{scan_to, Best};
use crate::ranges::{about, range_of, Range};
use crate::sums::Channel;
use cases::{Ball, Cost};

/// What is searched: one or two channels with n readings each.
pub struct Task {
    pub channels: Vec<Channel>,
    pub n: usize,
    pub m: usize,
    pub penalty: f64,
}

/// A living candidate: its place, the box where it can still win, and the balls where it loses.
#[derive(Clone)]
struct Living {
    tau: usize,
    within: Candidate,
    losing: Vec<Ball>,
}

/// F and the predecessors of 0 to n, of which those before t are known; the living candidates, in order, and
/// the most that there have been.
pub struct State {
    f: Vec<f64>,
    pub last: Vec<usize>,
    living: Vec<Living>,
    pub peak: usize,
}

/// What candidates a < b mean to each other: the centre, and the squares of two radii.
struct Facing {
    cx: f64,
    cy: f64,
    outer: f64,
    inner: f64,
}

// ---- the minimum at t

fn price(k: &Task, a: usize, b: usize) -> f64 {
    cost_to(Cost::L2, &k.channels, a, b)
}

fn places(living: &[Living]) -> Vec<usize> {
    living.iter().map(|c| c.tau).collect()
}

fn best_at(k: &Task, t: usize, s: &State) -> Best {
    let total = |tau| get(&s.f, tau, f64::NAN) + price(k, tau, t) + k.penalty;
    scan_to(|_| true, total, &places(&s.living))
}

// ---- what candidates a < b mean to each other

/// The mean of a channel from a up to b, less the channel's mean.
fn centre_along(k: &Task, channel: usize, a: usize, b: usize) -> f64 {
    let s = segment_of(&k.channels[channel], a, b);
    s.sum / s.length
}

/// A number for the second channel, +0 where there is none.
fn besides(k: &Task, v: impl Fn() -> f64) -> f64 {
    if k.channels.len() == 1 {
        0.0
    } else {
        v()
    }
}

/// Room for the rounding of the four terms of the gap between them.
fn slack_of(fb: f64, fa: f64, cost: f64, penalty: f64, len: f64) -> f64 {
    1e-9 * (abs(fb) + abs(fa) + abs(cost) + penalty) / len
}

/// A ball about the mean between them: a can still win only inside the outer one, and b loses inside the
/// inner one.
fn facing(k: &Task, f: &[f64], a: usize, b: usize) -> Facing {
    let len = b.saturating_sub(a) as f64;
    let cost = price(k, a, b);
    let fa = get(f, a, f64::NAN);
    let fb = get(f, b, f64::NAN);
    let gap = (fb - fa - cost) / len;
    let slack = slack_of(fb, fa, cost, k.penalty, len);
    Facing {
        cx: centre_along(k, 0, a, b),
        cy: besides(k, || centre_along(k, 1, a, b)),
        outer: gap + slack,
        inner: gap - slack,
    }
}

fn outer_ball(x: &Facing) -> Ball {
    ball_of(x.cx, x.cy, x.outer)
}

fn inner_ball(x: &Facing) -> Ball {
    ball_of(x.cx, x.cy, x.inner)
}

// ---- b joins

/// The balls where b loses to the candidates.
fn lost_to(k: &Task, f: &[f64], b: usize, living: &[Living]) -> Vec<Ball> {
    let mut balls = Vec::new();
    for c in living {
        lose_inside(inner_ball(&facing(k, f, c.tau, b)), &mut balls);
    }
    balls
}

/// A candidate narrowed by the ball that b faces it with, then cut by its own balls.
fn restricted(k: &Task, f: &[f64], b: usize, c: &Living) -> Living {
    let ball = outer_ball(&facing(k, f, c.tau, b));
    Living {
        within: restrict(k.channels.len(), &ball, c.within),
        ..c.clone()
    }
}

fn cut_back(channels: usize, c: Living) -> Living {
    Living {
        within: cut_losing(channels, &c.losing, c.within),
        ..c
    }
}

/// The candidates that are not dominated then, in their order.
fn winners_to(k: &Task, f: &[f64], b: usize, living: &[Living]) -> Vec<Living> {
    let mut winners = Vec::new();
    for old in living {
        let c = cut_back(k.channels.len(), restricted(k, f, b, old));
        if !is_dominated(k.channels.len(), &c.within) {
            winners.push(c);
        }
    }
    winners
}

/// The range of a channel less its mean.
fn range_along(k: &Task, channel: usize) -> Range {
    let c = &k.channels[channel];
    about(range_of(&c.xs), c.mean)
}

fn range_box(k: &Task) -> Candidate {
    let first = range_along(k, 0);
    Candidate {
        lo: [first.lo, besides(k, || range_along(k, 1).lo)],
        hi: [first.hi, besides(k, || range_along(k, 1).hi)],
    }
}

/// b itself, cut by its balls.
fn born(k: &Task, b: usize, balls: Vec<Ball>) -> Living {
    let young = Living {
        tau: b,
        within: range_box(k),
        losing: balls,
    };
    cut_back(k.channels.len(), young)
}

/// c after the others, unless it is dominated.
fn joined_by(channels: usize, c: Living, mut living: Vec<Living>) -> Vec<Living> {
    if !is_dominated(channels, &c.within) {
        living.push(c);
    }
    living
}

fn join_of(k: &Task, f: &[f64], b: usize, living: &[Living]) -> Vec<Living> {
    let young = born(k, b, lost_to(k, f, b, living));
    joined_by(k.channels.len(), young, winners_to(k, f, b, living))
}

// ---- the steps

/// b = t + 1 - m joins at the end of step t when it is at least m.
fn living_after(k: &Task, f: &[f64], t: usize, living: Vec<Living>) -> Vec<Living> {
    let b = (t + 1).saturating_sub(k.m);
    if k.m <= b {
        join_of(k, f, b, &living)
    } else {
        living
    }
}

fn step_of(k: &Task, t: usize, s: &mut State) {
    let best = best_at(k, t, s);
    s.f[t] = best.cost;
    s.last[t] = best.tau;
    s.living = living_after(k, &s.f, t, std::mem::take(&mut s.living));
    s.peak = s.peak.max(s.living.len());
}

/// F(0) is minus the penalty, and 0 is the one candidate; t runs from m to n.
pub fn functional(k: &Task) -> State {
    let first = Living {
        tau: 0,
        within: range_box(k),
        losing: Vec::new(),
    };
    let mut state = State {
        f: vec![0.0; k.n + 1],
        last: vec![0; k.n + 1],
        living: vec![first],
        peak: 1,
    };
    state.f[0] = -k.penalty;
    for t in k.m..=k.n {
        step_of(k, t, &mut state);
    }
    state
}
