//! `crates/candidate/specs`: Boxes, Cuts, Dominated, Losses.

use crate::candidate_sides::{cut_span, far2, gone, narrowed, Span};
use crate::floats::{ahead, get, larger};
use cases::Ball;

// ---- Boxes

#[derive(Clone, Copy)]
pub struct Candidate {
    pub lo: [f64; 2],
    pub hi: [f64; 2],
}

pub fn ball_of(c: f64, d: f64, r2: f64) -> Ball {
    let centre = [c, d];
    Ball { centre, r2 }
}

/// The side of the box along channel k, and the box with another side there.
fn span_at(x: &Candidate, k: usize) -> Span {
    Span {
        lo: x.lo[k],
        hi: x.hi[k],
    }
}

fn with_span(k: usize, s: Span, x: Candidate) -> Candidate {
    let mut y = x;
    y.lo[k] = s.lo;
    y.hi[k] = s.hi;
    y
}

/// A sum over the channels; any number of them but 1 counts as 2.
fn over_channels(channels: usize, g: impl Fn(usize) -> f64) -> f64 {
    if channels == 1 {
        g(0)
    } else {
        g(0) + g(1)
    }
}

/// The box changed along each channel in its turn, by what stands there and the channel.
fn along_each(channels: usize, step: impl Fn(usize, Span) -> Span, x: Candidate) -> Candidate {
    let y = with_span(0, step(0, span_at(&x, 0)), x);
    if channels == 1 {
        y
    } else {
        with_span(1, step(1, span_at(&y, 1)), y)
    }
}

/// The square of the distance from c to a span.
fn gap2(s: Span, c: f64) -> f64 {
    let gap = larger(larger(s.lo - c, c - s.hi), 0.0);
    gap * gap
}

/// The ball is empty, or does not reach over the sum of the gaps.
fn missed(r2: f64, total: f64) -> bool {
    r2 < 0.0 || r2 < total
}

/// A span with nothing in it.
const NOTHING: Span = Span {
    lo: f64::INFINITY,
    hi: f64::NEG_INFINITY,
};

/// The box narrowed to what meets a ball, and with nothing along the first channel where the ball misses it.
pub fn restrict(channels: usize, b: &Ball, x: Candidate) -> Candidate {
    let total = over_channels(channels, |k| gap2(span_at(&x, k), b.centre[k]));
    let room = |k: usize, s: Span| b.r2 - (total - gap2(s, b.centre[k]));
    if missed(b.r2, total) {
        with_span(0, NOTHING, x)
    } else {
        along_each(channels, |k, s| narrowed(s, b.centre[k], room(k, s)), x)
    }
}

// ---- Cuts

/// The box cut by one ball; the total is that of the box before.
fn cut_by(channels: usize, b: &Ball, x: Candidate) -> Candidate {
    let total = over_channels(channels, |k| far2(span_at(&x, k), b.centre[k]));
    let rest = |k: usize, s: Span| total - far2(s, b.centre[k]);
    along_each(
        channels,
        |k, s| cut_span(s, b.centre[k], b.r2, rest(k, s)),
        x,
    )
}

/// The box cut by all balls, each in its turn, until it is empty along the first channel.
pub fn cut_losing(channels: usize, balls: &[Ball], x: Candidate) -> Candidate {
    let mut y = x;
    for b in balls {
        if gone(span_at(&y, 0)) {
            return y;
        }
        y = cut_by(channels, b, y);
    }
    y
}

// ---- Dominated

/// Along one of the channels nothing is left.
pub fn is_dominated(channels: usize, x: &Candidate) -> bool {
    if channels == 1 {
        gone(span_at(x, 0))
    } else {
        gone(span_at(x, 0)) || gone(span_at(x, 1))
    }
}

// ---- Losses

/// How many balls a candidate keeps.
const LOSING_BALLS: usize = 64;

fn radius_at(balls: &[Ball], i: usize) -> f64 {
    balls.get(i).map_or(0.0, |b| b.r2)
}

/// The place of the narrowest of the first i + 1 balls, the earliest on a tie.
fn narrowest_to(balls: &[Ball], i: usize) -> usize {
    let mut narrowest = 0;
    for place in 1..=i {
        if ahead(radius_at(balls, place), radius_at(balls, narrowest)) {
            narrowest = place;
        }
    }
    narrowest
}

/// Another ball at a place, where there is one.
fn set(balls: &mut [Ball], i: usize, b: Ball) {
    if let Some(place) = balls.get_mut(i) {
        *place = b;
    }
}

/// A 65th is turned away if its radius compares at or below the narrowest one's; otherwise the last ball
/// moves into the freed place and the new one goes last.
fn displace(b: Ball, balls: &mut [Ball]) {
    let i = narrowest_to(balls, 63);
    if b.r2 <= radius_at(balls, i) {
        return;
    }
    set(balls, i, get(balls, 63, b));
    set(balls, 63, b);
}

/// `lose_inside`: an empty ball is not kept; one that is no number is.
pub fn lose_inside(b: Ball, balls: &mut Vec<Ball>) {
    if b.r2 <= 0.0 {
        return;
    }
    if balls.len() < LOSING_BALLS {
        balls.push(b);
    } else {
        displace(b, balls);
    }
}
