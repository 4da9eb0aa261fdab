//! `crates/candidate_sides/specs`: Reach, Slabs.

use crate::elementary::sqrt;
use crate::floats::{larger, smaller};

#[derive(Clone, Copy)]
pub struct Span {
    pub lo: f64,
    pub hi: f64,
}

// ---- Reach

/// The part of a span that a ball reaches, where room is what the other channels leave of r2.
pub fn narrowed(s: Span, c: f64, room: f64) -> Span {
    let w = sqrt(larger(room, 0.0));
    Span {
        lo: larger(s.lo, c - w),
        hi: smaller(s.hi, c + w),
    }
}

/// Nothing is left of a span.
pub fn gone(s: Span) -> bool {
    s.hi < s.lo
}

// ---- Slabs

/// The square of the distance from c to the farther end of a span.
pub fn far2(s: Span, c: f64) -> f64 {
    let low = s.lo - c;
    let high = s.hi - c;
    larger(low * low, high * high)
}

/// v lies from c - w to c + w.
fn inside(c: f64, w: f64, v: f64) -> bool {
    c - w <= v && v <= c + w
}

/// v, and another number in its place where it lies inside.
fn moved(c: f64, w: f64, v: f64, to: f64) -> f64 {
    if inside(c, w, v) {
        to
    } else {
        v
    }
}

/// A low end inside goes to c + w, and a high end inside to c - w.
fn cut_ends(s: Span, c: f64, w: f64) -> Span {
    Span {
        lo: moved(c, w, s.lo, c + w),
        hi: moved(c, w, s.hi, c - w),
    }
}

/// A span cut where the ball reaches past the rest, which is what the other channels have of far2.
pub fn cut_span(s: Span, c: f64, r2: f64, rest: f64) -> Span {
    if r2 < rest {
        s
    } else {
        cut_ends(s, c, sqrt(r2 - rest))
    }
}
