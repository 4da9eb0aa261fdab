//! `crates/floats/specs`: Finite, MaxMin, Ahead. The operations of binary64 are the platform's.

pub fn finite(x: f64) -> bool {
    x.is_finite()
}

pub fn abs(x: f64) -> f64 {
    f64::from_bits(x.to_bits() & !(1 << 63))
}

/// A list's value at a place, and another where there is none.
pub fn get<T: Copy>(xs: &[T], i: usize, other: T) -> T {
    xs.get(i).copied().unwrap_or(other)
}

// ---- MaxMin

#[allow(clippy::eq_op)]
pub fn larger(x: f64, y: f64) -> f64 {
    if x < y {
        y
    } else if x != x {
        y
    } else {
        x
    }
}

#[allow(clippy::eq_op)]
pub fn smaller(x: f64, y: f64) -> f64 {
    if y < x {
        y
    } else if x != x {
        y
    } else {
        x
    }
}

// ---- Ahead

/// y stands before x: it is less, or x alone is NaN.
pub fn ahead(y: f64, x: f64) -> bool {
    y < x || (x.is_nan() && !y.is_nan())
}
