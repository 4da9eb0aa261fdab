//! `crates/elementary/specs`: Root, Power, Logarithm.

// ---- Root

/// Of a number above zero the platform's root, which IEEE 754 has rounded correctly.
fn near_root(x: f64) -> f64 {
    x.sqrt()
}

/// NaN and negatives give NaN; zeros and +infinity are themselves.
pub fn sqrt(x: f64) -> f64 {
    if x.is_nan() {
        f64::NAN
    } else if x == 0.0 {
        x
    } else if x < 0.0 {
        f64::NAN
    } else if x == f64::INFINITY {
        x
    } else {
        near_root(x)
    }
}

// ---- Power

/// The result, multiplied by the base if the bit is set.
fn times_if(bit: u64, result: f64, base: f64) -> f64 {
    if bit == 0 {
        result
    } else {
        result * base
    }
}

/// For the lowest bit of n first: multiply the result if it is set, then square the base.
fn pow_from(n: u64, base: f64, result: f64) -> f64 {
    if n == 0 {
        return result;
    }
    pow_from(n / 2, base * base, times_if(n % 2, result, base))
}

/// x to the power n: the result is 1 at first.
pub fn powi(x: f64, n: u64) -> f64 {
    pow_from(n, x, 1.0)
}

// ---- Logarithm

/// P after j has run from n - 1 down to 0: each time it becomes P·z + 1/(2j+1).
fn series(n: u32, z: f64, p: f64) -> f64 {
    let term = |p: f64, j: u32| p * z + 1.0 / f64::from(2 * j + 1);
    (0..n).rev().fold(p, term)
}

/// ln 2 in two parts.
const LN_TWO_HIGH: f64 = 2977044471.0 / (1u64 << 32) as f64;
const LN_TWO_LOW: f64 = 7382048951581814.0 / (1u128 << 85) as f64;

/// e times the high part is added to the sum of (2·s)·P and e times the low part.
fn last_step(e: f64, s: f64, p: f64) -> f64 {
    e * LN_TWO_HIGH + (2.0 * s * p + e * LN_TWO_LOW)
}

/// By the last step, with z = s·s and P from 1/21 on.
fn ln_of(e: i32, s: f64) -> f64 {
    last_step(f64::from(e), s, series(10, s * s, 1.0 / 21.0))
}

/// An M above 1.4142135623730951 is halved and e is one more; then s = (M - 1) / (M + 1).
fn ln_scaled(m: f64, e: i32) -> f64 {
    let high = 1.4142135623730951 < m;
    let n = if high { m / 2.0 } else { m };
    ln_of(if high { e + 1 } else { e }, (n - 1.0) / (n + 1.0))
}

/// A number above zero is M·2^(d - 1074) for an M in [1, 2), with d + 1 binary digits of the count of the
/// smallest value; its digits are those of the pattern, and a normal number has one more in front.
fn ln_number(x: f64) -> f64 {
    let (exponent, fraction) = (x.to_bits() >> 52, x.to_bits() % (1 << 52));
    let leading = if exponent == 0 { 0 } else { 1 << 52 };
    let digits = fraction | leading;
    let size = 63 - digits.leading_zeros();
    let m = digits as f64 / (1u64 << size) as f64;
    let d = size as i32 + (exponent as i32 - 1).max(0);
    ln_scaled(m, d - 1074)
}

pub fn ln(x: f64) -> f64 {
    if x.is_nan() {
        f64::NAN
    } else if x == 0.0 {
        f64::NEG_INFINITY
    } else if x < 0.0 {
        f64::NAN
    } else if x == f64::INFINITY {
        x
    } else {
        ln_number(x)
    }
}
