//! The rules of docs/RULES.md for whole powers and the logarithm, in Rust. They are written from the text
//! alone, in its order of operations, so that they do not repeat a mistake of ours.

/// The bit pattern of `x`. NaNs count as one value, so every NaN has the same one. The test is on the
/// bits: asked whether the float is NaN, Rust 1.95 leaves a root's own NaN bits in place.
pub fn pattern(x: f64) -> u64 {
    let bits = x.to_bits();
    match bits & !(1 << 63) > f64::INFINITY.to_bits() {
        true => 0x7ff8_0000_0000_0000,
        false => bits,
    }
}

/// `x` to the power `n`: for the lowest bit first, multiply the result if the bit is set, then
/// square the base if bits remain.
pub fn powi(x: f64, n: u64) -> f64 {
    let mut result = 1.0;
    let mut base = x;
    let mut bits = n;
    while bits != 0 {
        if bits & 1 == 1 {
            result *= base;
        }
        bits >>= 1;
        if bits != 0 {
            base *= base;
        }
    }
    result
}

/// ln 2 in two parts: 0.6931471805599453 with its low 21 bits cleared, and the value nearest to what ln 2
/// itself has beyond that.
pub fn parts_of_ln_2() -> (f64, f64) {
    let high = f64::from_bits(0.6931471805599453_f64.to_bits() >> 21 << 21);
    (high, 7382048951581814.0 / (1u128 << 85) as f64)
}

/// The natural logarithm of `x`.
pub fn ln(x: f64) -> f64 {
    let (high, low) = parts_of_ln_2();
    ln_by(x, |e, product| e * high + (product + e * low))
}

/// The same by another last step, which is given e and (2·s)·P.
pub fn ln_by(x: f64, last_step: impl Fn(f64, f64) -> f64) -> f64 {
    if x.is_nan() || x < 0.0 {
        return f64::NAN;
    }
    if x == 0.0 {
        return f64::NEG_INFINITY;
    }
    if x == f64::INFINITY {
        return x;
    }
    let (mut m, mut e) = split(x);
    if m > 1.4142135623730951 {
        m /= 2.0;
        e += 1;
    }
    let s = (m - 1.0) / (m + 1.0);
    last_step(f64::from(e), (2.0 * s) * series(s * s))
}

/// M and e with `x` = M * 2^e and M in [1, 2), for an `x` that is finite and above zero.
fn split(x: f64) -> (f64, i32) {
    if x < f64::MIN_POSITIVE {
        let (m, e) = split(x * f64::from_bits((1023 + 54) << 52));
        return (m, e - 54);
    }
    let e = (x.to_bits() >> 52) as i32 - 1023;
    let m = f64::from_bits(x.to_bits() & 0x000f_ffff_ffff_ffff | 0x3ff0_0000_0000_0000);
    (m, e)
}

/// P of the rule.
fn series(z: f64) -> f64 {
    let mut p = 1.0 / 21.0;
    for j in (0..=9).rev() {
        p = p * z + 1.0 / f64::from(2 * j + 1);
    }
    p
}
