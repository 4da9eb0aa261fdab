//! Square root, power and logarithm, the same to the bit on every machine.

use crate::c;

/// The square root, correctly rounded.
///
/// ```
/// assert_eq!(overbrindle::sqrt(2.0), 1.4142135623730951);
/// assert!(overbrindle::sqrt(-1.0).is_nan());
/// ```
pub fn sqrt(x: f64) -> f64 {
    c::overbrindle_sqrt(x)
}

/// `x` to the power `n`, by right-to-left squaring.
///
/// ```
/// assert_eq!(overbrindle::powi(0.5, 3), 0.125);
/// ```
pub fn powi(x: f64, n: u64) -> f64 {
    c::overbrindle_powi(x, n)
}

/// The natural logarithm, by the library's own rule, which may differ from the platform's in the last
/// digits.
///
/// ```
/// assert_eq!(overbrindle::ln(1.0), 0.0);
/// assert_eq!(overbrindle::ln(3.0), 1.0986122886681098);
/// ```
pub fn ln(x: f64) -> f64 {
    c::overbrindle_ln(x)
}
