//! The logarithm with some hundred bits, to see how far 53 of them are from it. It has nothing from the rule:
//! pairs of floats, the series of artanh with 40 terms, and ln 2 as 2·artanh(1/3).

/// The sum of two floats, of which the second is at most half a unit of the first.
#[derive(Clone, Copy)]
pub struct Pair {
    pub high: f64,
    pub low: f64,
}

/// a + b, exactly.
fn sum_of(a: f64, b: f64) -> Pair {
    let high = a + b;
    let back = high - a;
    let low = (a - (high - back)) + (b - back);
    Pair { high, low }
}

impl Pair {
    fn of(high: f64) -> Pair {
        Pair { high, low: 0.0 }
    }

    fn plus(self, other: Pair) -> Pair {
        let high = sum_of(self.high, other.high);
        let low = sum_of(self.low, other.low);
        let first = sum_of(high.high, high.low + low.high);
        sum_of(first.high, first.low + low.low)
    }

    fn times(self, other: Pair) -> Pair {
        let high = self.high * other.high;
        let rest = self.high.mul_add(other.high, -high);
        let low = rest + (self.high * other.low + self.low * other.high);
        sum_of(high, low)
    }

    fn over(self, other: Pair) -> Pair {
        let digit = |rest: Pair| Pair::of(rest.high / other.high);
        let less = |rest: Pair, digit: Pair| rest.plus(other.times(Pair::of(-digit.high)));
        let first = digit(self);
        let rest = less(self, first);
        let second = digit(rest);
        let third = digit(less(rest, second));
        first.plus(second).plus(third)
    }
}

/// 2·artanh(`s`), by its series; the terms that are left out do not count for an s of up to 1/3.
fn twice_artanh(s: Pair) -> Pair {
    let square = s.times(s);
    let term = |sum: Pair, j: i32| {
        let coefficient = Pair::of(2.0).over(Pair::of(f64::from(2 * j + 1)));
        sum.times(square).plus(coefficient)
    };
    (0..40).rev().fold(Pair::of(0.0), term).times(s)
}

/// The logarithm of an `x` above 0: e·ln 2 and that of an M in [0.75, 1.5).
pub fn ln(x: f64) -> Pair {
    let (normal, moved) = match x < f64::MIN_POSITIVE {
        true => (x * f64::from_bits((1023 + 60) << 52), 60),
        false => (x, 0),
    };
    let bits = normal.to_bits();
    let above = i64::from(bits >> 51 & 1 == 1);
    let e = (bits >> 52) as i64 - 1023 - moved + above;
    let m = f64::from_bits((1023 - above as u64) << 52 | bits & 0x000f_ffff_ffff_ffff);
    let s = Pair::of(m - 1.0).over(sum_of(m, 1.0));
    let ln_2 = twice_artanh(Pair::of(1.0).over(Pair::of(3.0)));
    Pair::of(e as f64).times(ln_2).plus(twice_artanh(s))
}
