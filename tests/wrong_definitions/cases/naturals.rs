//! Natural numbers of any size, for fractions such as 1 over 10^300 in a row, and the value nearest to a
//! fraction.

use std::cmp::Ordering;

/// Digits to the base 2^32, the lowest first, without a zero at the end.
#[derive(Clone, PartialEq, Debug)]
pub struct Natural(Vec<u32>);

impl Natural {
    pub fn of(mut n: u128) -> Natural {
        let mut digits = Vec::new();
        while n > 0 {
            digits.push(n as u32);
            n >>= 32;
        }
        Natural(digits)
    }

    fn trimmed(mut digits: Vec<u32>) -> Natural {
        while digits.last() == Some(&0) {
            digits.pop();
        }
        Natural(digits)
    }

    fn digit(&self, place: usize) -> u64 {
        u64::from(self.0.get(place).copied().unwrap_or(0))
    }

    pub fn plus(&self, other: &Natural) -> Natural {
        let mut digits = Vec::new();
        let mut carry = 0;
        for place in 0..=self.0.len().max(other.0.len()) {
            let sum = self.digit(place) + other.digit(place) + carry;
            digits.push(sum as u32);
            carry = sum >> 32;
        }
        Natural::trimmed(digits)
    }

    /// The difference, and 0 where the other is larger.
    pub fn less(&self, other: &Natural) -> Natural {
        if self.compare(other) == Ordering::Less {
            return Natural::of(0);
        }
        let mut digits = Vec::new();
        let mut borrowed = 0;
        for place in 0..self.0.len() {
            let taken = other.digit(place) + borrowed;
            digits.push(self.digit(place).wrapping_sub(taken) as u32);
            borrowed = u64::from(self.digit(place) < taken);
        }
        Natural::trimmed(digits)
    }

    /// The same number at a place further up for each digit of the other, times that digit, added.
    pub fn times(&self, other: &Natural) -> Natural {
        let mut product = Natural::of(0);
        for (place, &digit) in other.0.iter().enumerate() {
            let mut digits = vec![0; place];
            digits.extend(self.scaled(u64::from(digit)).0);
            product = product.plus(&Natural::trimmed(digits));
        }
        product
    }

    fn scaled(&self, factor: u64) -> Natural {
        let mut digits = Vec::new();
        let mut carry = 0;
        for place in 0..=self.0.len() {
            let product = self.digit(place) * factor + carry;
            digits.push(product as u32);
            carry = product >> 32;
        }
        Natural::trimmed(digits)
    }

    pub fn to_the(&self, power: &Natural) -> Natural {
        let times = power.small().expect("a power of 64 bits");
        (0..times).fold(Natural::of(1), |product, _| product.times(self))
    }

    pub fn compare(&self, other: &Natural) -> Ordering {
        let by_length = self.0.len().cmp(&other.0.len());
        by_length.then_with(|| self.0.iter().rev().cmp(other.0.iter().rev()))
    }

    /// The number of its binary digits.
    fn size(&self) -> i64 {
        let highest = self.0.last().map_or(0, |d| 32 - d.leading_zeros());
        32 * self.0.len().saturating_sub(1) as i64 + i64::from(highest)
    }

    /// The number, where it has at most 64 binary digits.
    pub fn small(&self) -> Option<u64> {
        (self.0.len() <= 2).then(|| self.digit(1) << 32 | self.digit(0))
    }
}

/// The quotient of two numbers rounded down, of at most 64 binary digits, and whether there is a rest.
fn divided(a: &Natural, b: &Natural) -> (u64, bool) {
    let mut quotient = 0;
    let mut rest = a.clone();
    for bit in (0..64).rev() {
        let part = b.times(&Natural::of(1 << bit));
        if rest.compare(&part) != Ordering::Less {
            rest = rest.less(&part);
            quotient |= 1 << bit;
        }
    }
    (quotient, rest != Natural::of(0))
}

/// 2 to this power times a number, for a power that is not negative.
fn doubled(n: &Natural, power: i64) -> Natural {
    let times = Natural::of(power.max(0) as u128);
    n.times(&Natural::of(2).to_the(&times))
}

/// The value nearest to a/b, at a tie the even one. The quotient is counted in units so small that at
/// least two of its digits have to go; they and the rest decide.
pub fn nearest(a: &Natural, b: &Natural) -> f64 {
    let unit = (a.size() - b.size() - 55).max(-1076);
    let (quotient, rest) = divided(&doubled(a, -unit), &doubled(b, unit));
    let digits = 64 - i64::from(quotient.leading_zeros());
    let lost = (digits - 53).max(-1074 - unit);
    let kept = quotient >> lost;
    let below = quotient - (kept << lost);
    let half = 1 << (lost - 1);
    let up = below > half || below == half && (rest || kept & 1 == 1);
    value(kept + u64::from(up), unit + lost)
}

/// `count` times 2^unit, exactly, or infinity.
fn value(count: u64, unit: i64) -> f64 {
    let two = |power: i64| f64::from_bits(((power + 1023) as u64) << 52);
    let half = unit / 2;
    count as f64 * two(half) * two(unit - half)
}
