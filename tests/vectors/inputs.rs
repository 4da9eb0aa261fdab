//! The kinds of input on which square root, whole power and logarithm are tried. A kind is a
//! function that gives about as many inputs as it is asked for, as bit patterns.

/// What gives the inputs of one kind.
pub type Kind<T> = fn(&mut Random, usize) -> Vec<T>;

pub const ROOT_KINDS: [(&str, Kind<u64>); 7] = [
    ("subnormals", subnormals),
    ("exact squares", squares),
    ("near halfway", near_halfway),
    ("powers of four", powers_of_four),
    ("extremes", extremes),
    ("NaN patterns", not_numbers),
    ("any pattern", any_patterns),
];

pub const LOGARITHM_KINDS: [(&str, Kind<u64>); 7] = [
    ("subnormals", subnormals),
    ("near one", near_one),
    ("near the root of two", near_root_of_two),
    ("longest series", longest_series),
    ("powers of two", powers_of_two),
    ("NaN and negatives", without_logarithm),
    ("any positive", any_positives),
];

/// A base and its exponent.
pub const POWER_KINDS: [(&str, Kind<(u64, u64)>); 5] = [
    ("chart weights", chart_powers),
    ("near one", powers_near_one),
    ("whole bases", whole_powers),
    ("ends of the range", powers_at_the_ends),
    ("NaN, infinite, zero", special_powers),
];

const SIGN: u64 = 1 << 63;
const INFINITY: u64 = 0x7ff0_0000_0000_0000;
const ONE: u64 = 0x3ff0_0000_0000_0000;
const SMALLEST_NORMAL: u64 = 1 << 52;
/// 1.4142135623730951, above which the logarithm's rule halves.
const ROOT_OF_TWO: u64 = 0x3ff6_a09e_667f_3bcd;

/// The generator xorshift64*. With the fixed seed of `new` every run tries the same inputs.
pub struct Random(u64);

impl Random {
    pub fn new() -> Self {
        Random(0x9e37_79b9_7f4a_7c15)
    }

    /// Another sequence for each seed.
    pub fn seeded(seed: u64) -> Self {
        let mut random = Random(seed ^ Random::new().0);
        // One seed would be the state 0, which stays 0.
        random.0 = random.0.max(1);
        for _ in 0..8 {
            random.next();
        }
        random
    }

    pub fn next(&mut self) -> u64 {
        self.0 ^= self.0 >> 12;
        self.0 ^= self.0 << 25;
        self.0 ^= self.0 >> 27;
        self.0.wrapping_mul(0x2545_f491_4f6c_dd1d)
    }

    pub fn below(&mut self, limit: u64) -> u64 {
        (self.next() >> 11) % limit
    }

    /// A number of at most `most` binary digits, where each number of digits is as likely.
    fn of_digits(&mut self, most: u64) -> u64 {
        let digits = 1 + self.below(most);
        self.next() >> (64 - digits)
    }

    /// A pattern's change that multiplies a value by a power of 4, from 4^-480 to 4^480.
    fn power_of_four(&mut self) -> i64 {
        (self.below(961) as i64 - 480) << 53
    }
}

/// The pattern of 2^e, for an e from -1074 to 1023.
fn power_of_two(e: i64) -> u64 {
    if e < -1022 {
        1 << (e + 1074)
    } else {
        ((e + 1023) as u64) << 52
    }
}

/// Every anchor with its neighbours on both sides, as many of them as make up the count.
fn around(anchors: &[u64], count: usize) -> Vec<u64> {
    let reach = (count.div_ceil(anchors.len()) / 2) as u64;
    let neighbours = |&anchor: &u64| anchor.saturating_sub(reach)..=anchor + reach;
    anchors.iter().flat_map(neighbours).collect()
}

fn subnormals(random: &mut Random, count: usize) -> Vec<u64> {
    let subnormal = |at| match at % 2 {
        0 => random.of_digits(52).max(1),
        _ => (random.next() >> 12).max(1),
    };
    (0..count).map(subnormal).collect()
}

/// Squares of whole numbers times powers of 4, and their neighbours.
fn squares(random: &mut Random, count: usize) -> Vec<u64> {
    let square = |_| {
        let root = random.of_digits(26).max(1);
        let pattern = ((root * root) as f64).to_bits();
        pattern.wrapping_add_signed(random.power_of_four())
    };
    let anchors: Vec<u64> = (0..count.div_ceil(3)).map(square).collect();
    around(&anchors, count)
}

/// Values whose root lies close to the middle of two neighbours. For a g of 53 binary digits and an
/// m with m * 2^k = g * (g + 1) - c, the root of m * 2^k is about c / 2g away from g + 1/2.
fn near_halfway(random: &mut Random, count: usize) -> Vec<u64> {
    let mut patterns = Vec::new();
    while patterns.len() < count {
        let c = 2 * random.of_digits(30) as i64 * (1 - 2 * (random.below(2) as i64));
        let root = root_of_product(c as u64, random.below(2));
        let scale = random.power_of_four();
        for k in [52, 53] {
            let found = halfway(root, c, k);
            patterns.extend(found.map(|pattern| pattern.wrapping_add_signed(scale)));
        }
    }
    patterns
}

/// The g with g * (g + 1) = c modulo 2^64 that is even or odd as `g` is, for an even c: Newton's
/// steps double the number of right binary digits, and the slope 2g + 1 is odd.
fn root_of_product(c: u64, mut g: u64) -> u64 {
    for _ in 0..6 {
        let excess = g.wrapping_mul(g.wrapping_add(1)).wrapping_sub(c);
        let slope = g.wrapping_mul(2).wrapping_add(1);
        g = g.wrapping_sub(excess.wrapping_mul(inverse(slope)));
    }
    g
}

/// What an odd number is to be multiplied by for 1 modulo 2^64, by Newton's steps again.
fn inverse(odd: u64) -> u64 {
    let mut inverse = odd;
    for _ in 0..5 {
        inverse = inverse.wrapping_mul(2u64.wrapping_sub(odd.wrapping_mul(inverse)));
    }
    inverse
}

/// The pattern of m * 2^(k - 104) for `near_halfway`'s m, where g, the last digits of `root`, and m
/// have 53 digits.
fn halfway(root: u64, c: i64, k: u32) -> Option<u64> {
    let g = i128::from((root % (1 << k)) | (1 << 52));
    let product = g * (g + 1) - i128::from(c);
    let m = (product >> k) as u64;
    let fits = product % (1 << k) == 0 && m >> 52 == 1;
    fits.then(|| (u64::from(970 + k) << 52) + m)
}

fn powers_of_four(_: &mut Random, count: usize) -> Vec<u64> {
    let anchors: Vec<u64> = (-537..=511).map(|half| power_of_two(2 * half)).collect();
    around(&anchors, count)
}

/// Both ends of the range, the ends of the subnormals and what lies about 1, with both signs.
pub fn extremes(_: &mut Random, count: usize) -> Vec<u64> {
    let mut patterns = Vec::new();
    for step in 0..count.div_ceil(12) as u64 {
        let below = [SMALLEST_NORMAL, ONE].map(|end| end - 1 - step);
        let above = [0, SMALLEST_NORMAL, ONE].map(|end| end + step);
        let positive = [&below[..], &above[..], &[INFINITY - step]].concat();
        patterns.extend(positive.iter().map(|end| end | SIGN));
        patterns.extend(positive);
    }
    patterns
}

/// Quiet and signalling ones of both signs; the first and the last of each sort lead.
pub fn not_numbers(random: &mut Random, count: usize) -> Vec<u64> {
    let ends = [
        1,
        0x7_ffff_ffff_ffff,
        0x8_0000_0000_0000,
        0xf_ffff_ffff_ffff,
    ];
    let mut patterns: Vec<u64> = Vec::new();
    patterns.extend(ends.map(|end| INFINITY | end));
    patterns.extend(ends.map(|end| SIGN | INFINITY | end));
    while patterns.len() < count {
        patterns.push(random.next() | INFINITY | 1 << random.below(52));
    }
    patterns
}

pub fn any_patterns(random: &mut Random, count: usize) -> Vec<u64> {
    (0..count).map(|_| random.next()).collect()
}

/// From 1 outward step by step, and then at distances of every size, from 0.5 to 2.
fn near_one(random: &mut Random, count: usize) -> Vec<u64> {
    let mut patterns = Vec::new();
    for step in 0..count.div_ceil(4) as u64 {
        let distance = random.of_digits(52);
        patterns.extend([ONE + step, ONE - 1 - step, ONE + distance, ONE - distance]);
    }
    patterns
}

/// About the root of two times each power of two.
fn near_root_of_two(_: &mut Random, count: usize) -> Vec<u64> {
    let significand = ROOT_OF_TWO - ONE + SMALLEST_NORMAL;
    let normal = (0..2046).map(|exponent: u64| (exponent << 52) + significand);
    let subnormal = (1..=52).map(|shift| significand >> shift);
    let anchors: Vec<u64> = normal.chain(subnormal).collect();
    around(&anchors, count)
}

/// About the root of two and its half, at distances of every size. The last terms of the series
/// count for most there, and a small e hides none of them.
fn longest_series(random: &mut Random, count: usize) -> Vec<u64> {
    let half = ROOT_OF_TWO - SMALLEST_NORMAL;
    let mut patterns = Vec::new();
    while patterns.len() < count {
        let distance = random.of_digits(48);
        let ends = [ROOT_OF_TWO, half];
        patterns.extend(ends.map(|end| end - distance));
        patterns.extend(ends.map(|end| end + distance));
    }
    patterns
}

/// Every power of two with its neighbours, and both ends of the range.
fn powers_of_two(random: &mut Random, count: usize) -> Vec<u64> {
    let anchors: Vec<u64> = (-1074..=1023).map(power_of_two).collect();
    let mut patterns = extremes(random, count / 10);
    patterns.extend(around(&anchors, count));
    patterns
}

fn without_logarithm(random: &mut Random, count: usize) -> Vec<u64> {
    let mut patterns = not_numbers(random, count / 2);
    while patterns.len() < count {
        patterns.push(random.next() | SIGN);
    }
    patterns
}

fn any_positives(random: &mut Random, count: usize) -> Vec<u64> {
    (0..count).map(|_| random.next() & !SIGN).collect()
}

/// What the charts ask: a base from 0 to 1 to the power of twice a place. A base of the size of
/// 0.5 comes to nothing within few places, so most are closer to 1.
fn chart_powers(random: &mut Random, count: usize) -> Vec<(u64, u64)> {
    let power = |at| {
        let weight = (random.next() >> 11) as f64 / (1u64 << (53 + random.below(11))) as f64;
        ((1.0 - weight).to_bits(), 2 * (1 + at % 4096))
    };
    (0..count as u64).map(power).collect()
}

/// Bases from 0.5 to 2 with exponents up to 8192, and every eighth of any size.
fn powers_near_one(random: &mut Random, count: usize) -> Vec<(u64, u64)> {
    let exponent = |random: &mut Random, at| match at % 8 {
        0 => random.of_digits(64),
        _ => random.below(8193),
    };
    let bases = near_one(random, count).into_iter().enumerate();
    bases
        .map(|(at, base)| (base, exponent(random, at)))
        .collect()
}

/// Whole bases of both signs about 0 with each exponent from 0 on.
fn whole_powers(_: &mut Random, count: usize) -> Vec<(u64, u64)> {
    let half = (count as f64).sqrt() as i64 / 2 + 1;
    let powers = |base: i64| (0..2 * half as u64).map(move |n| ((base as f64).to_bits(), n));
    (-half..=half).flat_map(powers).collect()
}

/// Subnormal and huge bases of both signs.
fn powers_at_the_ends(random: &mut Random, count: usize) -> Vec<(u64, u64)> {
    let power = |at| {
        let digits = random.of_digits(60);
        let base = match at % 2 {
            0 => digits >> 8,
            _ => INFINITY - digits,
        };
        (base | random.next() & SIGN, random.of_digits(4))
    };
    (0..count).map(power).collect()
}

/// Zeros and infinities of both signs with the exponents 0 to 10, and NaN patterns with the same.
fn special_powers(random: &mut Random, count: usize) -> Vec<(u64, u64)> {
    let mut bases = vec![0, SIGN, INFINITY, INFINITY | SIGN];
    bases.extend(not_numbers(random, count / 11));
    let powers = |base| (0..=10).map(move |n| (base, n));
    bases.into_iter().flat_map(powers).collect()
}
