//! The settings and the series on which the charts' answers are stored. A kind is a function that
//! makes one of its sort; all draw from one generator, so every run makes the same. A NaN among the
//! readings has a pattern that was drawn, or is `sum`'s, so it is the same on every processor.

use crate::inputs::{extremes, not_numbers, Random};

/// How a chart is made, and its settings: target, sigma, and then k and h of a CUSUM chart or lambda
/// and L of an EWMA chart. By `new` it has the last two of its own.
pub struct Settings {
    pub by_new: bool,
    pub values: [f64; 4],
}

impl Settings {
    pub fn with(values: [f64; 4]) -> Self {
        let by_new = false;
        Settings { by_new, values }
    }
}

pub type SettingsKind = fn(&mut Random) -> Settings;

/// Makes a number of readings about a centre, at a scale: a chart's target and sigma.
pub type SeriesKind = fn(&mut Random, f64, f64, usize) -> Vec<f64>;

pub const CUSUM_SETTINGS: [SettingsKind; 7] = [
    usual_cusum,
    new_cusum,
    exact_cusum,
    zero_cusum,
    tiny_cusum,
    huge_cusum,
    mixed_cusum,
];

pub const EWMA_SETTINGS: [SettingsKind; 7] = [
    usual_ewma,
    new_ewma,
    whole_weight,
    tiny_weight,
    zero_ewma,
    narrow_or_wide_ewma,
    mixed_ewma,
];

pub const SERIES_KINDS: [SeriesKind; 13] = [
    constant,
    noise,
    stepped,
    drifting,
    halves,
    gaps,
    infinities,
    any_values,
    ends,
    overflowing,
    one_sided,
    subnormals,
    zeros,
];

/// From the smallest value to the largest.
const SIZES: [f64; 10] = [
    5e-324,
    1e-310,
    f64::MIN_POSITIVE,
    1e-160,
    1e-17,
    1.0,
    1e16,
    1e160,
    1e300,
    f64::MAX,
];

pub fn pick<T: Copy>(random: &mut Random, values: &[T]) -> T {
    values[random.below(values.len() as u64) as usize]
}

fn either_sign(random: &mut Random, magnitude: f64) -> f64 {
    pick(random, &[magnitude, -magnitude])
}

/// From 0 up to 1.
pub fn fraction(random: &mut Random) -> f64 {
    (random.next() >> 11) as f64 / (1u64 << 53) as f64
}

fn between(random: &mut Random, low: f64, high: f64) -> f64 {
    low + (high - low) * fraction(random)
}

/// About normal, from -6 to 6.
fn bell(random: &mut Random) -> f64 {
    (0..12).map(|_| fraction(random)).sum::<f64>() - 6.0
}

fn usual_target(random: &mut Random) -> [f64; 2] {
    [between(random, -100.0, 100.0), between(random, 0.1, 10.0)]
}

/// A target of any size or sign, and a sigma of any size.
fn mixed_target(random: &mut Random) -> [f64; 2] {
    let magnitude = pick(random, &SIZES) * pick(random, &[0.0, 1.0, 1.0]);
    [either_sign(random, magnitude), pick(random, &SIZES)]
}

fn usual_cusum(random: &mut Random) -> Settings {
    let [target, sigma] = usual_target(random);
    Settings::with([target, sigma, fraction(random), between(random, 0.5, 8.0)])
}

fn new_cusum(random: &mut Random) -> Settings {
    let [target, sigma] = usual_target(random);
    let by_new = true;
    let values = [target, sigma, 0.5, 5.0];
    Settings { by_new, values }
}

/// With halves for readings every sum is exact, so a sum often is h itself.
fn exact_cusum(random: &mut Random) -> Settings {
    let target = random.below(9) as f64 - 4.0;
    let sigma = pick(random, &[0.5, 1.0, 2.0]);
    let h = (1 + random.below(8)) as f64 / 2.0;
    Settings::with([target, sigma, pick(random, &[0.0, 0.5, 1.0]), h])
}

fn zero_cusum(random: &mut Random) -> Settings {
    let [target, k] = [0; 2].map(|_| either_sign(random, 0.0));
    Settings::with([target, pick(random, &[1.0, 2.0]), k, 5.0])
}

fn tiny_cusum(random: &mut Random) -> Settings {
    let [target, sigma, k, h] = [0; 4].map(|_| pick(random, &SIZES[..5]));
    Settings::with([target, sigma, k, h])
}

fn huge_cusum(random: &mut Random) -> Settings {
    let [target, sigma, k, h] = [0; 4].map(|_| pick(random, &SIZES[6..]));
    Settings::with([either_sign(random, target), sigma, k, h])
}

fn mixed_cusum(random: &mut Random) -> Settings {
    let [target, sigma] = mixed_target(random);
    let k = pick(random, &SIZES) * pick(random, &[0.0, 1.0]);
    Settings::with([target, sigma, k, pick(random, &SIZES)])
}

fn usual_ewma(random: &mut Random) -> Settings {
    let [target, sigma] = usual_target(random);
    let weight = 1.0 - fraction(random);
    Settings::with([target, sigma, weight, between(random, 0.5, 4.0)])
}

fn new_ewma(random: &mut Random) -> Settings {
    let [target, sigma] = usual_target(random);
    let by_new = true;
    let values = [target, sigma, 0.2, 3.0];
    Settings { by_new, values }
}

/// A lambda of 1, or next to it.
fn whole_weight(random: &mut Random) -> Settings {
    let [target, sigma] = usual_target(random);
    let weight = pick(random, &[1.0, 1.0, 1.0 - f64::EPSILON / 2.0, 0.999]);
    Settings::with([target, sigma, weight, between(random, 0.5, 4.0)])
}

/// A lambda so small that a power of 1 less lambda stays 1, or nearly so.
fn tiny_weight(random: &mut Random) -> Settings {
    let [target, sigma] = usual_target(random);
    let half = f64::EPSILON / 2.0;
    let weight = pick(random, &[5e-324, 1e-300, half / 2.0, half, 1e-13, 1e-5]);
    let width = pick(random, &[1e-300, 1.0, 3.0, f64::MAX]);
    Settings::with([target, sigma, weight, width])
}

fn zero_ewma(random: &mut Random) -> Settings {
    let target = either_sign(random, 0.0);
    let weight = pick(random, &[1.0, 0.5, 0.2, 5e-324]);
    Settings::with([target, 1.0, weight, pick(random, &[1e-300, 3.0])])
}

/// L times sigma comes to nothing, or is infinite.
fn narrow_or_wide_ewma(random: &mut Random) -> Settings {
    let size = pick(random, &[1e-310, 1e-170, 1e170, f64::MAX]);
    let weight = pick(random, &[1.0, 0.3, 1e-10, 1e-300]);
    Settings::with([between(random, -9.0, 9.0), size, weight, size])
}

fn mixed_ewma(random: &mut Random) -> Settings {
    let [target, sigma] = mixed_target(random);
    let weight = pick(random, &[5e-324, 1e-17, 0.1, 0.3, 0.7, 1.0]);
    Settings::with([target, sigma, weight, pick(random, &SIZES)])
}

/// Values that some setting is refused for: no setting may be one of the first three.
const REFUSED: [f64; 9] = [
    f64::NAN,
    f64::INFINITY,
    f64::NEG_INFINITY,
    0.0,
    -0.0,
    -5e-324,
    -1.0,
    1.0 + f64::EPSILON,
    2.0,
];

/// One of these for which this holds.
pub fn out_of_range(random: &mut Random, refused: impl Fn(f64) -> bool) -> f64 {
    let values: Vec<f64> = REFUSED.into_iter().filter(|&x| refused(x)).collect();
    pick(random, &values)
}

/// Settings of which one is out of range, or at the end of it, where the others are these.
pub fn refused(usual: [f64; 4]) -> Vec<Settings> {
    let at_place = |place| {
        REFUSED.iter().map(move |&value| {
            let mut changed = usual;
            changed[place] = value;
            Settings::with(changed)
        })
    };
    let changed: Vec<_> = (0..4).flat_map(at_place).collect();
    let by_new = [f64::NAN, -1.0].map(|sigma| Settings {
        by_new: true,
        values: [usual[0], sigma, usual[2], usual[3]],
    });
    changed.into_iter().chain(by_new).collect()
}

fn constant(random: &mut Random, centre: f64, scale: f64, count: usize) -> Vec<f64> {
    vec![centre + scale * between(random, -2.0, 2.0); count]
}

fn noise(random: &mut Random, centre: f64, scale: f64, count: usize) -> Vec<f64> {
    (0..count).map(|_| centre + scale * bell(random)).collect()
}

/// Two values that are not NaN, added. Infinity less infinity is 7ff8000000000000: a processor's own NaN
/// has the sign bit on x86-64 and not on Arm.
fn sum(x: f64, y: f64) -> f64 {
    match x.is_infinite() && x == -y {
        true => f64::NAN,
        false => x + y,
    }
}

/// Noise, shifted from one of its readings to the end.
fn stepped(random: &mut Random, centre: f64, scale: f64, count: usize) -> Vec<f64> {
    let place = random.below(count as u64 + 1) as usize;
    let shift = scale * between(random, -3.0, 3.0);
    let mut readings = noise(random, centre, scale, count);
    let shifted = readings[place..].iter_mut();
    shifted.for_each(|x| *x = sum(*x, shift));
    readings
}

fn drifting(random: &mut Random, centre: f64, scale: f64, count: usize) -> Vec<f64> {
    let slope = scale * between(random, -0.2, 0.2);
    let readings = noise(random, centre, scale, count).into_iter().enumerate();
    readings.map(|(at, x)| sum(x, slope * at as f64)).collect()
}

/// The centre and up to three times the scale away from it, in halves.
fn halves(random: &mut Random, centre: f64, scale: f64, count: usize) -> Vec<f64> {
    let half = |_| (random.below(13) as f64 - 6.0) / 2.0;
    (0..count).map(half).map(|z| centre + scale * z).collect()
}

/// Noise with NaNs of every sort: at every second or third place, in the first or the last half,
/// here and there, or everywhere.
fn gaps(random: &mut Random, centre: f64, scale: f64, count: usize) -> Vec<f64> {
    let pattern = random.below(6);
    let missing = not_numbers(random, count);
    let mut readings = noise(random, centre, scale, count);
    for at in 0..count {
        let gap = match pattern {
            0 => at % 2 == 0,
            1 => at % 3 == 1,
            2 => at < count / 2,
            3 => at >= count / 2,
            4 => random.below(4) == 0,
            _ => true,
        };
        if gap {
            readings[at] = f64::from_bits(missing[at]);
        }
    }
    readings
}

fn infinities(random: &mut Random, centre: f64, scale: f64, count: usize) -> Vec<f64> {
    let mut readings = halves(random, centre, scale, count);
    for reading in &mut readings {
        if random.below(4) == 0 {
            *reading = either_sign(random, f64::INFINITY);
        }
    }
    readings
}

fn any_values(random: &mut Random, _: f64, _: f64, count: usize) -> Vec<f64> {
    (0..count).map(|_| f64::from_bits(random.next())).collect()
}

/// The ends of the range, of the subnormals and of what lies about 1, and the centre.
fn ends(random: &mut Random, centre: f64, _: f64, count: usize) -> Vec<f64> {
    let mut values = vec![centre; 4];
    values.extend(extremes(random, 24).into_iter().map(f64::from_bits));
    (0..count).map(|_| pick(random, &values)).collect()
}

fn overflowing(random: &mut Random, centre: f64, scale: f64, count: usize) -> Vec<f64> {
    let values = [f64::MAX, -f64::MAX, 1e308, -1e308, centre, centre + scale];
    (0..count).map(|_| pick(random, &values)).collect()
}

/// The largest value over and over, and then, where the series is long enough, the lowest.
fn one_sided(random: &mut Random, _: f64, _: f64, count: usize) -> Vec<f64> {
    let value = either_sign(random, f64::MAX);
    let mut readings = vec![value; count];
    readings.iter_mut().skip(40).for_each(|x| *x = -value);
    readings
}

fn subnormals(random: &mut Random, _: f64, _: f64, count: usize) -> Vec<f64> {
    let subnormal = |_| {
        let pattern = random.next() >> (12 + random.below(52));
        either_sign(random, f64::from_bits(pattern))
    };
    (0..count).map(subnormal).collect()
}

fn zeros(random: &mut Random, centre: f64, _: f64, count: usize) -> Vec<f64> {
    let values = [0.0, -0.0, 0.0, -0.0, centre];
    (0..count).map(|_| pick(random, &values)).collect()
}
