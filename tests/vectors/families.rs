//! The calls whose answers are stored, by family. All draw from one generator, so every run of the
//! program makes the same.

use crate::calls::{Call, Lent, Settings, SLOT};
use crate::inputs::Random;
use crate::runs::{kinds, quiet, SIZES};
use crate::series::fraction;
use std::rc::Rc;

const NAN: f64 = f64::NAN;
const INFINITY: f64 = f64::INFINITY;
/// The floats of a pool that the replay has room for.
const LARGEST_POOL: usize = 64000;

/// Custom penalties in units of a squared scale, from the smallest to the largest.
const PENALTIES: [f64; 12] = [
    5e-324,
    1e-310,
    1e-300,
    1e-12,
    0.01,
    0.5,
    1.0,
    4.0,
    30.0,
    1e6,
    1e300,
    f64::MAX,
];

/// Channels of one length.
struct Run {
    readings: Rc<Vec<f64>>,
    n: usize,
    channels: usize,
}

impl Run {
    fn new(made: Vec<Vec<f64>>) -> Self {
        let n = made.first().map_or(0, Vec::len);
        let channels = made.len();
        let readings = Rc::new(quiet(made.concat()));
        Run {
            readings,
            n,
            channels,
        }
    }

    fn lengths(&self) -> Vec<u64> {
        vec![self.n as u64; self.channels]
    }

    /// By `detect_multi`, in exactly as much room as is asked, with a pool for n slots, or as many as
    /// there may be.
    fn call(&self, settings: Settings) -> Call {
        let slots = (self.n + 1).min(LARGEST_POOL / SLOT);
        Call {
            multi: true,
            strict: false,
            settings,
            readings: Rc::clone(&self.readings),
            lengths: self.lengths(),
            lent: Lent::exactly(self.n, self.channels, slots * SLOT),
        }
    }

    /// By one of the functions, in a room that often is longer than asked.
    fn any_call(&self, random: &mut Random, settings: Settings) -> Call {
        let mut call = self.call(settings);
        call.multi = self.channels != 1 || random.below(2) == 0;
        call.strict = random.below(4) == 0;
        if settings.normal || self.channels > 2 {
            call.lent.pool = random.below(30) as usize;
        }
        if random.below(2) == 0 {
            call.lent = longer(random, call.lent);
        }
        call
    }
}

fn longer(random: &mut Random, lent: Lent) -> Lent {
    let mut more = |size: usize| size + random.below(9) as usize;
    Lent {
        cuts: more(lent.cuts),
        floats: more(lent.floats),
        indices: more(lent.indices),
        pool: more(lent.pool).min(LARGEST_POOL),
    }
}

fn pick<T: Copy>(random: &mut Random, values: &[T]) -> T {
    values[random.below(values.len() as u64) as usize]
}

pub fn l2(penalty: f64) -> Settings {
    Settings {
        normal: false,
        custom: Some(penalty),
        given: None,
    }
}

pub fn normal(penalty: f64) -> Settings {
    Settings {
        normal: true,
        custom: Some(penalty),
        given: None,
    }
}

pub const L2_BIC: Settings = Settings {
    normal: false,
    custom: None,
    given: None,
};
pub const NORMAL_BIC: Settings = Settings {
    normal: true,
    custom: None,
    given: None,
};

pub fn at_least(settings: Settings, m: u64) -> Settings {
    let given = Some(m);
    Settings { given, ..settings }
}

/// Any cost, penalty and minimum length for n readings of this scale.
pub fn any_settings(random: &mut Random, n: usize, scale: f64) -> Settings {
    let square = scale * scale;
    let unit = if square.is_finite() && square > 0.0 {
        square
    } else {
        1.0
    };
    let value = (pick(random, &PENALTIES) * unit).clamp(5e-324, f64::MAX);
    let lengths = [2, 2, 3, 4, 5, n as u64 / 2, n as u64 / 2 + 1].map(|m: u64| m.max(2));
    Settings {
        normal: random.below(2) == 0,
        custom: (random.below(3) != 0).then_some(value),
        given: (random.below(2) == 0).then(|| pick(random, &lengths)),
    }
}

/// All series of this length over these values.
fn all_series(values: &[f64], length: usize) -> Vec<Vec<f64>> {
    let count = values.len().pow(length as u32);
    let value =
        |at: usize, place: usize| values[at / values.len().pow(place as u32) % values.len()];
    let series = |at| (0..length).map(|place| value(at, place)).collect();
    (0..count).map(series).collect()
}

/// Each series of `channels` channels of n readings over these values, every `step`th of them.
pub fn exhaustive(
    values: &[f64],
    n: usize,
    channels: usize,
    step: usize,
    settings: &[Settings],
) -> Vec<Call> {
    let mut calls = Vec::new();
    let all = all_series(values, n * channels).into_iter().step_by(step);
    for (at, readings) in all.enumerate() {
        let readings = Rc::new(readings);
        let run = Run {
            readings,
            n,
            channels,
        };
        for (place, &setting) in settings.iter().enumerate() {
            let mut call = run.call(setting);
            call.multi = channels > 1 || (at + place) % 2 == 0;
            call.strict = (at / 2 + place) % 4 == 0;
            calls.push(call);
        }
    }
    calls
}

fn short_series(_: &mut Random) -> Vec<Call> {
    let mut calls = Vec::new();
    let four = [l2(1.0), L2_BIC, normal(1.0), NORMAL_BIC];
    for n in 0..4 {
        calls.extend(exhaustive(&[0.0, 1.0, 4.0], n, 1, 1, &four[..1]));
    }
    for n in 4..7 {
        calls.extend(exhaustive(&[0.0, 1.0, 4.0], n, 1, 1, &four));
    }
    let by_three = [at_least(l2(1.0), 3), at_least(normal(1e-300), 3)];
    calls.extend(exhaustive(&[0.0, 1.0, 4.0], 6, 1, 1, &by_three));
    for n in 4..6 {
        let values = [1.0, NAN, INFINITY, -INFINITY];
        calls.extend(exhaustive(&values, n, 1, 1, &[l2(1.0), L2_BIC, NORMAL_BIC]));
    }
    for n in 4..7 {
        let values = [0.0, 1e200, -1e200];
        calls.extend(exhaustive(
            &values,
            n,
            1,
            1,
            &[l2(1e300), L2_BIC, NORMAL_BIC],
        ));
    }
    calls.extend(exhaustive(&[0.0, 4.0], 4, 2, 1, &four));
    calls.extend(exhaustive(&[0.0, 1.0, NAN, INFINITY], 4, 2, 131, &four));
    calls.extend(exhaustive(&[0.0, 1.0, 1e200], 4, 2, 13, &four));
    calls.extend(exhaustive(&[0.0, 4.0], 4, 3, 13, &four));
    calls
}

/// A run of each kind and size with each number of channels, and any settings.
fn of_each_kind(random: &mut Random) -> Vec<Call> {
    let mut calls = Vec::new();
    for kind in kinds() {
        for (centre, scale) in SIZES {
            for channels in 1..=8 {
                let most = if channels < 3 { 70 } else { 24 };
                let n = 4 + random.below(most) as usize;
                let made = (0..channels).map(|_| kind(random, centre, scale, n));
                let run = Run::new(made.collect());
                for _ in 0..7 {
                    let settings = any_settings(random, n, scale);
                    calls.push(run.any_call(random, settings));
                }
            }
        }
    }
    calls
}

/// Pieces at different levels, with noise; every channel changes at the same places, some of them by
/// nothing.
fn stepped(random: &mut Random, n: usize, channels: usize, pieces: usize, noise: f64) -> Run {
    let mut starts: Vec<usize> = (1..pieces)
        .map(|_| random.below(n as u64) as usize)
        .collect();
    starts.sort_unstable();
    let mut made = Vec::new();
    for _ in 0..channels {
        let levels: Vec<f64> = (0..pieces).map(|_| random.below(9) as f64 * 2.5).collect();
        let piece = |i: usize| starts.iter().filter(|&&start| start <= i).count();
        let mut reading = |i| levels[piece(i)] + noise * (fraction(random) - 0.5);
        made.push((0..n).map(&mut reading).collect());
    }
    Run::new(made)
}

fn steps(random: &mut Random) -> Vec<Call> {
    let mut calls = Vec::new();
    for channels in 1..=8 {
        for noise in [0.0, 0.1, 1.0, 6.0] {
            let most = if channels < 3 { 360 } else { 110 };
            let n = 20 + random.below(most) as usize;
            let pieces = 2 + random.below(6) as usize;
            let run = stepped(random, n, channels, pieces, noise);
            for settings in [L2_BIC, NORMAL_BIC, l2(3.0), normal(3.0), l2(40.0)] {
                calls.push(run.any_call(random, settings));
            }
            for _ in 0..7 {
                let settings = any_settings(random, n, 1.0);
                calls.push(run.any_call(random, settings));
            }
        }
    }
    calls
}

/// Small whole numbers and halves, and penalties at which totals are equal.
fn ties(random: &mut Random) -> Vec<Call> {
    let mut calls = Vec::new();
    for at in 0..160 {
        let channels = 1 + at % 3;
        let n = 4 + random.below(10) as usize;
        let value = |random: &mut Random| random.below(5) as f64 / 2.0;
        let made = (0..channels).map(|_| (0..n).map(|_| value(random)).collect());
        let run = Run::new(made.collect());
        for penalty in [0.125, 0.25, 0.5, 1.0, 2.0] {
            calls.push(run.any_call(random, l2(penalty)));
        }
    }
    for (readings, penalties) in [
        (vec![0.0, 0.0, 4.0, 4.0], vec![1.0, 15.5, 16.0]),
        (vec![0.0, 0.0, 4.0, 4.0, 0.0, 0.0], vec![1.0, 8.0, 16.0]),
    ] {
        let run = Run::new(vec![readings]);
        for penalty in penalties {
            let calls_of = [l2(penalty), normal(penalty)].map(|s| run.any_call(random, s));
            calls.extend(calls_of);
        }
    }
    calls
}

/// Channels without a change, some or all of them, and penalties from the smallest up.
fn constant_channels(random: &mut Random) -> Vec<Call> {
    let mut calls = Vec::new();
    for channels in 1..=8 {
        for changing in [0, 1] {
            let n = 4 + random.below(20) as usize;
            let mut made: Vec<Vec<f64>> = (0..channels)
                .map(|_| vec![random.below(7) as f64 - 3.0; n])
                .collect();
            if changing == 1 {
                made[channels - 1][n / 2..].fill(9.0);
            }
            let run = Run::new(made);
            for penalty in PENALTIES {
                calls.push(run.any_call(random, l2(penalty)));
                calls.push(run.any_call(random, normal(penalty)));
            }
            for settings in [L2_BIC, NORMAL_BIC] {
                let call = run.any_call(random, settings);
                calls.push(with_slots(&call, 0));
                calls.push(call);
            }
        }
    }
    calls
}

/// The least lengths, those about half of the readings, and those whose double is large or wraps.
fn minimum_lengths(random: &mut Random) -> Vec<Call> {
    let mut calls = Vec::new();
    for channels in 0..4 {
        for n in [0, 1, 3, 4, 5, 6, 9, 16] {
            let run = stepped_or_empty(random, n, channels);
            let half = n as u64 / 2;
            let large = [
                1 << 62,
                (1 << 63) - 1,
                1 << 63,
                (1 << 63) + 2,
                u64::MAX - 1,
                u64::MAX,
            ];
            let small = [0, 1, 2, 3, 4, half, half + 1, n as u64, 4096];
            for m in small.into_iter().chain(large) {
                let settings = pick(random, &[l2(1.0), L2_BIC, normal(1.0), NORMAL_BIC]);
                let call = run.any_call(random, at_least(settings, m));
                calls.push(with_slots(&call, 0));
                calls.push(call);
            }
        }
    }
    calls
}

fn stepped_or_empty(random: &mut Random, n: usize, channels: usize) -> Run {
    match n {
        0 => Run::new(vec![Vec::new(); channels]),
        _ => stepped(random, n, channels, 2, 0.25),
    }
}

/// Custom penalties that are refused, and the smallest and largest that are not.
fn penalties(random: &mut Random) -> Vec<Call> {
    let refused = [
        NAN,
        -NAN,
        INFINITY,
        -INFINITY,
        0.0,
        -0.0,
        -5e-324,
        -1.0,
        -f64::MAX,
    ];
    let accepted = [5e-324, f64::MIN_POSITIVE, f64::MAX];
    let mut calls = Vec::new();
    for channels in [1, 2, 3, 8] {
        let run = stepped(random, 12, channels, 3, 0.5);
        for penalty in refused.into_iter().chain(accepted) {
            for settings in [l2(penalty), normal(penalty), at_least(l2(penalty), 1)] {
                let mut call = run.call(settings);
                for function in 0..4 {
                    call.multi = function % 2 == 1;
                    call.strict = function > 1;
                    call.lent = Lent::exactly(12 * channels, channels, 40 * SLOT);
                    calls.push(call.clone());
                }
            }
        }
    }
    calls
}

/// Lists of lengths that are refused for a run of `count` readings, and some that are not.
fn lists_of_lengths(count: u64) -> Vec<Vec<u64>> {
    let half = count / 2;
    let wrapped = 0u64.wrapping_sub(count);
    vec![
        vec![count],
        vec![half, half],
        vec![],
        vec![count, 0],
        vec![0, count],
        vec![half, half, 0],
        vec![half - 1, count - half + 1],
        vec![count, count],
        vec![half, half - 1],
        vec![half, half, 1],
        vec![count, wrapped, count],
        vec![wrapped, count, count],
        vec![1 << 63, 1 << 63, count],
        vec![u64::MAX, count + 1],
        vec![u64::MAX; 8],
        vec![1; 8],
        vec![half; 9],
        vec![1; 9],
        vec![count, 0, 0, 0, 0, 0, 0, 0, 0],
        vec![u64::MAX; 12],
        vec![0; 9],
    ]
}

fn shapes(_: &mut Random) -> Vec<Call> {
    let mut calls = Vec::new();
    for count in [4, 8, 9, 10, 16] {
        let series = (0..count).map(|i| f64::from(i / 4)).collect();
        let run = Run::new(vec![series]);
        for lengths in lists_of_lengths(count as u64) {
            for settings in [l2(0.5), NORMAL_BIC] {
                let mut call = run.call(settings);
                call.lengths = lengths.clone();
                call.lent = Lent::exactly(count as usize, 8, 20 * SLOT);
                calls.push(call);
            }
        }
    }
    calls
}

/// Each area a place short, or empty, for each number of channels.
fn rooms(random: &mut Random) -> Vec<Call> {
    let mut calls = Vec::new();
    for channels in 0..=8 {
        for n in [0, 1, 2, 5, 8] {
            let run = stepped_or_empty(random, n, channels);
            for settings in [l2(1.0), NORMAL_BIC] {
                let call = run.call(settings);
                let lent = call.lent;
                let rooms = [
                    lent,
                    Lent {
                        cuts: lent.cuts.saturating_sub(1),
                        ..lent
                    },
                    Lent {
                        floats: lent.floats - 1,
                        ..lent
                    },
                    Lent {
                        indices: lent.indices - 1,
                        ..lent
                    },
                    Lent {
                        floats: 0,
                        ..longer(random, lent)
                    },
                    longer(random, lent),
                ];
                calls.extend(rooms.map(|lent| Call {
                    lent,
                    ..call.clone()
                }));
            }
        }
    }
    calls
}

/// Readings that are not finite at each place, by the strict searches and by the others.
fn gaps(random: &mut Random) -> Vec<Call> {
    let mut calls = Vec::new();
    for channels in 1..=4 {
        for place in 0..5 * channels {
            let whole = stepped(random, 5, channels, 2, 0.5);
            let mut readings = whole.readings.to_vec();
            readings[place] = pick(random, &[NAN, INFINITY, -INFINITY]);
            if random.below(2) == 0 {
                let last = readings.len() - 1;
                readings[last] = NAN;
            }
            let run = Run {
                readings: Rc::new(readings),
                ..whole
            };
            for function in 0..4 {
                let mut call = run.call(pick(random, &[l2(1.0), L2_BIC, NORMAL_BIC]));
                call.multi = function % 2 == 1;
                call.strict = function > 1;
                call.lent = Lent::exactly(5 * channels, channels, 22 * SLOT);
                calls.push(call);
            }
        }
    }
    calls
}

/// Conditions of several refusals at once, for a run with gaps: a bad penalty, a bad minimum length, the
/// lists of lengths, short areas, the strict search, and a pool without a slot.
fn several_at_once(readings: Vec<f64>, lists: &[Vec<u64>], most: usize) -> Vec<Call> {
    let count = readings.len();
    let run = Run::new(vec![readings]);
    let mut calls = Vec::new();
    let full = Lent::exactly(count.min(most), 2, 12 * SLOT);
    for lengths in lists {
        for at in 0..48 {
            let penalty = if at % 2 == 0 { 1.0 } else { NAN };
            let settings = at_least(l2(penalty), 2 - at / 2 % 2);
            let mut call = run.call(settings);
            call.lengths = lengths.clone();
            call.strict = at / 4 % 2 == 0;
            call.lent = match at / 8 {
                0 => full,
                1 => Lent { pool: 0, ..full },
                2 => Lent { cuts: 1, ..full },
                3 => Lent {
                    floats: 3,
                    pool: 0,
                    ..full
                },
                4 => Lent { indices: 2, ..full },
                _ => Lent::exactly(0, 0, 0),
            };
            if lengths.len() == 1 {
                calls.push(Call {
                    multi: false,
                    ..call.clone()
                });
            }
            calls.push(call);
        }
    }
    calls
}

fn combined(_: &mut Random) -> Vec<Call> {
    let mut calls = Vec::new();
    let mut short: Vec<f64> = (0..8).map(|i| f64::from(i / 4) * 3.0).collect();
    short[5] = NAN;
    calls.extend(several_at_once(short, &lists_of_lengths(8), 8));
    let mut long: Vec<f64> = (0..4097).map(|i| f64::from(i % 7)).collect();
    long[4096] = INFINITY;
    let lists = [
        vec![4097],
        vec![4097, 0],
        vec![4097, 4097],
        vec![4096, 1],
        vec![4097, 0, 0, 0, 0, 0, 0, 0, 0],
        vec![4097; 9],
    ];
    calls.extend(several_at_once(long, &lists, 4097));
    calls
}

/// The most candidates that a call has at once, where it searches with slots and the replay has room.
fn peak(call: &Call) -> Option<usize> {
    let peak = call.ruled()?.peak;
    (peak > 0 && peak * SLOT <= LARGEST_POOL).then_some(peak)
}

/// A pool of one float less than the slots that a search needs, of exactly these, and of all but a float
/// of one more.
fn around_peak(call: Call) -> Vec<Call> {
    let Some(peak) = peak(&call) else {
        return Vec::new();
    };
    let floats = [peak * SLOT - 1, peak * SLOT, peak * SLOT + SLOT - 1];
    let lent = |pool: usize| Lent {
        pool: pool.min(LARGEST_POOL),
        ..call.lent
    };
    floats
        .map(|pool| Call {
            lent: lent(pool),
            ..call.clone()
        })
        .to_vec()
}

fn pools(random: &mut Random) -> Vec<Call> {
    let mut calls = Vec::new();
    for (at, kind) in kinds().into_iter().enumerate() {
        for channels in 1..=2 {
            for (centre, scale) in SIZES {
                let n = 4 + random.below(50) as usize;
                let made = (0..channels).map(|_| kind(random, centre, scale, n));
                let run = Run::new(made.collect());
                let settings = [l2(scale * scale.min(1e100)), L2_BIC, at_least(l2(0.01), 3)];
                for setting in settings.map(positive) {
                    calls.extend(around_peak(run.call(setting)));
                }
                if scale == 1.0 && at % 3 == 0 {
                    let call = run.call(settings[0]);
                    calls.extend((0..=41).map(|slots| with_slots(&call, slots)));
                }
            }
        }
    }
    calls
}

fn positive(settings: Settings) -> Settings {
    let custom = settings.custom.map(|value| value.clamp(5e-324, f64::MAX));
    Settings { custom, ..settings }
}

fn with_slots(call: &Call, slots: usize) -> Call {
    let pool = slots * SLOT;
    let lent = Lent { pool, ..call.lent };
    Call {
        lent,
        ..call.clone()
    }
}

/// Ramps with a high penalty, in which candidates lose inside more than 64 balls.
fn ramps(_: &mut Random) -> Vec<Call> {
    let ramp = |n: u32, step: f64| (0..n).map(|i| f64::from(i) * step).collect::<Vec<f64>>();
    let one = Run::new(vec![ramp(300, 1.0)]);
    let two = Run::new(vec![ramp(200, 1.0), ramp(200, 6.0)]);
    let mut calls = Vec::new();
    for run in [one, two] {
        for penalty in [1e6, 1e5, 3e4, 1e3, 10.0] {
            calls.extend(around_peak(run.call(l2(penalty))));
        }
        calls.extend(around_peak(run.call(at_least(l2(1e5), 7))));
        calls.push(run.call(NORMAL_BIC));
    }
    calls
}

/// Lines and curves on two channels with a high penalty, in which more candidates live than a list of
/// balls holds: which of them live on depends on the balls' order.
fn crowds(random: &mut Random) -> Vec<Call> {
    let mut calls = Vec::new();
    for at in 0..240 {
        let n = 100 + random.below(70) as usize;
        let mut channel = || {
            let step = pick(random, &[0.5, 1.0, 2.0, 6.0]);
            let noise = pick(random, &[0.0, 0.5, 3.0]);
            let line = |i: usize| step * i as f64;
            let base = |i: usize| {
                if at % 2 == 0 {
                    line(i)
                } else {
                    10.0 * line(i).sqrt()
                }
            };
            let mut reading = |i| base(i) + noise * (fraction(random) - 0.5);
            (0..n).map(&mut reading).collect()
        };
        let run = Run::new(vec![channel(), channel()]);
        let penalty = pick(random, &[1e4, 3e4, 1e5, 3e5]);
        let call = run.call(l2(penalty));
        if peak(&call) > Some(64) {
            calls.extend(around_peak(call));
        }
    }
    calls
}

/// Halves and penalties so small that the room for rounding decides which candidates live.
fn slack(random: &mut Random) -> Vec<Call> {
    let mut calls = Vec::new();
    for at in 0..24 {
        let n = 20 + random.below(60) as usize;
        let mut channel = || (0..n).map(|_| random.below(4) as f64 / 2.0).collect();
        let made = (0..1 + at % 2).map(|_| channel()).collect();
        let run = Run::new(made);
        for unit in [1e-9, 1e-8, 1e-7] {
            let penalty = unit * (1.0 + fraction(random));
            calls.extend(around_peak(run.call(l2(penalty))));
        }
    }
    calls
}

/// Channels of infinities of one sign: the noise is NaN and so is the penalty by BIC, and the search goes
/// on.
fn nan_penalties(_: &mut Random) -> Vec<Call> {
    let mut calls = Vec::new();
    for channels in 1..=3 {
        for n in 3..12 {
            for value in [INFINITY, -INFINITY] {
                let run = Run::new(vec![vec![value; n]; channels]);
                for settings in [L2_BIC, NORMAL_BIC, at_least(L2_BIC, 3)] {
                    let call = run.call(settings);
                    calls.push(with_slots(&call, 0));
                    calls.extend(around_peak(call.clone()));
                    calls.push(call);
                }
            }
        }
    }
    calls
}

/// Long enough series in which all radii are NaN, or those after the first cost that overflows, so that
/// candidates lose inside more than 64 balls that are none.
fn balls_without_radius(random: &mut Random) -> Vec<Call> {
    let mut calls = Vec::new();
    for channels in 1..=2 {
        for value in [NAN, -NAN, INFINITY, -INFINITY, 1e200] {
            let n = 80 + random.below(60) as usize;
            let mut run = stepped(random, n, channels, 3, 1.0);
            let place = random.below((n * channels) as u64) as usize;
            Rc::make_mut(&mut run.readings)[place] = value;
            for settings in [l2(1.0), L2_BIC] {
                calls.extend(around_peak(run.call(settings)));
            }
        }
        for last in [295, 270, 200] {
            let reading = |i: u32| {
                if i < last {
                    f64::from(i) * 1e150
                } else {
                    3e154
                }
            };
            let run = Run::new(vec![(0..300).map(reading).collect(); channels]);
            for penalty in [1e306, 1e305] {
                calls.extend(around_peak(run.call(l2(penalty))));
            }
        }
    }
    calls
}

/// The longest channels, on 1, 2, 3 and 8 of them.
fn longest(random: &mut Random) -> Vec<Call> {
    let mut calls = Vec::new();
    for (channels, pieces, noise) in [
        (1, 1, 2.0),
        (1, 40, 3.0),
        (2, 30, 3.0),
        (3, 60, 3.0),
        (8, 90, 3.0),
    ] {
        let run = stepped(random, 4096, channels, pieces, noise);
        let functional = [L2_BIC, l2(30.0), at_least(l2(1e-9), 3)];
        for settings in functional {
            let call = run.any_call(random, settings);
            calls.extend(around_peak(call.clone()));
            calls.push(call);
        }
        calls.push(run.any_call(random, NORMAL_BIC));
        let call = run.call(l2(30.0));
        let lent = call.lent;
        calls.push(Call {
            lent: Lent {
                cuts: lent.cuts - 1,
                ..lent
            },
            ..call.clone()
        });
        calls.push(Call {
            lent: Lent {
                floats: lent.floats - 1,
                ..lent
            },
            ..call.clone()
        });
        calls.push(Call {
            lent: Lent {
                indices: lent.indices - 1,
                ..lent
            },
            ..call
        });
    }
    calls
}

/// Readings that rise by even steps, for Normal by BIC: many totals are nearly equal, and the last digits of the
/// logarithms decide where the cuts are.
fn even_steps(random: &mut Random) -> Vec<Call> {
    let mut calls = Vec::new();
    for n in 5..=34 {
        for m in [2, 3, 4] {
            let ramp = |random: &mut Random| {
                let (start, step) = (random.below(10), 1 + random.below(5));
                (0..n).map(|i| (start + step * i) as f64).collect()
            };
            for channels in [1, 1, 1, 2, 3] {
                let run = Run::new((0..channels).map(|_| ramp(random)).collect());
                calls.push(run.any_call(random, at_least(NORMAL_BIC, m)));
            }
        }
    }
    calls
}

/// Makes some calls of a family.
pub type Family = fn(&mut Random) -> Vec<Call>;

pub const FAMILIES: [(&str, Family); 19] = [
    ("all short series over a few values", short_series),
    ("series of each kind", of_each_kind),
    ("steps", steps),
    ("ties", ties),
    ("constant channels", constant_channels),
    ("minimum lengths", minimum_lengths),
    ("custom penalties", penalties),
    ("lists of lengths", shapes),
    ("rooms", rooms),
    ("readings that are not finite", gaps),
    ("several refusals at once", combined),
    ("pools about the peak", pools),
    ("ramps with many balls", ramps),
    ("balls without a radius", balls_without_radius),
    ("crowds of candidates", crowds),
    ("room for rounding", slack),
    ("penalties that are NaN", nan_penalties),
    ("the longest channels", longest),
    ("even steps", even_steps),
];
