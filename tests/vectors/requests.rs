//! The inputs of the program `cuts` whose outputs are stored, by kind: well formed ones, damaged ones,
//! and both at random. All draw from one generator, so every run of the program makes the same.

use crate::form::request;
use crate::inputs::{not_numbers, Random};
use crate::series::{fraction, SERIES_KINDS};

const NAN: f64 = f64::NAN;
const INFINITY: f64 = f64::INFINITY;

type Input = Vec<u8>;

/// The worked example of docs/RULES.md.
pub const EXAMPLE: [u8; 55] = [
    0x01, 0x00, 0x01, 0x00, //
    0x02, 0x00, 0x08, 0x3f, 0xf0, 0x00, 0x00, 0x00, 0x00, 0x00, 0x00, //
    0x03, 0x00, 0x02, 0x00, 0x02, //
    0x04, 0x00, 0x20, //
    0x00, 0x00, 0x00, 0x00, 0x00, 0x00, 0x00, 0x00, //
    0x00, 0x00, 0x00, 0x00, 0x00, 0x00, 0x00, 0x00, //
    0x40, 0x10, 0x00, 0x00, 0x00, 0x00, 0x00, 0x00, //
    0x40, 0x10, 0x00, 0x00, 0x00, 0x00, 0x00, 0x00, //
];

/// The values of the fields, before they are written.
#[derive(Clone)]
struct Asked {
    normal: bool,
    custom: Option<f64>,
    least: u16,
    channels: Vec<Vec<f64>>,
}

fn field(tag: u8, value: &[u8]) -> Input {
    let length = u16::try_from(value.len()).expect("a length of 2 bytes");
    let mut bytes = vec![tag];
    bytes.extend(length.to_be_bytes());
    bytes.extend(value);
    bytes
}

impl Asked {
    fn fields(&self) -> Vec<Input> {
        let penalty = self.custom.map(|value| value.to_be_bytes().to_vec());
        let mut fields = vec![
            field(1, &[u8::from(self.normal)]),
            field(2, &penalty.unwrap_or_default()),
            field(3, &self.least.to_be_bytes()),
        ];
        for channel in &self.channels {
            let patterns: Vec<[u8; 8]> = channel.iter().map(|x| x.to_be_bytes()).collect();
            fields.push(field(4, &patterns.concat()));
        }
        fields
    }

    fn bytes(&self) -> Input {
        self.fields().concat()
    }

    fn by_bic(mut self) -> Self {
        self.custom = None;
        self
    }

    fn of_cost(mut self, normal: bool) -> Self {
        self.normal = normal;
        self
    }

    fn at_least(mut self, least: u16) -> Self {
        self.least = least;
        self
    }

    /// The most candidates that live at once.
    fn peak(&self) -> usize {
        let call = request(&self.bytes()).expect("a well formed input");
        call.ruled().map_or(0, |ruled| ruled.peak)
    }
}

fn l2(penalty: f64, channels: Vec<Vec<f64>>) -> Asked {
    Asked {
        normal: false,
        custom: Some(penalty),
        least: 2,
        channels,
    }
}

/// The example's values.
fn example() -> Asked {
    l2(1.0, vec![vec![0.0, 0.0, 4.0, 4.0]])
}

/// Two channels by BIC.
fn pair() -> Asked {
    let channels = vec![vec![0.0, 0.5, 4.0, 4.5, 9.0], vec![1.0, 1.5, 1.0, 7.0, 7.5]];
    l2(1.0, channels).by_bic()
}

/// An input with one byte put in place of another.
fn with_byte(input: &[u8], at: usize, byte: u8) -> Input {
    let mut bytes = input.to_vec();
    bytes[at] = byte;
    bytes
}

fn worked_example() -> Vec<Input> {
    assert_eq!(
        example().bytes(),
        EXAMPLE,
        "the fields as the rules have them"
    );
    vec![EXAMPLE.to_vec()]
}

fn cut_short() -> Vec<Input> {
    let prefixes = |input: Input| (0..input.len()).map(move |n| input[..n].to_vec());
    let inputs = [example().bytes(), pair().bytes()];
    inputs.into_iter().flat_map(prefixes).collect()
}

/// Other bytes at each place: its neighbours, other tags, and ends of the range.
fn wrong_bytes() -> Vec<Input> {
    let mut inputs = Vec::new();
    for input in [example().bytes(), pair().bytes()] {
        for at in 0..input.len().min(60) {
            let byte = input[at];
            let others = [byte ^ 1, byte ^ 0x80, byte.wrapping_sub(1), 0, 255];
            inputs.extend(others.map(|other| with_byte(&input, at, other)));
        }
    }
    inputs
}

/// Each tag of the example with every other value.
fn wrong_tags() -> Vec<Input> {
    let others = |at| (0..=255).map(move |tag| with_byte(&EXAMPLE, at, tag));
    [0, 4, 15, 20].into_iter().flat_map(others).collect()
}

/// Each order of the example's fields.
fn exchanged() -> Vec<Input> {
    let fields = example().fields();
    let mut inputs = Vec::new();
    for at in 0..256usize {
        let order = [at % 4, at / 4 % 4, at / 16 % 4, at / 64];
        inputs.push(order.map(|place| fields[place].clone()).concat());
    }
    inputs
}

/// Some of the fields alone, and each of them once more at each place.
fn missing_or_twice() -> Vec<Input> {
    let mut inputs = Vec::new();
    for fields in [example().fields(), pair().fields()] {
        let count = fields.len();
        for chosen in 0..1 << count {
            let kept = (0..count).filter(|place| chosen >> place & 1 == 1);
            inputs.push(kept.flat_map(|place| fields[place].clone()).collect());
        }
        for again in 0..count {
            for place in 0..=count {
                let mut more = fields.clone();
                more.insert(place, fields[again].clone());
                inputs.push(more.concat());
            }
        }
    }
    inputs
}

/// Each length little-endian, one less or more, a byte for another, nothing, and the largest.
fn wrong_lengths() -> Vec<Input> {
    let mut inputs = Vec::new();
    for fields in [example().fields(), pair().fields()] {
        for place in 0..fields.len() {
            let length = u16::from_be_bytes([fields[place][1], fields[place][2]]);
            let others = [
                length.swap_bytes(),
                length.wrapping_sub(1),
                length + 1,
                length + 8,
                length + 256,
                0,
                8,
                u16::MAX,
            ];
            for other in others {
                let mut changed = fields.clone();
                changed[place][1..3].copy_from_slice(&other.to_be_bytes());
                inputs.push(changed.concat());
            }
        }
    }
    inputs
}

/// Values of other sizes than are allowed, and the allowed ones among them, whose lengths are right.
fn wrong_sizes(random: &mut Random) -> Vec<Input> {
    let mut inputs = Vec::new();
    for (place, sizes) in [(0, 0..=4), (1, 0..=17), (2, 0..=4), (3, 0..=41)] {
        for size in sizes {
            for first in [0, 1, 0x3f] {
                let mut value: Vec<u8> = (0..size).map(|_| random.next() as u8 & 0x3f).collect();
                value.iter_mut().take(1).for_each(|byte| *byte = first);
                let mut fields = example().fields();
                fields[place] = field(place as u8 + 1, &value);
                inputs.push(fields.concat());
            }
        }
    }
    inputs
}

fn costs() -> Vec<Input> {
    let cost = |byte| with_byte(&EXAMPLE, 3, byte);
    (0..=255).map(cost).collect()
}

/// Bytes behind inputs that are whole without them; a field with tag 4 is a channel more.
fn trailing() -> Vec<Input> {
    let none = l2(1.0, Vec::new());
    let mut tails = vec![
        vec![4, 0],
        vec![4, 0, 0],
        vec![4, 0, 0, 0],
        vec![4, 0, 8],
        vec![4, 0, 0, 4, 0, 0],
        vec![3, 0, 2, 0, 2],
        vec![0; 8],
        b"\n".to_vec(),
        b"\r\n".to_vec(),
    ];
    for byte in [0, 1, 2, 3, 4, 5, 0x80, 0xff] {
        tails.extend((1..=4).map(|count| vec![byte; count]));
    }
    let mut inputs = Vec::new();
    for input in [example().bytes(), pair().bytes(), none.bytes()] {
        inputs.extend(tails.iter().map(|tail| [&input[..], tail].concat()));
    }
    inputs
}

/// Steps of these lengths between levels, with noise.
fn stepped(random: &mut Random, n: usize, piece: usize, noise: f64) -> Vec<f64> {
    let level = |i: usize| f64::from((i / piece * 7 % 5) as u32) * 3.0;
    let mut reading = |i| level(i) + noise * (fraction(random) - 0.5);
    (0..n).map(&mut reading).collect()
}

/// `count` channels of n readings.
fn channels(random: &mut Random, count: usize, n: usize, piece: usize) -> Vec<Vec<f64>> {
    (0..count).map(|_| stepped(random, n, piece, 0.5)).collect()
}

/// The longest inputs, and such as are too long by a byte or more and well formed otherwise: channels,
/// readings, whether the penalty is custom, and the bytes that this comes to.
const LONG: [(usize, usize, bool, usize); 14] = [
    (8, 128, true, 8236),
    (1, 1027, false, 8231),
    (2, 513, true, 8234),
    (3, 342, false, 8229),
    (3, 342, true, 8237),
    (6, 171, false, 8238),
    (1, 1027, true, 8239),
    (1, 1028, false, 8239),
    (8, 129, true, 8300),
    (2741, 0, false, 8235),
    (2738, 0, true, 8234),
    (2739, 0, true, 8237),
    (2742, 0, false, 8238),
    (3600, 0, false, 10812),
];

fn long(random: &mut Random) -> Vec<Input> {
    let mut inputs = Vec::new();
    for (count, n, custom, bytes) in LONG {
        for normal in [false, true] {
            let asked = l2(20.0, channels(random, count, n, 37)).of_cost(normal);
            let input = if custom { asked } else { asked.by_bic() }.bytes();
            assert_eq!(input.len(), bytes, "{count} channels of {n}");
            if !normal || n > 0 && bytes <= 8236 {
                inputs.push(input);
            }
        }
    }
    inputs.extend(filled(random));
    inputs
}

/// 8,236 bytes whose channels are unequal or too many; 8,237 bytes that would be refused for something
/// else, too.
fn filled(random: &mut Random) -> Vec<Input> {
    let mut unequal = channels(random, 7, 128, 30);
    unequal.push(stepped(random, 129, 30, 0.5));
    let most = [channels(random, 15, 64, 30), channels(random, 1, 62, 30)].concat();
    let mut inputs = Vec::new();
    for made in [unequal, most] {
        let input = l2(1.0, made).by_bic().bytes();
        assert_eq!(input.len(), 8236);
        inputs.push([&input[..], &[0]].concat());
        inputs.push(input);
    }
    let mut whole = l2(1.0, channels(random, 8, 128, 30)).bytes();
    whole.push(4);
    inputs.push(whole);
    let refused = l2(-1.0, channels(random, 3, 342, 30)).at_least(1);
    inputs.push(refused.bytes());
    inputs
}

/// Each number of channels, empty ones and others; unequal ones.
fn numbers_of_channels(random: &mut Random) -> Vec<Input> {
    let mut shapes: Vec<Vec<usize>> = Vec::new();
    for count in (0..=12).chain([255, 256]) {
        shapes.push(vec![0; count]);
        shapes.extend([1, 2, 4, 5].map(|n| vec![n; count.min(12)]));
    }
    for (first, other) in [(0, 1), (1, 0), (4, 5), (5, 4), (4, 8), (6, 0)] {
        for count in [2, 3, 8, 9] {
            for place in [0, 1, count - 1] {
                let mut shape = vec![first; count];
                shape[place] = other;
                shapes.push(shape);
            }
        }
    }
    let mut inputs = Vec::new();
    for (at, shape) in shapes.into_iter().enumerate() {
        let made = shape.into_iter().map(|n| stepped(random, n, 2, 0.25));
        let asked = l2(1.0, made.collect()).of_cost(at % 2 == 1);
        inputs.push(asked.bytes());
        inputs.push(asked.by_bic().bytes());
    }
    inputs
}

/// Custom penalties that are refused, and ends of those that are not.
fn penalties(random: &mut Random) -> Vec<Input> {
    let mut values = vec![
        INFINITY,
        -INFINITY,
        0.0,
        -0.0,
        -5e-324,
        -1.0,
        -f64::MAX,
        5e-324,
        1e-310,
        f64::MIN_POSITIVE,
        1e-300,
        0.5,
        15.5,
        16.0,
        f64::MAX,
    ];
    values.extend(not_numbers(random, 12).into_iter().map(f64::from_bits));
    let mut inputs = Vec::new();
    for value in values {
        for normal in [false, true] {
            for made in [example().channels, pair().channels, Vec::new()] {
                inputs.push(l2(value, made).of_cost(normal).bytes());
            }
        }
    }
    inputs
}

fn minimum_lengths() -> Vec<Input> {
    let mut inputs = Vec::new();
    let none = l2(1.0, Vec::new());
    for least in [0, 1, 2, 3, 4, 5, 255, 256, 512, 32767, 32768, 65534, 65535] {
        for asked in [example(), pair(), none.clone()] {
            for normal in [false, true] {
                let asked = asked.clone().of_cost(normal);
                inputs.push(asked.at_least(least).bytes());
            }
        }
    }
    inputs
}

/// A reading that is not finite at each place, and a second one at the end.
fn gaps(random: &mut Random) -> Vec<Input> {
    let mut values = vec![INFINITY, -INFINITY];
    values.extend(not_numbers(random, 10).into_iter().map(f64::from_bits));
    let mut inputs = Vec::new();
    for (count, n) in [(1, 4), (2, 5), (3, 4), (8, 4)] {
        for place in 0..count * n {
            let ends = place < 2 || place + 2 > count * n || place % n == 0;
            let chosen = if ends { &values[..] } else { &values[1..4] };
            for (at, &value) in chosen.iter().enumerate() {
                let mut made = channels(random, count, n, 2);
                if at % 2 == 1 {
                    made[count - 1][n - 1] = NAN;
                }
                made[place / n][place % n] = value;
                inputs.push(l2(1.0, made).bytes());
            }
        }
    }
    inputs
}

/// A line: with a high penalty most candidates live on.
fn line(n: usize, step: f64) -> Vec<f64> {
    (0..n).map(|i| i as f64 * step).collect()
}

/// Every set of conditions of refusals at once: a penalty, a minimum length, a ninth channel, unequal
/// channels, a gap, more than 40 candidates, and a byte too many.
fn several_at_once() -> Vec<Input> {
    let mut inputs = Vec::new();
    for set in 0..128 {
        let met = |place: u32| set >> place & 1 == 1;
        let n = if met(5) { 96 } else { 6 };
        let mut asked = l2(1e4, vec![line(n, 1.0)]);
        assert_eq!(asked.peak() > 40, met(5), "more than 40 candidates");
        if met(0) {
            asked.custom = Some(NAN);
        }
        if met(1) {
            asked.least = 1;
        }
        if met(2) {
            asked.channels = vec![line(6, 1.0); 9];
        }
        if met(3) {
            asked.channels.push(line(5, 1.0));
        }
        if met(4) {
            asked.channels[0][3] = -INFINITY;
        }
        let mut bytes = asked.bytes();
        if met(6) {
            bytes.push(4);
        }
        inputs.push(bytes);
    }
    inputs
}

/// Lines whose candidates at once are about 40: each of these numbers is met, with one channel and with
/// two.
fn pools() -> Vec<Input> {
    let mut inputs = Vec::new();
    for count in 1..=2 {
        let mut left = vec![1, 38, 39, 40, 41, 42, 43];
        for n in 4..200 {
            for penalty in [1e3, 1e4, 1e5, 1e6, 1e7] {
                let made = [line(n, 1.0), line(n, 6.0)][..count].to_vec();
                let asked = l2(penalty, made);
                let peak = if left.is_empty() { 0 } else { asked.peak() };
                if left.contains(&peak) {
                    left.retain(|&other| other != peak);
                    inputs.push(asked.bytes());
                }
            }
        }
        assert!(left.is_empty(), "no search with {left:?} candidates");
    }
    inputs
}

/// Lines and curves with noise, on one or two channels, some of them with more than 40 candidates.
fn crowds(random: &mut Random) -> Vec<Input> {
    let mut inputs = Vec::new();
    for at in 0..24 {
        let n = 80 + random.below(50) as usize;
        let mut made = vec![line(n, 1.0), line(n, 3.0)];
        for channel in &mut made[..1 + at % 2] {
            let bent = random.below(2) == 0;
            let curve = |x: f64| if bent { 10.0 * x.sqrt() } else { x };
            for reading in channel {
                *reading = curve(*reading) + fraction(random);
            }
        }
        made.truncate(1 + at % 2);
        let penalty = pick(random, &[3e3, 1e4, 3e4, 1e5]);
        inputs.push(l2(penalty, made).bytes());
    }
    inputs
}

/// A cut at every second or third reading, also with as many readings as fit.
fn many_cuts(random: &mut Random) -> Vec<Input> {
    let mut inputs = Vec::new();
    for (count, n) in [(1, 1026), (2, 513), (3, 341), (8, 128), (1, 210), (2, 101)] {
        for (piece, normal) in [(2, false), (3, false), (2, true), (3, true)] {
            let asked = l2(0.5, channels(random, count, n, piece)).of_cost(normal);
            if n < 300 || piece == 2 {
                inputs.push(asked.bytes());
            }
            if n < 200 {
                inputs.push(asked.by_bic().bytes());
            }
        }
    }
    inputs
}

/// Steps, noise, drift and ties on 1, 2, 3 and 8 channels, by both costs and both penalties.
fn searches(random: &mut Random) -> Vec<Input> {
    let mut inputs = Vec::new();
    for count in [1, 2, 3, 8] {
        for kind in &SERIES_KINDS[..5] {
            for normal in [false, true] {
                for custom in [None, Some(0.5), Some(4.0), Some(30.0)] {
                    let n = 8 + random.below(if count == 8 { 12 } else { 40 }) as usize;
                    let made = (0..count).map(|_| kind(random, 2.0, 1.5, n)).collect();
                    let least = 2 + random.below(3) as u16;
                    let asked = Asked {
                        normal,
                        custom,
                        least,
                        channels: made,
                    };
                    inputs.push(asked.bytes());
                }
            }
        }
    }
    inputs
}

fn pick<T: Copy>(random: &mut Random, values: &[T]) -> T {
    values[random.below(values.len() as u64) as usize]
}

/// A reading: mostly small halves, sometimes any finite value, now and then any pattern.
fn reading(random: &mut Random) -> f64 {
    let any = f64::from_bits(random.next());
    match random.below(200) {
        0 => pick(random, &[NAN, INFINITY, -INFINITY]),
        1 => any,
        2..=9 => fraction(random) * 9.0,
        _ => random.below(9) as f64 / 2.0,
    }
}

/// A small input that is well formed: mostly an answer, and each refusal now and then.
fn any_asked(random: &mut Random) -> Asked {
    let count = pick(random, &[0, 1, 1, 1, 1, 1, 1, 2, 2, 2, 3, 3, 8, 9]);
    let n = pick(random, &[0, 1, 3, 4, 4, 4, 4, 5, 5, 6, 8]);
    let length = |random: &mut Random| match random.below(30) {
        0 => random.below(6) as usize,
        _ => n,
    };
    let mut made = Vec::new();
    for _ in 0..count {
        let n = length(random);
        made.push((0..n).map(|_| reading(random)).collect());
    }
    let values = [
        1e-300, 0.125, 0.25, 0.5, 1.0, 1.0, 2.0, 4.0, 30.0, 1e300, 0.0, -1.0, NAN,
    ];
    let value = pick(random, &values);
    Asked {
        normal: random.below(3) == 0,
        custom: (random.below(3) != 0).then_some(value),
        least: pick(random, &[2, 2, 2, 2, 2, 2, 3, 3, 4, 1, 0, 6, 65535]),
        channels: made,
    }
}

const AT_RANDOM: usize = 2400;

fn well_formed(random: &mut Random) -> Vec<Input> {
    (0..AT_RANDOM).map(|_| any_asked(random).bytes()).collect()
}

/// One byte changed, removed or added, mostly among the first fields.
fn damaged(random: &mut Random) -> Vec<Input> {
    let mut inputs = Vec::new();
    for at in 0..AT_RANDOM {
        let mut bytes = any_asked(random).bytes();
        let near = bytes.len().min(pick(random, &[5, 12, 24, 24, 400]));
        let place = random.below(near as u64) as usize;
        let byte = match random.below(2) {
            0 => random.below(6) as u8,
            _ => random.next() as u8,
        };
        match at % 3 {
            0 => bytes[place] = byte,
            1 => drop(bytes.remove(place)),
            _ => bytes.insert(place, byte),
        }
        inputs.push(bytes);
    }
    inputs
}

pub fn all() -> Vec<(&'static str, Vec<Input>)> {
    let random = &mut Random::new();
    vec![
        ("worked example", worked_example()),
        ("cut short at each byte", cut_short()),
        ("another byte at each place", wrong_bytes()),
        ("every tag in place of each", wrong_tags()),
        ("fields in other orders", exchanged()),
        ("fields missing or twice", missing_or_twice()),
        ("other lengths", wrong_lengths()),
        ("values of every size", wrong_sizes(random)),
        ("every cost byte", costs()),
        ("bytes behind the end", trailing()),
        ("longest, and too long", long(random)),
        ("numbers of channels", numbers_of_channels(random)),
        ("custom penalties", penalties(random)),
        ("minimum lengths", minimum_lengths()),
        ("readings that are not finite", gaps(random)),
        ("several refusals at once", several_at_once()),
        ("candidates about 40", pools()),
        ("crowds of candidates", crowds(random)),
        ("many cuts", many_cuts(random)),
        ("steps, noise, drift and ties", searches(random)),
        ("well formed at random", well_formed(random)),
        ("damaged at random", damaged(random)),
    ]
}
