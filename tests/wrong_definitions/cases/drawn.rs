//! Small searches that are drawn: few readings of few values, some of them a few billionths beside, with
//! penalties at which totals tie. They are kept as lines of words, and shown as rows write them.

use crate::{Areas, Call, Cost, Penalty, Search, Settings};
use std::rc::Rc;

/// The generator xorshift64*.
pub struct Random(u64);

impl Random {
    pub fn seeded(seed: u64) -> Random {
        Random(seed.wrapping_mul(0x9e37_79b9_7f4a_7c15) | 1)
    }

    pub fn below(&mut self, limit: u64) -> u64 {
        self.0 ^= self.0 >> 12;
        self.0 ^= self.0 << 25;
        self.0 ^= self.0 >> 27;
        (self.0.wrapping_mul(0x2545_f491_4f6c_dd1d) >> 11) % limit
    }

    fn one_of<T: Copy>(&mut self, choices: &[T]) -> T {
        choices[self.below(choices.len() as u64) as usize]
    }
}

/// A plain search with a minimum length of 2: its cost, channels and slots; the custom penalty, or 0 for BIC,
/// and then the readings.
#[derive(Clone)]
pub struct Drawn {
    pub cost: Cost,
    pub k: usize,
    pub slots: usize,
    pub values: Vec<f64>,
}

/// Whole numbers or halves, of every third series some a little beside, and of every sixth so large that
/// squares are infinite.
fn readings(random: &mut Random, count: usize) -> Vec<f64> {
    let most = 1 + random.below(5);
    let units = random.one_of(&[10_000_000_000, 10_000_000_000, 5_000_000_000]);
    let beside = random.one_of(&[1, 1, 8]);
    let scale = random.one_of(&[1.0, 1.0, 1.0, 1.0, 1.0, 1e160]);
    let mut one = || random.below(most + 1) * units + 5 * random.below(beside);
    (0..count).map(|_| one() as f64 / 1e10 * scale).collect()
}

/// 0 for BIC, or a fraction with a small denominator, one in four of them a billionth of that.
fn penalty(random: &mut Random) -> f64 {
    if random.below(6) == 0 {
        return 0.0;
    }
    let denominator = random.one_of(&[1, 2, 2, 3, 4, 6, 12, 15, 20, 30, 60]);
    let most = random.one_of(&[4, 20, 100]) * denominator;
    let scale = random.one_of(&[1.0, 1.0, 1.0, 1e-9]);
    (1 + random.below(most)) as f64 / denominator as f64 * scale
}

/// A search of channels with n readings each.
pub fn drawn(random: &mut Random, n: usize) -> Drawn {
    let cost = random.one_of(&[Cost::L2, Cost::L2, Cost::L2, Cost::Normal]);
    let k = random.one_of(&[1, 1, 1, 2, 2, 3]);
    let mut values = vec![penalty(random)];
    values.extend(readings(random, n * k));
    let slots = random.one_of(&[1, 2, 2, 3]);
    Drawn {
        cost,
        k,
        slots,
        values,
    }
}

/// A value as rows write it: by the fewest decimal digits that stand for it.
fn written(x: f64) -> String {
    if x < 1e15 && x.fract() == 0.0 {
        return format!("whole {x}");
    }
    let shortest = format!("{x:e}");
    let (digits, power) = shortest.split_once('e').expect("a power");
    let (front, back) = digits.split_once('.').unwrap_or((digits, ""));
    let power = power.parse::<i64>().expect("a number") - back.len() as i64;
    match power < 0 {
        true => format!("ratio {front}{back} (10 ^ {})", -power),
        false => format!("ratio ({front}{back} * 10 ^ {power}) 1"),
    }
}

impl Drawn {
    fn n(&self) -> usize {
        (self.values.len() - 1) / self.k
    }

    /// As a line of words, values by their bits.
    pub fn line(&self) -> String {
        let normal = u8::from(self.cost == Cost::Normal);
        let bits: Vec<String> = self
            .values
            .iter()
            .map(|x| x.to_bits().to_string())
            .collect();
        format!("{normal} {} {} {}", self.k, self.slots, bits.join(" "))
    }

    pub fn of_line(line: &str) -> Drawn {
        let words: Vec<u64> = line
            .split(' ')
            .map(|w| w.parse().expect("a number"))
            .collect();
        Drawn {
            cost: if words[0] == 1 {
                Cost::Normal
            } else {
                Cost::L2
            },
            k: words[1] as usize,
            slots: words[2] as usize,
            values: words[3..]
                .iter()
                .map(|&bits| f64::from_bits(bits))
                .collect(),
        }
    }

    fn penalty(&self) -> Penalty {
        match self.values[0] == 0.0 {
            true => Penalty::Bic,
            false => Penalty::Custom(self.values[0]),
        }
    }

    /// As a row writes it.
    pub fn text(&self) -> String {
        let penalty = match self.penalty() {
            Penalty::Bic => "Bic".to_string(),
            Penalty::Custom(value) => format!("(Custom ({}))", written(value)),
        };
        let run: Vec<String> = self.values[1..]
            .iter()
            .map(|&x| written(x) + " ∷ ")
            .collect();
        let lengths = format!("{} ∷ ", self.n()).repeat(self.k);
        let (cost, run, slots) = (self.cost, run.concat(), self.slots);
        format!("among false {cost:?} {penalty} 2 ({run}[]) ({lengths}[]) {slots}")
    }

    /// Exactly the room that is asked for, and the slots.
    fn room(&self) -> Areas {
        let (n, k) = (self.n(), self.k);
        Areas {
            cuts: vec![7; n / 2],
            floats: vec![7.0; (2 * k + 2) * (n + 1)],
            indices: vec![7; 3 * (n + 1)],
            pool: vec![7.0; 200 * self.slots],
        }
    }

    pub fn call(&self) -> Call {
        Call::Search(Search {
            strict: false,
            settings: Settings {
                cost: self.cost,
                penalty: self.penalty(),
                least: Some(2),
            },
            run: Rc::new(self.values[1..].to_vec()),
            lengths: vec![self.n(); self.k],
            areas: self.room(),
        })
    }
}
