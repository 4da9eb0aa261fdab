//! The pieces of channels whose summaries are asked, and what they are, from the sums and the L2 cost of
//! the Rust and by docs/RULES.md.

use crate::inputs::Random;
use crate::series::{pick, SERIES_KINDS};
use std::rc::Rc;

/// The number of the refusal of a piece.
pub const PIECE: u8 = 12;

/// The readings of a channel from start up to end.
#[derive(Clone)]
pub struct Piece {
    pub readings: Rc<Vec<f64>>,
    pub start: usize,
    pub end: usize,
}

pub struct Summary {
    pub length: usize,
    pub mean: f64,
    pub spread: Option<f64>,
    pub l2: f64,
}

/// The spread of this many readings by their L2 cost. The rules' words, and not `max`, which would make 0
/// of a NaN.
fn spread_of(length: usize, l2: f64) -> Option<f64> {
    let cost = if l2 < 0.0 { 0.0 } else { l2 };
    (length > 1).then(|| cost / (length - 1) as f64)
}

impl Summary {
    /// What there is to its spread.
    pub fn sort(&self) -> &'static str {
        match self.spread {
            None => "without a spread",
            Some(_) if self.l2 < 0.0 => "with a cost below 0",
            Some(spread) if spread.is_nan() => "with a NaN spread",
            Some(spread) if spread.is_infinite() => "with an infinite spread",
            Some(_) => "with a spread",
        }
    }
}

impl Piece {
    /// Nothing where it is no piece of its channel.
    pub fn summary(&self) -> Option<Summary> {
        let (readings, start, end) = (&self.readings[..], self.start, self.end);
        if start >= end || end > readings.len() {
            return None;
        }
        let (sums, _, mean) = pelt_opened::opened_sums(readings);
        let length = (end - start) as f64;
        let l2 = pelt_opened::opened_l2(readings, start, end);
        Some(Summary {
            length: end - start,
            mean: (sums[end] - sums[start]) / length + mean,
            spread: spread_of(end - start, l2),
            l2,
        })
    }
}

/// All pieces of short channels, refused ones among them, and some of longer ones.
pub fn pieces(random: &mut Random) -> Vec<Piece> {
    let mut pieces = Vec::new();
    let mut push = |readings: &Rc<Vec<f64>>, start: usize, end: usize| {
        let readings = Rc::clone(readings);
        pieces.push(Piece {
            readings,
            start,
            end,
        });
    };
    for kind in SERIES_KINDS {
        for scale in [1.0, 1e-300, 1e200] {
            for count in 0..5 {
                let readings = Rc::new(kind(random, 2.0, scale, count));
                for at in 0..(count + 2) * (count + 2) {
                    push(&readings, at / (count + 2), at % (count + 2));
                }
            }
            for most in [40, 40, 400] {
                let count = 2 + random.below(most) as usize;
                let readings = Rc::new(kind(random, 2.0, scale, count));
                let start = random.below(count as u64) as usize;
                let length = 1 + random.below((count - start) as u64) as usize;
                push(&readings, start, start + length);
            }
        }
    }
    let longest = Rc::new(SERIES_KINDS[1](random, 5.0, 1.0, 4096));
    push(&longest, 1, 4096);
    pieces
}

/// A channel of three levels, each for a few readings, and the places at which these begin and end. The levels
/// do not round evenly.
fn of_levels(random: &mut Random, size: f64) -> (Vec<f64>, [usize; 4]) {
    let (mut readings, mut ends) = (Vec::new(), [0; 4]);
    for end in &mut ends[1..] {
        let whole = random.below(2000) as f64 - 1000.0;
        let level = size * whole / pick(random, &[7.0, 30.0, 1000.0]);
        readings.extend(vec![level; 2 + random.below(7) as usize]);
        *end = readings.len();
    }
    (readings, ends)
}

/// Each level of such channels, whole and without its first or last reading, at sizes from one whose squares are
/// the smallest values to a large one. Rounding brings the cost of many below 0.
pub fn nearly_equal(random: &mut Random) -> Vec<Piece> {
    let mut pieces = Vec::new();
    for size in [1.0, 0.1, 1e-3, 1e7, 1e-161, 1e-162, 1e-163, 1e150].repeat(4) {
        let (readings, ends) = of_levels(random, size);
        let readings = Rc::new(readings);
        for level in ends.windows(2) {
            let (start, end) = (level[0], level[1]);
            for (start, end) in [(start, end), (start + 1, end), (start, end - 1)] {
                let readings = Rc::clone(&readings);
                pieces.push(Piece {
                    readings,
                    start,
                    end,
                });
            }
        }
    }
    pieces
}
