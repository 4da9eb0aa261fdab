//! What the model of the definitions is held to: calls, each with what it is to come to. They are the rows
//! of `crates/worked_examples/specs`, read from those files, and the stored cases of the crates `replay_*`,
//! read from their standard input. Nothing here computes what a definition says.

mod charts;
mod drawn;
mod floats;
mod naturals;
mod reader;
mod rows;
mod searches;
mod stored;
mod sums;
mod syntax;
mod words;

pub use drawn::{drawn, Drawn, Random};
pub use reader::Reader;
pub use rows::{rows_of, Row};
pub use stored::stored_cases;

use std::rc::Rc;

/// The bit pattern of a value. NaNs count as one value, so every NaN has the same one.
pub fn pattern(x: f64) -> u64 {
    let bits = x.to_bits();
    match bits & !(1 << 63) > f64::INFINITY.to_bits() {
        true => f64::NAN.to_bits(),
        false => bits,
    }
}

/// The same values, zeros by their signs and NaNs as one.
pub fn same(x: &[f64], y: &[f64]) -> bool {
    let mut pairs = x.iter().zip(y);
    x.len() == y.len() && pairs.all(|(a, b)| pattern(*a) == pattern(*b))
}

#[derive(Clone, Copy, PartialEq, Debug)]
pub enum Cost {
    L2,
    Normal,
}

#[derive(Clone, Copy, Debug)]
pub enum Penalty {
    Bic,
    Custom(f64),
}

/// The settings of a search. Without a least length it is made by `new`.
#[derive(Clone, Copy, Debug)]
pub struct Settings {
    pub cost: Cost,
    pub penalty: Penalty,
    pub least: Option<usize>,
}

/// The areas that a search is lent.
#[derive(Clone, Debug)]
pub struct Areas {
    pub cuts: Vec<usize>,
    pub floats: Vec<f64>,
    pub indices: Vec<usize>,
    pub pool: Vec<f64>,
}

impl PartialEq for Areas {
    fn eq(&self, other: &Areas) -> bool {
        self.cuts == other.cuts
            && self.indices == other.indices
            && same(&self.floats, &other.floats)
            && same(&self.pool, &other.pool)
    }
}

/// A search of a run with these channel lengths, strict or plain.
#[derive(Clone, Debug)]
pub struct Search {
    pub strict: bool,
    pub settings: Settings,
    pub run: Rc<Vec<f64>>,
    pub lengths: Vec<usize>,
    pub areas: Areas,
}

/// By which edition an EWMA counts the places of its readings.
#[derive(Clone, Copy, PartialEq, Debug)]
pub enum Edition {
    First,
    Second,
}

/// A chart by `new`, of which only the first two settings count, or with all four of them. Only an EWMA has
/// more than one edition: that of a CUSUM is the first.
#[derive(Clone, Copy, Debug)]
pub struct Chart {
    pub by_new: bool,
    pub values: [f64; 4],
    pub edition: Edition,
}

/// On which sides a record signals.
#[derive(Clone, Copy, PartialEq, Debug)]
pub enum Side {
    None,
    Above,
    Below,
    Both,
}

/// The sum of a CUSUM chart that a run length asks.
#[derive(Clone, Copy, PartialEq, Debug)]
pub enum Sum {
    Upper,
    Lower,
}

#[derive(Clone, Copy, Debug)]
pub struct CusumResult {
    pub s_upper: f64,
    pub s_lower: f64,
    pub side: Side,
    pub index: usize,
}

impl PartialEq for CusumResult {
    fn eq(&self, other: &CusumResult) -> bool {
        let sums = |r: &CusumResult| [r.s_upper, r.s_lower];
        same(&sums(self), &sums(other)) && (self.side, self.index) == (other.side, other.index)
    }
}

#[derive(Clone, Copy, Debug)]
pub struct EwmaResult {
    pub ewma: f64,
    pub ucl: f64,
    pub lcl: f64,
    pub side: Side,
    pub index: usize,
}

impl PartialEq for EwmaResult {
    fn eq(&self, other: &EwmaResult) -> bool {
        let values = |r: &EwmaResult| [r.ewma, r.ucl, r.lcl];
        same(&values(self), &values(other)) && (self.side, self.index) == (other.side, other.index)
    }
}

#[derive(Clone, Copy, Debug)]
pub struct Ball {
    pub centre: [f64; 2],
    pub r2: f64,
}

impl PartialEq for Ball {
    fn eq(&self, other: &Ball) -> bool {
        same(&self.centre, &other.centre) && same(&[self.r2], &[other.r2])
    }
}

/// The number of a refusal and the values that go with it.
#[derive(Clone, PartialEq, Debug)]
pub struct Stated {
    pub number: usize,
    pub values: Vec<usize>,
}

#[derive(Clone, PartialEq, Debug)]
pub enum Said {
    Refused(Stated),
    Answered(Vec<usize>),
}

#[derive(Clone, Copy, PartialEq, Debug)]
pub enum Function {
    Sqrt,
    Powi,
    Ln,
    Max,
    Min,
    Abs,
    Finite,
}

/// What is asked. The first ones are those of `crates/worked_examples/specs/Calls.antt`, whose logarithm is an
/// `Elementary`; the others are what stored cases ask of the definitions that a search, a summary and the
/// program are made of.
#[derive(Clone, Debug)]
pub enum Call {
    Search(Search),
    Resolve(Search),
    Cusum(Chart, Rc<Vec<f64>>, Vec<CusumResult>),
    CusumPoints(Chart, Rc<Vec<f64>>, Vec<usize>),
    RunLength(Chart, f64, Sum),
    Ewma(Chart, Rc<Vec<f64>>, Vec<EwmaResult>),
    EwmaPoints(Chart, Rc<Vec<f64>>, Vec<usize>),
    Lose(Ball, Vec<Ball>),
    /// A function of `floats` or `elementary`, of a value and a second value's pattern or an exponent.
    Elementary(Function, f64, u64),
    /// The mean of a channel and its range about it.
    Centre(Rc<Vec<f64>>),
    /// The running sums of a channel at both ends of a piece, those of the squares, and both costs.
    Segment(Rc<Vec<f64>>, usize, usize),
    Piece(Rc<Vec<f64>>, usize, usize),
    /// A penalty for a cost, with n, the channels and the sum of the noise variances.
    Penalty(Penalty, Cost, usize, usize, f64),
    /// The noise variance of a channel, worked out in an area at a place.
    Noise(Rc<Vec<f64>>, Vec<f64>, usize),
    /// The sum of those of a run, with n and the channels.
    NoiseSum(Rc<Vec<f64>>, usize, usize, Vec<f64>, usize),
    /// A cost over the channels of a run, with n, the channels, start, end and the area's size.
    AreaCost(Cost, Rc<Vec<f64>>, usize, usize, [usize; 2], usize),
    /// The predecessors of a functional search: penalty, run, n, channels, m and slots.
    Predecessors(f64, Rc<Vec<f64>>, usize, usize, usize, usize),
    Program(Vec<u8>),
    /// The number of the refusal at this place of the table of rule 2.1.
    Number(usize),
}

#[derive(Clone, Debug)]
pub enum Outcome {
    Searched(Said, Areas),
    Sums(Said, Vec<CusumResult>),
    Averages(Said, Vec<EwmaResult>),
    Points(Said, Vec<usize>),
    Said(Said),
    Losing(Vec<Ball>),
    Values(Vec<f64>),
    Predecessors(bool, Vec<usize>),
    Bytes(Vec<u8>),
}

impl PartialEq for Outcome {
    fn eq(&self, other: &Outcome) -> bool {
        use Outcome::*;
        match (self, other) {
            (Searched(a, x), Searched(b, y)) => a == b && x == y,
            (Sums(a, x), Sums(b, y)) => a == b && x == y,
            (Averages(a, x), Averages(b, y)) => a == b && x == y,
            (Points(a, x), Points(b, y)) => a == b && x == y,
            (Said(a), Said(b)) => a == b,
            (Losing(x), Losing(y)) => x == y,
            (Values(x), Values(y)) => same(x, y),
            (Predecessors(a, x), Predecessors(b, y)) => a == b && x == y,
            (Bytes(x), Bytes(y)) => x == y,
            _ => false,
        }
    }
}

/// A call of a stored case with what it is to come to, and where it is stored.
pub struct Case<'a> {
    pub source: &'a str,
    pub number: usize,
    pub call: Call,
    pub expected: Outcome,
}
