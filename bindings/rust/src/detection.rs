//! `u_analytics::detection`, by the same names and signatures, so that a program that is written for it runs
//! on the proved library by a change of one line of its `Cargo.toml`:
//!
//! ```toml
//! u-analytics = { package = "overbrindle", path = "../overbrindle/bindings/rust" }
//! ```
//!
//! These signatures have no place for the library's limits, [`MAX_CHANNELS`](crate::MAX_CHANNELS) and
//! [`MAX_READINGS`](crate::MAX_READINGS). A call beyond them panics with the refusal's text: an empty answer
//! would read as "nothing found". The types of the package's root answer with a `Result` instead, and have
//! the strict searches, which refuse a reading that is not finite. Their records say on which side a reading
//! signals; those of u-analytics say only whether it does.
//!
//! Nor have they a place for the edition of an EWMA chart. Here it is always [`Edition::First`], which is
//! u-analytics' own: the limits widen at a reading that is not finite too.

pub use crate::{CostFunction, MultiPeltResult, PeltResult, Penalty};

use crate::{Edition, Refusal};

/// The answer, or a panic with the refusal's text.
#[track_caller]
fn expected<T>(answer: Result<T, Refusal>) -> T {
    match answer {
        Ok(answer) => answer,
        Err(refusal) => panic!("{refusal}"),
    }
}

fn unequal(signals: &[&[f64]]) -> bool {
    signals
        .windows(2)
        .any(|pair| pair[0].len() != pair[1].len())
}

/// A search for cuts in one channel or more.
///
/// ```
/// use overbrindle::detection::{CostFunction, Pelt, Penalty};
///
/// let pelt = Pelt::new(CostFunction::L2, Penalty::Custom(1.0)).unwrap();
/// assert_eq!(pelt.detect(&[0.0, 0.0, 4.0, 4.0]).changepoints, [2]);
/// ```
#[derive(Clone, Debug)]
pub struct Pelt(crate::Pelt);

impl Pelt {
    /// A search with the least minimum length, 2. `None` if a custom penalty is not finite or not above 0.
    pub fn new(cost: CostFunction, penalty: Penalty) -> Option<Self> {
        crate::Pelt::new(cost, penalty).ok().map(Pelt)
    }

    /// A search for pieces of at least so many readings. `None` if a custom penalty is not finite or not
    /// above 0, or the minimum length is below 2.
    pub fn with_min_segment_len(
        cost: CostFunction,
        penalty: Penalty,
        min_segment_len: usize,
    ) -> Option<Self> {
        let made = crate::Pelt::with_min_segment_len(cost, penalty, min_segment_len);
        made.ok().map(Pelt)
    }

    /// The cuts of a channel.
    ///
    /// # Panics
    ///
    /// If there are more than [`MAX_READINGS`](crate::MAX_READINGS) readings.
    #[track_caller]
    pub fn detect(&self, data: &[f64]) -> PeltResult {
        expected(self.0.detect(data))
    }

    /// The cuts of several channels at once. `None` if two have different lengths.
    ///
    /// # Panics
    ///
    /// If there are more than [`MAX_CHANNELS`](crate::MAX_CHANNELS) channels, or more than
    /// [`MAX_READINGS`](crate::MAX_READINGS) readings a channel, and the channels are of one length.
    #[track_caller]
    pub fn detect_multi(&self, signals: &[&[f64]]) -> Option<MultiPeltResult> {
        match self.0.detect_multi(signals) {
            Err(Refusal::Unequal) => None,
            // The library counts the channels before it compares their lengths, u-analytics does not.
            Err(Refusal::Channels) if unequal(signals) => None,
            answer => Some(expected(answer)),
        }
    }
}

/// What a CUSUM chart makes of one reading.
#[derive(Debug, Clone)]
pub struct CusumResult {
    /// The upper sum.
    pub s_upper: f64,
    /// The lower sum.
    pub s_lower: f64,
    /// Whether a sum is above h. A reading that is not finite carries the sums on, without a signal.
    pub signal: bool,
    /// The index of the reading, from 0.
    pub index: usize,
}

impl CusumResult {
    fn of(record: crate::CusumResult) -> Self {
        CusumResult {
            s_upper: record.s_upper,
            s_lower: record.s_lower,
            signal: record.signal(),
            index: record.index,
        }
    }
}

/// A CUSUM chart.
///
/// ```
/// use overbrindle::detection::Cusum;
///
/// let cusum = Cusum::new(0.0, 1.0).unwrap();
/// assert_eq!(cusum.signal_points(&[3.0, 3.0, 3.0]), [2]);
/// ```
#[derive(Clone, Debug)]
pub struct Cusum(crate::Cusum);

impl Cusum {
    /// A chart with k 0.5 and h 5. `None` if the target is not finite, or sigma not finite or not above 0.
    pub fn new(target: f64, sigma: f64) -> Option<Self> {
        crate::Cusum::new(target, sigma).ok().map(Cusum)
    }

    /// A chart with an allowance k and a decision interval h of its own. `None` if a setting is out of range.
    pub fn with_params(target: f64, sigma: f64, k: f64, h: f64) -> Option<Self> {
        let made = crate::Cusum::with_params(target, sigma, k, h);
        made.ok().map(Cusum)
    }

    /// A record for each reading.
    ///
    /// # Panics
    ///
    /// If there are more than [`MAX_READINGS`](crate::MAX_READINGS) readings.
    #[track_caller]
    pub fn analyze(&self, data: &[f64]) -> Vec<CusumResult> {
        let records = expected(self.0.analyze(data));
        records.into_iter().map(CusumResult::of).collect()
    }

    /// The indices of the readings that signal, lowest first.
    ///
    /// # Panics
    ///
    /// If there are more than [`MAX_READINGS`](crate::MAX_READINGS) readings.
    #[track_caller]
    pub fn signal_points(&self, data: &[f64]) -> Vec<usize> {
        expected(self.0.signal_points(data))
    }
}

/// What an EWMA chart makes of one reading.
#[derive(Debug, Clone)]
pub struct EwmaResult {
    /// The statistic: the moving average.
    pub ewma: f64,
    /// The upper limit at this reading.
    pub ucl: f64,
    /// The lower limit at this reading.
    pub lcl: f64,
    /// Whether the statistic is outside the limits. A reading that is not finite carries it on, without a
    /// signal.
    pub signal: bool,
    /// The index of the reading, from 0.
    pub index: usize,
}

impl EwmaResult {
    fn of(record: crate::EwmaResult) -> Self {
        EwmaResult {
            ewma: record.ewma,
            ucl: record.ucl,
            lcl: record.lcl,
            signal: record.signal(),
            index: record.index,
        }
    }
}

/// An EWMA chart, always of [`Edition::First`].
///
/// ```
/// use overbrindle::detection::Ewma;
///
/// let ewma = Ewma::with_params(0.0, 1.0, 1.0, 3.0).unwrap();
/// assert_eq!(ewma.signal_points(&[3.0, 3.5]), [1]);
/// ```
#[derive(Clone, Debug)]
pub struct Ewma(crate::Ewma);

impl Ewma {
    /// A chart with lambda 0.2 and L 3. `None` if the target is not finite, or sigma not finite or not above
    /// 0.
    pub fn new(target: f64, sigma: f64) -> Option<Self> {
        let made = crate::Ewma::new(target, sigma, Edition::First);
        made.ok().map(Ewma)
    }

    /// A chart with a weight lambda and a width L of its own. `None` if a setting is out of range.
    pub fn with_params(target: f64, sigma: f64, lambda: f64, l_factor: f64) -> Option<Self> {
        let made = crate::Ewma::with_params(target, sigma, lambda, l_factor, Edition::First);
        made.ok().map(Ewma)
    }

    /// A record for each reading.
    ///
    /// # Panics
    ///
    /// If there are more than [`MAX_READINGS`](crate::MAX_READINGS) readings.
    #[track_caller]
    pub fn analyze(&self, data: &[f64]) -> Vec<EwmaResult> {
        let records = expected(self.0.analyze(data));
        records.into_iter().map(EwmaResult::of).collect()
    }

    /// The indices of the readings that signal, lowest first.
    ///
    /// # Panics
    ///
    /// If there are more than [`MAX_READINGS`](crate::MAX_READINGS) readings.
    #[track_caller]
    pub fn signal_points(&self, data: &[f64]) -> Vec<usize> {
        expected(self.0.signal_points(data))
    }
}
