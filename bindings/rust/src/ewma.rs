//! The EWMA chart.

use crate::lent::{self, EwmaAreas, EwmaSettings};
use crate::refusal::counted;
use crate::{Refusal, Side, MAX_READINGS};

/// How the places of an EWMA chart are counted, by which its limits widen. Without a reading that is not finite
/// both editions give the same records, and with such readings the same statistics.
///
/// Both stay, because a chart that was filed has to be redrawn as it was made, so there is no edition that a
/// chart has unasked.
///
/// ```
/// use overbrindle::{Edition, Ewma, Refusal};
///
/// let readings = [0.0, f64::NAN, 4.54];
/// let first = Ewma::with_params(0.0, 1.0, 0.5, 4.0, Edition::First)?;
/// let second = Ewma::with_params(0.0, 1.0, 0.5, 4.0, Edition::Second)?;
/// assert_eq!(first.signal_points(&readings)?, []);
/// assert_eq!(second.signal_points(&readings)?, [2]);
///
/// let limits: Vec<f64> = second.analyze(&readings)?.iter().map(|record| record.ucl).collect();
/// assert_eq!(limits[1], limits[0]);
/// # Ok::<(), Refusal>(())
/// ```
#[derive(Clone, Copy, Debug, PartialEq, Eq)]
pub enum Edition {
    /// The place of a reading is its index and 1, so the limits widen at a reading that is not finite too. It is
    /// for charts that were filed under it, and for answers that have to equal those of u-analytics.
    First,
    /// The place of a reading is the number of finite readings up to and with it, so the limits do not widen
    /// while nothing is measured: a reading that is not finite repeats the limits before it, and where none
    /// was finite yet both limits are the target. It is for new charts whose logs have gaps.
    Second,
}

impl Edition {
    /// The number that the library knows it by.
    fn number(self) -> u32 {
        match self {
            Edition::First => 1,
            Edition::Second => 2,
        }
    }
}

/// What an EWMA chart makes of one reading.
#[derive(Clone, Debug, PartialEq)]
pub struct EwmaResult {
    /// The statistic: the moving average.
    pub ewma: f64,
    /// The upper limit at this reading.
    pub ucl: f64,
    /// The lower limit at this reading.
    pub lcl: f64,
    /// Which limit the statistic is outside of, never both. A reading that is not finite carries the statistic
    /// on, and its side is none.
    pub side: Side,
    /// The index of the reading, from 0.
    pub index: usize,
}

impl EwmaResult {
    /// Whether the reading signals, on whichever side.
    pub fn signal(&self) -> bool {
        self.side.signals()
    }
}

/// An EWMA chart, which signals small shifts of the mean by a moving average.
///
/// ```
/// use overbrindle::{Edition, Ewma, Refusal, Side};
///
/// let chart = Ewma::with_params(0.0, 1.0, 1.0, 3.0, Edition::Second)?;
/// let records = chart.analyze(&[3.0, 3.5])?;
/// assert_eq!((records[0].lcl, records[0].ucl), (-3.0, 3.0));
/// assert_eq!((records[0].side, records[1].side), (Side::None, Side::Above));
/// assert_eq!(chart.signal_points(&[3.0, 3.5])?, [1]);
/// # Ok::<(), Refusal>(())
/// ```
#[derive(Clone, Copy, Debug)]
pub struct Ewma(EwmaSettings);

impl Ewma {
    /// A chart with lambda 0.2 and L 3. A target or sigma out of range is [`Refusal::Target`] or
    /// [`Refusal::Sigma`].
    pub fn new(target: f64, sigma: f64, edition: Edition) -> Result<Self, Refusal> {
        Self::with_params(target, sigma, 0.2, 3.0, edition)
    }

    /// A chart with a weight lambda and a width L of its own. The first setting that is out of range is
    /// [`Refusal::Target`], [`Refusal::Sigma`], [`Refusal::Weight`] or [`Refusal::Bound`].
    pub fn with_params(
        target: f64,
        sigma: f64,
        lambda: f64,
        l_factor: f64,
        edition: Edition,
    ) -> Result<Self, Refusal> {
        let made = Ewma(EwmaSettings {
            target,
            sigma,
            lambda,
            l_factor,
            edition: edition.number(),
        });
        // The library looks at the settings of every call, so one over nothing says whether they are right.
        made.analyze(&[]).map(|_| made)
    }

    /// A record for each reading. More than [`MAX_READINGS`] readings are [`Refusal::TooLong`].
    pub fn analyze(&self, data: &[f64]) -> Result<Vec<EwmaResult>, Refusal> {
        // More readings are refused before the room is looked at.
        let n = data.len().min(MAX_READINGS);
        let (mut ewma, mut ucl, mut lcl) = (vec![0.0; n], vec![0.0; n], vec![0.0; n]);
        let (mut side, mut index) = (vec![0; n], vec![0; n]);
        let areas = EwmaAreas {
            ewma: &mut ewma,
            ucl: &mut ucl,
            lcl: &mut lcl,
            side: &mut side,
            index: &mut index,
        };
        let count = counted(lent::ewma_analyze(self.0, data, areas))?;
        let record = |i: usize| EwmaResult {
            ewma: ewma[i],
            ucl: ucl[i],
            lcl: lcl[i],
            side: Side::of(side[i]),
            index: index[i],
        };
        Ok((0..count).map(record).collect())
    }

    /// The indices of the readings that signal, lowest first. More than [`MAX_READINGS`] readings are
    /// [`Refusal::TooLong`].
    pub fn signal_points(&self, data: &[f64]) -> Result<Vec<usize>, Refusal> {
        let mut points = vec![0; data.len().min(MAX_READINGS)];
        let count = counted(lent::ewma_signal_points(self.0, data, &mut points))?;
        points.truncate(count);
        Ok(points)
    }
}
