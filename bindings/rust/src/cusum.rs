//! The CUSUM chart.

use crate::lent::{self, CusumAreas, CusumSettings};
use crate::refusal::counted;
use crate::{Refusal, Side, MAX_READINGS};

/// Which of the two sums of a CUSUM chart is asked.
#[derive(Clone, Copy, Debug, PartialEq, Eq)]
pub enum Sum {
    /// The sum that rises with readings above the target.
    Upper,
    /// The sum that rises with readings below the target.
    Lower,
}

/// What a CUSUM chart makes of one reading.
#[derive(Clone, Debug, PartialEq)]
pub struct CusumResult {
    /// The upper sum.
    pub s_upper: f64,
    /// The lower sum.
    pub s_lower: f64,
    /// Which sums are above h. A reading that is not finite carries the sums on, and its side is none.
    pub side: Side,
    /// The index of the reading, from 0.
    pub index: usize,
}

impl CusumResult {
    /// Whether the reading signals, on whichever side.
    pub fn signal(&self) -> bool {
        self.side.signals()
    }
}

/// A CUSUM chart, which signals small shifts of the mean that last.
///
/// ```
/// use overbrindle::{Cusum, Refusal, Side, Sum};
///
/// let chart = Cusum::new(0.0, 1.0)?;
/// let records = chart.analyze(&[3.0, 3.0, 3.0])?;
/// let sums: Vec<f64> = records.iter().map(|record| record.s_upper).collect();
/// assert_eq!(sums, [2.5, 5.0, 7.5]);
/// assert_eq!(records[2].side, Side::Above);
/// assert_eq!(chart.signal_points(&[3.0, 3.0, 3.0])?, [2]);
/// assert_eq!(chart.run_length(3.0, Sum::Upper)?, Some(3));
/// # Ok::<(), Refusal>(())
/// ```
#[derive(Clone, Copy, Debug)]
pub struct Cusum(CusumSettings);

impl Cusum {
    /// A chart with k 0.5 and h 5. A target or sigma out of range is [`Refusal::Target`] or
    /// [`Refusal::Sigma`].
    pub fn new(target: f64, sigma: f64) -> Result<Self, Refusal> {
        Self::with_params(target, sigma, 0.5, 5.0)
    }

    /// A chart with an allowance k and a decision interval h of its own. The first setting that is out of range
    /// is [`Refusal::Target`], [`Refusal::Sigma`], [`Refusal::Weight`] or [`Refusal::Bound`].
    pub fn with_params(target: f64, sigma: f64, k: f64, h: f64) -> Result<Self, Refusal> {
        let made = Cusum(CusumSettings {
            target,
            sigma,
            k,
            h,
        });
        // The library looks at the settings of every call, so one over nothing says whether they are right.
        made.analyze(&[]).map(|_| made)
    }

    /// A record for each reading. More than [`MAX_READINGS`] readings are [`Refusal::TooLong`].
    pub fn analyze(&self, data: &[f64]) -> Result<Vec<CusumResult>, Refusal> {
        // More readings are refused before the room is looked at.
        let n = data.len().min(MAX_READINGS);
        let (mut s_upper, mut s_lower) = (vec![0.0; n], vec![0.0; n]);
        let (mut side, mut index) = (vec![0; n], vec![0; n]);
        let areas = CusumAreas {
            s_upper: &mut s_upper,
            s_lower: &mut s_lower,
            side: &mut side,
            index: &mut index,
        };
        let count = counted(lent::cusum_analyze(self.0, data, areas))?;
        let record = |i: usize| CusumResult {
            s_upper: s_upper[i],
            s_lower: s_lower[i],
            side: Side::of(side[i]),
            index: index[i],
        };
        Ok((0..count).map(record).collect())
    }

    /// The indices of the readings that signal, lowest first. More than [`MAX_READINGS`] readings are
    /// [`Refusal::TooLong`].
    pub fn signal_points(&self, data: &[f64]) -> Result<Vec<usize>, Refusal> {
        let mut points = vec![0; data.len().min(MAX_READINGS)];
        let count = counted(lent::cusum_signal_points(self.0, data, &mut points))?;
        points.truncate(count);
        Ok(points)
    }

    /// The reading, from 1, at which a fresh chart that is fed this level alone first has the asked sum above
    /// h; nothing where none of the first [`MAX_READINGS`] does. A level that is not finite is
    /// [`Refusal::NonFinite`].
    ///
    /// It is a promise about every series that the chart takes: where the run length of a level is N, the
    /// Nth of any next N finite readings at or beyond the level signals on the side of that sum:
    /// [`Side::is_above`] holds for the upper sum, and [`Side::is_below`] for the lower.
    pub fn run_length(&self, level: f64, sum: Sum) -> Result<Option<usize>, Refusal> {
        let sum = match sum {
            Sum::Upper => 0,
            Sum::Lower => 1,
        };
        let reading = counted(lent::cusum_run_length(self.0, level, sum))?;
        Ok((reading > 0).then_some(reading))
    }
}
