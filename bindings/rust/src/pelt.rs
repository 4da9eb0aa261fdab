//! Searches for cuts in one channel or more.

use crate::lent::{self, Areas, Said, SearchSettings, SLOT};
use crate::{Refusal, MAX_CHANNELS, MAX_READINGS};

/// The slots that a search is lent at first. Most need fewer, and every search clears all that it is lent.
const FIRST_SLOTS: usize = 40;

/// Up to so many channels a search by L2 keeps its candidates in slots; no other search has any.
const CHANNELS_WITH_SLOTS: usize = 2;

/// What the cost of a piece is.
#[derive(Clone, Copy, Debug, PartialEq, Eq)]
pub enum CostFunction {
    /// The sum of squares about the mean of the piece: finds changes of the mean.
    L2,
    /// The length times the logarithm of the variance of the piece: finds changes of mean or variance.
    Normal,
}

/// What a cut costs.
#[derive(Clone, Copy, Debug, PartialEq)]
pub enum Penalty {
    /// By the number of readings and, for L2, the noise of the channels.
    Bic,
    /// This much for each channel: finite and above 0.
    Custom(f64),
}

/// The cuts that a search found in one channel.
#[derive(Clone, Debug, PartialEq, Eq)]
pub struct PeltResult {
    /// The indices at which a new piece begins, from 0, lowest first.
    pub changepoints: Vec<usize>,
}

/// The cuts that a search found in several channels, the same for all.
#[derive(Clone, Debug, PartialEq, Eq)]
pub struct MultiPeltResult {
    /// The indices at which a new piece begins, from 0, lowest first.
    pub changepoints: Vec<usize>,
}

/// A search for cuts: the indices at which a channel, or several at once, begin to behave otherwise.
///
/// ```
/// use overbrindle::{CostFunction, Pelt, Penalty, Refusal};
///
/// let search = Pelt::new(CostFunction::L2, Penalty::Custom(1.0))?;
/// assert_eq!(search.detect(&[0.0, 0.0, 4.0, 4.0])?.changepoints, [2]);
///
/// assert_eq!(Pelt::new(CostFunction::L2, Penalty::Custom(0.0)).unwrap_err(), Refusal::Penalty);
/// # Ok::<(), Refusal>(())
/// ```
#[derive(Clone, Copy, Debug)]
pub struct Pelt {
    cost: CostFunction,
    penalty: Penalty,
    min_segment_len: usize,
}

impl Pelt {
    /// A search with the least minimum length that there can be, 2. A custom penalty that is not finite or
    /// not above 0 is [`Refusal::Penalty`].
    pub fn new(cost: CostFunction, penalty: Penalty) -> Result<Self, Refusal> {
        Self::with_min_segment_len(cost, penalty, 2)
    }

    /// A search for pieces of at least so many readings. Fewer than 2 are [`Refusal::MinLen`].
    pub fn with_min_segment_len(
        cost: CostFunction,
        penalty: Penalty,
        min_segment_len: usize,
    ) -> Result<Self, Refusal> {
        let made = Pelt {
            cost,
            penalty,
            min_segment_len,
        };
        // The library looks at the settings of every search, so one over nothing says whether they are right.
        made.detect(&[]).map(|_| made)
    }

    /// The cuts of a channel. A reading that is not finite is taken as it is, and can spoil the answer
    /// without a word; [`detect_strict`](Self::detect_strict) refuses it. More than [`MAX_READINGS`]
    /// readings are [`Refusal::TooLong`].
    pub fn detect(&self, readings: &[f64]) -> Result<PeltResult, Refusal> {
        let changepoints = self.search(false, readings, &[readings.len()])?;
        Ok(PeltResult { changepoints })
    }

    /// The cuts of a channel whose readings are all finite. The first that is not is
    /// [`Refusal::NonFinite`], with its index.
    ///
    /// ```
    /// use overbrindle::{CostFunction, Pelt, Penalty, Refusal};
    ///
    /// let search = Pelt::new(CostFunction::L2, Penalty::Custom(1.0))?;
    /// let refusal = search.detect_strict(&[0.0, f64::NAN, 4.0, 4.0]).unwrap_err();
    /// assert_eq!(refusal.place(), Some((0, 1)));
    /// # Ok::<(), Refusal>(())
    /// ```
    pub fn detect_strict(&self, readings: &[f64]) -> Result<PeltResult, Refusal> {
        let changepoints = self.search(true, readings, &[readings.len()])?;
        Ok(PeltResult { changepoints })
    }

    /// The cuts of several channels at once. More than [`MAX_CHANNELS`] are [`Refusal::Channels`], and two of
    /// different lengths [`Refusal::Unequal`]; otherwise as [`detect`](Self::detect).
    ///
    /// ```
    /// use overbrindle::{CostFunction, Pelt, Penalty, Refusal};
    ///
    /// let search = Pelt::new(CostFunction::L2, Penalty::Custom(1.0))?;
    /// let found = search.detect_multi(&[&[0.0, 0.0, 4.0, 4.0], &[1.0, 1.0, 1.0, 1.0]])?;
    /// assert_eq!(found.changepoints, [2]);
    ///
    /// let unequal = search.detect_multi(&[&[0.0, 0.0], &[1.0]]);
    /// assert_eq!(unequal, Err(Refusal::Unequal));
    /// # Ok::<(), Refusal>(())
    /// ```
    pub fn detect_multi(&self, channels: &[&[f64]]) -> Result<MultiPeltResult, Refusal> {
        let changepoints = self.search(false, &channels.concat(), &lengths(channels))?;
        Ok(MultiPeltResult { changepoints })
    }

    /// The cuts of several channels whose readings are all finite. The first that is not, by channel and
    /// then by index, is [`Refusal::NonFinite`].
    pub fn detect_multi_strict(&self, channels: &[&[f64]]) -> Result<MultiPeltResult, Refusal> {
        let changepoints = self.search(true, &channels.concat(), &lengths(channels))?;
        Ok(MultiPeltResult { changepoints })
    }

    fn settings(&self) -> SearchSettings {
        let cost = match self.cost {
            CostFunction::L2 => 0,
            CostFunction::Normal => 1,
        };
        let (penalty_kind, penalty) = match self.penalty {
            Penalty::Bic => (0, 0.0),
            Penalty::Custom(value) => (1, value),
        };
        SearchSettings {
            cost,
            penalty_kind,
            penalty,
            min_segment_len: self.min_segment_len,
        }
    }

    /// With more slots until they suffice, as n of them always do: a search that had too few leaves its room
    /// as one that answered does, so it can be asked again.
    fn search(
        &self,
        strict: bool,
        readings: &[f64],
        lengths: &[usize],
    ) -> Result<Vec<usize>, Refusal> {
        let mut room = Room::of(self.cost, lengths);
        loop {
            let said = lent::detect(strict, self.settings(), readings, lengths, room.areas());
            match room.answer(said) {
                Err(Refusal::Pool) => room.add_slots(),
                answer => return answer,
            }
        }
    }
}

fn lengths(channels: &[&[f64]]) -> Vec<usize> {
    channels.iter().map(|channel| channel.len()).collect()
}

/// The room of a search.
struct Room {
    cuts: Vec<usize>,
    floats: Vec<f64>,
    indices: Vec<usize>,
    pool: Vec<f64>,
}

impl Room {
    /// As much as the library asks for channels of these lengths, or for the most that it takes: what is
    /// beyond that it refuses before it looks at the room.
    fn of(cost: CostFunction, lengths: &[usize]) -> Self {
        let n = lengths.first().map_or(0, |&n| n.min(MAX_READINGS));
        let channels = lengths.len().min(MAX_CHANNELS);
        let slots = match cost == CostFunction::L2 && channels <= CHANNELS_WITH_SLOTS {
            true => FIRST_SLOTS.min(n),
            false => 0,
        };
        Room {
            cuts: vec![0; n / 2],
            floats: vec![0.0; (2 * channels + 2) * (n + 1)],
            indices: vec![0; 3 * (n + 1)],
            pool: vec![0.0; slots * SLOT],
        }
    }

    fn areas(&mut self) -> Areas<'_> {
        Areas {
            cuts: &mut self.cuts,
            floats: &mut self.floats,
            indices: &mut self.indices,
            pool: &mut self.pool,
        }
    }

    /// As many again, and some where there were none, so that a search can't ask for ever.
    fn add_slots(&mut self) {
        let floats = self.pool.len().max(FIRST_SLOTS * SLOT);
        self.pool.resize(self.pool.len() + floats, 0.0);
    }

    /// The cuts that a search in this room wrote, or the refusal.
    fn answer(&self, said: Said) -> Result<Vec<usize>, Refusal> {
        match said.number {
            0 => Ok(self.cuts[..said.count].to_vec()),
            number => Err(Refusal::of(number, said.channel, said.index)),
        }
    }
}
