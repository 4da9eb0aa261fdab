//! The numbered reasons for which a call gives no answer.

use crate::{MAX_CHANNELS, MAX_READINGS};
use std::error::Error;
use std::fmt;

/// Why a call gave no answer. The cases are those of the library, each with its [`number`](Self::number).
///
/// The types of the package's root lend a call the room and the pool that it needs, and ask by no number
/// that the library does not know: they give neither `Shape`, `Room`, `Pool` nor `Form`.
///
/// ```
/// use overbrindle::{Cusum, Refusal};
///
/// let refusal = Cusum::new(0.0, -1.0).unwrap_err();
/// assert_eq!(refusal, Refusal::Sigma);
/// assert_eq!(refusal.number(), 16);
/// assert_eq!(refusal.to_string(), "refusal 16: sigma is not finite or not above 0");
/// ```
#[derive(Clone, Copy, Debug, PartialEq, Eq)]
#[non_exhaustive]
pub enum Refusal {
    /// 1: a custom penalty is not finite or not above 0.
    Penalty,
    /// 2: the minimum length of a piece is below 2.
    MinLen,
    /// 3: there are more than [`MAX_CHANNELS`] channels.
    Channels,
    /// 4: the lengths of the channels don't add up to the number of readings.
    Shape,
    /// 5: two channels have different lengths.
    Unequal,
    /// 6: a channel or a series has more than [`MAX_READINGS`] readings.
    TooLong,
    /// 7: a lent area is shorter than the call needs.
    Room,
    /// 8: a reading of a strict search, or the level of a run length, is NaN or infinite.
    NonFinite {
        /// The lowest channel with such a reading, from 0; 0 for a level.
        channel: usize,
        /// The lowest index of such a reading in that channel, from 0; 0 for a level.
        index: usize,
    },
    /// 9: the search needs more candidate slots than were lent.
    Pool,
    /// 10: a number stands for no cost, penalty, sum or edition.
    Form,
    /// 12: the start of the piece is not below its end, or its end is past the channel.
    Piece,
    /// 15: the target of a chart is not finite. Of several settings that are out of range the first is named,
    /// in the order of the constructors' parameters.
    Target,
    /// 16: the sigma of a chart is not finite or not above 0.
    Sigma,
    /// 17: the weight of a chart is out of range: the k of a CUSUM chart is not finite or negative, or the
    /// lambda of an EWMA chart is not above 0 and at most 1.
    Weight,
    /// 18: the bound of a chart, h of a CUSUM chart or L of an EWMA chart, is not finite or not above 0.
    Bound,
    /// A number that this package has no case for. The library that it was made with gives none; a later
    /// one may, and its number is kept then.
    Other(u32),
}

impl Refusal {
    /// By the library's number, with the place of 8.
    pub(crate) fn of(number: u32, channel: usize, index: usize) -> Self {
        match number {
            1 => Refusal::Penalty,
            2 => Refusal::MinLen,
            3 => Refusal::Channels,
            4 => Refusal::Shape,
            5 => Refusal::Unequal,
            6 => Refusal::TooLong,
            7 => Refusal::Room,
            8 => Refusal::NonFinite { channel, index },
            9 => Refusal::Pool,
            10 => Refusal::Form,
            12 => Refusal::Piece,
            15 => Refusal::Target,
            16 => Refusal::Sigma,
            17 => Refusal::Weight,
            18 => Refusal::Bound,
            number => Refusal::Other(number),
        }
    }

    /// The number by which the library, its program and its documents know this refusal.
    pub fn number(self) -> u32 {
        match self {
            Refusal::Penalty => 1,
            Refusal::MinLen => 2,
            Refusal::Channels => 3,
            Refusal::Shape => 4,
            Refusal::Unequal => 5,
            Refusal::TooLong => 6,
            Refusal::Room => 7,
            Refusal::NonFinite { .. } => 8,
            Refusal::Pool => 9,
            Refusal::Form => 10,
            Refusal::Piece => 12,
            Refusal::Target => 15,
            Refusal::Sigma => 16,
            Refusal::Weight => 17,
            Refusal::Bound => 18,
            Refusal::Other(number) => number,
        }
    }

    /// The channel and the index of a reading that is not finite; nothing for every other refusal.
    pub fn place(self) -> Option<(usize, usize)> {
        match self {
            Refusal::NonFinite { channel, index } => Some((channel, index)),
            _ => None,
        }
    }

    /// What is wrong.
    fn text(self) -> String {
        match self {
            Refusal::Penalty => "a custom penalty is not finite or not above 0".into(),
            Refusal::MinLen => "the minimum length of a piece is below 2".into(),
            Refusal::Channels => format!("there are more than {MAX_CHANNELS} channels"),
            Refusal::Shape => "the lengths don't add up to the number of readings".into(),
            Refusal::Unequal => "two channels have different lengths".into(),
            Refusal::TooLong => format!("a channel has more than {MAX_READINGS} readings"),
            Refusal::Room => "a lent area is shorter than the call needs".into(),
            Refusal::NonFinite { channel, index } => {
                format!("reading {index} of channel {channel} is not finite")
            }
            Refusal::Pool => "the search needs more candidate slots than were lent".into(),
            Refusal::Form => "a number stands for no cost, penalty, sum or edition".into(),
            Refusal::Piece => "the piece is empty or ends past the channel".into(),
            Refusal::Target => "the target is not finite".into(),
            Refusal::Sigma => "sigma is not finite or not above 0".into(),
            Refusal::Weight => "the weight, k or lambda, is out of range".into(),
            Refusal::Bound => "the bound, h or L, is not finite or not above 0".into(),
            Refusal::Other(_) => "this package does not know the number".into(),
        }
    }
}

impl fmt::Display for Refusal {
    fn fmt(&self, f: &mut fmt::Formatter) -> fmt::Result {
        write!(f, "refusal {}: {}", self.number(), self.text())
    }
}

impl Error for Refusal {}

/// What is counted, or the refusal, of a call whose refusals have no place of their own.
pub(crate) fn counted((number, count): (u32, usize)) -> Result<usize, Refusal> {
    match number {
        0 => Ok(count),
        _ => Err(Refusal::of(number, 0, 0)),
    }
}

#[cfg(test)]
mod tests {
    use super::Refusal;

    #[test]
    fn each_number_is_kept() {
        for number in 1..=19 {
            assert_eq!(Refusal::of(number, 1, 17).number(), number);
        }
    }

    #[test]
    fn numbers_without_a_case() {
        let other = |&number: &u32| Refusal::of(number, 0, 0) == Refusal::Other(number);
        let holes: Vec<u32> = (1..=19).filter(other).collect();
        assert_eq!(holes, [11, 13, 14, 19]);
    }

    #[test]
    fn only_a_reading_has_a_place() {
        for number in 1..=19 {
            let place = (number == 8).then_some((1, 17));
            assert_eq!(Refusal::of(number, 1, 17).place(), place);
        }
    }
}
