//! What can be asked of one channel: the summary of a piece, and the noise variance.

use crate::{lent, Refusal};

/// What a piece of a channel is like.
#[derive(Clone, Copy, Debug, PartialEq)]
pub struct PieceSummary {
    /// How many readings it has.
    pub length: usize,
    /// Their mean. It is NaN where a reading of the channel is NaN or infinite, in the piece or not.
    pub mean: f64,
    /// Their variance: the sum of their squares about their mean, divided by one less than there are. It is at or
    /// above 0, or NaN, as where the mean is. A single reading has none.
    pub spread: Option<f64>,
}

/// The summary of the readings of a channel from `start` up to `end`, without `end`. A channel of more than
/// [`MAX_READINGS`](crate::MAX_READINGS) readings is [`Refusal::TooLong`]; a piece that is empty or ends past
/// the channel is [`Refusal::Piece`].
///
/// ```
/// use overbrindle::{piece_summary, PieceSummary, Refusal};
///
/// let channel = [0.0, 0.0, 4.0, 4.0];
/// let all = PieceSummary { length: 4, mean: 2.0, spread: Some(5.333333333333333) };
/// let one = PieceSummary { length: 1, mean: 4.0, spread: None };
/// assert_eq!(piece_summary(&channel, 0, 4), Ok(all));
/// assert_eq!(piece_summary(&channel, 2, 3), Ok(one));
/// assert_eq!(piece_summary(&channel, 2, 5), Err(Refusal::Piece));
/// ```
pub fn piece_summary(channel: &[f64], start: usize, end: usize) -> Result<PieceSummary, Refusal> {
    let said = lent::piece_summary(channel, start, end);
    match said.number {
        0 => Ok(PieceSummary {
            length: said.length,
            mean: said.mean,
            spread: (said.has_spread == 1).then_some(said.spread),
        }),
        number => Err(Refusal::of(number, 0, 0)),
    }
}

/// The noise variance of a channel, from the median of its steps, as a search by BIC with the L2 cost
/// takes it.
///
/// ```
/// assert_eq!(overbrindle::noise_variance(&[5.0, 5.0, 5.0, 5.0]), 0.0);
/// ```
pub fn noise_variance(channel: &[f64]) -> f64 {
    let mut area = vec![0.0; channel.len().saturating_sub(1)];
    lent::noise_variance(channel, &mut area, 0)
}
