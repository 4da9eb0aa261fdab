//! The side of a chart's record.

/// On which side of a chart a reading signals, or that it does not.
///
/// ```
/// use overbrindle::{Cusum, Refusal, Side};
///
/// let records = Cusum::new(0.0, 1.0)?.analyze(&[20.0, -10.0, -10.0])?;
/// let sides: Vec<Side> = records.iter().map(|record| record.side).collect();
/// assert_eq!(sides, [Side::Above, Side::Both, Side::Below]);
/// assert!(sides[1].is_above() && sides[1].is_below());
/// # Ok::<(), Refusal>(())
/// ```
#[derive(Clone, Copy, Debug, PartialEq, Eq)]
pub enum Side {
    /// No signal, as for every reading that is not finite.
    None,
    /// The upper sum of a CUSUM chart is above h, or the statistic of an EWMA chart above its upper limit.
    Above,
    /// The lower sum of a CUSUM chart is above h, or the statistic of an EWMA chart below its lower limit.
    Below,
    /// Both sums of a CUSUM chart are above h. No reading of an EWMA chart has this side.
    Both,
}

impl Side {
    /// By the byte that the library writes, which is proved to be one of 0 to 3: 3 alone comes to the last case.
    pub(crate) fn of(byte: u8) -> Self {
        match byte {
            0 => Side::None,
            1 => Side::Above,
            2 => Side::Below,
            _ => Side::Both,
        }
    }

    /// Whether there is a signal, on whichever side: every side but [`None`](Self::None) is one.
    pub fn signals(self) -> bool {
        self != Side::None
    }

    /// Whether there is a signal above: [`Above`](Self::Above) or [`Both`](Self::Both).
    pub fn is_above(self) -> bool {
        matches!(self, Side::Above | Side::Both)
    }

    /// Whether there is a signal below: [`Below`](Self::Below) or [`Both`](Self::Both).
    pub fn is_below(self) -> bool {
        matches!(self, Side::Below | Side::Both)
    }
}

#[cfg(test)]
mod tests {
    use super::Side;

    #[test]
    fn each_byte_has_its_side() {
        let sides = [0, 1, 2, 3].map(Side::of);
        assert_eq!(sides, [Side::None, Side::Above, Side::Below, Side::Both]);
    }

    #[test]
    fn what_a_side_says() {
        let sides = [Side::None, Side::Above, Side::Below, Side::Both];
        assert_eq!(sides.map(Side::signals), [false, true, true, true]);
        assert_eq!(sides.map(Side::is_above), [false, true, false, true]);
        assert_eq!(sides.map(Side::is_below), [false, false, true, true]);
    }
}
