//! The spread of a piece: by the length less one, never below 0, NaN where the cost is, and none of one reading.

use overbrindle::lent::{self, SaidPiece};
use overbrindle::{piece_summary, MAX_READINGS};

fn spread(channel: &[f64], start: usize, end: usize) -> Option<f64> {
    piece_summary(channel, start, end).unwrap().spread
}

#[test]
fn the_spread_is_over_the_length_less_one() {
    let channel = [0.0, 0.0, 4.0, 4.0];
    assert_eq!(spread(&channel, 0, 4), Some(5.333333333333333));
    assert_eq!(spread(&channel, 1, 3), Some(8.0));
    assert_eq!(spread(&channel, 2, 4), Some(0.0));
    assert_eq!(spread(&[0.25; MAX_READINGS], 0, MAX_READINGS), Some(0.0));
}

#[test]
fn one_reading_has_none() {
    for reading in [0.0, 4.0, 1e300, f64::NAN, f64::INFINITY] {
        let channel = [0.0, reading, 4.0];
        for start in 0..3 {
            assert_eq!(spread(&channel, start, start + 1), None);
        }
        assert_eq!(spread(&[reading], 0, 1), None);
    }
}

/// Rounding brings the cost of these below 0: their spread is +0.
#[test]
fn equal_readings_do_not_spread_below_zero() {
    let channel = [0.1, 0.1, 0.1, 1.0];
    assert_eq!(spread(&channel, 1, 3).map(f64::to_bits), Some(0));
    assert_eq!(spread(&[1.0, 2.0, 2.0], 1, 3).map(f64::to_bits), Some(0));
}

#[test]
fn a_cost_that_is_infinite_stays() {
    assert_eq!(spread(&[1e200, -1e200], 0, 2), Some(f64::INFINITY));
}

/// In the piece, before it and after it.
#[test]
fn a_gap_of_the_channel_shows_in_every_piece() {
    for gap in [f64::NAN, f64::INFINITY, f64::NEG_INFINITY] {
        for at in 0..4 {
            let mut channel = [0.0, 1.0, 4.0, 4.0];
            channel[at] = gap;
            for (start, end) in [(0, 2), (1, 3), (2, 4), (0, 4)] {
                assert!(piece_summary(&channel, start, end).unwrap().mean.is_nan());
                assert!(spread(&channel, start, end).is_some_and(f64::is_nan));
            }
        }
    }
}

/// 0 stands where there is no spread, and the flag says that there is none.
#[test]
fn without_a_spread_the_lent_call_says_so() {
    let said = |number, length, mean, has_spread, spread| SaidPiece {
        number,
        length,
        mean,
        has_spread,
        spread,
    };
    let channel = [0.0, 0.0, 4.0, 4.0];
    let asked = |start, end| lent::piece_summary(&channel, start, end);
    assert_eq!(asked(1, 3), said(0, 2, 2.0, 1, 8.0));
    assert_eq!(asked(2, 4), said(0, 2, 4.0, 1, 0.0));
    assert_eq!(asked(3, 4), said(0, 1, 4.0, 0, 0.0));
    assert_eq!(asked(3, 3), said(12, 0, 0.0, 0, 0.0));
}
