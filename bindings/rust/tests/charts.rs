//! Charts over nothing and at their limits, the sides of their records, and the promise that a lasting shift is
//! signalled.

use overbrindle::{noise_variance, Cusum, CusumResult, Edition, Ewma, Side, Sum, MAX_READINGS};

const EDITIONS: [Edition; 2] = [Edition::First, Edition::Second];

#[test]
fn nothing_is_charted() {
    let cusum = Cusum::new(0.0, 1.0).unwrap();
    assert_eq!(cusum.analyze(&[]).unwrap(), []);
    assert_eq!(cusum.signal_points(&[]).unwrap(), []);
    for edition in EDITIONS {
        let ewma = Ewma::new(0.0, 1.0, edition).unwrap();
        assert_eq!(ewma.analyze(&[]).unwrap(), []);
        assert_eq!(ewma.signal_points(&[]).unwrap(), []);
    }
    assert_eq!(noise_variance(&[]), 0.0);
}

#[test]
fn as_many_readings_as_there_may_be() {
    let readings = [1.0; MAX_READINGS];
    let cusum = Cusum::new(0.0, 1.0).unwrap();
    let last = cusum.analyze(&readings).unwrap().pop();
    let due = CusumResult {
        s_upper: 2048.0,
        s_lower: 0.0,
        side: Side::Above,
        index: MAX_READINGS - 1,
    };
    assert_eq!(last, Some(due));
    // The sum is above 5 from the 11th reading on.
    assert_eq!(
        cusum.signal_points(&readings).unwrap().len(),
        MAX_READINGS - 10
    );
    for edition in EDITIONS {
        let ewma = Ewma::new(0.0, 1.0, edition).unwrap();
        assert_eq!(ewma.analyze(&readings).unwrap().len(), MAX_READINGS);
    }
}

/// The sides of a CUSUM chart with target 0, sigma 1, k 0.5 and h 5.
fn cusum_sides(readings: &[f64]) -> Vec<Side> {
    let records = Cusum::new(0.0, 1.0).unwrap().analyze(readings).unwrap();
    records.iter().map(|record| record.side).collect()
}

/// The sides of an EWMA chart whose statistic is the reading and whose limits are -3 and 3, which both editions
/// have to give.
fn ewma_sides(readings: &[f64]) -> Vec<Side> {
    let [first, second] = EDITIONS.map(|edition| {
        let chart = Ewma::with_params(0.0, 1.0, 1.0, 3.0, edition).unwrap();
        let records = chart.analyze(readings).unwrap();
        let sides = records.iter().map(|record| record.side);
        sides.collect::<Vec<Side>>()
    });
    assert_eq!(first, second);
    first
}

#[test]
fn a_sum_at_h_is_on_no_side() {
    use Side::{Above, Below, None};
    assert_eq!(cusum_sides(&[3.0, 3.0, 3.0]), [None, None, Above]);
    assert_eq!(cusum_sides(&[-3.0, -3.0, -3.0]), [None, None, Below]);
    assert_eq!(cusum_sides(&[16.0, -10.0]), [Above, Below]);
    assert_eq!(cusum_sides(&[-16.0, 10.0]), [Below, Above]);
}

#[test]
fn both_sums_are_above_h() {
    use Side::{Above, Below, Both};
    let readings = [20.0, -10.0, -10.0];
    assert_eq!(cusum_sides(&readings), [Above, Both, Below]);
    let records = Cusum::new(0.0, 1.0).unwrap().analyze(&readings).unwrap();
    assert_eq!((records[1].s_upper, records[1].s_lower), (9.0, 9.5));
    assert_eq!(
        cusum_sides(&[-100.0, 3.0, 3.0, 3.0]),
        [Below, Below, Below, Both]
    );
}

#[test]
fn a_statistic_is_outside_one_limit() {
    use Side::{Above, Below, None};
    assert_eq!(
        ewma_sides(&[3.5, 3.0, -3.5, -3.0]),
        [Above, None, Below, None]
    );
}

#[test]
fn limits_that_are_no_numbers_are_on_no_side() {
    for edition in EDITIONS {
        let chart = Ewma::with_params(0.0, 1e200, 1e-300, 1e200, edition).unwrap();
        let record = chart.analyze(&[1.0]).unwrap().pop().unwrap();
        assert!(record.ucl.is_nan() && record.lcl.is_nan());
        assert_eq!(record.side, Side::None);
    }
}

#[test]
fn a_gap_carries_on_and_is_on_no_side() {
    let chart = Cusum::new(0.0, 1.0).unwrap();
    let records = chart.analyze(&[8.0, f64::NAN]).unwrap();
    let told: Vec<(f64, Side)> = records.iter().map(|r| (r.s_upper, r.side)).collect();
    assert_eq!(told, [(7.5, Side::Above), (7.5, Side::None)]);
    for gap in [f64::NAN, f64::INFINITY, f64::NEG_INFINITY] {
        assert_eq!(cusum_sides(&[20.0, -10.0, gap])[2], Side::None);
        assert_eq!(ewma_sides(&[3.5, gap])[1], Side::None);
        assert_eq!(ewma_sides(&[-3.5, gap])[1], Side::None);
    }
}

#[test]
fn every_side_but_none_is_a_signal() {
    let readings = [20.0, -10.0, -10.0, f64::NAN, 20.0, 0.0];
    let cusum = Cusum::new(0.0, 1.0).unwrap();
    let records = cusum.analyze(&readings).unwrap();
    let signals: Vec<bool> = records.iter().map(|record| record.signal()).collect();
    assert_eq!(signals, [true, true, true, false, true, true]);
    assert_eq!(cusum.signal_points(&readings).unwrap(), [0, 1, 2, 4, 5]);
    for edition in EDITIONS {
        let ewma = Ewma::with_params(0.0, 1.0, 1.0, 3.0, edition).unwrap();
        let records = ewma.analyze(&readings).unwrap();
        let signals: Vec<bool> = records.iter().map(|record| record.signal()).collect();
        assert_eq!(signals, [true, true, true, false, true, false]);
        assert_eq!(ewma.signal_points(&readings).unwrap(), [0, 1, 2, 4]);
    }
}

#[test]
fn a_level_that_is_not_heard() {
    let chart = Cusum::new(0.0, 1.0).unwrap();
    assert_eq!(chart.run_length(0.5, Sum::Upper), Ok(None));
    assert_eq!(chart.run_length(-3.0, Sum::Lower), Ok(Some(3)));
    assert_eq!(chart.run_length(-3.0, Sum::Upper), Ok(None));
}

/// Where the run length of a level is N, the Nth of any next N finite readings at or beyond it signals on the
/// side of the sum that was asked; the large opposite sum at the front does not take that away.
#[test]
fn a_lasting_shift_is_signalled() {
    let (level, gap) = (1.5, f64::NAN);
    let chart = Cusum::new(0.0, 1.0).unwrap();
    let heard = chart.run_length(level, Sum::Upper).unwrap().unwrap();
    assert_eq!(chart.run_length(-level, Sum::Lower), Ok(Some(heard)));
    let readings = [
        0.2, -9.0, 1.5, 1.6, gap, 1.5, 1.9, 1.5, 2.0, 1.0, 1.5, 1.7, 1.5, 1.5, gap, 1.5, 3.0, 1.5,
    ];
    let (mut on_end, mut due) = (0, Vec::new());
    for (index, reading) in readings.iter().enumerate().filter(|(_, r)| r.is_finite()) {
        on_end = if *reading >= level { on_end + 1 } else { 0 };
        if on_end >= heard {
            due.push(index);
        }
    }
    assert_eq!((heard, &due[..]), (6, &[8, 16, 17][..]));
    let signals = chart.signal_points(&readings).unwrap();
    let (sides, mirrored) = (cusum_sides(&readings), cusum_sides(&readings.map(|x| -x)));
    for index in due {
        assert!(signals.contains(&index));
        assert!(sides[index].is_above());
        assert!(mirrored[index].is_below());
    }
}
