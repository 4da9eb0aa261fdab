//! The two editions of the EWMA chart: they agree without gaps, the second counts none of them, and a number
//! that names no edition is refused before all else.

use overbrindle::lent::{self, EwmaAreas, EwmaSettings};
use overbrindle::{Edition, Ewma, EwmaResult, Side, MAX_READINGS};

const GAPS: [f64; 3] = [f64::NAN, f64::INFINITY, f64::NEG_INFINITY];

/// Target 0, sigma 1, lambda 0.5 and L 4: at place 1 the limits are -2 and 2.
fn halving(edition: Edition) -> Ewma {
    Ewma::with_params(0.0, 1.0, 0.5, 4.0, edition).unwrap()
}

fn records(edition: Edition, readings: &[f64]) -> Vec<EwmaResult> {
    halving(edition).analyze(readings).unwrap()
}

/// The bits of the limits.
fn limits(record: &EwmaResult) -> [u64; 2] {
    [record.ucl, record.lcl].map(f64::to_bits)
}

#[test]
fn without_gaps_the_editions_agree() {
    let readings: Vec<f64> = (0..300).map(|at| f64::from(at % 7) - 3.0).collect();
    let (first, second) = (Edition::First, Edition::Second);
    assert_eq!(records(first, &readings), records(second, &readings));
    let points = |edition| halving(edition).signal_points(&readings).unwrap();
    assert_eq!(points(first), points(second));
    let usual = |edition| Ewma::new(1.0, 2.0, edition).unwrap();
    assert_eq!(
        usual(first).analyze(&readings),
        usual(second).analyze(&readings)
    );
}

#[test]
fn a_gap_repeats_the_limits_in_the_second_edition() {
    for gap in GAPS {
        let readings = [1.0, gap, gap, -1.0, gap];
        let counted = records(Edition::Second, &readings);
        let [one, two] = [&[1.0][..], &[1.0, -1.0]]
            .map(|finite| limits(records(Edition::First, finite).last().unwrap()));
        let told: Vec<[u64; 2]> = counted.iter().map(limits).collect();
        assert_eq!(told, [one, one, one, two, two]);
        assert_eq!(f64::from_bits(one[0]), 2.0);
        assert!(one != two);
        let widened = records(Edition::First, &readings);
        assert!(widened.windows(2).all(|pair| pair[0].ucl < pair[1].ucl));
    }
}

#[test]
fn the_statistic_and_a_gaps_side_are_the_same_in_both() {
    let readings = [9.0, f64::NAN, -9.0, f64::INFINITY, f64::NEG_INFINITY, 9.0];
    let pairs = records(Edition::First, &readings)
        .into_iter()
        .zip(records(Edition::Second, &readings));
    for ((first, second), reading) in pairs.zip(readings) {
        assert_eq!(first.ewma, second.ewma);
        assert_eq!(first.index, second.index);
        if !reading.is_finite() {
            assert_eq!((first.side, second.side), (Side::None, Side::None));
        }
    }
}

#[test]
fn before_the_first_finite_reading_the_limits_are_the_target() {
    for gap in GAPS {
        for target in [5.0, 0.0, -0.0] {
            let chart = Ewma::with_params(target, 1.0, 0.5, 4.0, Edition::Second).unwrap();
            let records = chart.analyze(&[gap, gap, target + 1.0]).unwrap();
            for record in &records[..2] {
                assert_eq!((record.ewma, record.side), (target, Side::None));
                assert_eq!(
                    limits(record),
                    [target + 0.0, target - 0.0].map(f64::to_bits)
                );
            }
            assert_eq!(
                (records[2].ucl, records[2].lcl),
                (target + 2.0, target - 2.0)
            );
        }
    }
}

#[test]
fn of_a_target_of_minus_0_the_upper_limit_is_0_and_the_lower_minus_0() {
    let chart = Ewma::new(-0.0, 1.0, Edition::Second).unwrap();
    let record = &chart.analyze(&[f64::NAN]).unwrap()[0];
    assert_eq!(limits(record), [0, 1 << 63]);
    assert_eq!(record.ewma.to_bits(), 1 << 63);
}

#[test]
fn limits_of_an_infinite_width_are_nan_at_place_0() {
    let chart = Ewma::with_params(0.0, 1e200, 0.5, 1e200, Edition::Second).unwrap();
    let records = chart.analyze(&[f64::NAN, 1.0]).unwrap();
    assert!(records[0].ucl.is_nan() && records[0].lcl.is_nan());
    assert_eq!(records[1].ucl, f64::INFINITY);
    assert_eq!(records[1].lcl, f64::NEG_INFINITY);
}

#[test]
fn a_reading_that_signals_in_the_second_edition_alone() {
    let readings = [0.0, f64::NAN, 4.54];
    let sides = |edition| -> Vec<Side> {
        let records = records(edition, &readings);
        records.iter().map(|record| record.side).collect()
    };
    assert_eq!(sides(Edition::First), [Side::None; 3]);
    assert_eq!(
        sides(Edition::Second),
        [Side::None, Side::None, Side::Above]
    );
    let points = |edition| halving(edition).signal_points(&readings).unwrap();
    assert_eq!(points(Edition::First), []);
    assert_eq!(points(Edition::Second), [2]);
}

/// What every place of a lent area holds before a call.
const LENT: u8 = 7;

/// The answer for records in this room, and whether every lent place is as it was.
fn asked(settings: EwmaSettings, data: &[f64], room: usize) -> ((u32, usize), bool) {
    let lent = f64::from(LENT);
    let mut values = [vec![lent; room], vec![lent; room], vec![lent; room]];
    let (mut side, mut index) = (vec![LENT; room], vec![usize::from(LENT); room]);
    let [ewma, ucl, lcl] = &mut values;
    let areas = EwmaAreas {
        ewma,
        ucl,
        lcl,
        side: &mut side,
        index: &mut index,
    };
    let said = lent::ewma_analyze(settings, data, areas);
    let left = values.iter().flatten().all(|&x| x == lent)
        && side.iter().all(|&x| x == LENT)
        && index.iter().all(|&x| x == usize::from(LENT));
    (said, left)
}

/// The same of signal points.
fn asked_points(settings: EwmaSettings, data: &[f64], room: usize) -> ((u32, usize), bool) {
    let mut points = vec![usize::from(LENT); room];
    let said = lent::ewma_signal_points(settings, data, &mut points);
    (said, points.iter().all(|&x| x == usize::from(LENT)))
}

/// Settings with the values of the arguments.
fn settings([target, sigma, lambda, l_factor]: [f64; 4], edition: u32) -> EwmaSettings {
    EwmaSettings {
        target,
        sigma,
        lambda,
        l_factor,
        edition,
    }
}

#[test]
fn a_number_that_names_no_edition_is_refused_before_all_else() {
    let (nan, right) = (f64::NAN, [0.0, 1.0, 0.5, 4.0]);
    let mut charts = vec![right, [nan; 4]];
    charts.extend([0, 1, 2, 3].map(|at| {
        let mut wrong = right;
        wrong[at] = nan;
        wrong
    }));
    let long = vec![9.0; MAX_READINGS + 1];
    for edition in [0, 3, 4, 255, 256, 257, 258, 1 << 31, u32::MAX] {
        for &values in &charts {
            let chart = settings(values, edition);
            for (data, room) in [
                (&long[..0], 0),
                (&long[..3], 4),
                (&long[..3], 2),
                (&long[..], 4),
            ] {
                assert_eq!(asked(chart, data, room), ((10, 0), true));
                assert_eq!(asked_points(chart, data, room), ((10, 0), true));
            }
        }
    }
}

#[test]
fn the_editions_are_1_and_2() {
    let readings = [9.0, f64::NAN, 9.0];
    for (number, edition) in [(1, Edition::First), (2, Edition::Second)] {
        let chart = settings([0.0, 1.0, 0.5, 4.0], number);
        let mut values = [[0.0; 3]; 3];
        let (mut side, mut index) = ([0; 3], [0; 3]);
        let [ewma, ucl, lcl] = &mut values;
        let areas = EwmaAreas {
            ewma,
            ucl,
            lcl,
            side: &mut side,
            index: &mut index,
        };
        assert_eq!(lent::ewma_analyze(chart, &readings, areas), (0, 3));
        let due = records(edition, &readings);
        assert_eq!(values[1], [due[0].ucl, due[1].ucl, due[2].ucl]);
        assert_eq!(side, [1, 0, 1]);
        assert_eq!(asked(chart, &readings, 2), ((7, 0), true));
        assert_eq!(asked_points(chart, &readings, 2), ((7, 0), true));
    }
}
