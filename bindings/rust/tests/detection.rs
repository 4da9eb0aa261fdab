//! Module `detection` as a program has it that is written for u-analytics: that package's own examples, word
//! for word, and where `None` and a panic are due.

use overbrindle as u_analytics;
use std::panic::{catch_unwind, AssertUnwindSafe};
use u_analytics::detection::{CostFunction, Cusum, CusumResult, Ewma, EwmaResult, Pelt, Penalty};

#[test]
fn a_shift() {
    use u_analytics::detection::{CostFunction, Pelt, Penalty};

    // Data with a mean shift at index 50
    let mut data: Vec<f64> = vec![0.0; 50];
    data.extend(vec![5.0; 50]);

    let pelt = Pelt::new(CostFunction::L2, Penalty::Bic).unwrap();
    let result = pelt.detect(&data);
    assert!(!result.changepoints.is_empty());
    // The detected changepoint should be near index 50
    assert!((result.changepoints[0] as i64 - 50).unsigned_abs() <= 2);
}

#[test]
fn two_shifts() {
    use u_analytics::detection::{CostFunction, Pelt, Penalty};

    // Two changepoints: shift up at 30, shift down at 70
    let mut data = vec![0.0; 30];
    data.extend(vec![3.0; 40]);
    data.extend(vec![0.0; 30]);

    let pelt = Pelt::new(CostFunction::L2, Penalty::Bic).unwrap();
    let result = pelt.detect(&data);
    assert_eq!(result.changepoints.len(), 2);
}

#[test]
fn two_signals() {
    use u_analytics::detection::{CostFunction, Pelt, Penalty};

    let signal_a: Vec<f64> = [vec![0.0; 50], vec![5.0; 50]].concat();
    let signal_b: Vec<f64> = [vec![0.0; 50], vec![3.0; 50]].concat();

    let pelt = Pelt::new(CostFunction::L2, Penalty::Bic).unwrap();
    let result = pelt.detect_multi(&[&signal_a, &signal_b]).unwrap();
    assert!(!result.changepoints.is_empty());
}

#[test]
fn a_cusum_in_control() {
    use u_analytics::detection::Cusum;

    let cusum = Cusum::new(10.0, 1.0).unwrap();
    // In-control data
    let data = [10.1, 9.8, 10.2, 9.9, 10.0, 10.1, 9.7, 10.3];
    let results = cusum.analyze(&data);
    assert_eq!(results.len(), data.len());
    assert!(cusum.signal_points(&data).is_empty());
}

#[test]
fn a_cusum_with_a_shift() {
    use u_analytics::detection::Cusum;

    let cusum = Cusum::new(10.0, 1.0).unwrap();
    // Data with upward shift
    let mut data: Vec<f64> = vec![10.0; 10];
    data.extend(vec![12.0; 10]); // shift of 2 sigma
    let signals = cusum.signal_points(&data);
    assert!(!signals.is_empty()); // shift detected
}

#[test]
fn an_ewma_in_control() {
    use u_analytics::detection::Ewma;

    let ewma = Ewma::new(50.0, 2.0).unwrap();
    // In-control data
    let data = [50.5, 49.8, 50.2, 49.9, 50.0, 50.1, 49.7, 50.3];
    let results = ewma.analyze(&data);
    assert_eq!(results.len(), data.len());
    assert!(ewma.signal_points(&data).is_empty());
}

#[test]
fn an_ewma_with_a_shift() {
    use u_analytics::detection::Ewma;

    let ewma = Ewma::new(50.0, 2.0).unwrap();
    // Data with shift
    let mut data: Vec<f64> = vec![50.0; 10];
    data.extend(vec![55.0; 10]); // large shift
    let signals = ewma.signal_points(&data);
    assert!(!signals.is_empty()); // shift detected
}

/// The records have the fields of u-analytics and no other: one more would break a program that takes them
/// apart.
#[test]
fn a_cusum_record_says_whether_it_signals() {
    let cusum = Cusum::new(0.0, 1.0).unwrap();
    let fields = |record: CusumResult| {
        let CusumResult {
            s_upper,
            s_lower,
            signal,
            index,
        } = record;
        (s_upper, s_lower, signal, index)
    };
    let records = cusum.analyze(&[20.0, -10.0, -10.0, f64::NAN]);
    let told: Vec<_> = records.into_iter().map(fields).collect();
    let due = [
        (19.5, 0.0, true, 0),
        (9.0, 9.5, true, 1),
        (0.0, 19.0, true, 2),
        (0.0, 19.0, false, 3),
    ];
    assert_eq!(told, due);
}

#[test]
fn an_ewma_record_says_whether_it_signals() {
    let ewma = Ewma::with_params(0.0, 1.0, 1.0, 3.0).unwrap();
    let fields = |record: EwmaResult| {
        let EwmaResult {
            ewma,
            ucl,
            lcl,
            signal,
            index,
        } = record;
        (ewma, ucl, lcl, signal, index)
    };
    let records = ewma.analyze(&[3.5, -3.5, 3.0]);
    let told: Vec<_> = records.into_iter().map(fields).collect();
    let due = [
        (3.5, 3.0, -3.0, true, 0),
        (-3.5, 3.0, -3.0, true, 1),
        (3.0, 3.0, -3.0, false, 2),
    ];
    assert_eq!(told, due);
}

/// u-analytics has no editions: its limits widen at a gap, as the first edition's do.
#[test]
fn an_ewma_is_of_the_first_edition() {
    let readings = [0.0, f64::NAN, 4.54];
    let edition = u_analytics::Edition::First;
    let first = u_analytics::Ewma::with_params(0.0, 1.0, 0.5, 4.0, edition).unwrap();
    let ewma = Ewma::with_params(0.0, 1.0, 0.5, 4.0).unwrap();
    let records = ewma.analyze(&readings);
    for (record, due) in records.iter().zip(first.analyze(&readings).unwrap()) {
        assert_eq!((record.ucl, record.lcl), (due.ucl, due.lcl));
    }
    assert_eq!(records.len(), 3);
    assert!(records[0].ucl < records[1].ucl && records[1].ucl < records[2].ucl);
    assert_eq!(ewma.signal_points(&readings), []);

    let (usual, edition) = (Ewma::new(0.0, 1.0).unwrap(), u_analytics::Edition::First);
    let due = u_analytics::Ewma::new(0.0, 1.0, edition).unwrap();
    let due = due.analyze(&readings).unwrap();
    let limits: Vec<f64> = usual.analyze(&readings).iter().map(|r| r.ucl).collect();
    assert_eq!(limits, [due[0].ucl, due[1].ucl, due[2].ucl]);
    assert!(limits[0] < limits[1] && limits[1] < limits[2]);
}

#[test]
fn none_where_u_analytics_has_none() {
    let (cost, zero) = (CostFunction::L2, Penalty::Custom(0.0));
    assert!(Pelt::new(cost, zero).is_none());
    assert!(Pelt::with_min_segment_len(cost, Penalty::Bic, 1).is_none());
    assert!(Cusum::new(0.0, 0.0).is_none());
    assert!(Cusum::with_params(0.0, 1.0, -1.0, 5.0).is_none());
    assert!(Ewma::new(f64::NAN, 1.0).is_none());
    assert!(Ewma::with_params(0.0, 1.0, 2.0, 3.0).is_none());
}

#[test]
fn none_for_channels_of_unequal_lengths() {
    let pelt = Pelt::new(CostFunction::L2, Penalty::Bic).unwrap();
    let (short, long): (&[f64], &[f64]) = (&[0.0], &[0.0; 5000]);
    assert!(pelt.detect_multi(&[short, &[]]).is_none());
    assert!(pelt.detect_multi(&[short, long]).is_none());
    assert!(pelt.detect_multi(&[long, short]).is_none());
    let mut nine = [short; 9];
    nine[8] = long;
    assert!(pelt.detect_multi(&nine).is_none());
}

/// What a call says that panics.
fn panics<T>(call: impl FnOnce() -> T) -> String {
    let panic = catch_unwind(AssertUnwindSafe(call)).err().expect("a panic");
    panic.downcast_ref::<String>().expect("a text").clone()
}

#[test]
fn a_panic_says_the_refusal() {
    let pelt = Pelt::new(CostFunction::L2, Penalty::Bic).unwrap();
    let (cusum, ewma) = (Cusum::new(0.0, 1.0).unwrap(), Ewma::new(0.0, 1.0).unwrap());
    let (nine, long) = ([&[0.0; 4][..]; 9], [0.0; 4097]);
    let text = "refusal 3: there are more than 8 channels";
    assert_eq!(panics(|| pelt.detect_multi(&nine)), text);
    let text = "refusal 6: a channel has more than 4096 readings";
    assert_eq!(panics(|| pelt.detect(&long)), text);
    assert_eq!(panics(|| pelt.detect_multi(&[&long])), text);
    assert_eq!(panics(|| cusum.analyze(&long)), text);
    assert_eq!(panics(|| cusum.signal_points(&long)), text);
    assert_eq!(panics(|| ewma.analyze(&long)), text);
    assert_eq!(panics(|| ewma.signal_points(&long)), text);
}
