//! Searches at their limits, over nothing, and with more candidates than the first slots hold.

use overbrindle::lent::{self, Areas, SearchSettings, SLOT};
use overbrindle::{CostFunction, Pelt, Penalty, Refusal, MAX_CHANNELS, MAX_READINGS};

fn search(cost: CostFunction) -> Pelt {
    Pelt::new(cost, Penalty::Custom(1.0)).expect("a search")
}

/// Readings of 0 and then of 4, from this index on.
fn stepped(n: usize, step: usize) -> Vec<f64> {
    (0..n).map(|i| if i < step { 0.0 } else { 4.0 }).collect()
}

#[test]
fn as_many_channels_and_readings_as_there_may_be() {
    let channel = stepped(MAX_READINGS, 1000);
    let channels = [&channel[..]; MAX_CHANNELS];
    let found = search(CostFunction::L2).detect_multi(&channels);
    assert_eq!(found.unwrap().changepoints, [1000]);
    let found = search(CostFunction::L2).detect_strict(&channel);
    assert_eq!(found.unwrap().changepoints, [1000]);
}

#[test]
fn nothing_is_searched() {
    for cost in [CostFunction::L2, CostFunction::Normal] {
        let search = search(cost);
        assert_eq!(search.detect(&[]).unwrap().changepoints, []);
        assert_eq!(search.detect_strict(&[]).unwrap().changepoints, []);
        assert_eq!(search.detect_multi(&[]).unwrap().changepoints, []);
        let found = search.detect_multi_strict(&[&[], &[]]);
        assert_eq!(found.unwrap().changepoints, []);
    }
}

/// How the library itself answers a search for a ramp's cuts, when it is lent so many slots.
fn ramp_in(slots: usize, ramp: &[f64], penalty: f64) -> u32 {
    let n = ramp.len();
    let settings = SearchSettings {
        cost: 0,
        penalty_kind: 1,
        penalty,
        min_segment_len: 2,
    };
    let areas = Areas {
        cuts: &mut vec![0; n / 2],
        floats: &mut vec![0.0; 4 * (n + 1)],
        indices: &mut vec![0; 3 * (n + 1)],
        pool: &mut vec![0.0; slots * SLOT],
    };
    lent::detect(false, settings, ramp, &[n], areas).number
}

#[test]
fn a_pool_grows() {
    let ramp: Vec<f64> = (0..300).map(f64::from).collect();
    let penalty = 1e6;
    assert_eq!(ramp_in(102, &ramp, penalty), Refusal::Pool.number());
    assert_eq!(ramp_in(103, &ramp, penalty), 0);
    let search = Pelt::new(CostFunction::L2, Penalty::Custom(penalty)).unwrap();
    assert_eq!(search.detect(&ramp).unwrap().changepoints, [150]);
    let found = search.detect_multi(&[&ramp, &ramp]);
    assert_eq!(found.unwrap().changepoints, [150]);
}

#[test]
fn a_gap_is_taken_or_refused() {
    let readings = [0.0, f64::NAN, 4.0, 4.0];
    let search = search(CostFunction::L2);
    assert_eq!(search.detect(&readings).unwrap().changepoints, []);
    let (channel, index) = (0, 1);
    let due = Err(Refusal::NonFinite { channel, index });
    assert_eq!(search.detect_strict(&readings), due);
}

#[test]
fn a_minimum_length_whose_double_wraps_finds_nothing() {
    let made = Pelt::with_min_segment_len(CostFunction::L2, Penalty::Bic, usize::MAX);
    let found = made.unwrap().detect(&stepped(100, 50));
    assert_eq!(found.unwrap().changepoints, []);
}

#[test]
fn normal_finds_the_step_too() {
    let search = search(CostFunction::Normal);
    let found = search.detect(&[0.0, 0.0, 4.0, 4.0]);
    assert_eq!(found.unwrap().changepoints, [2]);
}

/// With ln 2 in one part the cuts were at 3 and 5.
#[test]
fn cuts_that_turn_on_the_last_step_of_the_logarithm() {
    let search = Pelt::new(CostFunction::Normal, Penalty::Bic).unwrap();
    let found = search.detect(&[2.0, 3.0, 4.0, 5.0, 6.0, 7.0, 8.0]);
    assert_eq!(found.unwrap().changepoints, [2, 4]);
}
