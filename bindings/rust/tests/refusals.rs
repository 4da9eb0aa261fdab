//! Every refusal that the package gives, and what it says.

use overbrindle::{piece_summary, CostFunction, Cusum, Edition, Ewma, Pelt, Penalty, Refusal, Sum};
use overbrindle::{MAX_CHANNELS, MAX_READINGS};
use std::error::Error;

const EDITIONS: [Edition; 2] = [Edition::First, Edition::Second];

fn search() -> Pelt {
    Pelt::new(CostFunction::L2, Penalty::Custom(1.0)).expect("a search")
}

/// The refusal has this number and says this.
fn refused<T>(answer: Result<T, Refusal>, number: u32, text: &str) {
    let refusal = answer.err().expect("a refusal");
    assert_eq!(refusal.number(), number);
    assert_eq!(refusal.to_string(), text);
}

#[test]
fn a_penalty() {
    for value in [0.0, -1.0, f64::NAN, f64::INFINITY] {
        let made = Pelt::new(CostFunction::Normal, Penalty::Custom(value));
        let text = "refusal 1: a custom penalty is not finite or not above 0";
        refused(made, 1, text);
    }
}

#[test]
fn a_minimum_length() {
    for least in [0, 1] {
        let made = Pelt::with_min_segment_len(CostFunction::L2, Penalty::Bic, least);
        refused(
            made,
            2,
            "refusal 2: the minimum length of a piece is below 2",
        );
    }
    let both = Pelt::with_min_segment_len(CostFunction::L2, Penalty::Custom(0.0), 1);
    assert_eq!(both.err(), Some(Refusal::Penalty));
}

#[test]
fn channels() {
    let (channel, text) = ([0.0; 4], "refusal 3: there are more than 8 channels");
    let channels = [&channel[..]; MAX_CHANNELS + 1];
    refused(search().detect_multi(&channels), 3, text);
    refused(search().detect_multi_strict(&channels), 3, text);
}

#[test]
fn unequal_channels() {
    let channels: [&[f64]; 2] = [&[0.0, 1.0], &[0.0]];
    let text = "refusal 5: two channels have different lengths";
    refused(search().detect_multi(&channels), 5, text);
    refused(search().detect_multi_strict(&channels), 5, text);
}

#[test]
fn readings() {
    let long = [0.0; MAX_READINGS + 1];
    let text = "refusal 6: a channel has more than 4096 readings";
    refused(search().detect(&long), 6, text);
    refused(search().detect_strict(&long), 6, text);
    refused(search().detect_multi(&[&long, &long]), 6, text);
    refused(piece_summary(&long, 0, 2), 6, text);
    let cusum = Cusum::new(0.0, 1.0).unwrap();
    refused(cusum.analyze(&long), 6, text);
    refused(cusum.signal_points(&long), 6, text);
    for edition in EDITIONS {
        let ewma = Ewma::new(0.0, 1.0, edition).unwrap();
        refused(ewma.analyze(&long), 6, text);
        refused(ewma.signal_points(&long), 6, text);
    }
}

#[test]
fn a_gap() {
    let mut channel = [0.0; 20];
    channel[17] = f64::NEG_INFINITY;
    let found = search().detect_multi_strict(&[&[0.0; 20], &channel]);
    let text = "refusal 8: reading 17 of channel 1 is not finite";
    assert_eq!(found.as_ref().unwrap_err().place(), Some((1, 17)));
    refused(found, 8, text);
    let (channel, index) = (0, 17);
    let due = Err(Refusal::NonFinite { channel, index });
    assert_eq!(
        search().detect_strict(&[&[0.0; 17], &[f64::NAN][..]].concat()),
        due
    );
}

#[test]
fn a_level() {
    let chart = Cusum::new(0.0, 1.0).unwrap();
    let refusal = chart.run_length(f64::NAN, Sum::Lower).unwrap_err();
    assert_eq!((refusal.number(), refusal.place()), (8, Some((0, 0))));
}

#[test]
fn a_setting_of_a_chart() {
    let target = "refusal 15: the target is not finite";
    let sigma = "refusal 16: sigma is not finite or not above 0";
    let weight = "refusal 17: the weight, k or lambda, is out of range";
    let bound = "refusal 18: the bound, h or L, is not finite or not above 0";
    refused(Cusum::new(f64::NAN, 1.0), 15, target);
    refused(Cusum::new(0.0, -0.0), 16, sigma);
    refused(Cusum::with_params(0.0, 1.0, -0.5, 5.0), 17, weight);
    refused(Cusum::with_params(0.0, 1.0, 0.5, -0.0), 18, bound);
    assert!(Cusum::with_params(-0.0, 1.0, -0.0, 5.0).is_ok());
    for edition in EDITIONS {
        let ewma = |lambda, l_factor| Ewma::with_params(0.0, 1.0, lambda, l_factor, edition);
        refused(Ewma::new(f64::NEG_INFINITY, 1.0, edition), 15, target);
        refused(Ewma::new(0.0, f64::INFINITY, edition), 16, sigma);
        refused(ewma(-0.0, 3.0), 17, weight);
        refused(ewma(1.5, 3.0), 17, weight);
        refused(ewma(0.2, -3.0), 18, bound);
        assert!(ewma(1.0, 3.0).is_ok());
    }
}

#[test]
fn the_first_setting_that_is_wrong_is_named() {
    let (nan, names) = (
        f64::NAN,
        [
            Refusal::Target,
            Refusal::Sigma,
            Refusal::Weight,
            Refusal::Bound,
        ],
    );
    let usual = [0.0, 1.0, 0.5, 5.0];
    for (at, name) in names.into_iter().enumerate() {
        let [a, b, c, d] = [0, 1, 2, 3].map(|i| if i < at { usual[i] } else { nan });
        assert_eq!(Cusum::with_params(a, b, c, d).err(), Some(name));
        for edition in EDITIONS {
            let made = Ewma::with_params(a, b, c, d, edition);
            assert_eq!(made.err(), Some(name));
        }
    }
}

#[test]
fn a_piece() {
    let text = "refusal 12: the piece is empty or ends past the channel";
    for (start, end) in [(2, 2), (3, 2), (0, 5), (usize::MAX, usize::MAX)] {
        refused(piece_summary(&[0.0; 4], start, end), 12, text);
    }
}

#[test]
fn those_of_lent_room_speak_too() {
    let texts = [
        (
            Refusal::Shape,
            "refusal 4: the lengths don't add up to the number of readings",
        ),
        (
            Refusal::Room,
            "refusal 7: a lent area is shorter than the call needs",
        ),
        (
            Refusal::Pool,
            "refusal 9: the search needs more candidate slots than were lent",
        ),
        (
            Refusal::Form,
            "refusal 10: a number stands for no cost, penalty, sum or edition",
        ),
        (
            Refusal::Other(13),
            "refusal 13: this package does not know the number",
        ),
    ];
    for (refusal, text) in texts {
        refused(Err::<(), Refusal>(refusal), refusal.number(), text);
    }
}

#[test]
fn a_refusal_is_an_error() {
    let asked = || -> Result<usize, Box<dyn Error>> {
        Ok(search().detect_strict(&[f64::NAN])?.changepoints.len())
    };
    let error = asked().unwrap_err();
    assert_eq!(
        error.to_string(),
        "refusal 8: reading 0 of channel 0 is not finite"
    );
}
