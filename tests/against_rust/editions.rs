//! The editions of the EWMA chart: their numbers, what each has to answer by the Rust and by copies of it, and wrong
//! ways to count its places, to see that the comparison notices them.

use crate::charted::{self, ewma_answers, Answer, Edition, Record, NONE};
use crate::faults::Fault;
use crate::series::Settings;

/// Numbers that name no edition. Of some the lowest byte is the number of one.
pub const UNKNOWN: [u32; 9] = [0, 3, 4, 255, 256, 257, 258, 1 << 31, u32::MAX];

/// The numbers of the editions.
pub const FIRST: u32 = 1;
pub const SECOND: u32 = 2;

/// The edition that this number names.
pub fn named(number: u32) -> Option<Edition> {
    match number {
        FIRST => Some(Edition::First),
        SECOND => Some(Edition::Second),
        _ => None,
    }
}

// What copies of `ewma.rs` with rule 4.2's powers make of a series.
ewma_answers!(ruled_answer, ewma_ruled);
ewma_answers!(counted_ruled_answer, ewma_counted_ruled);

/// What an edition makes of a series by the platform's powers, and by rule 4.2's. The Rust has the first alone; in
/// the copies that have the second the place is counted.
pub fn answers(edition: Edition, settings: &Settings, readings: &[f64]) -> [Option<Answer>; 2] {
    let by: [fn(&Settings, &[f64]) -> Option<Answer>; 2] = match edition {
        Edition::First => [charted::ewma_answer, ruled_answer],
        Edition::Second => [charted::ewma_counted_answer, counted_ruled_answer],
    };
    by.map(|answer| answer(settings, readings))
}

/// A place, of the index of a reading, the number of finite readings up to and with it, and whether it is finite.
type Place = fn(usize, usize, bool) -> usize;

/// How the fault that is asked for counts the places of an edition.
fn wrong_place(fault: Fault, edition: Edition) -> Option<Place> {
    use Edition::{First, Second};
    let faults: [(&str, Edition, Place); 7] = [
        ("gaps left out in edition 1", First, |_, counted, _| counted),
        ("gaps counted in edition 2", Second, |index, _, _| index + 1),
        ("editions exchanged", First, |_, counted, _| counted),
        ("editions exchanged", Second, |index, _, _| index + 1),
        ("edition 2 from place 1", Second, |_, counted, _| {
            counted + 1
        }),
        ("no place 0 in edition 2", Second, |_, counted, _| {
            counted.max(1)
        }),
        ("a gap's limits a place on", Second, |_, counted, finite| {
            counted + usize::from(!finite)
        }),
    ];
    let asked = |(name, of, _): &(&str, Edition, Place)| fault.is(name) && *of == edition;
    faults.into_iter().find(asked).map(|(_, _, place)| place)
}

/// The limits of the places from 0 to one more than there are readings.
fn limits_by_place(settings: &Settings, readings: &[f64]) -> Vec<[f64; 2]> {
    let gaps = vec![f64::NAN; readings.len() + 1];
    let none = counted_ruled_answer(settings, &gaps[..1]).expect("a chart");
    let each = ruled_answer(settings, &gaps).expect("a chart");
    let records = none.records.iter().chain(&each.records);
    records.map(|r| [r.values[1], r.values[2]]).collect()
}

/// Puts the fault that is asked for into what is due: the limits of places that are counted another way, and the
/// sides and points by them.
pub fn misplace(
    fault: Fault,
    edition: Edition,
    (settings, readings): (&Settings, &[f64]),
    due: &mut Answer,
) {
    let Some(place) = wrong_place(fault, edition) else {
        return;
    };
    let limits = limits_by_place(settings, readings);
    let mut counted = 0;
    for (record, reading) in due.records.iter_mut().zip(readings) {
        let finite = reading.is_finite();
        counted += usize::from(finite);
        let [ucl, lcl] = limits[place(record.index, counted, finite)];
        record.values[1..].copy_from_slice(&[ucl, lcl]);
        record.side = charted::ewma_side(*reading, [record.values[0], ucl, lcl]);
        record.signal = record.side != NONE;
    }
    let signals = due.records.iter().filter(|record| record.signal);
    due.points = signals.map(|record| record.index).collect();
}

/// Puts the fault that is asked for into what is due: an edition that is tested later than first, or not at all.
pub fn postpone(fault: Fault, met: &mut Vec<u32>, form: u32) {
    if met.first() != Some(&form) {
        return;
    }
    if fault.is("the edition after the settings") {
        let settings = met[1..].iter().take_while(|&&number| number >= 15).count();
        met[..=settings].rotate_left(1);
    }
    if fault.is("the edition after all else") {
        met.rotate_left(1);
    }
    if fault.is("any number taken as edition 2") {
        met.remove(0);
    }
}
