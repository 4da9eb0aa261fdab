//! The cases of `replay_sums` (`tests/vectors/sums.rs`): pieces, penalties and runs.

use crate::stored::Stored;
use crate::{pattern, Call, Cost, Outcome, Penalty, Said, Stated};
use std::ops::ControlFlow;
use std::rc::Rc;

/// What each place of a lent area is before a call, and how many places the area of the sums has.
const UNUSED: f64 = 9999.0;
const SUMS: usize = 8208;

/// A piece: its summary, its channel's mean and range, the sums at its ends and its costs.
fn piece(stored: &mut Stored, [mean, spread, l2, normal]: [f64; 4]) -> ControlFlow<()> {
    let count = stored.reader.size(2);
    let readings = stored.reader.readings(count);
    let refusal = stored.reader.size(1);
    let [start, end] = [0, 0].map(|_| stored.reader.size(2));
    let centre = stored.reader.floats::<3>().to_vec();
    let has_spread = stored.reader.size(1);
    let mut sums = stored.reader.floats::<4>().to_vec();
    stored.case(Call::Centre(Rc::clone(&readings)), Outcome::Values(centre))?;
    let call = Call::Piece(Rc::clone(&readings), start, end);
    if refusal != 0 {
        let values = vec![];
        let stated = Stated {
            number: refusal,
            values,
        };
        return stored.case(call, Outcome::Said(Said::Refused(stated)));
    }
    let values = [mean, spread].map(|x| pattern(x) as usize);
    let said = Said::Answered([&[end - start], &values[..1 + has_spread]].concat());
    stored.case(call, Outcome::Said(said))?;
    sums.extend([l2, normal]);
    stored.case(Call::Segment(readings, start, end), Outcome::Values(sums))
}

/// Three penalties with this sum of noise variances: BIC for L2 and for Normal, and a custom one.
fn penalties(stored: &mut Stored, values: [f64; 4], rest: &Rest) -> ControlFlow<()> {
    let [value, noise, l2, normal] = values;
    let asked = [
        (Penalty::Bic, Cost::L2, l2),
        (Penalty::Bic, Cost::Normal, normal),
        (Penalty::Custom(value), Cost::L2, rest.custom),
    ];
    for (penalty, cost, expected) in asked {
        let call = Call::Penalty(penalty, cost, rest.n, rest.channels, noise);
        stored.case(call, Outcome::Values(vec![expected]))?;
    }
    ControlFlow::Continue(())
}

/// n, the channels and the custom penalty.
struct Rest {
    n: usize,
    channels: usize,
    custom: f64,
}

fn next_rest(stored: &mut Stored) -> Rest {
    Rest {
        n: stored.reader.size(2),
        channels: stored.reader.size(2),
        custom: stored.reader.float(),
    }
}

/// A lent area: its size, the place from which on the differences stand, and how many places are +0
/// afterwards.
struct Room {
    place: usize,
    size: usize,
    cleared: usize,
}

impl Room {
    fn before(&self) -> Vec<f64> {
        vec![UNUSED; self.size]
    }

    /// A value and the area after the call.
    fn after(&self, value: f64) -> Outcome {
        let mut values = vec![value];
        let kept = |i: usize| i < self.place || i - self.place >= self.cleared;
        values.extend((0..self.size).map(|i| if kept(i) { UNUSED } else { 0.0 }));
        Outcome::Values(values)
    }
}

/// A run: the sum of its noise variances and the penalties that it gives, each variance, and segments.
fn run(stored: &mut Stored, values: [f64; 4]) -> ControlFlow<()> {
    let rest = next_rest(stored);
    let (n, channels) = (rest.n, rest.channels);
    let [readings, place, size, cleared, segments] = [0; 5].map(|_| stored.reader.size(2));
    let room = Room {
        place,
        size,
        cleared,
    };
    let run = stored.reader.readings(readings);
    let call = Call::NoiseSum(Rc::clone(&run), n, channels, room.before(), place);
    stored.case(call, room.after(values[1]))?;
    penalties(stored, values, &rest)?;
    for k in 0..channels {
        let channel = Rc::new(run[k * n..(k + 1) * n].to_vec());
        let expected = room.after(stored.reader.float());
        stored.case(Call::Noise(channel, room.before(), place), expected)?;
    }
    (0..segments).try_for_each(|_| segment(stored, &run, n, channels))
}

fn segment(stored: &mut Stored, run: &Rc<Vec<f64>>, n: usize, k: usize) -> ControlFlow<()> {
    let ends = [0, 0].map(|_| stored.reader.size(2));
    let costs = stored.reader.floats::<2>();
    for (cost, expected) in [Cost::L2, Cost::Normal].into_iter().zip(costs) {
        let call = Call::AreaCost(cost, Rc::clone(run), n, k, ends, SUMS);
        stored.case(call, Outcome::Values(vec![expected]))?;
    }
    ControlFlow::Continue(())
}

pub fn cases(stored: &mut Stored) -> ControlFlow<()> {
    loop {
        let letter = stored.reader.letter();
        let values = stored.reader.floats();
        stored.begun();
        match letter {
            b's' => piece(stored, values)?,
            b'q' => {
                let rest = next_rest(stored);
                penalties(stored, values, &rest)?;
            }
            b'r' => run(stored, values)?,
            _ => return ControlFlow::Continue(()),
        }
    }
}
