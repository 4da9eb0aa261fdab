//! The cases of `replay_pelt` (`tests/vectors/searches.rs`). The lent areas hold what that crate puts there.

use crate::stored::Stored;
use crate::{Areas, Call, Cost, Outcome, Penalty, Said, Search, Settings, Stated};
use std::ops::ControlFlow;
use std::rc::Rc;

/// Cuts and indices before a call: no index of a reading.
fn spoilt_indices(count: usize) -> Vec<usize> {
    (0..count).map(|place| place % 1000 + 9000).collect()
}

/// Floats before a call: below 0, so that a search that reads one takes it for a low cost.
fn spoilt_floats(count: usize) -> Vec<f64> {
    (0..count).map(|place| -0.5 - place as f64).collect()
}

/// What the records so far have set.
struct Lent {
    run: Rc<Vec<f64>>,
    lengths: Vec<usize>,
}

/// A call's settings, whether it is strict, and whether it has one channel.
struct Asked {
    settings: Settings,
    strict: bool,
    alone: bool,
}

fn next_asked(stored: &mut Stored) -> Asked {
    let [function, cost, penalty, given] = [0; 4].map(|_| stored.reader.letter());
    let value = stored.reader.float();
    let least = stored.reader.size(8);
    let settings = Settings {
        cost: if cost == 0 { Cost::L2 } else { Cost::Normal },
        penalty: if penalty == 0 {
            Penalty::Bic
        } else {
            Penalty::Custom(value)
        },
        least: (given == 1).then_some(least),
    };
    Asked {
        settings,
        strict: function >= 2,
        alone: function % 2 == 0,
    }
}

fn next_areas(stored: &mut Stored) -> Areas {
    let [cuts, floats, indices, pool] = [2, 4, 2, 4].map(|width| stored.reader.size(width));
    Areas {
        cuts: spoilt_indices(cuts),
        floats: spoilt_floats(floats),
        indices: spoilt_indices(indices),
        pool: spoilt_floats(pool),
    }
}

/// What is said, and what the areas hold then: refusals before 9 change nothing, and everything else clears
/// the work areas.
fn next_outcome(stored: &mut Stored, before: &Areas) -> Outcome {
    let number = stored.reader.size(1);
    let place = vec![stored.reader.size(2), stored.reader.size(2)];
    let count = stored.reader.size(2);
    let mut left = before.clone();
    for cut in &mut left.cuts[..count] {
        *cut = stored.reader.size(2);
    }
    if number == 0 || number == 9 {
        left.floats.fill(0.0);
        left.indices.fill(0);
        left.pool.fill(0.0);
    }
    let values = if number == 8 { place } else { vec![] };
    let said = match number {
        0 => Said::Answered(vec![count]),
        number => Said::Refused(Stated { number, values }),
    };
    Outcome::Searched(said, left)
}

fn search(stored: &mut Stored, lent: &Lent) -> ControlFlow<()> {
    let asked = next_asked(stored);
    let areas = next_areas(stored);
    let expected = next_outcome(stored, &areas);
    let lengths = match asked.alone {
        true => vec![lent.run.len()],
        false => lent.lengths.clone(),
    };
    let search = Search {
        strict: asked.strict,
        settings: asked.settings,
        run: Rc::clone(&lent.run),
        lengths,
        areas,
    };
    stored.case(Call::Search(search), expected)
}

pub fn cases(stored: &mut Stored) -> ControlFlow<()> {
    let mut lent = Lent {
        run: Rc::default(),
        lengths: Vec::new(),
    };
    loop {
        match stored.reader.letter() {
            b'r' => {
                let count = stored.reader.size(2);
                lent.run = stored.reader.readings(count);
            }
            b'l' => {
                let count = stored.reader.size(1);
                lent.lengths = (0..count).map(|_| stored.reader.size(8)).collect();
            }
            b'c' => {
                stored.begun();
                search(stored, &lent)?;
            }
            _ => return ControlFlow::Continue(()),
        }
    }
}
