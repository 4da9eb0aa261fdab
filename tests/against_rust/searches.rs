//! A search: what it has to answer and to leave, by the Rust and by the table of rule 2.1, and
//! whether it does.

use crate::calls::{Answer, Call, Lent};
use crate::faults::Fault;
use crate::lending::{same_word, Area, Rest, Word};
use crate::wrapped::{self, refused, Refused};
use crate::Outcome;
use overbrindle::lent::{self, Said, SearchSettings};

/// The number of the refusal of a number that names no cost or no penalty.
const FORM: u64 = 10;
const MIN_LEN: u64 = 2;
const UNEQUAL: u64 = 5;
const ROOM: u64 = 7;
const POOL: u64 = 9;
/// The most readings with which a call that is refused for its room is asked of the package, which has room:
/// searches of the longest channels take seconds in an emulator.
const MOST_ASKED_AGAIN: usize = 512;
/// What docs/DIFFERENCES.md says of the narrowest ball.
const NAN_RADIUS: &str = "the narrowest losing ball, where a radius is NaN";

/// A search, with other numbers for its cost and its penalty where they are given.
#[derive(Clone)]
pub struct Search {
    pub call: Call,
    pub numbers: Option<(u32, u32)>,
}

/// The four lent areas.
#[derive(Default)]
pub struct Areas {
    cuts: Area,
    floats: Area,
    indices: Area,
    pool: Area,
}

/// What the lent call has to answer, and what the package, which meets no refusal of room or pool, if it is
/// asked.
struct Due {
    answer: Answer,
    wrapped: Option<Result<Vec<usize>, Refused>>,
    named: Option<&'static str>,
}

impl Due {
    /// Of a call that is refused, or answered with no cuts before a search.
    fn of(answer: Answer) -> Self {
        let wrapped = match answer.refusal {
            0 => Ok(answer.cuts.clone()),
            number => {
                let place = (answer.channel as usize, answer.index as usize);
                Err(refused(number as u32, place))
            }
        };
        let named = None;
        Due {
            answer,
            wrapped: Some(wrapped),
            named,
        }
    }
}

impl Search {
    fn lengths(&self) -> Vec<usize> {
        self.call.channels().iter().map(|&n| n as usize).collect()
    }

    /// The Rust makes a search exactly where no setting is refused, and answers for several channels
    /// exactly where their lengths are one.
    fn check_refusal(&self, refusal: u64) -> Result<(), String> {
        let refused = (1..=MIN_LEN).contains(&refusal);
        let made = self.call.made();
        if made.is_some() == refused {
            return Err("the Rust's constructor takes other settings".into());
        }
        let answers = |pelt: pelt::Pelt| pelt.detect_multi(&self.call.signals()).is_some();
        match refusal == UNEQUAL && made.is_some_and(answers) {
            true => Err("the Rust takes channels of unequal lengths".into()),
            false => Ok(()),
        }
    }

    /// Where only the room is refused, the package answers what a call with room does.
    fn due_to_refusal(&self, answer: Answer) -> Result<Due, String> {
        self.check_refusal(answer.refusal)?;
        let mut due = Due::of(answer);
        if due.answer.refusal == ROOM && self.call.readings.len() > MOST_ASKED_AGAIN {
            due.wrapped = None;
        } else if due.answer.refusal == ROOM {
            let lengths = self.lengths();
            let mut roomy = self.clone();
            roomy.call.lent = Lent::exactly(
                lengths.first().copied().unwrap_or(0),
                lengths.len(),
                usize::MAX,
            );
            due.wrapped = roomy.due()?.wrapped;
        }
        Ok(due)
    }

    /// The cuts of L2 searches with a custom penalty are the unmodified Rust's, all others those of the
    /// copy with rule 4.3's logarithm, which also says how many candidates live at once. Where the
    /// two differ, only a NaN radius may be the reason.
    fn due(&self) -> Result<Due, String> {
        if let Some((cost, kind)) = self.numbers {
            if cost > 1 || kind > 1 {
                let refusal = FORM;
                let none = Answer::default();
                return Ok(Due::of(Answer { refusal, ..none }));
            }
        }
        let call = &self.call;
        if let Some(answer) = call.refusal() {
            return self.due_to_refusal(answer);
        }
        self.check_refusal(0)?;
        if call.wraps() {
            return Ok(Due::of(Answer::default()));
        }
        let found = call.ruled_by(true);
        let mut named = None;
        if call.settings.custom.is_some() && !call.settings.normal {
            let unmodified = call.unmodified();
            if unmodified != found.cuts {
                if call.ruled_by(false).cuts != unmodified {
                    return Err("the copy's cuts are not the unmodified Rust's".into());
                }
                named = Some(NAN_RADIUS);
            }
        }
        let wrapped = Some(Ok(found.cuts.clone()));
        let answer = call.answered(found);
        Ok(Due {
            answer,
            wrapped,
            named,
        })
    }

    pub fn check(&self, areas: &mut Areas, fault: Fault) -> Result<Outcome, String> {
        let due = self.due()?;
        let call = &self.call;
        let before = call.readings.to_vec();
        let mut after = before.clone();
        areas.lend(call);
        let mut said = self.ask(&after, areas);
        damage(fault, &mut said, areas, &mut after);
        compare(&due.answer, &said, areas)?;
        if (before.iter().zip(&after)).any(|(x, y)| x.to_bits() != y.to_bits()) {
            return Err("a reading is changed".into());
        }
        self.check_package(&due, fault)?;
        let answer = due.answer;
        let outcome = match answer.refusal {
            0 if answer.cuts.is_empty() => "no cuts".into(),
            0 => "cuts".into(),
            number => format!("refusal {number}"),
        };
        Ok(Outcome {
            outcome,
            named: due.named,
        })
    }

    /// The numbers of the cost and the penalty are the boundary's own, and not by way of the package.
    fn ask(&self, readings: &[f64], areas: &mut Areas) -> Said {
        let settings = self.call.settings;
        let known = (settings.normal.into(), settings.custom.is_some().into());
        let (cost, penalty_kind) = self.numbers.unwrap_or(known);
        let asked = SearchSettings {
            cost,
            penalty_kind,
            penalty: settings.custom.unwrap_or(0.0),
            min_segment_len: settings.least() as usize,
        };
        let lent = lent::Areas {
            cuts: areas.cuts.indices(),
            floats: areas.floats.floats(),
            indices: areas.indices.indices(),
            pool: areas.pool.floats(),
        };
        lent::detect(self.call.strict, asked, readings, &self.lengths(), lent)
    }

    /// The package takes channels, so it can't be given lengths that don't add up, nor numbers that name
    /// no cost or penalty.
    fn check_package(&self, due: &Due, fault: Fault) -> Result<(), String> {
        let call = &self.call;
        let sum: u128 = call.channels().iter().map(|&n| u128::from(n)).sum();
        if self.numbers.is_some() || sum != call.readings.len() as u128 {
            return Ok(());
        }
        match &due.wrapped {
            Some(_) if fault.is("package") => wrapped::search(call, &Err(refused(3, (0, 0)))),
            Some(due) => wrapped::search(call, due),
            None => Ok(()),
        }
    }
}

impl Areas {
    fn lend(&mut self, call: &Call) {
        self.cuts.lend(call.lent.cuts);
        self.floats.lend(call.lent.floats);
        self.indices.lend(call.lent.indices);
        self.pool.lend(call.lent.pool);
    }
}

fn compare(due: &Answer, said: &Said, areas: &Areas) -> Result<(), String> {
    let found = [
        u64::from(said.number),
        said.count as u64,
        said.channel as u64,
        said.index as u64,
    ];
    let count = due.cuts.len() as u64;
    let expected = [due.refusal, count, due.channel, due.index];
    if found != expected {
        return Err(format!(
            "number, count, channel and index are {found:?} and not {expected:?}"
        ));
    }
    let work = match due.refusal {
        0 | POOL => Rest::Zero,
        _ => Rest::AsLent,
    };
    let cuts: Vec<Word> = due.cuts.iter().map(|&cut| cut as Word).collect();
    let Areas {
        cuts: lent_cuts,
        floats,
        indices,
        pool,
    } = areas;
    lent_cuts.compare("cuts", &cuts, Rest::AsLent, same_word)?;
    floats.compare("floats", &[], work, same_word)?;
    indices.compare("indices", &[], work, same_word)?;
    pool.compare("pool", &[], work, same_word)
}

/// Puts the fault that is asked for into what a call said and left.
fn damage(fault: Fault, said: &mut Said, areas: &mut Areas, readings: &mut [f64]) {
    let count = match said.number {
        0 => said.count,
        _ => 0,
    };
    if fault.is("search number") {
        said.number ^= 1;
    }
    if fault.is("search count") {
        said.count += 1;
    }
    if fault.is("search place") && said.number == 8 {
        said.index += 1;
    }
    let cuts = areas.cuts.words();
    if fault.is("cut by one") && count > 0 {
        cuts[count - 1] ^= 1;
    }
    if fault.is("cuts exchanged") && count > 1 {
        cuts.swap(0, 1);
    }
    if fault.is("cuts behind") && cuts.len() > count {
        cuts[count] = 0;
    }
    if fault.is("cuts beyond") {
        *areas.cuts.beyond() = 0;
    }
    if fault.is("floats beyond") {
        *areas.floats.beyond() = 0;
    }
    if fault.is("indices beyond") {
        *areas.indices.beyond() = 0;
    }
    if fault.is("pool beyond") {
        *areas.pool.beyond() = 0;
    }
    if fault.is("cuts before") {
        *areas.cuts.before() = 0;
    }
    let cleared = said.number == 0 || said.number == 9;
    let negate = |name: &str, area: &mut Area| {
        if let Some(word) = area.words().last_mut() {
            // The other zero where it is cleared.
            if fault.is(name) {
                *word ^= 1 << 63;
            }
        }
    };
    negate("floats", &mut areas.floats);
    negate("indices", &mut areas.indices);
    negate("pool", &mut areas.pool);
    if fault.is("cleared by a refusal") && !cleared {
        areas.floats.words().fill(0);
        areas.indices.words().fill(0);
        areas.pool.words().fill(0);
    }
    if fault.is("reading changed") {
        if let Some(reading) = readings.last_mut() {
            *reading = f64::from_bits(reading.to_bits() ^ 1);
        }
    }
}
