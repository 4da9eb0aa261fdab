//! Charts and run lengths: what they have to answer and to leave, by the unmodified Rust and by rule 2.1's
//! table of refusals, and whether they do.

use crate::charted::{self, Answer, Edition, Record};
use crate::editions::{self, FIRST, SECOND};
use crate::faults::Fault;
use crate::lending::{same_float, same_word, Area, Bytes, Rest, Word};
use crate::rules::pattern;
use crate::series::Settings;
use crate::{wrapped, Outcome};
pub use charted::Kind;
use overbrindle::lent::{self, CusumSettings, EwmaSettings};
use std::rc::Rc;

const TOO_LONG: u32 = 6;
const ROOM: u32 = 7;
const NON_FINITE: u32 = 8;
const FORM: u32 = 10;
const MOST_READINGS: usize = 4096;
/// What docs/DIFFERENCES.md says of powers.
const POWERS: &str = "`powi`";

/// A chart's records or signal points, of a chart made by `new` or with parameters. The edition is any number; a
/// CUSUM chart does not look at it. Each area has as many places as there are readings, and as many more or less
/// as `spare` says, whose last is for the signal points.
#[derive(Clone)]
pub struct Chart {
    pub kind: Kind,
    pub edition: u32,
    pub by_new: bool,
    pub settings: [f64; 4],
    pub readings: Rc<Vec<f64>>,
    pub points: bool,
    pub spare: [isize; 6],
}

/// The run length of a level by the sum of this number.
#[derive(Clone, Copy)]
pub struct RunLength {
    pub by_new: bool,
    pub settings: [f64; 4],
    pub level: f64,
    pub sum: u32,
}

/// The lent areas of a chart's fields and of its points.
#[derive(Default)]
pub struct Areas {
    values: [Area; 3],
    side: Bytes,
    index: Area,
    points: Area,
}

/// What a chart has to answer, and under which name of docs/DIFFERENCES.md the Rust has another answer.
struct Due {
    answer: Result<Answer, u32>,
    named: Option<&'static str>,
}

/// The settings as they cross the boundary, whichever constructor the Rust takes them by.
pub fn cusum(settings: [f64; 4]) -> CusumSettings {
    let [target, sigma, k, h] = settings;
    CusumSettings {
        target,
        sigma,
        k,
        h,
    }
}

fn ewma(settings: [f64; 4], edition: u32) -> EwmaSettings {
    let [target, sigma, lambda, l_factor] = settings;
    EwmaSettings {
        target,
        sigma,
        lambda,
        l_factor,
        edition,
    }
}

impl Chart {
    fn width(&self) -> usize {
        match self.kind {
            Kind::Cusum => 2,
            Kind::Ewma => 3,
        }
    }

    /// The size of the area of this number: the values, then the sides, the indices and the points.
    fn size(&self, area: usize) -> usize {
        self.readings.len().saturating_add_signed(self.spare[area])
    }

    /// Whether an area that the call is lent is too short.
    fn short(&self) -> bool {
        let used = match self.points {
            true => vec![5],
            false => (0..self.width()).chain([3, 4]).collect(),
        };
        used.iter()
            .any(|&area| self.size(area) < self.readings.len())
    }

    /// How the Rust makes the chart.
    pub fn made_with(&self) -> Settings {
        Settings {
            by_new: self.by_new,
            values: self.settings,
        }
    }

    /// The edition of an EWMA chart, if its number names one, and that of a CUSUM chart, which has none.
    pub fn edition(&self) -> Option<Edition> {
        match self.kind {
            Kind::Cusum => Some(Edition::First),
            Kind::Ewma => editions::named(self.edition),
        }
    }

    /// The refusals whose conditions the call meets, each by itself, in the order of rule 2.4.
    fn met(&self, fault: Fault) -> Result<Vec<u32>, String> {
        let mut met: Vec<u32> = met_by([(self.edition().is_none(), FORM)]).collect();
        met.extend(met_by_settings(self.kind, &self.made_with(), fault)?);
        let tests = [
            (self.readings.len() > MOST_READINGS, TOO_LONG),
            (self.short(), ROOM),
        ];
        met.extend(met_by(tests));
        editions::postpone(fault, &mut met, FORM);
        Ok(met)
    }

    /// What the Rust makes of it. EWMA's limits take a power, which the Rust leaves open: its records are
    /// those of a copy with rule 4.2's, from which the unmodified ones may differ by that alone. Of the second
    /// edition both are copies in which the place is counted. Without a fault no other number comes this far.
    fn records(&self, fault: Fault) -> Result<(Answer, Option<&'static str>), String> {
        let (settings, readings) = (self.made_with(), &self.readings[..]);
        if self.kind == Kind::Cusum {
            let answer = charted::cusum_answer(&settings, readings);
            return Ok((sided(answer)?, None));
        }
        let edition = self.edition().unwrap_or(Edition::Second);
        let [unmodified, ruled] = editions::answers(edition, &settings, readings);
        let mut unmodified = sided(unmodified)?;
        damage_unmodified(fault, &mut unmodified);
        let mut ruled = sided(ruled)?;
        let named = differ_by_powers(&unmodified, &ruled)?.then_some(POWERS);
        editions::misplace(fault, edition, (&settings, readings), &mut ruled);
        Ok((ruled, named))
    }

    /// The refusal, or what the Rust makes of it.
    fn due(&self, met: &[u32], fault: Fault) -> Result<Due, String> {
        if let Some(&number) = met.first() {
            let (answer, named) = (Err(number), None);
            return Ok(Due { answer, named });
        }
        let (answer, named) = self.records(fault)?;
        let answer = Ok(answer);
        Ok(Due { answer, named })
    }

    /// The package sizes the room itself, so it does not meet the refusal of room. It has no number that names no
    /// edition.
    fn check_package(&self, due: &Due, fault: Fault) -> Result<(), String> {
        let Some(edition) = self.edition() else {
            return Ok(());
        };
        match due.answer {
            Err(ROOM) => wrapped::chart(self, edition, &self.due(&[], fault)?.answer),
            _ => wrapped::chart(self, edition, &due.answer),
        }
    }

    /// The same chart by the other edition, where the library's answers of both have to be one: there is no gap.
    fn other_edition(&self) -> Option<Chart> {
        let edition = match (self.kind, self.edition) {
            (Kind::Ewma, FIRST) => SECOND,
            (Kind::Ewma, SECOND) => FIRST,
            _ => return None,
        };
        let chart = || Chart {
            edition,
            ..self.clone()
        };
        let gaps = self.readings.iter().any(|reading| !reading.is_finite());
        (!gaps).then(chart)
    }

    /// Asks the library by the other edition too, and compares what both said and left, record for record.
    fn compare_editions(
        &self,
        said: (u32, usize),
        [areas, others]: &mut [Areas; 2],
        fault: Fault,
    ) -> Result<(), String> {
        let Some(other) = self.other_edition() else {
            return Ok(());
        };
        others.lend(&other);
        let by_other = other.ask(others);
        if fault.is("editions apart without a gap") {
            others.change_last(&other, by_other);
        }
        match said == by_other {
            true => areas.compare(others),
            false => Err(format!(
                "number and count are {said:?}, and {by_other:?} by edition {}",
                other.edition
            )),
        }
    }

    pub fn check(&self, areas: &mut [Areas; 2], fault: Fault) -> Result<Outcome, String> {
        let met = self.met(fault)?;
        let due = self.due(&met, fault)?;
        areas[0].lend(self);
        let mut said = self.ask(&mut areas[0]);
        damage(fault, self, &mut said, &mut areas[0]);
        self.compare(&due.answer, said, &areas[0])?;
        self.compare_editions(said, areas, fault)?;
        self.check_package(&due, fault)?;
        let outcome = match (&due.answer, self.edition()) {
            (Err(_), _) => told(&met),
            (Ok(answer), Some(Edition::Second)) => format!("{} by edition 2", signalled(answer)),
            (Ok(answer), _) => signalled(answer).into(),
        };
        let named = due.named;
        Ok(Outcome { outcome, named })
    }

    fn ask(&self, areas: &mut Areas) -> (u32, usize) {
        let data = &self.readings[..];
        let points = areas.points.indices();
        let [first, second, third] = &mut areas.values;
        let (side, index) = (areas.side.bytes(), areas.index.indices());
        let ewma = ewma(self.settings, self.edition);
        match (self.kind, self.points) {
            (Kind::Cusum, true) => lent::cusum_signal_points(cusum(self.settings), data, points),
            (Kind::Ewma, true) => lent::ewma_signal_points(ewma, data, points),
            (Kind::Cusum, false) => {
                let areas = lent::CusumAreas {
                    s_upper: first.floats(),
                    s_lower: second.floats(),
                    side,
                    index,
                };
                lent::cusum_analyze(cusum(self.settings), data, areas)
            }
            (Kind::Ewma, false) => {
                let areas = lent::EwmaAreas {
                    ewma: first.floats(),
                    ucl: second.floats(),
                    lcl: third.floats(),
                    side,
                    index,
                };
                lent::ewma_analyze(ewma, data, areas)
            }
        }
    }

    fn compare(
        &self,
        due: &Result<Answer, u32>,
        said: (u32, usize),
        areas: &Areas,
    ) -> Result<(), String> {
        let none = Answer {
            records: Vec::new(),
            points: Vec::new(),
        };
        let answer = due.as_ref().unwrap_or(&none);
        let (records, points) = match self.points {
            true => (&none.records, &answer.points),
            false => (&answer.records, &none.points),
        };
        let expected = match due {
            Ok(_) => (0, records.len() + points.len()),
            Err(number) => (*number, 0),
        };
        if said != expected {
            return Err(format!(
                "number and count are {said:?} and not {expected:?}"
            ));
        }
        for (at, area) in areas.values.iter().enumerate() {
            let values = records.iter().filter_map(|record| record.values.get(at));
            let front: Vec<Word> = values.map(|value| value.to_bits()).collect();
            area.compare(&format!("value {at}"), &front, Rest::AsLent, same_float)?;
        }
        let sides: Vec<u8> = records.iter().map(|record| record.side).collect();
        areas.side.compare("sides", &sides)?;
        let indices: Vec<Word> = records.iter().map(|record| record.index as Word).collect();
        let points: Vec<Word> = points.iter().map(|&point| point as Word).collect();
        areas
            .index
            .compare("indices", &indices, Rest::AsLent, same_word)?;
        areas
            .points
            .compare("points", &points, Rest::AsLent, same_word)
    }
}

/// The refusals of these tests that hold.
fn met_by<const N: usize>(tests: [(bool, u32); N]) -> impl Iterator<Item = u32> {
    let met = tests.into_iter().filter(|(met, _)| *met);
    met.map(|(_, number)| number)
}

/// The refusals of settings that are out of range by rule 5.1, in their order. The Rust does not say which
/// setting is wrong, but has to make no chart exactly where one is.
fn met_by_settings(kind: Kind, settings: &Settings, fault: Fault) -> Result<Vec<u32>, String> {
    let met = charted::refusals(kind, settings).into_iter();
    let mut met: Vec<u32> = met.map(u32::from).collect();
    let made = match kind {
        Kind::Cusum => charted::cusum_chart(settings).is_some(),
        Kind::Ewma => charted::ewma_chart(settings).is_some(),
    };
    if made != met.is_empty() {
        return Err(format!("the Rust's chart, where {met:?} are met: {made}"));
    }
    exchange(fault, &mut met);
    Ok(met)
}

/// Puts the fault that is asked for into what is due: two settings that are tested in the other order.
fn exchange(fault: Fault, met: &mut [u32]) {
    let exchanged = [
        ("sigma before the target", [15, 16]),
        ("the weight before sigma", [16, 17]),
        ("the bound before the weight", [17, 18]),
    ];
    for (name, pair) in exchanged {
        if let Some(at) = met.windows(2).position(|two| two == pair) {
            if fault.is(name) {
                met.swap(at, at + 1);
            }
        }
    }
}

/// The first refusal, and the next one in the order whose conditions are met besides.
fn told(met: &[u32]) -> String {
    match met {
        [first, next, ..] => format!("refusal {first} before {next}"),
        _ => format!("refusal {}", met[0]),
    }
}

/// On which sides a series signals, for the count of outcomes.
fn signalled(answer: &Answer) -> &'static str {
    let has = |side| answer.records.iter().any(|record| record.side == side);
    let sides = [charted::ABOVE, charted::BELOW, charted::BOTH].map(has);
    match sides {
        [_, _, true] => "with both at once",
        [true, true, false] => "above and below",
        [true, false, false] => "above alone",
        [false, true, false] => "below alone",
        [false, false, false] => "without a signal",
    }
}

/// What a chart of the Rust made of a series. Its yes or no has to be that the side is not none: the Rust does
/// not say the side, which comes from its sums or limits.
fn sided(answer: Option<Answer>) -> Result<Answer, String> {
    let answer = answer.expect("a chart");
    match answer.contradiction() {
        None => Ok(answer),
        Some(index) => Err(format!(
            "the Rust's signal at {index} is not what its values say"
        )),
    }
}

/// Whether the platform's power gives this record other limits than rule 4.2's. It may move the limits
/// and, where it does, the side; nothing where more than that differs.
fn limits_moved(by_rule: &Record, by_platform: &Record) -> Option<bool> {
    let bits = |record: &Record| -> Vec<u64> {
        record.values.iter().map(|&value| pattern(value)).collect()
    };
    let (ruled, platform) = (bits(by_rule), bits(by_platform));
    let moved = ruled[1..] != platform[1..];
    let same_statistic = ruled[0] == platform[0] && by_rule.index == by_platform.index;
    let same_side = moved || by_rule.side == by_platform.side;
    (same_statistic && same_side).then_some(moved)
}

/// Whether the unmodified Rust differs from the copy with rule 4.2's powers, which may only be in limits
/// and by them in sides: there are as many records, and the same points where no limit differs.
fn differ_by_powers(unmodified: &Answer, ruled: &Answer) -> Result<bool, String> {
    let pairs = ruled.records.iter().zip(&unmodified.records);
    let moved: Option<Vec<bool>> = pairs.map(|(r, u)| limits_moved(r, u)).collect();
    let differ = moved.map(|moved| moved.contains(&true));
    let as_many = ruled.records.len() == unmodified.records.len();
    let same_points = differ == Some(true) || ruled.points == unmodified.points;
    differ
        .filter(|_| as_many && same_points)
        .ok_or("the copy with rule 4.2's powers differs by more than limits".into())
}

impl Areas {
    fn lend(&mut self, chart: &Chart) {
        for (at, area) in self.values.iter_mut().enumerate() {
            area.lend(chart.size(at));
        }
        self.side.lend(chart.size(3));
        self.index.lend(chart.size(4));
        self.points.lend(chart.size(5));
    }

    /// Whether these areas have in every place what those of the other edition have.
    fn compare(&self, others: &Areas) -> Result<(), String> {
        for (at, (area, other)) in self.values.iter().zip(&others.values).enumerate() {
            area.same_as(&format!("value {at} by both editions"), other, same_float)?;
        }
        self.side.same_as("sides by both editions", &others.side)?;
        let (indices, points) = ("indices by both editions", "points by both editions");
        self.index.same_as(indices, &others.index, same_word)?;
        self.points.same_as(points, &others.points, same_word)
    }

    /// Puts a fault into the last record or point of an answer.
    fn change_last(&mut self, chart: &Chart, (number, count): (u32, usize)) {
        if number == 0 && count > 0 {
            let area = match chart.points {
                true => &mut self.points,
                false => &mut self.index,
            };
            area.words()[count - 1] ^= 1;
        }
    }
}

impl RunLength {
    /// How the Rust makes the chart.
    pub fn made_with(&self) -> Settings {
        Settings {
            by_new: self.by_new,
            values: self.settings,
        }
    }

    /// The refusals whose conditions the call meets, each by itself, in the order of rule 2.4.
    fn met(&self, fault: Fault) -> Result<Vec<u32>, String> {
        let mut met: Vec<u32> = met_by([(self.sum > 1, FORM)]).collect();
        met.extend(met_by_settings(Kind::Cusum, &self.made_with(), fault)?);
        met.extend(met_by([(!self.level.is_finite(), NON_FINITE)]));
        Ok(met)
    }

    pub fn check(&self, fault: Fault) -> Result<Outcome, String> {
        let met = self.met(fault)?;
        let due = match met.first() {
            Some(&number) => (number, 0),
            None => {
                let upper = self.sum == 0;
                let (_, heard) = charted::run_length_answer(&self.made_with(), self.level, upper);
                (0, heard)
            }
        };
        let mut said = lent::cusum_run_length(cusum(self.settings), self.level, self.sum);
        said.1 += usize::from(fault.is("run length"));
        said.0 += u32::from(fault.is("run length number"));
        if said != due {
            return Err(format!("number and reading are {said:?} and not {due:?}"));
        }
        if self.sum < 2 {
            wrapped::run_length(self, due)?;
        }
        let outcome = match due {
            (0, 0) => "not heard".into(),
            (0, _) => "heard".into(),
            _ => told(&met),
        };
        let named = None;
        Ok(Outcome { outcome, named })
    }
}

/// Puts the fault that is asked for into the unmodified EWMA records, as if they came by another power: only
/// limits, and sides by them, may differ by that.
fn damage_unmodified(fault: Fault, unmodified: &mut Answer) {
    let Some(last) = unmodified.records.last_mut() else {
        return;
    };
    let flip = |value: &mut f64| *value = f64::from_bits(value.to_bits() ^ 1);
    if fault.is("another side by no power") {
        last.side ^= 1;
    }
    if fault.is("another power and statistic") {
        flip(&mut last.values[1]);
        flip(&mut last.values[0]);
    }
    if fault.is("another power and index") {
        flip(&mut last.values[1]);
        last.index += 1;
    }
    if fault.is("another power and a record less") {
        flip(&mut unmodified.records[0].values[1]);
        unmodified.records.pop();
    }
}

/// Puts the fault that is asked for into what a call said and left.
fn damage(fault: Fault, chart: &Chart, said: &mut (u32, usize), areas: &mut Areas) {
    let count = match said.0 {
        0 => said.1,
        _ => 0,
    };
    if fault.is("chart number") {
        said.0 ^= 1;
    }
    if fault.is("chart count") {
        said.1 += 1;
    }
    if chart.points {
        let points = areas.points.words();
        if fault.is("points") && count > 0 {
            points[count - 1] ^= 1;
        }
        if fault.is("points behind") && points.len() > count {
            points[count] = 0;
        }
        if fault.is("points beyond") {
            *areas.points.beyond() = 0;
        }
        return;
    }
    damage_records(fault, chart, count, areas);
}

/// Of `count` records.
fn damage_records(fault: Fault, chart: &Chart, count: usize, areas: &mut Areas) {
    if fault.is("record's first value") && count > 0 {
        areas.values[0].words()[count - 1] ^= 1;
    }
    let last = &mut areas.values[chart.width() - 1];
    let values = last.words();
    if fault.is("record bit") && count > 0 {
        values[count - 1] ^= 1;
    }
    if fault.is("record behind") && values.len() > count {
        values[count] = 0;
    }
    if fault.is("record beyond") {
        *last.beyond() = 0;
    }
    if fault.is("record before") {
        *last.before() = 0;
    }
    if fault.is("side beyond") {
        *areas.side.beyond() ^= 1;
    }
    if fault.is("index beyond") {
        *areas.index.beyond() = 0;
    }
    if fault.is("record index") && count > 0 {
        areas.index.words()[count - 1] ^= 1;
    }
    let sides = areas.side.bytes();
    let written = count.min(sides.len());
    damage_sides(fault, &mut sides[..written]);
}

fn damage_sides(fault: Fault, sides: &mut [u8]) {
    if let Some(last) = sides.last_mut() {
        *last ^= u8::from(fault.is("record side"));
    }
    if fault.is("sides exchanged") {
        exchange_sides(sides);
    }
    if fault.is("both told as one") {
        let both = sides.iter_mut().filter(|side| **side == charted::BOTH);
        both.for_each(|side| *side = charted::ABOVE);
    }
}

/// Above told as below, and below as above.
pub fn exchange_sides(sides: &mut [u8]) {
    for side in sides {
        *side = match *side {
            charted::ABOVE => charted::BELOW,
            charted::BELOW => charted::ABOVE,
            other => other,
        };
    }
}
