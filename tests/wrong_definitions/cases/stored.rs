//! All stored cases, one file after the other.

use crate::reader::Reader;
use crate::{charts, floats, searches, sums};
use crate::{Call, Case, Outcome};
use std::fs;
use std::ops::ControlFlow;
use std::path::Path;
use std::rc::Rc;

/// Compares a case, and says whether to go on.
pub type Check<'a> = dyn FnMut(Case) -> ControlFlow<()> + 'a;

/// The cases of one file, counted from 1.
pub struct Stored<'a> {
    pub reader: Reader,
    source: &'static str,
    number: usize,
    check: &'a mut Check<'a>,
}

impl Stored<'_> {
    /// A case is begun; what is compared until the next one bears its number.
    pub fn begun(&mut self) {
        self.number += 1;
    }

    pub fn case(&mut self, call: Call, expected: Outcome) -> ControlFlow<()> {
        (self.check)(Case {
            source: self.source,
            number: self.number,
            call,
            expected,
        })
    }
}

/// What reads the cases of a file.
type Read = fn(&mut Stored) -> ControlFlow<()>;

/// The files in the order in which they are read, those that take long last.
const FILES: [(&str, &str, Read); 8] = [
    ("replay_floats", "stdin", floats::cases),
    ("replay_refusals", "stdout", numbers),
    ("replay_sums", "stdin", sums::cases),
    ("replay_cusum", "stdin", charts::cusum_cases),
    ("replay_ewma", "stdin", charts::ewma_cases),
    ("replay_cuts", "stdin", programs),
    ("replay_functional", "stdout", ramps),
    ("replay_pelt", "stdin", searches::cases),
];

/// Every stored case, up to one that ends the comparison.
pub fn stored_cases(root: &Path, check: &mut Check) -> ControlFlow<()> {
    for (source, file, read) in FILES {
        let path = root.join("crates").join(source).join(file);
        let bytes = fs::read(&path).unwrap_or_else(|e| panic!("{}: {e}", path.display()));
        let mut stored = Stored {
            reader: Reader::of(bytes),
            source,
            number: 0,
            check: &mut |case| check(case),
        };
        read(&mut stored)?;
    }
    ControlFlow::Continue(())
}

/// Inputs and outputs of the program: each has its length in front.
fn programs(stored: &mut Stored) -> ControlFlow<()> {
    while stored.reader.letter() == b'c' {
        stored.begun();
        let length = stored.reader.size(2);
        let input = stored.reader.bytes(length).to_vec();
        let length = stored.reader.size(2);
        let output = stored.reader.bytes(length).to_vec();
        stored.case(Call::Program(input), Outcome::Bytes(output))?;
    }
    ControlFlow::Continue(())
}

/// The lines of a file of printed numbers.
fn lines(stored: &mut Stored) -> Vec<String> {
    let mut text = Vec::new();
    while !stored.reader.ended() {
        text.push(stored.reader.letter());
    }
    let text = String::from_utf8(text).expect("lines");
    text.lines().map(String::from).collect()
}

/// The numbers of the refusals, in the order of rule 2.1.
fn numbers(stored: &mut Stored) -> ControlFlow<()> {
    for (place, line) in lines(stored).iter().enumerate() {
        stored.begun();
        let number: u32 = line.parse().expect("a number");
        stored.case(
            Call::Number(place),
            Outcome::Values(vec![f64::from(number)]),
        )?;
    }
    ControlFlow::Continue(())
}

/// Ramps of n readings with steps of 1 and, on a second channel, of 6, with a penalty of 1e6, m 2 and 110
/// slots (`crates/replay_functional/src/main.rt`).
fn ramps(stored: &mut Stored) -> ControlFlow<()> {
    let lines = lines(stored);
    let starts = lines
        .iter()
        .enumerate()
        .filter(|(_, l)| *l == "slots enough");
    let starts: Vec<usize> = starts.map(|(at, _)| at).collect();
    for (n, steps, start) in [(300, &[1.0][..], starts[0]), (200, &[1.0, 6.0], starts[1])] {
        stored.begun();
        let ramp = |&step: &f64| (0..n).map(move |i| i as f64 * step);
        let run: Vec<f64> = steps.iter().flat_map(ramp).collect();
        let last = &lines[start + 1..start + 2 + n];
        let last = last.iter().map(|l| l.parse().expect("a number")).collect();
        let call = Call::Predecessors(1e6, Rc::new(run), n, steps.len(), 2, 110);
        stored.case(call, Outcome::Predecessors(true, last))?;
    }
    ControlFlow::Continue(())
}
