//! Compares what crate `desk` exports with the Rust, on many calls: every answer, every field, and every
//! place of every lent area. `tests/against_rust/run` builds and runs it; its arguments are a seed and
//! the number of cases; after them `--family PART` for the families with this in their name alone, or
//! `--fault NAME` to see that a wrong answer is noticed.
//!
//! It prints how many cases of each family had which outcome, the largest distances of `ln` and `powi`
//! from the platform's, and that of `ln` from the logarithm itself by the size of the exponent. A
//! difference that docs/DIFFERENCES.md names is counted under that name; any other is shrunk and printed,
//! and the program ends with status 1.

#[allow(dead_code)]
#[path = "../vectors/calls.rs"]
mod calls;
mod case;
#[allow(dead_code)]
#[path = "../vectors/charted.rs"]
mod charted;
mod charts;
mod drawn;
mod edges;
mod editions;
mod elementary;
#[allow(dead_code)]
#[path = "../vectors/families.rs"]
mod families;
mod faults;
#[allow(dead_code)]
#[path = "../vectors/gapped.rs"]
mod gapped;
mod heard;
mod hundred_bits;
mod in_place;
#[allow(dead_code)]
#[path = "../vectors/inputs.rs"]
mod inputs;
mod lending;
#[allow(dead_code)]
#[path = "../vectors/middles.rs"]
mod middles;
mod noises;
#[allow(dead_code)]
#[path = "../vectors/pieces.rs"]
mod pieces;
mod precision;
#[path = "../vectors/rules.rs"]
mod rules;
#[allow(dead_code)]
#[path = "../vectors/runs.rs"]
mod runs;
mod searches;
#[allow(dead_code)]
#[path = "../vectors/series.rs"]
mod series;
mod summaries;
mod wrapped;

use case::{Case, Lending};
use faults::Fault;
use inputs::Random;
use std::collections::BTreeMap;
use std::io::{stderr, IsTerminal, Write};
use std::process::ExitCode;
use std::time::Instant;

/// What a case came to, and under which name of docs/DIFFERENCES.md it differs, if it does.
pub struct Outcome {
    pub outcome: String,
    pub named: Option<&'static str>,
}

/// The part of all cases that all short series may take.
const SHORT_PART: usize = 4;
/// How many cases of a family that differ are shrunk and printed.
const MOST_PRINTED: usize = 1;

struct Run {
    fault: Fault,
    count: usize,
    lending: Lending,
    started: Instant,
    cases: usize,
    differ: usize,
    named: BTreeMap<&'static str, usize>,
    smallest: Option<(usize, String)>,
}

impl Run {
    /// Compares these cases and prints a line of what they came to.
    fn family(&mut self, name: &str, cases: impl Iterator<Item = Case>) {
        let mut outcomes: BTreeMap<String, usize> = BTreeMap::new();
        let (before, mut printed) = (self.cases, 0);
        for case in cases {
            self.cases += 1;
            self.progress(name);
            match case.check(&mut self.lending, self.fault) {
                Ok(outcome) => {
                    *outcomes.entry(outcome.outcome).or_default() += 1;
                    if let Some(name) = outcome.named {
                        *self.named.entry(name).or_default() += 1;
                    }
                }
                Err(_) => {
                    self.differ += 1;
                    *outcomes.entry("DIFFERENT".into()).or_default() += 1;
                    if printed < MOST_PRINTED {
                        self.shrink(name, case);
                        printed += 1;
                    }
                }
            }
        }
        self.clear_progress();
        let parts = outcomes.iter().map(|(what, many)| format!("{many} {what}"));
        let parts: Vec<String> = parts.collect();
        println!("{:>9}  {name}: {}", self.cases - before, parts.join(", "));
    }

    /// Keeps the smallest of all cases that differ.
    fn shrink(&mut self, name: &str, case: Case) {
        let (case, what) = case::shrink(case, &mut self.lending, self.fault);
        let text = format!("{name}: {case}\n    {what}");
        if self
            .smallest
            .as_ref()
            .is_none_or(|(size, _)| text.len() < *size)
        {
            self.smallest = Some((text.len(), text));
        }
    }

    fn progress(&self, name: &str) {
        if self.cases % 2048 == 0 && stderr().is_terminal() {
            let (cases, count) = (self.cases, self.count);
            eprint!("\r\x1b[K{cases} of {count}, {name}");
            let _ = stderr().flush();
        }
    }

    fn clear_progress(&self) {
        if stderr().is_terminal() {
            eprint!("\r\x1b[K");
        }
    }
}

/// The drawn families with this in their names, by their shares.
fn compare_drawn(run: &mut Run, random: &mut Random, part: &str) {
    let mut families = drawn::families();
    families.retain(|family| family.name.contains(part));
    let shares: usize = families.iter().map(|family| family.share).sum();
    let left = run.count.saturating_sub(run.cases);
    for family in &families {
        // An even number: of EWMA series two cases on end are the editions of one.
        let count = (left * family.share).div_ceil(shares).next_multiple_of(2);
        let batches = std::iter::repeat_with(|| (family.draw)(random));
        run.family(&family.name, batches.flatten().take(count));
    }
}

/// All short series, as many as may be, and then the drawn families.
fn compare_all(run: &mut Run, random: &mut Random) {
    let all = drawn::all_short(1).len();
    let step = all.div_ceil((run.count / SHORT_PART).max(1));
    let name = match step {
        1 => "all series of up to 7 readings over a few values".into(),
        _ => format!("series of up to 7 readings over a few values, every {step}th"),
    };
    run.family(&name, drawn::all_short(step).into_iter());
    compare_drawn(run, random, "");
}

fn compare(seed: u64, count: usize, part: Option<&str>, fault: Fault) -> ExitCode {
    let mut run = Run {
        fault,
        count,
        lending: Lending::default(),
        started: Instant::now(),
        cases: 0,
        differ: 0,
        named: BTreeMap::new(),
        smallest: None,
    };
    println!("seed {seed}, {count} cases");
    let mut random = Random::seeded(seed);
    let mut elementary = elementary::Tally::default();
    match part {
        Some(part) => compare_drawn(&mut run, &mut random, part),
        None => {
            compare_all(&mut run, &mut random);
            let count = (count / 10).max(100);
            elementary = elementary::compare(&mut random, count, fault);
            elementary.add(precision::compare(&mut random, count, fault));
        }
    }
    for (name, cases) in &run.named {
        println!("{cases} differ as docs/DIFFERENCES.md says under: {name}");
    }
    let differ = run.differ + elementary.differ;
    let seconds = run.started.elapsed().as_secs();
    println!(
        "{} cases and {} elementary results compared in {seconds} s: {differ} differ",
        run.cases, elementary.compared
    );
    if let Some((_, smallest)) = &run.smallest {
        println!("smallest that differs, {smallest}");
    }
    ExitCode::from(u8::from(differ > 0))
}

fn main() -> ExitCode {
    let words: Vec<String> = std::env::args().skip(1).collect();
    let words: Vec<&str> = words.iter().map(String::as_str).collect();
    if words == ["--faults"] {
        faults::FAULTS.iter().for_each(|name| println!("{name}"));
        return ExitCode::SUCCESS;
    }
    let (part, fault) = match words.get(2..) {
        Some([]) => (None, Some(Fault::default())),
        Some(["--family", part]) => (Some(*part), Some(Fault::default())),
        Some(["--fault", name]) => (None, Fault::named(name)),
        _ => (None, None),
    };
    let number = |at: usize| words.get(at).and_then(|word| word.parse::<u64>().ok());
    match (number(0), number(1), fault) {
        (Some(seed), Some(count), Some(fault)) => compare(seed, count as usize, part, fault),
        _ => {
            eprintln!(
                "give a seed and a number of cases, and after them --family PART or --fault NAME;"
            );
            eprintln!("--faults prints the names of faults");
            ExitCode::from(2)
        }
    }
}
