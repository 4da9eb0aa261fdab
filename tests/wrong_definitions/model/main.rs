//! The definitions of `crates/*/specs` that answers are worked out by, written over in Rust: one file a
//! crate, but three of `search_rules` (`minimum`, `inequality`, `functional`) and two of `search_answer`
//! (`search_tests`, `search_answer`); one function a definition, under the same names. Limits stand as
//! numbers. It is a reading of the definitions, plain and not fast, and it is held to every row and every
//! stored case.
//!
//!     model ROOT rows
//!     model ROOT stored
//!
//! compare the rows of `ROOT/crates/worked_examples/specs`, or the stored cases of `ROOT/crates/replay_*`.
//! Each prints one line: how many there are, and behind a colon the names of the rows that differ, or the
//! first stored case that does, at which it ends.
//!
//!     model drawn SEED COUNT
//!     model answers
//!     model shown
//!
//! print small searches that are drawn by SEED, about COUNT, a line each; and what the searches of such lines
//! on standard input come to, without and with how a row writes them.

mod areas;
mod backtrack;
mod calls;
mod candidate;
mod candidate_sides;
mod charts;
mod costs;
mod cusum;
mod cuts_answer;
mod cuts_input;
mod cuts_output;
mod edges;
mod elementary;
mod ewma;
mod floats;
mod functional;
mod inequality;
mod medians;
mod minimum;
mod noise;
mod piece;
mod ranges;
mod readings;
mod refusals;
mod search_answer;
mod search_tests;
mod sums;

use calls::outcome;
use cases::{rows_of, stored_cases, Case, Drawn, Random, Row};
use edges::{about_edges, brief};
use std::fs;
use std::io::stdin;
use std::ops::ControlFlow;
use std::path::Path;

/// The rows of both tables.
fn rows(root: &Path) -> Vec<Row> {
    let file = |name| {
        let path = root.join("crates/worked_examples/specs").join(name);
        fs::read_to_string(&path).unwrap_or_else(|e| panic!("{}: {e}", path.display()))
    };
    let texts = [file("Marked.antt"), file("Further.antt")];
    let mut rows = rows_of(&[&texts[0]], "marked_rows");
    rows.extend(rows_of(&[&texts[0], &texts[1]], "further_rows"));
    rows
}

/// The names of the rows that differ.
fn unlike(rows: &[Row]) -> Vec<&str> {
    let differs = |row: &&Row| outcome(&row.call) != row.expected;
    rows.iter()
        .filter(differs)
        .map(|row| &row.name[..])
        .collect()
}

/// Counts stored cases up to the first that differs, which is named.
fn stored(root: &Path) -> (usize, Option<String>) {
    let mut count = 0;
    let mut first = None;
    let _ = stored_cases(root, &mut |case: Case| {
        count += 1;
        if outcome(&case.call) == case.expected {
            return ControlFlow::Continue(());
        }
        first = Some(format!("{} case {}", case.source, case.number));
        ControlFlow::Break(())
    });
    (count, first)
}

/// Prints about `count` searches, those of fewer readings first.
fn print_drawn(seed: u64, count: usize) {
    let mut random = Random::seeded(seed);
    let mut printed = 0;
    while printed < count {
        for search in about_edges(&mut random, 4 + printed * 7 / count) {
            println!("{}", search.line());
            printed += 1;
        }
    }
}

/// Answers the searches of standard input.
fn print_answers(shown: bool) {
    for line in stdin().lines() {
        let search = Drawn::of_line(&line.expect("a line"));
        let text = if shown {
            search.text() + ": "
        } else {
            String::new()
        };
        println!("{text}{}", brief(&search.call()));
    }
}

fn main() {
    let words: Vec<String> = std::env::args().skip(1).collect();
    let words: Vec<&str> = words.iter().map(|word| &word[..]).collect();
    match words[..] {
        [root, "rows"] => {
            let rows = rows(Path::new(root));
            println!("{}: {}", rows.len(), unlike(&rows).join(" "));
        }
        [root, "stored"] => {
            let (count, first) = stored(Path::new(root));
            println!("{count}: {}", first.unwrap_or_default());
        }
        ["drawn", seed, count] => {
            let numbers = [seed, count].map(|word| word.parse().expect("a number"));
            print_drawn(numbers[0], numbers[1] as usize);
        }
        ["answers"] => print_answers(false),
        ["shown"] => print_answers(true),
        _ => panic!("say what is to be compared, drawn or answered"),
    }
}
