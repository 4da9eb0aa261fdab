//! Writes stored inputs and outputs of the program `cuts`, by a word:
//!
//! - `cases`, the standard input of the crate `replay_cuts`;
//! - `example` and `answer`, the worked example and its output, the standard input and output of the crate
//!   `cuts`.
//!
//! `tests/vectors/run` makes them. The outputs are by the program's rules (docs/RULES.md): `form.rs` reads
//! the fields and writes the lines, `calls.rs` tries the refusals, and the cuts are the Rust's as in
//! `searches.rs`. How many inputs of each kind there are, and how many were left out, it says on standard
//! error.
//!
//! A case begins with a `c`; then come the input and the output, each with its length in 2 bytes in
//! front, the highest first. An `e` ends the cases.

#[allow(dead_code)]
mod calls;
mod form;
#[allow(dead_code)]
mod inputs;
mod requests;
#[allow(dead_code)]
mod rules;
#[allow(dead_code)]
mod series;

use calls::Oracle;
use std::io::{self, BufWriter, Write};

fn put(out: &mut impl Write, bytes: &[u8]) -> io::Result<()> {
    let length = u16::try_from(bytes.len()).expect("a length of 2 bytes");
    out.write_all(&length.to_be_bytes())?;
    out.write_all(bytes)
}

fn write_cases(out: &mut impl Write, oracle: &mut Oracle) -> io::Result<()> {
    for (name, inputs) in requests::all() {
        let mut written = 0;
        for input in &inputs {
            if let Some(output) = form::output(oracle, input) {
                out.write_all(b"c")?;
                put(out, input)?;
                put(out, output.as_bytes())?;
                written += 1;
            }
        }
        eprintln!("{written} {name}");
    }
    out.write_all(b"e")
}

fn main() -> io::Result<()> {
    let mut out = BufWriter::new(io::stdout().lock());
    let mut oracle = Oracle::default();
    match std::env::args().nth(1).as_deref() {
        Some("cases") => write_cases(&mut out, &mut oracle)?,
        Some("example") => out.write_all(&requests::EXAMPLE)?,
        Some("answer") => {
            let answer = form::output(&mut oracle, &requests::EXAMPLE);
            out.write_all(answer.expect("an answer").as_bytes())?;
        }
        _ => panic!("say cases, example or answer"),
    }
    oracle.report();
    out.flush()
}
