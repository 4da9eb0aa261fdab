//! Writes stored answers of searches. The crate `replay_pelt` has them as its standard input.
//! `tests/vectors/run` makes them.
//!
//! The cuts of L2 searches with a custom penalty are the unmodified Rust's; those by BIC and for Normal are
//! of a copy whose `ln` is the rule of docs/RULES.md (`tests/vectors/rust.sh` makes the copy). The copy also
//! counts the candidates that live at once, which decides refusal 9. Refusals 1 to 8 are stated in
//! `calls.rs` on their own. What the program wrote, and what it left out, it says on standard error.
//!
//! Numbers have their highest byte first, and values are bit patterns. A record begins with a letter.
//!
//! `r`, readings for the calls that follow: their number in 2 bytes, and 8 bytes for each.
//!
//! `l`, lengths for the calls that follow: their number in a byte, and 8 bytes for each.
//!
//! `c`, a call: a byte for the function (0 `detect`, 1 `detect_multi`, 2 and 3 the strict ones), one for
//! the cost (0 L2, 1 Normal), one for the penalty (0 BIC, 1 custom) and one for the constructor (0 `new`,
//! 1 `with_min_segment_len`); 8 bytes for the custom penalty and 8 for the minimum length, 0 where there
//! is none; how many cuts, floats, indices and pool floats are lent, in 2, 4, 2 and 4 bytes. Then the
//! answer: the number of the refusal, or 0, in a byte; its channel, its index and the number of cuts in 2
//! bytes each; and 2 bytes for each cut.
//!
//! `e` ends the records.

mod calls;
mod families;
#[allow(dead_code)]
mod inputs;
#[allow(dead_code)]
mod rules;
#[allow(dead_code)]
mod runs;
#[allow(dead_code)]
mod series;

use calls::{Answer, Call, Oracle};
use inputs::Random;
use std::io::{self, BufWriter, Write};
use std::rc::Rc;

/// What the records so far have set.
struct Writer<W: Write> {
    out: W,
    readings: Rc<Vec<f64>>,
    lengths: Vec<u64>,
}

impl<W: Write> Writer<W> {
    /// The lowest bytes of a number, the highest of them first.
    fn number(&mut self, number: u64, width: usize) -> io::Result<()> {
        assert!(
            width == 8 || number >> (8 * width) == 0,
            "a number of {width} bytes"
        );
        self.out.write_all(&number.to_be_bytes()[8 - width..])
    }

    fn readings(&mut self, readings: &Rc<Vec<f64>>) -> io::Result<()> {
        if Rc::ptr_eq(&self.readings, readings) {
            return Ok(());
        }
        self.readings = Rc::clone(readings);
        self.out.write_all(b"r")?;
        self.number(readings.len() as u64, 2)?;
        let mut patterns = readings.iter().map(|x| x.to_bits());
        patterns.try_for_each(|pattern| self.number(pattern, 8))
    }

    fn lengths(&mut self, lengths: &[u64]) -> io::Result<()> {
        if self.lengths == lengths {
            return Ok(());
        }
        self.lengths = lengths.to_vec();
        self.out.write_all(b"l")?;
        self.number(lengths.len() as u64, 1)?;
        lengths
            .iter()
            .try_for_each(|&length| self.number(length, 8))
    }

    fn settings(&mut self, call: &Call) -> io::Result<()> {
        let settings = call.settings;
        self.number(2 * u64::from(call.strict) + u64::from(call.multi), 1)?;
        self.number(u64::from(settings.normal), 1)?;
        self.number(u64::from(settings.custom.is_some()), 1)?;
        self.number(u64::from(settings.given.is_some()), 1)?;
        self.number(settings.custom.unwrap_or(0.0).to_bits(), 8)?;
        self.number(settings.given.unwrap_or(0), 8)
    }

    fn answer(&mut self, answer: &Answer) -> io::Result<()> {
        self.number(answer.refusal, 1)?;
        self.number(answer.channel, 2)?;
        self.number(answer.index, 2)?;
        self.number(answer.cuts.len() as u64, 2)?;
        let mut cuts = answer.cuts.iter().map(|&cut| cut as u64);
        cuts.try_for_each(|cut| self.number(cut, 2))
    }

    fn call(&mut self, call: &Call, answer: &Answer) -> io::Result<()> {
        self.readings(&call.readings)?;
        if call.multi {
            self.lengths(&call.lengths)?;
        }
        self.out.write_all(b"c")?;
        self.settings(call)?;
        let lent = call.lent;
        self.number(lent.cuts as u64, 2)?;
        self.number(lent.floats as u64, 4)?;
        self.number(lent.indices as u64, 2)?;
        self.number(lent.pool as u64, 4)?;
        self.answer(answer)
    }
}

fn main() -> io::Result<()> {
    let mut writer = Writer {
        out: BufWriter::new(io::stdout().lock()),
        readings: Rc::new(Vec::new()),
        lengths: Vec::new(),
    };
    let mut oracle = Oracle::default();
    let mut random = Random::new();
    for (name, family) in families::FAMILIES {
        let mut written = 0;
        for call in &family(&mut random) {
            if let Some(answer) = oracle.answer(call) {
                writer.call(call, &answer)?;
                written += 1;
            }
        }
        eprintln!("{written} {name}");
    }
    writer.out.write_all(b"e")?;
    oracle.report();
    writer.out.flush()
}
