//! Writes stored answers of the Rust's charts, some 400 series of each, run lengths of CUSUM charts, and some 570
//! series by the second edition of the EWMA chart: by the word `cusum` the standard input of the crate
//! `replay_cusum`, and by `ewma` that of `replay_ewma`. `tests/vectors/run` makes them.
//!
//! The files of the Rust are compiled as they are, so every answer is the unmodified Rust's, but for those of the
//! second edition, which the Rust does not have. These are made with a copy of `ewma.rs` in which the place of a
//! reading is counted (`ewma_counted` of `tests/vectors/rust.sh`, 4 lines). What the program wrote, how many
//! records are of each side, and for an EWMA chart how many of the powers that it asked differ from the rule of
//! docs/RULES.md, it says on standard error.
//!
//! Numbers have their highest byte first, and values are bit patterns, every NaN of an answer as
//! 7ff8000000000000. A case begins with a letter and the four settings, 8 bytes each.
//!
//! `n`, a chart by `new`, which has the last two settings of its own, or `p`, one by `with_params`; of an EWMA
//! chart these are of the first edition, and `N` and `P` are the same of the second:
//! the number of readings in 2 bytes, and 8 bytes for each reading; then a byte that is 0, or 15 to 18
//! where the Rust makes no such chart, and with such a number the case ends; then what `signal_points` gives,
//! their number and each of them in 2 bytes; then for each reading its record, 8 bytes for each value,
//! a byte for the side, 0 none, 1 above, 2 below or 3 both, and the index in 2 bytes.
//!
//! `u` or `l`, the run length of a level by the upper or the lower sum of a chart by `with_params`:
//! 8 bytes for the level; then a byte that is 0, or 15 to 18 where the Rust makes no such chart, or 8 where
//! the level is not finite; then 2 bytes: the first of 4,096 readings of that level, from 1, after
//! which the Rust's chart has the sum above h, or 0.
//!
//! The Rust does not say which setting is wrong. The number is that of the first that is out of range by rule
//! 5.1, in the order in which the Rust tests them; that it makes no chart exactly where there is such a
//! setting is asserted. Nor does it say on which side a record signals. The side is worked out by rules 5.2 to
//! 5.4 from the Rust's own sums and limits; that it is not none exactly where the Rust signals is asserted.
//!
//! Of every series of the second edition the first is asked too. That both have the same statistics and sides of
//! gaps, and without gaps the same records and points, and that the limits of the second are those that the first
//! gives to the counted place, is asserted.

mod charted;
mod gapped;
#[allow(dead_code)]
mod inputs;
#[allow(dead_code)]
mod rules;
mod series;

use charted::{Answer, Case, Edition, Kind};
use inputs::Random;
use series::Settings;
use std::io::{self, BufWriter, Write};

/// How much was written.
#[derive(Default)]
struct Written {
    series: usize,
    refused: usize,
    records: usize,
    points: usize,
    /// By the numbers of the sides.
    sides: [usize; 4],
}

impl Written {
    fn count(&mut self, answer: &Answer) {
        self.records += answer.records.len();
        self.points += answer.points.len();
        for record in &answer.records {
            self.sides[usize::from(record.side)] += 1;
        }
    }
}

fn write_value(out: &mut impl Write, x: f64) -> io::Result<()> {
    out.write_all(&rules::pattern(x).to_be_bytes())
}

fn write_short(out: &mut impl Write, n: usize) -> io::Result<()> {
    let short = u16::try_from(n).expect("a number of 2 bytes");
    out.write_all(&short.to_be_bytes())
}

fn write_settings(out: &mut impl Write, letter: u8, settings: &Settings) -> io::Result<()> {
    out.write_all(&[letter])?;
    let patterns = settings.values.map(f64::to_bits);
    patterns
        .iter()
        .try_for_each(|p| out.write_all(&p.to_be_bytes()))
}

fn write_answer(out: &mut impl Write, answer: &Answer) -> io::Result<()> {
    write_short(out, answer.points.len())?;
    for &point in &answer.points {
        write_short(out, point)?;
    }
    for record in &answer.records {
        for &value in &record.values {
            write_value(out, value)?;
        }
        out.write_all(&[record.side])?;
        write_short(out, record.index)?;
    }
    Ok(())
}

fn letter(edition: Edition, by_new: bool) -> u8 {
    match (edition, by_new) {
        (Edition::First, true) => b'n',
        (Edition::First, false) => b'p',
        (Edition::Second, true) => b'N',
        (Edition::Second, false) => b'P',
    }
}

/// Writes a series with its answer, and counts them.
fn write_series(
    out: &mut impl Write,
    written: &mut Written,
    (kind, edition): (Kind, Edition),
    (settings, readings): &Case,
) -> io::Result<()> {
    write_settings(out, letter(edition, settings.by_new), settings)?;
    write_short(out, readings.len())?;
    for reading in readings {
        out.write_all(&reading.to_bits().to_be_bytes())?;
    }
    written.series += 1;
    let answer = charted::answer(kind, edition, settings, readings);
    let refused = charted::refused_by(kind, settings, answer.is_some());
    let Some(answer) = answer else {
        written.refused += 1;
        return out.write_all(&[refused.expect("a refusal")]);
    };
    written.count(&answer);
    out.write_all(&[0])?;
    write_answer(out, &answer)
}

/// Every side that a chart can have has to be among the records; those of an EWMA chart are never both.
fn report_sides(kind: Kind, sides: [usize; 4]) {
    let [none, above, below, both] = sides;
    eprintln!("sides: {none} none, {above} above, {below} below, {both} both");
    let due = [true, true, true, kind == Kind::Cusum];
    assert_eq!(sides.map(|count| count > 0), due, "{kind:?}");
}

fn write_all(out: &mut impl Write, kind: Kind, edition: Edition, cases: &[Case]) -> io::Result<()> {
    let mut written = Written::default();
    for case in cases {
        write_series(out, &mut written, (kind, edition), case)?;
    }
    let Written {
        series, refused, ..
    } = written;
    eprintln!("{series} series, of which {refused} are refused");
    eprintln!("{} records, {} points", written.records, written.points);
    report_sides(kind, written.sides);
    Ok(())
}

fn write_run_length(
    out: &mut impl Write,
    settings: &Settings,
    level: f64,
    upper: bool,
) -> io::Result<usize> {
    write_settings(out, if upper { b'u' } else { b'l' }, settings)?;
    out.write_all(&level.to_bits().to_be_bytes())?;
    let (refusal, heard) = charted::run_length_answer(settings, level, upper);
    out.write_all(&[refusal])?;
    write_short(out, heard)?;
    Ok(heard)
}

fn write_run_lengths(out: &mut impl Write, random: &mut Random) -> io::Result<()> {
    let asked = charted::run_lengths(random);
    let mut heard = 0;
    for (settings, level, upper) in &asked {
        heard += usize::from(write_run_length(out, settings, *level, *upper)? > 0);
    }
    eprintln!("{} run lengths, of which {heard} are heard", asked.len());
    Ok(())
}

fn write_cusum(out: &mut impl Write, random: &mut Random) -> io::Result<()> {
    let cases = charted::cusum_cases(random);
    write_all(out, Kind::Cusum, Edition::First, &cases)?;
    write_run_lengths(out, random)
}

/// How many of the powers that the charts ask differ from the rule. A chart of the second edition asks for that of
/// place 0 too, and for none beyond the number of finite readings.
fn report_powers(edition: Edition, cases: &[Case]) {
    let (mut powers, mut differ) = (0, 0);
    for (settings, readings) in cases
        .iter()
        .filter(|(s, _)| charted::ewma_chart(s).is_some())
    {
        let base = 1.0 - settings.values[2];
        let places = match edition {
            Edition::First => 1..=readings.len(),
            Edition::Second => 0..=readings.iter().filter(|x| x.is_finite()).count(),
        };
        for place in places {
            let platform = base.powi(2 * place as i32);
            powers += 1;
            differ +=
                usize::from(platform.to_bits() != rules::powi(base, 2 * place as u64).to_bits());
        }
    }
    eprintln!("{powers} powers, of which {differ} differ from the rule");
}

/// How many gaps there are, and how many records that have other limits or another side than the first edition's:
/// all have to be many.
fn report_editions(cases: &[Case]) {
    let (mut records, mut gaps, mut moved, mut turned) = (0, 0, 0, 0);
    for case in cases {
        let answer = |edition| charted::answer(Kind::Ewma, edition, &case.0, &case.1);
        if let (Some(first), Some(second)) = (answer(Edition::First), answer(Edition::Second)) {
            let [limits, sides] = gapped::moved(case, &first, &second);
            records += second.records.len();
            gaps += case.1.iter().filter(|x| !x.is_finite()).count();
            moved += limits;
            turned += sides;
        }
    }
    eprintln!("{gaps} gaps; {moved} records have other limits than the first edition's, and {turned} another side");
    assert!(3 * gaps > records && 3 * moved > records && turned > 100);
}

fn write_ewma(out: &mut impl Write, random: &mut Random) -> io::Result<()> {
    let cases = charted::ewma_cases(random);
    report_powers(Edition::First, &cases);
    write_all(out, Kind::Ewma, Edition::First, &cases)?;
    eprintln!("the second edition:");
    let cases = gapped::cases(random);
    report_powers(Edition::Second, &cases);
    report_editions(&cases);
    write_all(out, Kind::Ewma, Edition::Second, &cases)
}

fn main() -> io::Result<()> {
    let mut out = BufWriter::new(io::stdout().lock());
    let mut random = Random::new();
    match std::env::args().nth(1).as_deref() {
        Some("cusum") => write_cusum(&mut out, &mut random)?,
        Some("ewma") => write_ewma(&mut out, &mut random)?,
        _ => panic!("say cusum or ewma"),
    }
    out.flush()
}
