//! Writes the stored cases of the float functions: 5,000 or more of each kind of input for square root,
//! whole power and logarithm, and 500 for the others. The crate `replay_floats` has them as its standard
//! input. `tests/vectors/run` makes them.
//!
//! A case is 25 bytes: `s` for sqrt, `p` for powi, `l` for ln, `x` for max, `m` for min, `a` for abs
//! or `f` for finite, and then three numbers of 8 bytes, the highest byte first: the bit pattern of
//! x; the exponent, or the bit pattern of the second value, or 0; and the bit pattern of the result,
//! for finite that of 1 or 0. A NaN among the results is 7ff8000000000000. Roots, magnitudes and what is
//! finite are the platform's, which IEEE 754 fixes to the bit; it does not fix the others, so they are by
//! docs/RULES.md.

#[allow(dead_code)]
mod inputs;
mod plain;
mod rules;

use std::io::{self, BufWriter, Write};

const CASES_OF_A_KIND: usize = 5_000;
const CASES_OF_A_PLAIN_KIND: usize = 500;

fn write_case(out: &mut impl Write, kind: u8, x: u64, n: u64, result: f64) -> io::Result<()> {
    out.write_all(&[kind])?;
    out.write_all(&x.to_be_bytes())?;
    out.write_all(&n.to_be_bytes())?;
    out.write_all(&rules::pattern(result).to_be_bytes())
}

/// The inputs of one kind, of which there have to be enough.
fn gather<T>(
    random: &mut inputs::Random,
    count: usize,
    name: &str,
    kind: inputs::Kind<T>,
) -> Vec<T> {
    let gathered = kind(random, count);
    assert!(gathered.len() >= count, "too few: {}", name);
    gathered
}

/// The functions that only choose or clear a sign.
fn write_plain(out: &mut impl Write, random: &mut inputs::Random) -> io::Result<()> {
    for (name, kind) in plain::PAIR_KINDS {
        for (x, y) in gather(random, CASES_OF_A_PLAIN_KIND, name, kind) {
            let [a, b] = [x, y].map(f64::from_bits);
            write_case(out, b'x', x, y, plain::max(a, b))?;
            write_case(out, b'm', x, y, plain::min(a, b))?;
        }
    }
    for (name, kind) in plain::VALUE_KINDS {
        for x in gather(random, CASES_OF_A_PLAIN_KIND, name, kind) {
            let value = f64::from_bits(x);
            write_case(out, b'a', x, 0, value.abs())?;
            write_case(out, b'f', x, 0, f64::from(u8::from(value.is_finite())))?;
        }
    }
    Ok(())
}

fn main() -> io::Result<()> {
    let mut out = BufWriter::new(io::stdout().lock());
    let mut random = inputs::Random::new();
    for (name, kind) in inputs::ROOT_KINDS {
        for x in gather(&mut random, CASES_OF_A_KIND, name, kind) {
            write_case(&mut out, b's', x, 0, f64::from_bits(x).sqrt())?;
        }
    }
    for (name, kind) in inputs::POWER_KINDS {
        for (x, n) in gather(&mut random, CASES_OF_A_KIND, name, kind) {
            write_case(&mut out, b'p', x, n, rules::powi(f64::from_bits(x), n))?;
        }
    }
    for (name, kind) in inputs::LOGARITHM_KINDS {
        for x in gather(&mut random, CASES_OF_A_KIND, name, kind) {
            write_case(&mut out, b'l', x, 0, rules::ln(f64::from_bits(x)))?;
        }
    }
    write_plain(&mut out, &mut random)?;
    out.flush()
}
