//! `crates/cuts_output/specs`: Lines.

use cases::Said;

const SPACE: u8 = 32;
const NEWLINE: u8 = 10;
const CUTS_WORD: [u8; 4] = [99, 117, 116, 115];
const REFUSED_WORD: [u8; 7] = [114, 101, 102, 117, 115, 101, 100];

/// A number below 10 as its digit.
fn digit(d: usize) -> u8 {
    48 + d as u8
}

/// n in decimal, the highest digit first and no zero in front of others.
fn decimal(n: usize) -> Vec<u8> {
    if n < 10 {
        return vec![digit(n)];
    }
    let mut digits = decimal(n / 10);
    digits.push(digit(n % 10));
    digits
}

/// Each number with a space in front.
fn spaced(numbers: &[usize]) -> Vec<u8> {
    let one = |&n: &usize| [vec![SPACE], decimal(n)].concat();
    numbers.iter().flat_map(one).collect()
}

/// Each number on a line.
fn lines(numbers: &[usize]) -> Vec<u8> {
    let one = |&n: &usize| [decimal(n), vec![NEWLINE]].concat();
    numbers.iter().flat_map(one).collect()
}

/// `cuts` and the count, then one index a line, lowest first; or `refused`, the number and, for 8, channel
/// and index.
pub fn text(said: &Said) -> Vec<u8> {
    match said {
        Said::Answered(cuts) => {
            let count = spaced(&[cuts.len()]);
            [CUTS_WORD.to_vec(), count, vec![NEWLINE], lines(cuts)].concat()
        }
        Said::Refused(s) => {
            let numbers = [&[s.number], &s.values[..]].concat();
            [REFUSED_WORD.to_vec(), spaced(&numbers), vec![NEWLINE]].concat()
        }
    }
}
