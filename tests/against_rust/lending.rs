//! Areas as they are lent to a call: filled with numbers that are no answer, between places that belong
//! to nobody, and afterwards compared place by place.

/// How many places stand before and after a lent area.
const MARGIN: usize = 8;

/// What a place of an area holds: the bits of a float, or an index.
pub type Word = u64;

/// An area of floats or of indices.
#[derive(Default)]
pub struct Area {
    words: Vec<Word>,
    size: usize,
}

/// What has to stand behind the front of an area.
#[derive(Clone, Copy, PartialEq)]
pub enum Rest {
    AsLent,
    Zero,
}

/// What a place holds when it is lent. No answer has it, and no two neighbours have the same.
fn as_lent(place: usize) -> Word {
    0x5a5a_0000_0000_0001 ^ (place as Word).wrapping_mul(0x0000_9e37_79b9_7f4a)
}

impl Area {
    pub fn lend(&mut self, size: usize) {
        self.size = size;
        let words = size + 2 * MARGIN;
        self.words.clear();
        self.words.extend((0..words).map(as_lent));
    }

    /// The lent places.
    pub fn words(&mut self) -> &mut [Word] {
        &mut self.words[MARGIN..MARGIN + self.size]
    }

    /// The place after the last one.
    pub fn beyond(&mut self) -> &mut Word {
        &mut self.words[MARGIN + self.size]
    }

    /// The place before the first one.
    pub fn before(&mut self) -> &mut Word {
        &mut self.words[MARGIN - 1]
    }

    pub fn floats(&mut self) -> &mut [f64] {
        let words = self.words();
        // Both have 8 bytes, and every pattern is a float.
        unsafe { std::slice::from_raw_parts_mut(words.as_mut_ptr().cast(), words.len()) }
    }

    pub fn indices(&mut self) -> &mut [usize] {
        const { assert!(usize::BITS == 64) };
        let words = self.words();
        unsafe { std::slice::from_raw_parts_mut(words.as_mut_ptr().cast(), words.len()) }
    }

    /// Whether the area begins with this front, and has behind it what it has to; `same` compares a
    /// word that is there with one that is due.
    pub fn compare(
        &self,
        name: &str,
        front: &[Word],
        rest: Rest,
        same: fn(Word, Word) -> bool,
    ) -> Result<(), String> {
        for (at, &word) in self.words.iter().enumerate() {
            let place = at.checked_sub(MARGIN).filter(|&place| place < self.size);
            let due = match place {
                Some(place) if place < front.len() => front[place],
                Some(_) if rest == Rest::Zero => 0,
                _ => as_lent(at),
            };
            let met = match place {
                Some(place) if place < front.len() => same(word, due),
                _ => word == due,
            };
            if !met {
                let (at, size) = (at as isize - MARGIN as isize, self.size);
                return Err(format!(
                    "{name}: place {at} of {size} has {word:#x} and not {due:#x}"
                ));
            }
        }
        Ok(())
    }

    /// Whether an area that was lent as many places has the same in all of them, and about them; `same` compares
    /// two words.
    pub fn same_as(
        &self,
        name: &str,
        other: &Area,
        same: fn(Word, Word) -> bool,
    ) -> Result<(), String> {
        for (at, (&word, &by_other)) in self.words.iter().zip(&other.words).enumerate() {
            if !same(word, by_other) {
                let (at, size) = (at as isize - MARGIN as isize, self.size);
                return Err(format!(
                    "{name}: place {at} of {size} has {word:#x} and {by_other:#x}"
                ));
            }
        }
        Ok(())
    }
}

/// An area of bytes.
#[derive(Default)]
pub struct Bytes(Area, Vec<u8>);

impl Bytes {
    pub fn lend(&mut self, size: usize) {
        self.0.lend(size);
        self.1 = self.0.words.iter().map(|&word| word as u8).collect();
    }

    pub fn bytes(&mut self) -> &mut [u8] {
        &mut self.1[MARGIN..MARGIN + self.0.size]
    }

    /// The place after the last one.
    pub fn beyond(&mut self) -> &mut u8 {
        &mut self.1[MARGIN + self.0.size]
    }

    /// Whether the area begins with this front, and is as it was lent behind it.
    pub fn compare(&self, name: &str, front: &[u8]) -> Result<(), String> {
        for (at, &byte) in self.1.iter().enumerate() {
            let place = at.checked_sub(MARGIN).and_then(|place| front.get(place));
            let due = place.copied().unwrap_or(as_lent(at) as u8);
            if byte != due {
                let (at, size) = (at as isize - MARGIN as isize, self.0.size);
                return Err(format!(
                    "{name}: place {at} of {size} has {byte} and not {due}"
                ));
            }
        }
        Ok(())
    }

    /// Whether an area that was lent as many places has the same in all of them, and about them.
    pub fn same_as(&self, name: &str, other: &Bytes) -> Result<(), String> {
        match self.1 == other.1 {
            true => Ok(()),
            false => Err(format!("{name}: {:?} and {:?}", self.1, other.1)),
        }
    }
}

pub fn same_word(got: Word, due: Word) -> bool {
    got == due
}

/// NaNs count as one value.
pub fn same_float(got: Word, due: Word) -> bool {
    got == due || f64::from_bits(got).is_nan() && f64::from_bits(due).is_nan()
}
