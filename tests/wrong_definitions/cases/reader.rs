//! Numbers of a file of stored cases, the highest byte first.

use std::rc::Rc;

pub struct Reader {
    bytes: Vec<u8>,
    at: usize,
}

impl Reader {
    pub fn of(bytes: Vec<u8>) -> Reader {
        Reader { bytes, at: 0 }
    }

    pub fn ended(&self) -> bool {
        self.at == self.bytes.len()
    }

    pub fn bytes(&mut self, count: usize) -> &[u8] {
        self.at += count;
        &self.bytes[self.at - count..self.at]
    }

    pub fn letter(&mut self) -> u8 {
        self.bytes(1)[0]
    }

    pub fn number(&mut self, width: usize) -> u64 {
        let digit = |value, &byte| value << 8 | u64::from(byte);
        self.bytes(width).iter().fold(0, digit)
    }

    pub fn size(&mut self, width: usize) -> usize {
        self.number(width) as usize
    }

    pub fn float(&mut self) -> f64 {
        f64::from_bits(self.number(8))
    }

    pub fn floats<const N: usize>(&mut self) -> [f64; N] {
        [0; N].map(|_| self.float())
    }

    /// The next `count` readings.
    pub fn readings(&mut self, count: usize) -> Rc<Vec<f64>> {
        Rc::new((0..count).map(|_| self.float()).collect())
    }
}
