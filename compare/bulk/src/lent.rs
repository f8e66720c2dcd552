//! A buffer lent to an entry of either side. It is filled with a pattern first, and there is room
//! beyond the lent part, so that every byte that an entry writes or leaves alone can be compared.

use crate::difference::{hexadecimal, packed_words};
use second::Refusal;

/// How many bytes beyond the lent part are watched.
const BEYOND: usize = 8;

/// What an entry answered, and the whole buffer afterwards.
#[derive(PartialEq)]
pub struct Lent {
    pub answer: u64,
    bytes: Vec<u8>,
}

impl Lent {
    pub fn number(&self) -> u32 {
        (self.answer >> 32) as u32
    }

    /// The bytes that the entry says it has written: none where it refused.
    pub fn written(&self) -> &[u8] {
        match self.number() {
            0 => &self.bytes[..self.answer as usize],
            _ => &[],
        }
    }

    pub fn words(&self) -> String {
        let lent = self.bytes.len() - BEYOND;
        format!(
            "{}\nbuffer of {lent} bytes and {BEYOND} beyond: {}",
            packed_words(self.answer),
            hexadecimal(&self.bytes)
        )
    }
}

/// Lends `length` bytes.
pub fn lend(length: usize, entry: impl FnOnce(&mut [u8]) -> u64) -> Lent {
    let mut bytes: Vec<u8> = (0..length + BEYOND).map(pattern).collect();
    let answer = entry(&mut bytes[..length]);
    Lent { answer, bytes }
}

pub fn pattern(place: usize) -> u8 {
    (place as u8).wrapping_mul(37) ^ 0xC5
}

/// The second program's answer, packed as the proved side packs it.
pub fn packed(outcome: Result<usize, Refusal>) -> u64 {
    match outcome {
        Ok(value) => value as u64,
        Err(refusal) => u64::from(refusal.number) << 32 | refusal.value as u64,
    }
}
