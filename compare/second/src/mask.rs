//! Masks of participants: bit p - 1 means participant p.

/// The largest n of any header; also the number of logs in the store.
pub const MOST_PARTICIPANTS: u32 = 32;

/// The mask of this participant alone, from 1 to 32.
pub fn bit(participant: u32) -> u32 {
    1 << (participant - 1)
}

/// The mask of participants 1 to n, n from 1 to 32. What is shifted out is never all 32 bits.
pub fn full(n: u32) -> u32 {
    u32::MAX >> (MOST_PARTICIPANTS - n)
}

/// Whether nobody in the mask is beyond n, n from 1 to 32.
pub fn is_within(mask: u32, n: u32) -> bool {
    mask & !full(n) == 0
}

/// Puts the mask's bytes, low byte first, as many as are lent.
pub fn put(lent: &mut [u8], mask: u32) {
    lent.copy_from_slice(&mask.to_le_bytes()[..lent.len()]);
}

/// The mask of these bytes, low byte first, at most four.
pub fn from_bytes(bytes: &[u8]) -> u32 {
    let add = |mask: u32, byte: &u8| mask << 8 | u32::from(*byte);
    bytes.iter().rev().fold(0, add)
}
