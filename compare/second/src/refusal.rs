//! The numbers of the refusals, as the table "What each refusal hands over" and request 2026-04 give
//! them.

/// The schedule is empty or over 32,768 bytes; the reader got no bytes.
pub const EMPTY_OR_TOO_LONG: u32 = 1;
pub const UNKNOWN_KIND: u32 = 2;
pub const BODY_CUT_SHORT: u32 = 3;
/// The header is missing first or found later.
pub const HEADER_MISPLACED: u32 = 4;
/// A number out of range, a vote beyond n, a forbidden pair, or a call count over its limit.
pub const OUT_OF_RANGE: u32 = 5;
pub const BUFFER_TOO_SHORT: u32 = 6;
pub const NOT_DUE: u32 = 7;
/// LogOnce without yes or abort; Log without abort or commit.
pub const WRONG_RECORD: u32 = 8;
pub const LOG_REFUSED: u32 = 9;
/// The tail to be moved or started from has another length than that of its form.
pub const TAIL_OF_ANOTHER_LENGTH: u32 = 10;

/// A refusal: its number, and what it hands over beside (a place, the length needed, or 0).
#[derive(Clone, Copy, PartialEq, Eq, Debug)]
pub struct Refusal {
    pub number: u32,
    pub value: usize,
}

impl Refusal {
    /// The line that a program prints for it, ended by a newline.
    pub(crate) fn line(self) -> String {
        format!("refused {} at {}\n", self.number, self.value)
    }
}
