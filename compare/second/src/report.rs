//! The report's byte for one step: what came of it, plus 4 where a party closed a log not its own.

/// The step was not due.
pub const IDLE: u8 = 0;
pub const MOVED: u8 = 1;
/// A party came to know the decision commit.
pub const COMMIT: u8 = 2;
/// A party came to know the decision abort.
pub const ABORT: u8 = 3;

/// Added where a party wrote the first record, an abort, into a log not its own.
pub const CLOSED: u8 = 4;

/// Idle, moved, or the decision that a party came to know, whether or not a log was closed.
pub fn outcome(byte: u8) -> u8 {
    byte % CLOSED
}

/// Whether the byte has the 4 of a closed log.
pub fn has_closed(byte: u8) -> bool {
    byte & CLOSED != 0
}
