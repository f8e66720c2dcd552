//! The types of messages. For each type and participant one message is in flight or not.

pub const REQUEST: u32 = 1;
pub const REPLY_YES: u32 = 2;
pub const REPLY_ABORT: u32 = 3;
pub const COMMIT: u32 = 4;
pub const ABORT: u32 = 5;

/// Stands for the type where no message is sent.
pub const NO_MESSAGE: u32 = 0;
