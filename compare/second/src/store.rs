//! The store: log records, the pairs of first and last record, and the calls LogOnce and Log.

use crate::refusal::{LOG_REFUSED, OUT_OF_RANGE, WRONG_RECORD};

pub const NONE: u32 = 0;
pub const YES: u32 = 1;
pub const ABORT: u32 = 2;
pub const COMMIT: u32 = 3;

/// A log: its first and its last record.
#[derive(Clone, Copy, PartialEq, Eq, Debug)]
pub struct Log {
    pub first: u32,
    pub last: u32,
}

impl Log {
    pub(crate) fn is_allowed(self) -> bool {
        matches!(
            (self.first, self.last),
            (NONE, NONE) | (YES, YES) | (YES, ABORT) | (YES, COMMIT) | (ABORT, ABORT)
        )
    }

    fn is_empty(self) -> bool {
        self.first == NONE
    }
}

/// A call on one log, with the record that it takes.
#[derive(Clone, Copy, PartialEq, Eq, Debug)]
pub enum Call {
    LogOnce(u32),
    Log(u32),
}

/// What a call that is not refused leaves and says.
#[derive(Clone, Copy, PartialEq, Eq, Debug)]
pub struct Performed {
    /// The log afterwards.
    pub log: Log,
    /// The log's last record afterwards.
    pub answer: u32,
    /// Whether this call wrote the log's first record.
    pub wrote: bool,
}

impl Call {
    /// What the call leaves and says, or the refusal's number.
    pub fn perform(self, log: Log) -> Result<Performed, u32> {
        match self {
            Call::LogOnce(record) => log_once_entry(log, record),
            Call::Log(record) => log_entry(log, record),
        }
    }
}

/// What LogOnce leaves and says, or the refusal's number.
pub fn log_once_entry(log: Log, record: u32) -> Result<Performed, u32> {
    if !log.is_allowed() || record > COMMIT {
        return Err(OUT_OF_RANGE);
    }
    if record != YES && record != ABORT {
        return Err(WRONG_RECORD);
    }
    if log.is_empty() {
        let log = Log {
            first: record,
            last: record,
        };
        return Ok(Performed {
            log,
            answer: record,
            wrote: true,
        });
    }
    Ok(Performed {
        log,
        answer: log.last,
        wrote: false,
    })
}

/// What Log leaves and says, or the refusal's number. It never writes a first record.
pub fn log_entry(log: Log, record: u32) -> Result<Performed, u32> {
    if !log.is_allowed() || record > COMMIT {
        return Err(OUT_OF_RANGE);
    }
    if record != ABORT && record != COMMIT {
        return Err(WRONG_RECORD);
    }
    match (log.last, record) {
        (NONE, _) | (ABORT, COMMIT) | (COMMIT, ABORT) => Err(LOG_REFUSED),
        _ => Ok(Performed {
            log: Log {
                last: record,
                ..log
            },
            answer: record,
            wrote: false,
        }),
    }
}
