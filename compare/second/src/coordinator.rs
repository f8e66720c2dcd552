//! The coordinator: its states, the call pending in each, and its next state after each event.

use crate::mask::{bit, full};
use crate::store::{self, Call};

pub const IDLE: u32 = 0;
pub const WAITING: u32 = 1;
pub const TERMINATING: u32 = 2;
pub const COMMIT: u32 = 3;
pub const ABORT: u32 = 4;
pub const DOWN: u32 = 5;
pub const RETIRED: u32 = 6;

/// The coordinator of n participants, with its state and heard mask.
#[derive(Clone, Copy, PartialEq, Eq, Debug)]
pub struct Coordinator {
    pub n: u32,
    pub state: u32,
    pub heard: u32,
}

impl Coordinator {
    /// For n from 1 to 32.
    pub fn is_in_range(self) -> bool {
        match self.state {
            // A mask within n that isn't full is a smaller number than the full one.
            WAITING | TERMINATING => self.heard < full(self.n),
            _ => self.state <= RETIRED && self.heard == 0,
        }
    }

    /// This coordinator in that state with nothing heard.
    fn enter(self, state: u32) -> Coordinator {
        Coordinator {
            state,
            heard: 0,
            ..self
        }
    }

    /// With a yes of this participant heard; all heard gives commit.
    fn hear(self, participant: u32) -> Coordinator {
        let heard = self.heard | bit(participant);
        if heard == full(self.n) {
            return self.enter(COMMIT);
        }
        Coordinator { heard, ..self }
    }

    /// After the start, if it is due.
    pub fn start(self) -> Option<Coordinator> {
        (self.state == IDLE).then(|| self.enter(WAITING))
    }

    /// After delivery of this participant's reply yes.
    pub fn reply_yes(self, participant: u32) -> Coordinator {
        if self.state == WAITING {
            return self.hear(participant);
        }
        self
    }

    /// After delivery of a reply abort.
    pub fn reply_abort(self) -> Coordinator {
        if self.state == WAITING {
            return self.enter(ABORT);
        }
        self
    }

    /// After a timeout, if one is due.
    pub fn timeout(self) -> Option<Coordinator> {
        matches!(self.state, WAITING | TERMINATING).then(|| self.enter(TERMINATING))
    }

    /// After a crash, if one is due.
    pub fn crash(self) -> Option<Coordinator> {
        (self.state != DOWN).then(|| self.enter(DOWN))
    }

    /// After a restart, if one is due.
    pub fn restart(self) -> Option<Coordinator> {
        (self.state == DOWN).then(|| self.enter(RETIRED))
    }

    /// The call pending on this log, if there is one.
    pub fn call(self, log: u32) -> Option<Call> {
        let pending = self.state == TERMINATING && self.heard & bit(log) == 0;
        pending.then_some(Call::LogOnce(store::ABORT))
    }

    /// After the answer of this log, if that call is pending.
    pub fn answer(self, log: u32, record: u32) -> Option<Coordinator> {
        self.call(log)?;
        match record {
            store::YES => Some(self.hear(log)),
            store::ABORT => Some(self.enter(ABORT)),
            store::COMMIT => Some(self.enter(COMMIT)),
            _ => None,
        }
    }
}
