//! The participant: its states, the call pending in each, and its next state after each event.

use crate::mask::{bit, full, MOST_PARTICIPANTS};
use crate::message::{NO_MESSAGE, REPLY_ABORT, REPLY_YES};
use crate::store::{self, Call};

pub const WAITING: u32 = 0;
pub const VOTING_YES: u32 = 1;
pub const CLOSING: u32 = 2;
pub const UNCERTAIN: u32 = 3;
pub const TERMINATING: u32 = 4;
pub const RECORDING_COMMIT: u32 = 5;
pub const RECORDING_ABORT: u32 = 6;
pub const DONE_COMMIT: u32 = 7;
pub const DONE_ABORT: u32 = 8;
pub const DOWN: u32 = 9;

/// One participant of n, with its own number, state and heard mask.
#[derive(Clone, Copy, PartialEq, Eq, Debug)]
pub struct Participant {
    pub n: u32,
    pub own: u32,
    pub state: u32,
    pub heard: u32,
}

impl Participant {
    pub fn is_in_range(self) -> bool {
        (1..=MOST_PARTICIPANTS).contains(&self.n)
            && (1..=self.n).contains(&self.own)
            && self.state <= DOWN
            && self.heard_is_in_range()
    }

    fn heard_is_in_range(self) -> bool {
        if self.state != TERMINATING {
            return self.heard == 0;
        }
        self.heard & !self.others() == 0 && self.heard != self.others()
    }

    /// The mask of all other participants.
    fn others(self) -> u32 {
        full(self.n) & !bit(self.own)
    }

    /// This participant in a state that has no heard mask.
    fn enter(self, state: u32) -> Participant {
        Participant {
            state,
            heard: 0,
            ..self
        }
    }

    /// Terminating with this heard mask, or recording commit when nothing is left to hear.
    fn terminate(self, heard: u32) -> Participant {
        if heard == self.others() {
            return self.enter(RECORDING_COMMIT);
        }
        Participant {
            state: TERMINATING,
            heard,
            ..self
        }
    }

    /// After delivery of a vote request.
    pub fn request(self, vote_is_yes: bool) -> Participant {
        match (self.state, vote_is_yes) {
            (WAITING, true) => self.enter(VOTING_YES),
            (WAITING, false) => self.enter(CLOSING),
            _ => self,
        }
    }

    /// After delivery of a decision, given as the record abort or commit. One that comes during
    /// termination ends it: request 2026-02.
    pub fn decision(self, decision: u32) -> Participant {
        match (self.state, decision) {
            (UNCERTAIN | TERMINATING, store::COMMIT) => self.enter(RECORDING_COMMIT),
            (UNCERTAIN | TERMINATING, store::ABORT) => self.enter(RECORDING_ABORT),
            _ => self,
        }
    }

    /// After a timeout, if one is due.
    pub fn timeout(self) -> Option<Participant> {
        match self.state {
            WAITING => Some(self.enter(CLOSING)),
            UNCERTAIN | TERMINATING => Some(self.terminate(0)),
            _ => None,
        }
    }

    /// After a crash, if one is due.
    pub fn crash(self) -> Option<Participant> {
        (self.state != DOWN).then(|| self.enter(DOWN))
    }

    /// After a restart, if one is due.
    pub fn restart(self) -> Option<Participant> {
        (self.state == DOWN).then(|| self.enter(CLOSING))
    }

    /// The call pending on this log, if there is one.
    pub fn call(self, log: u32) -> Option<Call> {
        let on_own = log == self.own;
        match self.state {
            VOTING_YES if on_own => Some(Call::LogOnce(store::YES)),
            CLOSING if on_own => Some(Call::LogOnce(store::ABORT)),
            TERMINATING if !on_own && self.heard & bit(log) == 0 => {
                Some(Call::LogOnce(store::ABORT))
            }
            RECORDING_COMMIT if on_own => Some(Call::Log(store::COMMIT)),
            RECORDING_ABORT if on_own => Some(Call::Log(store::ABORT)),
            _ => None,
        }
    }

    /// After the answer of this log, with the type of the message sent; nothing if that call is not
    /// pending or the state can't get that answer.
    pub fn answer(self, log: u32, record: u32) -> Option<(Participant, u32)> {
        self.call(log)?;
        match (self.state, record) {
            (VOTING_YES, store::YES) => Some((self.enter(UNCERTAIN), REPLY_YES)),
            (VOTING_YES | CLOSING, store::ABORT) => Some((self.enter(DONE_ABORT), REPLY_ABORT)),
            (CLOSING, store::YES) => Some((self.terminate(0), NO_MESSAGE)),
            (CLOSING, store::COMMIT) => Some((self.enter(DONE_COMMIT), NO_MESSAGE)),
            (TERMINATING, store::YES) => Some((self.terminate(self.heard | bit(log)), NO_MESSAGE)),
            (TERMINATING, store::ABORT) => Some((self.enter(RECORDING_ABORT), NO_MESSAGE)),
            (TERMINATING, store::COMMIT) => Some((self.enter(RECORDING_COMMIT), NO_MESSAGE)),
            (RECORDING_COMMIT, store::COMMIT) => Some((self.enter(DONE_COMMIT), NO_MESSAGE)),
            (RECORDING_ABORT, store::ABORT) => Some((self.enter(DONE_ABORT), NO_MESSAGE)),
            _ => None,
        }
    }
}
