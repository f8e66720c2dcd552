//! The host entry: a host engine steps its own participant, on numbers.

use crate::message::NO_MESSAGE;
use crate::participant::Participant;
use crate::refusal::{BUFFER_TOO_SHORT, NOT_DUE, OUT_OF_RANGE};
use crate::store::{ABORT, COMMIT, YES};

const REQUEST: u32 = 1;
const DECISION: u32 = 2;
const TIMEOUT: u32 = 3;
const CRASH: u32 = 4;
const RESTART: u32 = 5;
const ANSWER: u32 = 6;

/// The details of a request.
const VOTE_NO: u32 = 0;
const VOTE_YES: u32 = 1;

/// An event with its numbers.
#[derive(Clone, Copy)]
struct Event {
    event: u32,
    detail: u32,
    record: u32,
}

impl Event {
    fn is_in_range(self, n: u32) -> bool {
        match self.event {
            REQUEST => matches!(self.detail, VOTE_NO | VOTE_YES) && self.record == 0,
            DECISION => matches!(self.detail, ABORT | COMMIT) && self.record == 0,
            TIMEOUT | CRASH | RESTART => self.detail == 0 && self.record == 0,
            ANSWER => (1..=n).contains(&self.detail) && (YES..=COMMIT).contains(&self.record),
            _ => false,
        }
    }

    /// The participant after this event and the type of the message sent; nothing if the event is
    /// not due.
    fn step(self, participant: Participant) -> Option<(Participant, u32)> {
        let next = match self.event {
            REQUEST => participant.request(self.detail == VOTE_YES),
            DECISION => participant.decision(self.detail),
            TIMEOUT => participant.timeout()?,
            CRASH => participant.crash()?,
            RESTART => participant.restart()?,
            _ => return participant.answer(self.detail, self.record),
        };
        Some((next, NO_MESSAGE))
    }
}

/// Writes state, heard mask in four bytes, low byte first, and message type sent into the lent
/// buffer and returns 0; or the refusal's number.
// The entry's numbers are those of the document.
#[allow(clippy::too_many_arguments)]
pub fn host_step(
    n: u32,
    own: u32,
    state: u32,
    heard: u32,
    event: u32,
    detail: u32,
    record: u32,
    out: &mut [u8],
) -> u32 {
    let participant = Participant {
        n,
        own,
        state,
        heard,
    };
    let event = Event {
        event,
        detail,
        record,
    };
    if !participant.is_in_range() || !event.is_in_range(n) {
        return OUT_OF_RANGE;
    }
    let Some((next, sent)) = event.step(participant) else {
        return NOT_DUE;
    };
    let Some(lent) = out.first_chunk_mut::<6>() else {
        return BUFFER_TOO_SHORT;
    };
    let [a, b, c, d] = next.heard.to_le_bytes();
    *lent = [next.state as u8, a, b, c, d, sent as u8];
    0
}
