//! A state of the exploration: a release without its counts of calls, and the decision reported so
//! far. It packs into one number.

use crate::model::Rules;
use crate::report;
use crate::schedule::{Header, Record};
use crate::tail::{ParticipantFields, Tail};

/// The largest n whose states fit the number that they pack into.
pub const MOST_PARTICIPANTS_OF_MODEL: u32 = 3;

/// Widths in bits of the fields that are no masks; a mask has n bits.
const REPORTED_WIDTH: u32 = 2;
const COORDINATOR_STATE_WIDTH: u32 = 3;
const PARTICIPANT_STATE_WIDTH: u32 = 4;
const RECORD_WIDTH: u32 = 2;

/// The counts of calls are left out, since they grow without bound: they are always 0 here.
#[derive(Clone, Copy, PartialEq, Eq, Debug)]
pub struct State {
    pub tail: Tail,
    /// The outcome commit or abort, or idle as long as no decision was reported.
    pub reported: u8,
}

/// One step: the states before and after it, and its report byte if it was due.
pub struct Taken<'a> {
    pub before: &'a State,
    pub step: Record,
    pub report: Option<u8>,
    pub after: State,
}

impl State {
    pub fn fresh(header: Header) -> State {
        State {
            tail: Tail::fresh(header),
            reported: report::IDLE,
        }
    }

    pub fn take(&self, step: Record, rules: Rules) -> Taken<'_> {
        let mut after = *self;
        let report = rules(&mut after.tail, step);
        after.tail.calls = self.tail.calls;
        let outcome = report.map(report::outcome);
        if let Some(decision @ (report::COMMIT | report::ABORT)) = outcome {
            after.reported = decision;
        }
        Taken {
            before: self,
            step,
            report,
            after,
        }
    }

    pub fn pack(&self) -> u64 {
        let tail = &self.tail;
        let mut bits = Bits(0);
        for fields in &tail.participants[..tail.n as usize] {
            bits.put(fields.state, PARTICIPANT_STATE_WIDTH);
            bits.put(fields.heard, tail.n);
            bits.put(fields.first, RECORD_WIDTH);
            bits.put(fields.last, RECORD_WIDTH);
        }
        for mask in tail.messages {
            bits.put(mask, tail.n);
        }
        bits.put(tail.heard, tail.n);
        bits.put(tail.state, COORDINATOR_STATE_WIDTH);
        bits.put(u32::from(self.reported), REPORTED_WIDTH);
        bits.0
    }

    /// The state that packs into this number; its fields come in the reverse order.
    pub fn unpack(header: Header, packed: u64) -> State {
        let mut state = State::fresh(header);
        let mut bits = Bits(packed);
        let n = header.n;
        state.reported = bits.take(REPORTED_WIDTH) as u8;
        state.tail.state = bits.take(COORDINATOR_STATE_WIDTH);
        state.tail.heard = bits.take(n);
        for mask in state.tail.messages.iter_mut().rev() {
            *mask = bits.take(n);
        }
        for fields in state.tail.participants[..n as usize].iter_mut().rev() {
            let (last, first) = (bits.take(RECORD_WIDTH), bits.take(RECORD_WIDTH));
            let (heard, state) = (bits.take(n), bits.take(PARTICIPANT_STATE_WIDTH));
            *fields = ParticipantFields {
                state,
                heard,
                first,
                last,
            };
        }
        state
    }
}

/// Fields side by side; the one put last is taken first.
struct Bits(u64);

impl Bits {
    fn put(&mut self, field: u32, width: u32) {
        self.0 = self.0 << width | u64::from(field);
    }

    fn take(&mut self, width: u32) -> u32 {
        let field = self.0 & ((1 << width) - 1);
        self.0 >>= width;
        field as u32
    }
}
