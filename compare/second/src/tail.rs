//! The state of one release, with the fields of the report's tail, and the tail's bytes: 59 in the
//! narrow form, 320 in the wide one.

use crate::coordinator::Coordinator;
use crate::form::Form;
use crate::mask::{self, bit, full, MOST_PARTICIPANTS};
use crate::participant::Participant;
use crate::schedule::Header;
use crate::store::Log;

/// The number of participants that a state has fields for.
const PLACES: usize = MOST_PARTICIPANTS as usize;

/// The greatest count of calls that a single step takes, since the step may raise it by one.
pub(crate) const MOST_CALLS_BEFORE_A_STEP: u16 = 65_534;

/// The greatest count of calls that a move or a start takes. The calls of a run, three bytes each,
/// can't raise it beyond two bytes.
pub(crate) const MOST_CALLS_BEFORE_A_RUN: u16 = 54_000;

/// The lengths of the tail and of its parts. First come n and the coordinator's state in a byte
/// each, and seven masks: votes, heard and messages. Then each participant has three bytes and a
/// mask, and each party two bytes.
impl Form {
    pub const fn tail_length(self) -> usize {
        let participants = self.most_participants() as usize;
        self.release_length() + participants * self.participant_length() + 2 * (participants + 1)
    }

    const fn release_length(self) -> usize {
        2 + 7 * self.mask_bytes()
    }

    const fn participant_length(self) -> usize {
        3 + self.mask_bytes()
    }
}

/// A participant's state and heard mask, and the first and last record of its log.
#[derive(Clone, Copy, PartialEq, Eq, Debug, Default, Hash, PartialOrd, Ord)]
pub struct ParticipantFields {
    pub state: u32,
    pub heard: u32,
    pub first: u32,
    pub last: u32,
}

impl ParticipantFields {
    /// Puts the fields, the mask in bytes of this width.
    #[inline(always)]
    fn put(&self, width: usize, lent: &mut [u8]) {
        lent[0] = self.state as u8;
        mask::put(&mut lent[1..1 + width], self.heard);
        lent[1 + width] = self.first as u8;
        lent[2 + width] = self.last as u8;
    }

    #[inline(always)]
    fn from_bytes(width: usize, bytes: &[u8]) -> ParticipantFields {
        ParticipantFields {
            state: u32::from(bytes[0]),
            heard: mask::from_bytes(&bytes[1..1 + width]),
            first: u32::from(bytes[1 + width]),
            last: u32::from(bytes[2 + width]),
        }
    }
}

/// Message type t has its mask at t - 1, participant p its fields at p - 1, party p its count of
/// calls at p.
#[derive(Clone, Copy, PartialEq, Eq, Debug, Hash, PartialOrd, Ord)]
pub struct Tail {
    pub n: u32,
    pub votes: u32,
    pub state: u32,
    pub heard: u32,
    pub messages: [u32; 5],
    pub participants: [ParticipantFields; PLACES],
    pub calls: [u16; PLACES + 1],
}

/// All numbers 0.
impl Default for Tail {
    fn default() -> Tail {
        Tail {
            n: 0,
            votes: 0,
            state: 0,
            heard: 0,
            messages: [0; 5],
            participants: [ParticipantFields::default(); PLACES],
            calls: [0; PLACES + 1],
        }
    }
}

impl Tail {
    /// A fresh release under this header.
    pub fn fresh(header: Header) -> Tail {
        Tail {
            n: header.n,
            votes: header.votes,
            ..Tail::default()
        }
    }

    /// The tail of 59 bytes; of a number beyond its bytes the low ones.
    pub fn narrow_bytes(&self) -> [u8; Form::Narrow.tail_length()] {
        let mut bytes = [0; Form::Narrow.tail_length()];
        self.put_fields(Form::Narrow, &mut bytes);
        bytes
    }

    /// The tail of 320 bytes; of a number beyond its bytes the low ones.
    pub fn wide_bytes(&self) -> [u8; Form::Wide.tail_length()] {
        let mut bytes = [0; Form::Wide.tail_length()];
        self.put_fields(Form::Wide, &mut bytes);
        bytes
    }

    /// Puts the tail of this form into bytes of its length.
    pub(crate) fn put(&self, form: Form, lent: &mut [u8]) {
        // With its form known, each call gets code for the widths of that form alone.
        match form {
            Form::Narrow => self.put_fields(Form::Narrow, lent),
            Form::Wide => self.put_fields(Form::Wide, lent),
        }
    }

    #[inline(always)]
    fn put_fields(&self, form: Form, lent: &mut [u8]) {
        let width = form.mask_bytes();
        let (release, rest) = lent.split_at_mut(form.release_length());
        let participants = form.most_participants() as usize;
        let (fields, counts) = rest.split_at_mut(participants * form.participant_length());
        release[0] = self.n as u8;
        mask::put(&mut release[1..1 + width], self.votes);
        release[1 + width] = self.state as u8;
        let masks = [self.heard].into_iter().chain(self.messages);
        for (lent, mask) in release[2 + width..].chunks_exact_mut(width).zip(masks) {
            mask::put(lent, mask);
        }
        let fields = fields.chunks_exact_mut(form.participant_length());
        for (lent, participant) in fields.zip(&self.participants) {
            participant.put(width, lent);
        }
        for (lent, count) in counts.chunks_exact_mut(2).zip(&self.calls) {
            lent.copy_from_slice(&count.to_le_bytes());
        }
    }

    /// The state that has these bytes, of the form's length, as its tail; zeros beyond the form.
    pub fn from_bytes(form: Form, bytes: &[u8]) -> Tail {
        match form {
            Form::Narrow => Tail::take_fields(Form::Narrow, bytes),
            Form::Wide => Tail::take_fields(Form::Wide, bytes),
        }
    }

    #[inline(always)]
    fn take_fields(form: Form, bytes: &[u8]) -> Tail {
        let width = form.mask_bytes();
        let (release, rest) = bytes.split_at(form.release_length());
        let participants = form.most_participants() as usize;
        let (fields, counts) = rest.split_at(participants * form.participant_length());
        let mut tail = Tail {
            n: u32::from(release[0]),
            votes: mask::from_bytes(&release[1..1 + width]),
            state: u32::from(release[1 + width]),
            heard: mask::from_bytes(&release[2 + width..2 + 2 * width]),
            ..Tail::default()
        };
        let messages = release[2 + 2 * width..].chunks_exact(width);
        for (mask, bytes) in tail.messages.iter_mut().zip(messages) {
            *mask = mask::from_bytes(bytes);
        }
        let fields = fields.chunks_exact(form.participant_length());
        for (participant, bytes) in tail.participants.iter_mut().zip(fields) {
            *participant = ParticipantFields::from_bytes(width, bytes);
        }
        for (count, bytes) in tail.calls.iter_mut().zip(counts.chunks_exact(2)) {
            *count = u16::from_le_bytes([bytes[0], bytes[1]]);
        }
        tail
    }

    /// Whether a tail of this form could hold this state, with no count of calls over `most_calls`.
    pub(crate) fn is_in_range(&self, form: Form, most_calls: u16) -> bool {
        let header = Header {
            kind: form.header_kind(),
            n: self.n,
            votes: self.votes,
        };
        let is_within_n = |mask: &u32| mask::is_within(*mask, self.n);
        header.is_in_range()
            && self.coordinator().is_in_range()
            && self.messages.iter().all(is_within_n)
            && (1..=self.n).all(|p| self.participant(p).is_in_range() && self.log(p).is_allowed())
            && self.is_zero_beyond_n()
            && self.calls.iter().all(|count| *count <= most_calls)
    }

    fn is_zero_beyond_n(&self) -> bool {
        let n = self.n as usize;
        let zero = ParticipantFields::default();
        self.participants[n..].iter().all(|fields| *fields == zero)
            && self.calls[n + 1..].iter().all(|count| *count == 0)
    }

    pub(crate) fn coordinator(&self) -> Coordinator {
        Coordinator {
            n: self.n,
            state: self.state,
            heard: self.heard,
        }
    }

    pub(crate) fn set_coordinator(&mut self, coordinator: Coordinator) {
        self.state = coordinator.state;
        self.heard = coordinator.heard;
    }

    pub(crate) fn participant(&self, own: u32) -> Participant {
        let fields = &self.participants[own as usize - 1];
        Participant {
            n: self.n,
            own,
            state: fields.state,
            heard: fields.heard,
        }
    }

    pub(crate) fn set_participant(&mut self, participant: Participant) {
        let fields = &mut self.participants[participant.own as usize - 1];
        fields.state = participant.state;
        fields.heard = participant.heard;
    }

    pub(crate) fn log(&self, log: u32) -> Log {
        let fields = &self.participants[log as usize - 1];
        Log {
            first: fields.first,
            last: fields.last,
        }
    }

    /// Leaves a log as this party's call made it, and counts the call.
    pub(crate) fn record_call(&mut self, party: u32, log: u32, written: Log) {
        let fields = &mut self.participants[log as usize - 1];
        fields.first = written.first;
        fields.last = written.last;
        self.calls[party as usize] += 1;
    }

    pub(crate) fn vote_is_yes(&self, participant: u32) -> bool {
        self.votes & bit(participant) != 0
    }

    pub(crate) fn is_in_flight(&self, message: u32, participant: u32) -> bool {
        self.messages[message as usize - 1] & bit(participant) != 0
    }

    pub(crate) fn send(&mut self, message: u32, participant: u32) {
        self.messages[message as usize - 1] |= bit(participant);
    }

    pub(crate) fn send_to_all(&mut self, message: u32) {
        self.messages[message as usize - 1] = full(self.n);
    }

    pub(crate) fn remove_message(&mut self, message: u32, participant: u32) {
        self.messages[message as usize - 1] &= !bit(participant);
    }
}
