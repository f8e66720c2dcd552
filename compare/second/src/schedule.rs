//! Schedule bytes: the kinds of records, and the reader and the writer of one record.

use crate::form::Form;
use crate::mask::{self, MOST_PARTICIPANTS};
use crate::message;
use crate::refusal::{
    Refusal, BODY_CUT_SHORT, BUFFER_TOO_SHORT, EMPTY_OR_TOO_LONG, HEADER_MISPLACED, OUT_OF_RANGE,
    UNKNOWN_KIND,
};

/// The header with n up to 8 and a vote mask of one byte.
pub const NARROW_HEADER: u32 = 0x01;
pub const START: u32 = 0x02;
pub const DELIVER: u32 = 0x03;
pub const DELIVER_COPY: u32 = 0x04;
pub const LOSE: u32 = 0x05;
pub const CALL_ANSWERED: u32 = 0x06;
pub const CALL_ANSWER_LOST: u32 = 0x07;
pub const TIMEOUT: u32 = 0x08;
pub const CRASH: u32 = 0x09;
pub const RESTART: u32 = 0x0A;
/// The header with n up to 32 and a vote mask of four bytes, low byte first.
pub const WIDE_HEADER: u32 = 0x0B;

/// The most bytes of a schedule, and the last place that the writer takes.
pub const MOST_BYTES: usize = 32_768;

/// The kind and the body of a header record.
#[derive(Clone, Copy, PartialEq, Eq, Debug)]
pub struct Header {
    pub kind: u32,
    pub n: u32,
    pub votes: u32,
}

impl Header {
    pub(crate) fn is_in_range(self) -> bool {
        is_header(self.kind)
            && (1..=self.form().most_participants()).contains(&self.n)
            && mask::is_within(self.votes, self.n)
    }

    pub(crate) fn form(self) -> Form {
        Form::under(self.kind)
    }
}

/// Kind and the two body numbers, 0 where the body has none.
#[derive(Clone, Copy, PartialEq, Eq, Debug)]
pub struct Record {
    pub kind: u32,
    pub first: u32,
    pub second: u32,
}

impl Record {
    /// The body's first number takes one byte, the second all that follow, low byte first.
    fn new(kind: u32, body: &[u8]) -> Record {
        let number = |place: usize| body.get(place).map_or(0, |&byte| u32::from(byte));
        let second = match *body {
            [_, a, b, c, d] => u32::from_le_bytes([a, b, c, d]),
            _ => number(1),
        };
        Record {
            kind,
            first: number(0),
            second,
        }
    }

    /// The header that a header record carries.
    pub(crate) fn header(self) -> Header {
        Header {
            kind: self.kind,
            n: self.first,
            votes: self.second,
        }
    }

    /// Whether this is a step of kinds 02 to 0A whose numbers go with that n.
    pub(crate) fn is_step_in_range(self, n: u32) -> bool {
        let participant_or_log = |number: u32| (1..=n).contains(&number);
        match self.kind {
            START => self.first == 0 && self.second == 0,
            DELIVER | DELIVER_COPY | LOSE => {
                (message::REQUEST..=message::ABORT).contains(&self.first)
                    && participant_or_log(self.second)
            }
            CALL_ANSWERED | CALL_ANSWER_LOST => self.first <= n && participant_or_log(self.second),
            TIMEOUT | CRASH | RESTART => self.first <= n && self.second == 0,
            _ => false,
        }
    }
}

pub fn is_header(kind: u32) -> bool {
    matches!(kind, NARROW_HEADER | WIDE_HEADER)
}

/// The length of this kind's body, if the kind is known.
pub fn body_length(kind: u32) -> Option<usize> {
    match kind {
        START => Some(0),
        TIMEOUT | CRASH | RESTART => Some(1),
        DELIVER | DELIVER_COPY | LOSE | CALL_ANSWERED | CALL_ANSWER_LOST => Some(2),
        NARROW_HEADER => Some(1 + Form::Narrow.mask_bytes()),
        WIDE_HEADER => Some(1 + Form::Wide.mask_bytes()),
        _ => None,
    }
}

/// The record that `bytes` begin with and its length in bytes; or a refusal at place 0 of `bytes`.
pub fn read_record(bytes: &[u8], before: Option<Header>) -> Result<(Record, usize), Refusal> {
    let read = match before {
        None => read_header(bytes),
        Some(header) => read_step_under(bytes, header),
    };
    read.map_err(|number| Refusal { number, value: 0 })
}

/// A header's record and its length, or the refusal's number.
fn read_header(bytes: &[u8]) -> Result<(Record, usize), u32> {
    let (record, length) = first_record(bytes)?;
    if !is_header(record.kind) {
        return Err(HEADER_MISPLACED);
    }
    if !record.header().is_in_range() {
        return Err(OUT_OF_RANGE);
    }
    Ok((record, length))
}

/// A step and its length under a header that may itself be out of range, or the refusal's number.
fn read_step_under(bytes: &[u8], header: Header) -> Result<(Record, usize), u32> {
    let step = read_step(bytes, header.n)?;
    if !header.is_in_range() {
        return Err(OUT_OF_RANGE);
    }
    Ok(step)
}

/// A step and its length under a header in range that has this n, or the refusal's number.
#[inline]
pub fn read_step(bytes: &[u8], n: u32) -> Result<(Record, usize), u32> {
    let (record, length) = first_record(bytes)?;
    if is_header(record.kind) {
        return Err(HEADER_MISPLACED);
    }
    if !record.is_step_in_range(n) {
        return Err(OUT_OF_RANGE);
    }
    Ok((record, length))
}

/// A record inside a class file and its length, or the refusal's number: a header, which begins the
/// next schedule there, or a step under a header in range that has this n.
#[inline]
pub fn read_header_or_step(bytes: &[u8], n: u32) -> Result<(Record, usize), u32> {
    let (record, length) = first_record(bytes)?;
    let in_range = if is_header(record.kind) {
        record.header().is_in_range()
    } else {
        record.is_step_in_range(n)
    };
    if !in_range {
        return Err(OUT_OF_RANGE);
    }
    Ok((record, length))
}

/// The record that the bytes begin with, whatever its numbers, and its length; or the refusal's
/// number.
#[inline]
fn first_record(bytes: &[u8]) -> Result<(Record, usize), u32> {
    let (&kind, rest) = bytes.split_first().ok_or(EMPTY_OR_TOO_LONG)?;
    let length = body_length(u32::from(kind)).ok_or(UNKNOWN_KIND)?;
    let body = rest.get(..length).ok_or(BODY_CUT_SHORT)?;
    Ok((Record::new(u32::from(kind), body), 1 + length))
}

/// The place after the record, or a refusal.
pub fn write_record(
    buffer: &mut [u8],
    place: usize,
    kind: u32,
    first: u32,
    second: u32,
) -> Result<usize, Refusal> {
    let refuse = |number, value| Err(Refusal { number, value });
    let Some(body) = body_length(kind) else {
        return refuse(UNKNOWN_KIND, place);
    };
    let record = Record {
        kind,
        first,
        second,
    };
    let in_range = if is_header(kind) {
        record.header().is_in_range()
    } else {
        record.is_step_in_range(MOST_PARTICIPANTS)
    };
    if place > MOST_BYTES || !in_range {
        return refuse(OUT_OF_RANGE, place);
    }
    let after = place + 1 + body;
    let Some(lent) = buffer.get_mut(place..after) else {
        return refuse(BUFFER_TOO_SHORT, after);
    };
    // In range, each number fits its bytes; a number beyond the body has none to go to.
    let [a, b, c, d] = second.to_le_bytes();
    let bytes = [kind as u8, first as u8, a, b, c, d];
    lent.copy_from_slice(&bytes[..1 + body]);
    Ok(after)
}

/// The records of bytes that the reader has accepted, from the left.
pub struct AcceptedRecords<'a> {
    pub rest: &'a [u8],
}

impl Iterator for AcceptedRecords<'_> {
    type Item = Record;

    fn next(&mut self) -> Option<Record> {
        let (&kind, rest) = self.rest.split_first()?;
        let (body, after) = rest.split_at_checked(body_length(u32::from(kind))?)?;
        self.rest = after;
        Some(Record::new(u32::from(kind), body))
    }
}
