//! The sheet of every short exercise: all schedules under one header of kind 01 with the same
//! number of steps, each step due when its turn comes.

use crate::message;
use crate::refusal::{Refusal, BUFFER_TOO_SHORT, OUT_OF_RANGE};
use crate::release::take_step;
use crate::schedule::{body_length, Header, Record, NARROW_HEADER, RESTART, START};
use crate::tail::Tail;

/// The largest n of a sheet.
const MOST_PARTICIPANTS_OF_SHEET: u32 = 2;

/// The most steps of a sheet's schedules.
const MOST_STEPS: u32 = 3;

/// The bytes of the longest step.
const MOST_STEP_BYTES: usize = 3;

/// The largest first number of a step's body: a type of message, since no party of a sheet has a
/// greater number.
const LARGEST_FIRST_NUMBER: u32 = message::ABORT;

/// A sheet concerns no record, so that its refusal hands back 0.
const OUT_OF_BOUNDS: Refusal = Refusal {
    number: OUT_OF_RANGE,
    value: 0,
};

/// A step, and its bytes: as many of the three as its length says.
struct Step {
    record: Record,
    bytes: [u8; MOST_STEP_BYTES],
    length: usize,
}

impl Step {
    /// Of a record in range, whose numbers fit their bytes.
    fn new(record: Record) -> Step {
        Step {
            record,
            bytes: [record.kind as u8, record.first as u8, record.second as u8],
            length: 1 + body_length(record.kind).unwrap_or(0),
        }
    }

    fn bytes(&self) -> &[u8] {
        &self.bytes[..self.length]
    }
}

/// Every step that the reader yields under this n of a sheet, in ascending order of its bytes.
fn steps_in_byte_order(n: u32) -> Vec<Step> {
    let mut steps = Vec::new();
    for kind in START..=RESTART {
        for first in 0..=LARGEST_FIRST_NUMBER {
            for second in 0..=n {
                let record = Record {
                    kind,
                    first,
                    second,
                };
                if record.is_step_in_range(n) {
                    steps.push(Step::new(record));
                }
            }
        }
    }
    steps
}

/// Shows every schedule that goes on from these bytes, which led to this state, by as many due
/// steps as are left. Leaves the bytes as they were.
///
/// A step's kind says how many bytes it takes, so no step's bytes begin those of another. The first
/// step in which two schedules differ therefore orders them, and what follows it doesn't: with the
/// steps in ascending order of their bytes, so are the schedules.
fn go_on(
    state: &Tail,
    left: u32,
    steps: &[Step],
    schedule: &mut Vec<u8>,
    show: &mut impl FnMut(&[u8]),
) {
    if left == 0 {
        show(schedule);
        return;
    }
    let place = schedule.len();
    let mut after = *state;
    for step in steps {
        // One that is not due leaves the state for the next to be tried on.
        if take_step(&mut after, step.record).is_none() {
            continue;
        }
        schedule.extend_from_slice(step.bytes());
        go_on(&after, left - 1, steps, schedule, show);
        schedule.truncate(place);
        after = *state;
    }
}

/// Shows every schedule of the sheet in the sheet's order; or refuses a sheet outside the bounds,
/// and shows none.
fn show_schedules(n: u32, votes: u32, k: u32, mut show: impl FnMut(&[u8])) -> Result<(), Refusal> {
    let header = Header {
        kind: NARROW_HEADER,
        n,
        votes,
    };
    if n > MOST_PARTICIPANTS_OF_SHEET || k > MOST_STEPS || !header.is_in_range() {
        return Err(OUT_OF_BOUNDS);
    }
    // In range, each number fits its byte.
    let mut schedule = vec![NARROW_HEADER as u8, n as u8, votes as u8];
    let steps = steps_in_byte_order(n);
    go_on(&Tail::fresh(header), k, &steps, &mut schedule, &mut show);
    Ok(())
}

/// Writes the bytes of all schedules under header kind 01 with this n and vote mask and exactly k
/// steps, each due when its turn comes, one schedule after another in ascending order of their
/// bytes, at the front of the lent buffer and returns their length; or a refusal, and the buffer is
/// untouched.
pub fn write_sheet(n: u32, votes: u32, k: u32, out: &mut [u8]) -> Result<usize, Refusal> {
    let mut sheet = Vec::new();
    show_schedules(n, votes, k, |schedule| sheet.extend_from_slice(schedule))?;
    let Some(lent) = out.get_mut(..sheet.len()) else {
        return Err(Refusal {
            number: BUFFER_TOO_SHORT,
            value: sheet.len(),
        });
    };
    lent.copy_from_slice(&sheet);
    Ok(sheet.len())
}

/// A line for each schedule of the sheet, in the sheet's order, with its bytes in hexadecimal; or
/// the line of its refusal. Every line is ended by a newline.
pub fn sheet_text(n: u32, votes: u32, k: u32) -> String {
    let mut lines = String::new();
    match show_schedules(n, votes, k, |schedule| put_line(&mut lines, schedule)) {
        Err(refusal) => refusal.line(),
        Ok(()) => lines,
    }
}

/// Puts two digits for each byte, with a space between bytes.
fn put_line(lines: &mut String, schedule: &[u8]) {
    for (at, &byte) in schedule.iter().enumerate() {
        if at > 0 {
            lines.push(' ');
        }
        lines.push(digit(byte >> 4));
        lines.push(digit(byte & 15));
    }
    lines.push('\n');
}

/// The digit of a number below 16.
fn digit(number: u8) -> char {
    char::from(b"0123456789abcdef"[usize::from(number)])
}
