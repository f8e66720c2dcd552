//! The marker: runs the steps of one release, from fresh or from a tail, and writes the report.

use crate::form::Form;
use crate::moving::accept_tail;
use crate::refusal::{Refusal, BUFFER_TOO_SHORT, EMPTY_OR_TOO_LONG};
use crate::release::take_step;
use crate::report;
use crate::schedule::{read_record, read_step, AcceptedRecords, MOST_BYTES};
use crate::tail::Tail;

pub(crate) const LENGTH_REFUSED: Refusal = Refusal {
    number: EMPTY_OR_TOO_LONG,
    value: 0,
};

/// Steps without refusals, and their number.
struct Accepted<'a> {
    steps: AcceptedRecords<'a>,
    count: usize,
}

/// Reads the steps from this place on, from the left, under a header in range that has this n.
fn accept_steps(bytes: &[u8], start: usize, n: u32) -> Result<Accepted<'_>, Refusal> {
    let mut place = start;
    let mut count = 0;
    while place < bytes.len() {
        let step = read_step(&bytes[place..], n);
        let (_, length) = step.map_err(|number| Refusal {
            number,
            value: place,
        })?;
        place += length;
        count += 1;
    }
    let steps = AcceptedRecords {
        rest: &bytes[start..],
    };
    Ok(Accepted { steps, count })
}

/// Runs a schedule from fresh. Writes the report into the lent buffer and returns its length; or a
/// refusal, and the buffer is untouched.
pub fn run(schedule: &[u8], report: &mut [u8]) -> Result<usize, Refusal> {
    if schedule.is_empty() || schedule.len() > MOST_BYTES {
        return Err(LENGTH_REFUSED);
    }
    let (first, after_header) = read_record(schedule, None)?;
    let header = first.header();
    let accepted = accept_steps(schedule, after_header, header.n)?;
    mark(Tail::fresh(header), header.form(), accepted, report)
}

/// Runs steps from the state of a wide tail; there may be none. Writes the report into the lent
/// buffer and returns its length; or a refusal, and the buffer is untouched.
pub fn run_from(tail: &[u8], steps: &[u8], report: &mut [u8]) -> Result<usize, Refusal> {
    if steps.len() > MOST_BYTES {
        return Err(LENGTH_REFUSED);
    }
    let state = accept_tail(Form::Wide, tail)?;
    let accepted = accept_steps(steps, 0, state.n)?;
    mark(state, Form::Wide, accepted, report)
}

/// Takes the steps from this state: a byte a step, then the tail of this form. Returns the report's
/// length; or the refusal of a buffer too short.
fn mark(
    mut tail: Tail,
    form: Form,
    accepted: Accepted,
    report: &mut [u8],
) -> Result<usize, Refusal> {
    let length = accepted.count + form.tail_length();
    if report.len() < length {
        return Err(Refusal {
            number: BUFFER_TOO_SHORT,
            value: length,
        });
    }
    let (step_bytes, rest) = report.split_at_mut(accepted.count);
    for (byte, step) in step_bytes.iter_mut().zip(accepted.steps) {
        *byte = take_step(&mut tail, step).unwrap_or(report::IDLE);
    }
    tail.put(form, &mut rest[..form.tail_length()]);
    Ok(length)
}
