//! The listing of a run: of a schedule, as program `mark` prints it, or of steps from a tail.

use crate::form::Form;
use crate::marker::{run, run_from};
use crate::refusal::Refusal;
use crate::report;
use crate::schedule::MOST_BYTES;
use crate::store;
use crate::tail::Tail;

/// What program `mark` prints for this schedule, every line ended by a newline.
pub fn listing(schedule: &[u8]) -> String {
    // Without bytes there is no header, and no report whose form would matter.
    let kind = schedule.first().map_or(0, |&kind| u32::from(kind));
    lines_of_run(Form::under(kind), |report| run(schedule, report))
}

/// The listing of a run of these steps from a wide tail, every line ended by a newline.
pub fn listing_from(tail: &[u8], steps: &[u8]) -> String {
    lines_of_run(Form::Wide, |report| run_from(tail, steps, report))
}

/// The lines of a run whose report has this form, or the line of its refusal.
fn lines_of_run(form: Form, run: impl FnOnce(&mut [u8]) -> Result<usize, Refusal>) -> String {
    // A step takes at least one byte, so no report is longer.
    let mut buffer = vec![0; MOST_BYTES + Form::Wide.tail_length()];
    match run(&mut buffer) {
        Err(refusal) => refusal.line(),
        Ok(length) => report_lines(form, &buffer[..length]),
    }
}

fn report_lines(form: Form, report: &[u8]) -> String {
    let (steps, tail_bytes) = report.split_at(report.len() - form.tail_length());
    let tail = Tail::from_bytes(form, tail_bytes);
    let mut text = String::new();
    for (at, &byte) in steps.iter().enumerate() {
        text += &format!("{} {}{}\n", at + 1, outcome_word(byte), closed_word(byte));
    }
    let n = tail.n as usize;
    text += "calls";
    for count in &tail.calls[..=n] {
        text += &format!(" {count}");
    }
    text += "\nlogs";
    for fields in &tail.participants[..n] {
        text.push(' ');
        text.push(record_letter(fields.first));
        text.push(record_letter(fields.last));
    }
    text.push('\n');
    text
}

fn outcome_word(byte: u8) -> &'static str {
    match report::outcome(byte) {
        report::IDLE => "idle",
        report::MOVED => "moved",
        report::COMMIT => "commit",
        _ => "abort",
    }
}

/// The word with the space before it, where the step closed a log.
fn closed_word(byte: u8) -> &'static str {
    if report::has_closed(byte) {
        return " closed";
    }
    ""
}

fn record_letter(record: u32) -> char {
    match record {
        store::NONE => '-',
        store::YES => 'y',
        store::ABORT => 'a',
        _ => 'c',
    }
}
