//! What the compared cases amount to, so that nobody needs to trust that they mean something.

use crate::schedules::{records, split_header};
use second::{report, take_step, Form, Header, Record, Refusal, Tail};
use std::fmt;

/// How often each refusal number was answered; 0 is no refusal.
#[derive(Clone, Copy, Default)]
pub struct Numbers([u64; 11]);

impl Numbers {
    pub fn note(&mut self, number: u32) {
        self.0[number as usize] += 1;
    }

    pub fn add(&mut self, other: &Numbers) {
        add(&mut self.0, &other.0);
    }

    pub fn total(&self) -> u64 {
        self.0.iter().sum()
    }
}

impl fmt::Display for Numbers {
    fn fmt(&self, to: &mut fmt::Formatter) -> fmt::Result {
        write!(to, "{} accepted", self.0[0])?;
        for (number, count) in self.0.iter().enumerate().skip(1) {
            if *count > 0 {
                write!(to, ", {count} refused {number}")?;
            }
        }
        Ok(())
    }
}

/// The words of each report byte. Bytes 4 and 6 are counted too, to show that they never occur.
const BYTE_WORDS: [&str; 8] = [
    "idle",
    "moved",
    "commit",
    "abort",
    "idle closed",
    "moved closed",
    "commit closed",
    "abort closed",
];

/// How often each report byte was given.
#[derive(Clone, Copy, Default)]
pub struct ReportBytes([u64; 8]);

impl ReportBytes {
    pub fn note(&mut self, byte: u8) {
        self.0[usize::from(byte)] += 1;
    }

    pub fn add(&mut self, other: &ReportBytes) {
        add(&mut self.0, &other.0);
    }

    pub fn total(&self) -> u64 {
        self.0.iter().sum()
    }
}

impl fmt::Display for ReportBytes {
    fn fmt(&self, to: &mut fmt::Formatter) -> fmt::Result {
        let counted = self.0.iter().zip(BYTE_WORDS);
        let words: Vec<String> = counted.map(|(n, words)| format!("{n} {words}")).collect();
        write!(to, "{}", words.join(", "))
    }
}

/// Adds the counts of `other` place by place.
pub fn add(counts: &mut [u64], other: &[u64]) {
    for (count, more) in counts.iter_mut().zip(other) {
        *count += more;
    }
}

/// How often each kind from 02 to 0A was due.
pub fn due_words(due: &[u64; 11]) -> String {
    let counted = due.iter().enumerate().skip(2);
    let words: Vec<String> = counted.map(|(kind, n)| format!("{kind:02X} {n}")).collect();
    format!("due {}", words.join(" "))
}

/// The figures of whole schedules. All are taken from the schedules and the reports that both sides
/// agree on; the states between the steps are the second program's own.
#[derive(Clone, Copy, Default)]
pub struct ScheduleFigures {
    numbers: Numbers,
    report_bytes: ReportBytes,
    due: [u64; 11],
    with_commit: u64,
    with_abort: u64,
    longest: u64,
    most_calls: u16,
    coordinators_ended: Ended,
    participants_ended: Ended,
    ended_by_decision: EndedByDecision,
}

/// Terminations that came to a decision: all of them, those under n = 8 and those under n = 32.
#[derive(Clone, Copy, Default)]
struct Ended {
    commit: [u64; 3],
    abort: [u64; 3],
}

impl Ended {
    fn note(&mut self, n: u32, outcome: u8) {
        let counts = match outcome {
            report::COMMIT => &mut self.commit,
            _ => &mut self.abort,
        };
        add(counts, &[true, n == 8, n == 32].map(u64::from));
    }

    fn add(&mut self, other: &Ended) {
        add(&mut self.commit, &other.commit);
        add(&mut self.abort, &other.abort);
    }
}

impl fmt::Display for Ended {
    fn fmt(&self, to: &mut fmt::Formatter) -> fmt::Result {
        let words = |[all, eight, thirty_two]: [u64; 3], decision: &str| {
            format!("{all} {decision} ({eight} under n = 8, {thirty_two} under n = 32)")
        };
        let (commit, abort) = (words(self.commit, "commit"), words(self.abort, "abort"));
        write!(to, "{commit}, {abort}")
    }
}

/// Terminations that a delivered decision ended, itself or as a copy.
#[derive(Clone, Copy, Default)]
pub struct EndedByDecision {
    delivered: Ended,
    copied: Ended,
}

impl EndedByDecision {
    /// Notes a step in range, with the state before it and its report byte.
    pub fn note(&mut self, before: &Tail, step: [u32; 3], byte: u8) {
        let (ended, participant) = match step {
            [3, 4 | 5, participant] => (&mut self.delivered, participant),
            [4, 4 | 5, participant] => (&mut self.copied, participant),
            _ => return,
        };
        let terminating = before.participants[participant as usize - 1].state == 4;
        let outcome = report::outcome(byte);
        if terminating && (outcome == report::COMMIT || outcome == report::ABORT) {
            ended.note(before.n, outcome);
        }
    }

    pub fn add(&mut self, other: &EndedByDecision) {
        self.delivered.add(&other.delivered);
        self.copied.add(&other.copied);
    }
}

impl fmt::Display for EndedByDecision {
    fn fmt(&self, to: &mut fmt::Formatter) -> fmt::Result {
        let (delivered, copied) = (&self.delivered, &self.copied);
        write!(to, "kind 03 {delivered}, kind 04 {copied}")
    }
}

impl ScheduleFigures {
    pub fn note(&mut self, schedule: &[u8], report: &Result<Vec<u8>, Refusal>) {
        match report {
            Err(refusal) => self.numbers.note(refusal.number),
            Ok(report) => self.note_accepted(schedule, report),
        }
    }

    fn note_accepted(&mut self, schedule: &[u8], report: &[u8]) {
        self.numbers.note(0);
        self.longest = self.longest.max(schedule.len() as u64);
        let (header, steps) = split_header(schedule);
        let form = Form::under(header.kind);
        let (bytes, tail) = report.split_at(report.len() - form.tail_length());
        let calls = Tail::from_bytes(form, tail).calls;
        self.most_calls = calls.into_iter().fold(self.most_calls, u16::max);
        let has = |outcome| bytes.iter().any(|byte| report::outcome(*byte) == outcome);
        self.with_commit += u64::from(has(report::COMMIT));
        self.with_abort += u64::from(has(report::ABORT));
        for (record, byte) in records(steps).zip(bytes) {
            self.note_step(header.n, record, *byte);
        }
        self.note_delivered(header, steps, bytes);
    }

    fn note_step(&mut self, n: u32, record: &[u8], byte: u8) {
        self.report_bytes.note(byte);
        let outcome = report::outcome(byte);
        self.due[usize::from(record[0])] += u64::from(outcome != report::IDLE);
        if outcome != report::COMMIT && outcome != report::ABORT {
            return;
        }
        // A call on another's log that brings a decision ends a termination.
        match *record {
            [6, 0, _] => self.coordinators_ended.note(n, outcome),
            [6, party, log] if party != log => self.participants_ended.note(n, outcome),
            _ => (),
        }
    }

    /// Notes the decisions delivered in a termination. The steps are taken once more for their
    /// states, and only where a delivered decision was reported.
    fn note_delivered(&mut self, header: Header, steps: &[u8], bytes: &[u8]) {
        let reported = |(record, byte): (&[u8], &u8)| {
            matches!(record, [3 | 4, 4 | 5, _]) && *byte > report::MOVED
        };
        if !records(steps).zip(bytes).any(reported) {
            return;
        }
        let mut tail = Tail::fresh(header);
        for (record, byte) in records(steps).zip(bytes) {
            let number = |at| record.get(at).map_or(0, |number| u32::from(*number));
            let (kind, first, second) = (number(0), number(1), number(2));
            self.ended_by_decision
                .note(&tail, [kind, first, second], *byte);
            let step = Record {
                kind,
                first,
                second,
            };
            take_step(&mut tail, step);
        }
    }

    pub fn add(&mut self, other: &ScheduleFigures) {
        self.numbers.add(&other.numbers);
        self.report_bytes.add(&other.report_bytes);
        add(&mut self.due, &other.due);
        self.with_commit += other.with_commit;
        self.with_abort += other.with_abort;
        self.longest = self.longest.max(other.longest);
        self.most_calls = self.most_calls.max(other.most_calls);
        self.coordinators_ended.add(&other.coordinators_ended);
        self.participants_ended.add(&other.participants_ended);
        self.ended_by_decision.add(&other.ended_by_decision);
    }

    pub fn schedules(&self) -> u64 {
        self.numbers.total()
    }
}

impl fmt::Display for ScheduleFigures {
    fn fmt(&self, to: &mut fmt::Formatter) -> fmt::Result {
        write!(
            to,
            "{} schedules, of these {}; up to {} bytes and {} calls of a party; \
             {} with a commit, {} with an abort; \
             steps: {}; {}; \
             terminations that a call ended: coordinator {}, participant {}; \
             that a delivered decision ended: {}",
            self.schedules(),
            self.numbers,
            self.longest,
            self.most_calls,
            self.with_commit,
            self.with_abort,
            self.report_bytes,
            due_words(&self.due),
            self.coordinators_ended,
            self.participants_ended,
            self.ended_by_decision
        )
    }
}
