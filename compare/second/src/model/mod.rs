//! A check by execution of what document 01's section "Whole lists and cuts" claims of every list
//! of steps, of what request 2026-01 says of their bytes, of what a delivered decision does by
//! request 2026-02, and of a run that is moved over by request 2026-04: every reachable state of a
//! release is explored, and every clause is looked at there.

mod clauses;
mod cuts;
mod graph;
mod moves;
mod progress;
mod state;

use crate::mask::full;
use crate::message;
use crate::release::take_step;
use crate::schedule::{
    write_record, Header, Record, CALL_ANSWERED, CALL_ANSWER_LOST, CRASH, DELIVER, DELIVER_COPY,
    LOSE, RESTART, START, TIMEOUT,
};
use crate::tail::Tail;
use graph::Graph;

pub use state::MOST_PARTICIPANTS_OF_MODEL;

const OUT_OF_RANGE: &str = "the header is in the model's range";

/// Takes a step in place and gives its report byte; nothing, and no change, if it is not due.
pub type Rules = fn(&mut Tail, Record) -> Option<u8>;

/// How much was explored.
#[derive(Clone, Copy, PartialEq, Eq, Debug, Default)]
pub struct Figures {
    pub states: usize,
    pub steps: usize,
    pub due_steps: usize,
    /// States whose tail was moved and gone on from.
    pub moved: usize,
}

/// A clause that does not hold, and a schedule that shows it: a shortest one, where the crashes at a
/// cut are not counted.
#[derive(Clone, PartialEq, Eq, Debug)]
pub struct Violation {
    pub clause: String,
    pub schedule: Vec<u8>,
}

impl Violation {
    fn new(clause: &str, header: Header, steps: &[Record]) -> Violation {
        let first = Record {
            kind: header.kind,
            first: header.n,
            second: header.votes,
        };
        let mut schedule = record_bytes(first);
        for step in steps {
            schedule.extend(record_bytes(*step));
        }
        Violation {
            clause: clause.to_string(),
            schedule,
        }
    }
}

fn record_bytes(record: Record) -> Vec<u8> {
    let mut bytes = [0; 6];
    let written = write_record(&mut bytes, 0, record.kind, record.first, record.second);
    bytes[..written.unwrap_or(0)].to_vec()
}

/// Checks every clause for all lists under this header, whose n is at most the model's largest,
/// with the rules of document 01 as the marker runs them.
pub fn check(header: Header) -> Result<Figures, Violation> {
    check_rules(header, take_step)
}

/// The same check for other rules, which shows whether it finds out a broken one.
pub fn check_rules(header: Header, rules: Rules) -> Result<Figures, Violation> {
    if !header.is_in_range() || header.n > MOST_PARTICIPANTS_OF_MODEL {
        return Err(Violation {
            clause: OUT_OF_RANGE.to_string(),
            schedule: Vec::new(),
        });
    }
    let steps = all_steps(header.n);
    let graph = Graph::explore(header, steps, rules, clauses::check_step)?;
    for participant in 1..=header.n {
        progress::check(&graph, participant)?;
    }
    cuts::check(&graph, rules)?;
    let moved = moves::check(&graph)?;
    if header.votes == full(header.n) {
        let quiet = steps_without_timeout_and_restart(header.n);
        Graph::explore(header, quiet, rules, clauses::check_no_abort)?;
    }
    Ok(Figures {
        moved,
        ..graph.figures()
    })
}

/// Every step of kinds 02 to 0A that the reader yields under this n.
fn all_steps(n: u32) -> Vec<Record> {
    let step = |kind, first, second| Record {
        kind,
        first,
        second,
    };
    let mut steps = vec![step(START, 0, 0)];
    for participant in 1..=n {
        for message in message::REQUEST..=message::ABORT {
            let kinds = [DELIVER, DELIVER_COPY, LOSE];
            steps.extend(kinds.map(|kind| step(kind, message, participant)));
        }
    }
    for party in 0..=n {
        for log in 1..=n {
            let kinds = [CALL_ANSWERED, CALL_ANSWER_LOST];
            steps.extend(kinds.map(|kind| step(kind, party, log)));
        }
        steps.extend([TIMEOUT, CRASH, RESTART].map(|kind| step(kind, party, 0)));
    }
    steps
}

fn steps_without_timeout_and_restart(n: u32) -> Vec<Record> {
    let mut steps = all_steps(n);
    steps.retain(|step| !matches!(step.kind, TIMEOUT | RESTART));
    steps
}
