//! The clauses that are looked at after every step: the report byte, the decisions reported and
//! delivered, and the logs.

use crate::message;
use crate::model::state::Taken;
use crate::participant::{
    CLOSING, RECORDING_ABORT, RECORDING_COMMIT, TERMINATING, UNCERTAIN, VOTING_YES,
};
use crate::report;
use crate::schedule::{Record, CALL_ANSWERED, CALL_ANSWER_LOST, DELIVER, DELIVER_COPY};
use crate::store::{Log, ABORT, COMMIT, NONE, YES};
use crate::tail::Tail;

type Clause = Result<(), &'static str>;

const DECISIONS_AGREE: &str = "no two reported decisions differ";
const COMMIT_NEEDS_YES: &str =
    "a commit is reported only when the first record of every log is a yes";
const ABORT_NEEDS_ABORT: &str =
    "an abort is reported only when some log's first record is an abort";
const NOT_DUE_LEAVES_ALL: &str = "a step not due changes nothing";
const CALL_BY_ITS_RULE: &str = "a due store call leaves its log as its rule says";
const LOGS_KEPT: &str = "only a due store call changes a log, and only its own";
const LOST_ANSWER_UNHEARD: &str = "a lost answer changes nothing but the log";
const NEVER_4_OR_6: &str = "bytes 4 and 6 never occur";
const CLOSED_BY_ITS_RULE: &str =
    "4 is added exactly where a party writes the first record, an abort, into a log not its own";
const DECISION_DUE: &str = "the delivery of a decision is due exactly when it is in flight";
const DECISION_TAKEN: &str =
    "a decision delivered in participant state 3 or 4 leads just to 5 or 6 and is reported";
const DECISION_WITHOUT_EFFECT: &str =
    "a decision delivered in any other participant state has no effect";
const NO_ABORT: &str = "with all votes yes and no timeout or restart, no abort is ever reported";

/// Checks one step of an exploration with all steps.
pub fn check_step(taken: &Taken) -> Clause {
    let delivers_decision = is_delivered_decision(taken.step);
    if delivers_decision {
        check_decision_due(taken)?;
    }
    let Some(byte) = taken.report else {
        return holds(taken.after == *taken.before, NOT_DUE_LEAVES_ALL);
    };
    holds(!matches!(byte, 4 | 6), NEVER_4_OR_6)?;
    match report::outcome(byte) {
        report::COMMIT => check_commit(taken)?,
        report::ABORT => check_abort(taken)?,
        _ => (),
    }
    check_logs(taken)?;
    let closes = is_closing(taken);
    holds(report::has_closed(byte) == closes, CLOSED_BY_ITS_RULE)?;
    if delivers_decision {
        return check_delivered_decision(taken, byte);
    }
    Ok(())
}

/// Checks one step of an exploration without timeouts and restarts, all votes being yes.
pub fn check_no_abort(taken: &Taken) -> Clause {
    let outcome = taken.report.map(report::outcome);
    holds(outcome != Some(report::ABORT), NO_ABORT)
}

fn holds(condition: bool, clause: &'static str) -> Clause {
    if condition {
        return Ok(());
    }
    Err(clause)
}

fn check_commit(taken: &Taken) -> Clause {
    let tail = &taken.after.tail;
    holds(taken.before.reported != report::ABORT, DECISIONS_AGREE)?;
    let all_yes = (1..=tail.n).all(|log| tail.log(log).first == YES);
    holds(all_yes, COMMIT_NEEDS_YES)
}

fn check_abort(taken: &Taken) -> Clause {
    let tail = &taken.after.tail;
    holds(taken.before.reported != report::COMMIT, DECISIONS_AGREE)?;
    let some_abort = (1..=tail.n).any(|log| tail.log(log).first == ABORT);
    holds(some_abort, ABORT_NEEDS_ABORT)
}

/// Whether this due step is a call of a party on a log that is not its own, empty before and with
/// first record abort afterwards. The coordinator has no log, and its number is no log's.
fn is_closing(taken: &Taken) -> bool {
    let (party, log) = (taken.step.first, taken.step.second);
    is_call(taken.step)
        && party != log
        && taken.before.tail.log(log).first == NONE
        && taken.after.tail.log(log).first == ABORT
}

fn is_call(step: Record) -> bool {
    matches!(step.kind, CALL_ANSWERED | CALL_ANSWER_LOST)
}

/// Whether the step is the delivery of a decision or of its copy.
fn is_delivered_decision(step: Record) -> bool {
    matches!(step.kind, DELIVER | DELIVER_COPY)
        && matches!(step.first, message::COMMIT | message::ABORT)
}

fn check_decision_due(taken: &Taken) -> Clause {
    let mask = taken.before.tail.messages[taken.step.first as usize - 1];
    let in_flight = mask & (1 << (taken.step.second - 1)) != 0;
    holds(taken.report.is_some() == in_flight, DECISION_DUE)
}

/// Checks the byte and the whole state after a due delivery of a decision, written out once more
/// so that they do not rest on the participant's own function. The message is gone, a copy leaves
/// it in flight.
fn check_delivered_decision(taken: &Taken, byte: u8) -> Clause {
    let (message, place) = (taken.step.first, taken.step.second as usize - 1);
    let mut expected = taken.before.tail;
    if taken.step.kind == DELIVER {
        expected.messages[message as usize - 1] &= !(1 << place);
    }
    let fields = &mut expected.participants[place];
    if !matches!(fields.state, UNCERTAIN | TERMINATING) {
        let unchanged = taken.after.tail == expected;
        return holds(unchanged && byte == report::MOVED, DECISION_WITHOUT_EFFECT);
    }
    let (state, outcome) = match message {
        message::COMMIT => (RECORDING_COMMIT, report::COMMIT),
        _ => (RECORDING_ABORT, report::ABORT),
    };
    (fields.state, fields.heard) = (state, 0);
    let as_expected = taken.after.tail == expected && byte == outcome;
    holds(as_expected, DECISION_TAKEN)
}

/// Checks what a due step does to the logs.
fn check_logs(taken: &Taken) -> Clause {
    let (before, after) = (&taken.before.tail, &taken.after.tail);
    let (party, called) = (taken.step.first, taken.step.second);
    for log in 1..=before.n {
        if is_call(taken.step) && log == called {
            let expected = log_by_rule(before, party, before.log(log));
            holds(after.log(log) == expected, CALL_BY_ITS_RULE)?;
        } else {
            holds(after.log(log) == before.log(log), LOGS_KEPT)?;
        }
    }
    if taken.step.kind == CALL_ANSWER_LOST {
        return holds(
            without_logs(after) == without_logs(before),
            LOST_ANSWER_UNHEARD,
        );
    }
    Ok(())
}

/// The log after the call that this party makes in its state, written out once more so that it
/// does not rest on the store's own functions.
fn log_by_rule(tail: &Tail, party: u32, log: Log) -> Log {
    if party == 0 {
        return after_log_once(log, ABORT);
    }
    match tail.participant(party).state {
        VOTING_YES => after_log_once(log, YES),
        CLOSING | TERMINATING => after_log_once(log, ABORT),
        RECORDING_COMMIT => Log {
            last: COMMIT,
            ..log
        },
        RECORDING_ABORT => Log { last: ABORT, ..log },
        _ => log,
    }
}

fn after_log_once(log: Log, record: u32) -> Log {
    if log.first != NONE {
        return log;
    }
    Log {
        first: record,
        last: record,
    }
}

fn without_logs(tail: &Tail) -> Tail {
    let mut tail = *tail;
    for fields in &mut tail.participants {
        (fields.first, fields.last) = (NONE, NONE);
    }
    tail
}
