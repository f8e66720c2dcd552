//! One step of a whole release: whether it is due, the state after it and its report byte.

use crate::coordinator::{self, Coordinator};
use crate::form::Form;
use crate::message;
use crate::participant::{self, Participant};
use crate::refusal::{NOT_DUE, OUT_OF_RANGE};
use crate::report;
use crate::schedule::{
    Record, CALL_ANSWERED, CALL_ANSWER_LOST, CRASH, DELIVER, DELIVER_COPY, LOSE, RESTART, START,
    TIMEOUT,
};
use crate::store::{self, Performed};
use crate::tail::{Tail, MOST_CALLS_BEFORE_A_STEP};

/// Party 0; any other party is the participant of that number.
const COORDINATOR: u32 = 0;

/// The state after the step and the step's report byte; or the refusal's number.
pub fn single_step(tail: &Tail, kind: u32, first: u32, second: u32) -> Result<(Tail, u8), u32> {
    let step = Record {
        kind,
        first,
        second,
    };
    // A state has no form, so the one that takes any n stands for both.
    let state_in_range = tail.is_in_range(Form::Wide, MOST_CALLS_BEFORE_A_STEP);
    if !state_in_range || !step.is_step_in_range(tail.n) {
        return Err(OUT_OF_RANGE);
    }
    let mut after = *tail;
    let report = take_step(&mut after, step).ok_or(NOT_DUE)?;
    Ok((after, report))
}

/// Whether the step is due in this state; false if the state or the step is out of range.
pub fn is_due(tail: &Tail, record: Record) -> bool {
    single_step(tail, record.kind, record.first, record.second).is_ok()
}

/// Takes a step in place and gives its report byte; nothing, and no change, if it is not due.
/// State and step are in range.
pub fn take_step(tail: &mut Tail, step: Record) -> Option<u8> {
    match step.kind {
        START => start(tail),
        DELIVER | DELIVER_COPY | LOSE => message_step(tail, step),
        CALL_ANSWERED | CALL_ANSWER_LOST if step.first == COORDINATOR => {
            coordinator_call(tail, step)
        }
        CALL_ANSWERED | CALL_ANSWER_LOST => participant_call(tail, step),
        TIMEOUT | CRASH | RESTART if step.first == COORDINATOR => {
            coordinator_alone(tail, step.kind)
        }
        TIMEOUT | CRASH | RESTART => participant_alone(tail, step),
        _ => None,
    }
}

fn start(tail: &mut Tail) -> Option<u8> {
    let next = tail.coordinator().start()?;
    tail.send_to_all(message::REQUEST);
    Some(move_coordinator(tail, next))
}

/// A delivery, the delivery of a copy, or a loss.
fn message_step(tail: &mut Tail, step: Record) -> Option<u8> {
    let (message, participant) = (step.first, step.second);
    if !tail.is_in_flight(message, participant) {
        return None;
    }
    if step.kind != DELIVER_COPY {
        tail.remove_message(message, participant);
    }
    if step.kind == LOSE {
        return Some(report::MOVED);
    }
    Some(deliver(tail, message, participant))
}

/// What a delivered message does. Down is no state in which one does anything, so that needs no
/// rule of its own.
fn deliver(tail: &mut Tail, message: u32, participant: u32) -> u8 {
    let receiver = tail.participant(participant);
    let coordinator = tail.coordinator();
    match message {
        message::REQUEST => {
            let vote_is_yes = tail.vote_is_yes(participant);
            move_participant(tail, receiver.request(vote_is_yes))
        }
        message::COMMIT => move_participant(tail, receiver.decision(store::COMMIT)),
        message::ABORT => move_participant(tail, receiver.decision(store::ABORT)),
        message::REPLY_YES => move_coordinator(tail, coordinator.reply_yes(participant)),
        _ => move_coordinator(tail, coordinator.reply_abort()),
    }
}

/// A store call of the coordinator, its answer heard or lost.
fn coordinator_call(tail: &mut Tail, step: Record) -> Option<u8> {
    let log = step.second;
    let coordinator = tail.coordinator();
    let performed = coordinator.call(log)?.perform(tail.log(log)).ok()?;
    let next = coordinator.answer(log, performed.answer)?;
    tail.record_call(COORDINATOR, log, performed.log);
    let closed = closed_part(COORDINATOR, log, performed);
    if step.kind == CALL_ANSWER_LOST {
        return Some(report::MOVED + closed);
    }
    Some(move_coordinator(tail, next) + closed)
}

/// A store call of a participant, its answer heard or lost.
fn participant_call(tail: &mut Tail, step: Record) -> Option<u8> {
    let (own, log) = (step.first, step.second);
    let participant = tail.participant(own);
    let performed = participant.call(log)?.perform(tail.log(log)).ok()?;
    let (next, sent) = participant.answer(log, performed.answer)?;
    tail.record_call(own, log, performed.log);
    let closed = closed_part(own, log, performed);
    if step.kind == CALL_ANSWER_LOST {
        return Some(report::MOVED + closed);
    }
    if sent != message::NO_MESSAGE {
        tail.send(sent, own);
    }
    Some(move_participant(tail, next) + closed)
}

/// What a call adds to its byte: 4 where it wrote the first record, an abort, into a log not the
/// party's own. No log has the coordinator's number, so none is its own.
fn closed_part(party: u32, log: u32, performed: Performed) -> u8 {
    let wrote_abort = performed.wrote && performed.log.first == store::ABORT;
    if wrote_abort && party != log {
        return report::CLOSED;
    }
    0
}

/// A timeout, crash or restart of the coordinator.
fn coordinator_alone(tail: &mut Tail, kind: u32) -> Option<u8> {
    let coordinator = tail.coordinator();
    let next = match kind {
        TIMEOUT => coordinator.timeout()?,
        CRASH => coordinator.crash()?,
        _ => coordinator.restart()?,
    };
    Some(move_coordinator(tail, next))
}

/// A timeout, crash or restart of a participant.
fn participant_alone(tail: &mut Tail, step: Record) -> Option<u8> {
    let participant = tail.participant(step.first);
    let next = match step.kind {
        TIMEOUT => participant.timeout()?,
        CRASH => participant.crash()?,
        _ => participant.restart()?,
    };
    Some(move_participant(tail, next))
}

/// Gives the coordinator its next state; entering a decision sends it to all and is reported.
fn move_coordinator(tail: &mut Tail, next: Coordinator) -> u8 {
    let before = tail.state;
    tail.set_coordinator(next);
    match next.state {
        state if state == before => report::MOVED,
        coordinator::COMMIT => {
            tail.send_to_all(message::COMMIT);
            report::COMMIT
        }
        coordinator::ABORT => {
            tail.send_to_all(message::ABORT);
            report::ABORT
        }
        _ => report::MOVED,
    }
}

/// Gives a participant its next state; entering 5 to 8, except from 5 or 6, is reported.
fn move_participant(tail: &mut Tail, next: Participant) -> u8 {
    use participant::{DONE_ABORT, DONE_COMMIT, RECORDING_ABORT, RECORDING_COMMIT};
    let before = tail.participant(next.own).state;
    tail.set_participant(next);
    if before == next.state || matches!(before, RECORDING_COMMIT | RECORDING_ABORT) {
        return report::MOVED;
    }
    match next.state {
        RECORDING_COMMIT | DONE_COMMIT => report::COMMIT,
        RECORDING_ABORT | DONE_ABORT => report::ABORT,
        _ => report::MOVED,
    }
}
