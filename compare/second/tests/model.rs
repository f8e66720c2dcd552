//! The model check: it passes for the rules of document 01, and each broken rule fails the clause
//! that it breaks.

mod common;

use common::{bytes, narrow, wide};
use second::model::{check, check_rules, Figures, Rules};
use second::{report, single_step, take_step, Header, Record, Tail};

const NO_VOTE: Header = narrow(1, 0);
const YES_VOTE: Header = narrow(1, 1);
const TWO_YES_VOTES: Header = narrow(2, 3);
/// Participants 1 and 2 vote yes, participant 3 votes no.
const TWO_OF_THREE: Header = narrow(3, 3);

const CLOSED: &str =
    "4 is added exactly where a party writes the first record, an abort, into a log not its own";
const NEVER_4_OR_6: &str = "bytes 4 and 6 never occur";
const DECISION_DUE: &str = "the delivery of a decision is due exactly when it is in flight";
const DECISION_TAKEN: &str =
    "a decision delivered in participant state 3 or 4 leads just to 5 or 6 and is reported";
const DECISION_WITHOUT_EFFECT: &str =
    "a decision delivered in any other participant state has no effect";
/// A shortest schedule of two in which a decision comes during termination.
const ABORT_IN_TERMINATION: &str = "01 02 03 02 03 01 01 08 00 06 00 02 06 01 01 08 01 03 05 01";

/// A step by the rules, in place; nothing if it is not due.
fn by_the_rules(tail: &mut Tail, step: Record) -> Option<u8> {
    let (after, report) = single_step(tail, step.kind, step.first, step.second).ok()?;
    *tail = after;
    Some(report)
}

/// A step by the rules, but with the byte that `other` gives, told the state before and the rules'
/// byte.
fn with_byte(tail: &mut Tail, step: Record, other: impl Fn(&Tail, u8) -> u8) -> Option<u8> {
    let before = *tail;
    let byte = by_the_rules(tail, step)?;
    Some(other(&before, byte))
}

fn is_call(step: Record) -> bool {
    step.kind == 0x06 || step.kind == 0x07
}

/// Whether the log that a call names is empty.
fn is_empty(tail: &Tail, call: Record) -> bool {
    tail.participants[call.second as usize - 1].first == 0
}

/// Whether a participant in this state calls its own log, which is empty.
fn writes_own_log(before: &Tail, step: Record, state: u32) -> bool {
    is_call(step)
        && step.first == step.second
        && is_empty(before, step)
        && before.participants[step.first as usize - 1].state == state
}

/// Whether the step delivers a decision or its copy to a participant in this state.
fn delivers_decision(before: &Tail, step: Record, state: u32) -> bool {
    matches!(step.kind, 0x03 | 0x04)
        && matches!(step.first, 4 | 5)
        && before.participants[step.second as usize - 1].state == state
}

/// A step by the rules, but a decision delivered in state 4 is dropped where `is_dropped` says so.
fn with_dropped(tail: &mut Tail, step: Record, is_dropped: impl Fn(Record) -> bool) -> Option<u8> {
    let before = *tail;
    let byte = by_the_rules(tail, step)?;
    if delivers_decision(&before, step, 4) && is_dropped(step) {
        tail.participants = before.participants;
        return Some(1);
    }
    Some(byte)
}

/// A step by the rules, but a decision delivered in this state leads to 5 or 6 too.
fn with_taken(tail: &mut Tail, step: Record, state: u32) -> Option<u8> {
    let taken = delivers_decision(tail, step, state);
    let byte = by_the_rules(tail, step)?;
    if !taken {
        return Some(byte);
    }
    let (recording, outcome) = if step.first == 4 { (5, 2) } else { (6, 3) };
    tail.participants[step.second as usize - 1].state = recording;
    Some(outcome)
}

/// Asserts that a violation of this clause is found, with this schedule.
fn assert_violated(header: Header, rules: Rules, clause: &str, schedule: &str) {
    let violation = check_rules(header, rules).expect_err("a violation");
    assert_eq!(violation.clause, clause);
    assert_eq!(violation.schedule, bytes(schedule));
}

#[test]
fn every_clause_holds() {
    for n in 1..=2 {
        for votes in 0..1 << n {
            let figures = check(narrow(n, votes));
            let all_moved = |figures: &Figures| figures.moved == figures.states;
            assert!(figures.as_ref().is_ok_and(all_moved));
            assert_eq!(check_rules(narrow(n, votes), by_the_rules), figures);
            assert_eq!(check(wide(n, votes)), figures);
        }
    }
}

#[test]
fn numbers_of_states() {
    let states = |n, votes| check(narrow(n, votes)).map(|figures| figures.states);
    assert_eq!(states(1, 0), Ok(165));
    assert_eq!(states(1, 1), Ok(507));
    assert_eq!(states(2, 0), Ok(5_621));
    assert_eq!(states(2, 1), Ok(19_053));
    assert_eq!(states(2, 2), Ok(19_053));
    assert_eq!(states(2, 3), Ok(64_761));
}

#[test]
fn headers_out_of_range() {
    for (n, votes) in [(0, 0), (4, 0), (1, 2), (u32::MAX, 0), (2, u32::MAX)] {
        for header in [narrow(n, votes), wide(n, votes)] {
            let violation = check(header).expect_err("out of range");
            assert_eq!(violation.clause, "the header is in the model's range");
        }
    }
}

#[test]
fn restart_to_waiting() {
    let rules = |tail: &mut Tail, step: Record| {
        let report = by_the_rules(tail, step)?;
        if step.kind == 0x0A && step.first > 0 {
            tail.participants[step.first as usize - 1].state = 0;
        }
        Some(report)
    };
    // It votes yes once more, on a log that holds a commit, an answer that it can't get.
    assert_violated(
        YES_VOTE,
        rules,
        "participant 1, from the point after step 8: \
         until a decision is held, a timeout or call of its own is due",
        "01 01 01 02 04 01 01 06 01 01 08 01 06 01 01 09 01 0A 01 03 01 01",
    );
}

#[test]
fn restart_to_terminating() {
    let rules = |tail: &mut Tail, step: Record| {
        let report = by_the_rules(tail, step)?;
        if step.kind == 0x0A && step.first > 0 {
            tail.participants[step.first as usize - 1].state = 4;
        }
        Some(report)
    };
    assert_violated(
        TWO_YES_VOTES,
        rules,
        "a commit is reported only when the first record of every log is a yes",
        "01 02 03 02 03 01 01 06 01 01 09 02 0A 02 06 02 01",
    );
}

#[test]
fn lost_answer_heard_as_yes() {
    let rules = |tail: &mut Tail, step: Record| {
        let was_terminating = tail.state == 2;
        let report = by_the_rules(tail, step)?;
        if was_terminating && (step.kind, step.first) == (0x07, 0) {
            (tail.state, tail.heard, tail.messages[3]) = (3, 0, 1);
            return Some(2);
        }
        Some(report)
    };
    assert_violated(
        YES_VOTE,
        rules,
        "a commit is reported only when the first record of every log is a yes",
        "01 01 01 02 08 00 07 00 01",
    );
}

#[test]
fn lost_answer_heard() {
    let rules = |tail: &mut Tail, step: Record| {
        let kind = if step.kind == 0x07 { 0x06 } else { step.kind };
        by_the_rules(tail, Record { kind, ..step })
    };
    assert_violated(
        NO_VOTE,
        rules,
        "a lost answer changes nothing but the log",
        "01 01 00 08 01 07 01 01",
    );
}

#[test]
fn lost_answer_without_its_write() {
    let rules = |tail: &mut Tail, step: Record| {
        let before = *tail;
        let report = by_the_rules(tail, step)?;
        if step.kind == 0x07 {
            *tail = before;
        }
        Some(report)
    };
    assert_violated(
        NO_VOTE,
        rules,
        "a due store call leaves its log as its rule says",
        "01 01 00 08 01 07 01 01",
    );
}

#[test]
fn abort_replied_before_it_is_logged() {
    let rules = |tail: &mut Tail, step: Record| {
        let report = by_the_rules(tail, step)?;
        if (step.kind, step.first) == (0x03, 1) && tail.participants[0].state == 2 {
            tail.messages[2] = 1;
        }
        Some(report)
    };
    assert_violated(
        NO_VOTE,
        rules,
        "an abort is reported only when some log's first record is an abort",
        "01 01 00 02 03 01 01 03 03 01",
    );
}

#[test]
fn decision_abort_taken_for_commit() {
    let rules = |tail: &mut Tail, step: Record| {
        let report = by_the_rules(tail, step)?;
        if (step.kind, step.first, report) == (0x03, 5, 3) {
            tail.participants[step.second as usize - 1].state = 5;
            return Some(2);
        }
        Some(report)
    };
    assert_violated(
        TWO_YES_VOTES,
        rules,
        "no two reported decisions differ",
        "01 02 03 02 03 01 01 08 00 06 00 02 06 01 01 03 05 01",
    );
}

#[test]
fn yes_vote_closes() {
    let rules = |tail: &mut Tail, step: Record| {
        let report = by_the_rules(tail, step)?;
        let fields = &mut tail.participants[0];
        if fields.state == 1 {
            fields.state = 2;
        }
        Some(report)
    };
    assert_violated(
        YES_VOTE,
        rules,
        "with all votes yes and no timeout or restart, no abort is ever reported",
        "01 01 01 02 03 01 01 06 01 01",
    );
}

#[test]
fn timeout_of_a_held_decision() {
    let rules = |tail: &mut Tail, step: Record| {
        let fields = &mut tail.participants[0];
        if (step.kind, step.first, fields.state) == (0x08, 1, 8) {
            fields.state = 2;
            return Some(1);
        }
        by_the_rules(tail, step)
    };
    assert_violated(
        NO_VOTE,
        rules,
        "participant 1, from the point after step 2: a decision once held stays held",
        "01 01 00 08 01 06 01 01 08 01",
    );
}

#[test]
fn yes_not_heard_in_termination() {
    let rules = |tail: &mut Tail, step: Record| {
        let before = *tail;
        let report = by_the_rules(tail, step)?;
        let state = |tail: &Tail| tail.participants[0].state;
        if (step.kind, step.first) == (0x06, 1) && (state(&before), state(tail)) == (4, 5) {
            *tail = before;
            return Some(1);
        }
        Some(report)
    };
    assert_violated(
        TWO_YES_VOTES,
        rules,
        "participant 1, from the point after step 2: where no decision is held yet, \
         at most n of its calls have been answered since the point",
        "01 02 03 02 03 01 01 06 01 01 03 01 02 08 01 06 02 02 06 01 02 06 01 02",
    );
}

#[test]
fn crash_that_loses_a_message() {
    let rules = |tail: &mut Tail, step: Record| {
        let report = by_the_rules(tail, step)?;
        if step.kind == 0x09 {
            tail.messages[0] = 0;
        }
        Some(report)
    };
    assert_violated(
        NO_VOTE,
        rules,
        "after crashes at a cut, every log, message and other party stands as before",
        "01 01 00 02 09 00",
    );
}

#[test]
fn timeout_that_writes_a_log() {
    let rules = |tail: &mut Tail, step: Record| {
        let report = by_the_rules(tail, step)?;
        let fields = &mut tail.participants[0];
        if (step.kind, step.first, fields.first) == (0x08, 0, 0) {
            (fields.first, fields.last) = (2, 2);
        }
        Some(report)
    };
    assert_violated(
        NO_VOTE,
        rules,
        "only a due store call changes a log, and only its own",
        "01 01 00 02 08 00",
    );
}

#[test]
fn change_without_being_due() {
    let rules = |tail: &mut Tail, step: Record| {
        let report = by_the_rules(tail, step);
        if report.is_none() && step.kind == 0x05 {
            tail.messages[0] = 0;
        }
        report
    };
    assert_violated(
        NO_VOTE,
        rules,
        "a step not due changes nothing",
        "01 01 00 02 05 02 01",
    );
}

#[test]
fn own_log_reported_as_closed() {
    let rules = |tail: &mut Tail, step: Record| {
        with_byte(tail, step, |before, byte| {
            if writes_own_log(before, step, 2) {
                return byte + 4;
            }
            byte
        })
    };
    assert_violated(NO_VOTE, rules, CLOSED, "01 01 00 08 01 06 01 01");
}

#[test]
fn yes_vote_reported_as_closed() {
    let rules = |tail: &mut Tail, step: Record| {
        with_byte(tail, step, |before, byte| {
            if writes_own_log(before, step, 1) {
                return byte + 4;
            }
            byte
        })
    };
    assert_violated(YES_VOTE, rules, CLOSED, "01 01 01 02 03 01 01 06 01 01");
}

#[test]
fn lost_answer_without_the_word() {
    let rules = |tail: &mut Tail, step: Record| {
        with_byte(tail, step, |_, byte| match step.kind {
            0x07 => report::outcome(byte),
            _ => byte,
        })
    };
    assert_violated(NO_VOTE, rules, CLOSED, "01 01 00 02 08 00 07 00 01");
}

#[test]
fn closed_by_the_coordinator_without_the_word() {
    let rules = |tail: &mut Tail, step: Record| {
        with_byte(tail, step, |_, byte| match step.first {
            0 => report::outcome(byte),
            _ => byte,
        })
    };
    assert_violated(NO_VOTE, rules, CLOSED, "01 01 00 02 08 00 06 00 01");
}

#[test]
fn closed_by_a_participant_without_the_word() {
    let rules = |tail: &mut Tail, step: Record| {
        with_byte(tail, step, |_, byte| match step.first {
            0 => byte,
            _ => report::outcome(byte),
        })
    };
    assert_violated(
        TWO_YES_VOTES,
        rules,
        CLOSED,
        "01 02 03 02 03 01 01 06 01 01 08 01 06 01 02",
    );
}

#[test]
fn written_log_reported_as_closed() {
    let rules = |tail: &mut Tail, step: Record| {
        with_byte(tail, step, |before, byte| {
            let on_another = is_call(step) && step.first != step.second;
            if on_another && !is_empty(before, step) {
                return byte + 4;
            }
            byte
        })
    };
    assert_violated(
        NO_VOTE,
        rules,
        CLOSED,
        "01 01 00 02 08 00 07 00 01 06 00 01",
    );
}

#[test]
fn delivered_abort_reported_as_closed() {
    let rules = |tail: &mut Tail, step: Record| {
        with_byte(tail, step, |_, byte| match (step.kind, byte) {
            (0x03, 3) => byte + 4,
            _ => byte,
        })
    };
    assert_violated(
        NO_VOTE,
        rules,
        CLOSED,
        "01 01 00 02 03 01 01 06 01 01 03 03 01",
    );
}

#[test]
fn commit_reported_as_closed() {
    let rules = |tail: &mut Tail, step: Record| {
        with_byte(tail, step, |_, byte| match byte {
            2 => byte + 4,
            _ => byte,
        })
    };
    assert_violated(
        YES_VOTE,
        rules,
        NEVER_4_OR_6,
        "01 01 01 02 03 01 01 06 01 01 03 02 01",
    );
}

#[test]
fn closed_by_a_lost_answer_reported_as_idle() {
    let rules = |tail: &mut Tail, step: Record| {
        with_byte(tail, step, |_, byte| match byte {
            5 => 4,
            _ => byte,
        })
    };
    assert_violated(NO_VOTE, rules, NEVER_4_OR_6, "01 01 00 02 08 00 07 00 01");
}

#[test]
fn yes_taken_for_a_closed_log() {
    let rules = |tail: &mut Tail, step: Record| {
        let report = by_the_rules(tail, step)?;
        if (step.kind, step.first, report) == (0x06, 0, 2) {
            (tail.state, tail.messages[3], tail.messages[4]) = (4, 0, 1);
            return Some(7);
        }
        Some(report)
    };
    assert_violated(
        YES_VOTE,
        rules,
        "an abort is reported only when some log's first record is an abort",
        "01 01 01 02 03 01 01 08 00 06 01 01 06 00 01",
    );
}

#[test]
fn coordinator_that_does_not_wait() {
    let rules = |tail: &mut Tail, step: Record| {
        let report = by_the_rules(tail, step)?;
        if step.kind == 0x02 {
            tail.state = 2;
        }
        Some(report)
    };
    // The abort is one that closes a log.
    assert_violated(
        YES_VOTE,
        rules,
        "with all votes yes and no timeout or restart, no abort is ever reported",
        "01 01 01 02 06 00 01",
    );
}

#[test]
fn decision_dropped_in_termination() {
    let rules: Rules = |tail, step| with_dropped(tail, step, |_| true);
    assert_violated(TWO_YES_VOTES, rules, DECISION_TAKEN, ABORT_IN_TERMINATION);
    // One participant alone is never in state 4.
    assert_eq!(check_rules(YES_VOTE, rules), check(YES_VOTE));
}

#[test]
fn one_of_the_decisions_dropped_in_termination() {
    let abort: Rules = |tail, step| with_dropped(tail, step, |step| step.first == 5);
    assert_violated(TWO_YES_VOTES, abort, DECISION_TAKEN, ABORT_IN_TERMINATION);
    let commit: Rules = |tail, step| with_dropped(tail, step, |step| step.first == 4);
    let schedule =
        "01 02 03 02 03 01 01 03 01 02 06 01 01 03 02 01 08 01 06 02 02 03 02 02 03 04 01";
    assert_violated(TWO_YES_VOTES, commit, DECISION_TAKEN, schedule);
}

#[test]
fn copy_of_a_decision_dropped_in_termination() {
    let rules: Rules = |tail, step| with_dropped(tail, step, |step| step.kind == 0x04);
    let schedule = "01 02 03 02 03 01 01 08 00 06 00 02 06 01 01 08 01 04 05 01";
    assert_violated(TWO_YES_VOTES, rules, DECISION_TAKEN, schedule);
}

#[test]
fn decision_in_termination_not_due() {
    let rules = |tail: &mut Tail, step: Record| {
        if delivers_decision(tail, step, 4) {
            return None;
        }
        by_the_rules(tail, step)
    };
    assert_violated(TWO_YES_VOTES, rules, DECISION_DUE, ABORT_IN_TERMINATION);
}

#[test]
fn decision_in_termination_due_without_being_in_flight() {
    let rules = |tail: &mut Tail, step: Record| {
        let delivers = delivers_decision(tail, step, 4);
        by_the_rules(tail, step).or(delivers.then_some(1))
    };
    let schedule = "01 02 03 02 03 01 01 06 01 01 08 01 03 04 01";
    assert_violated(TWO_YES_VOTES, rules, DECISION_DUE, schedule);
}

#[test]
fn decision_in_termination_reported_as_moved() {
    let rules = |tail: &mut Tail, step: Record| {
        with_byte(tail, step, |before, byte| {
            if delivers_decision(before, step, 4) {
                return 1;
            }
            byte
        })
    };
    assert_violated(TWO_YES_VOTES, rules, DECISION_TAKEN, ABORT_IN_TERMINATION);
}

#[test]
fn heard_mask_kept_after_a_decision() {
    let rules: Rules = |tail, step| {
        let before = *tail;
        let byte = by_the_rules(tail, step)?;
        if delivers_decision(&before, step, 4) {
            let place = step.second as usize - 1;
            tail.participants[place].heard = before.participants[place].heard;
        }
        Some(byte)
    };
    let schedule =
        "01 03 03 02 03 01 01 03 01 02 08 00 06 00 03 06 01 01 08 01 06 02 02 06 01 02 03 05 01";
    assert_violated(TWO_OF_THREE, rules, DECISION_TAKEN, schedule);
    // Of two, a participant that has heard the other one has left state 4.
    assert_eq!(check_rules(TWO_YES_VOTES, rules), check(TWO_YES_VOTES));
}

#[test]
fn delivered_decision_that_stays_in_flight() {
    let rules = |tail: &mut Tail, step: Record| {
        let before = *tail;
        let byte = by_the_rules(tail, step)?;
        if delivers_decision(&before, step, 4) {
            tail.messages = before.messages;
        }
        Some(byte)
    };
    assert_violated(TWO_YES_VOTES, rules, DECISION_TAKEN, ABORT_IN_TERMINATION);
}

#[test]
fn decision_taken_in_another_state() {
    let cases: [(Header, Rules, &str); 8] = [
        (
            NO_VOTE,
            |tail, step| with_taken(tail, step, 0),
            "01 01 00 02 08 00 06 00 01 03 05 01",
        ),
        (
            YES_VOTE,
            |tail, step| with_taken(tail, step, 1),
            "01 01 01 02 03 01 01 08 00 06 00 01 03 05 01",
        ),
        (
            NO_VOTE,
            |tail, step| with_taken(tail, step, 2),
            "01 01 00 02 03 01 01 08 00 06 00 01 03 05 01",
        ),
        (
            YES_VOTE,
            |tail, step| with_taken(tail, step, 5),
            "01 01 01 02 03 01 01 06 01 01 03 02 01 04 04 01 03 04 01",
        ),
        (
            TWO_YES_VOTES,
            |tail, step| with_taken(tail, step, 6),
            "01 02 03 02 03 01 01 08 00 06 00 02 06 01 01 04 05 01 03 05 01",
        ),
        (
            YES_VOTE,
            |tail, step| with_taken(tail, step, 7),
            "01 01 01 02 03 01 01 06 01 01 03 02 01 04 04 01 06 01 01 03 04 01",
        ),
        (
            NO_VOTE,
            |tail, step| with_taken(tail, step, 8),
            "01 01 00 02 03 01 01 06 01 01 03 03 01 03 05 01",
        ),
        (
            NO_VOTE,
            |tail, step| with_taken(tail, step, 9),
            "01 01 00 02 08 00 06 00 01 09 01 03 05 01",
        ),
    ];
    for (header, rules, schedule) in cases {
        assert_violated(header, rules, DECISION_WITHOUT_EFFECT, schedule);
    }
}

/// A tail with such a mask is out of range. The single step would refuse the state too, so the rules
/// are those of the step in place.
#[test]
fn heard_mask_of_a_retired_coordinator() {
    let rules = |tail: &mut Tail, step: Record| {
        let byte = take_step(tail, step)?;
        if (step.kind, step.first) == (0x0A, 0) {
            tail.heard = 1;
        }
        Some(byte)
    };
    let clause = "a run from the moved tail of a state goes on in that same state";
    assert_violated(NO_VOTE, rules, clause, "01 01 00 09 00 0A 00");
}
