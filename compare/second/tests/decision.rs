//! A decision that comes during termination: what its delivery and the delivery of a copy do, and
//! what they leave as it was.

mod common;

use common::{bytes, fresh, participants, Participant};
use second::{listing, run, single_step, ParticipantFields, Tail};

/// Participant 1 of three terminates and has heard participant 2 when the coordinator, by the
/// replies of all, comes to commit.
const COMMIT_SENT: &str = "01 03 07 02 03 01 01 03 01 02 03 01 03 06 01 01 06 02 02 06 03 03 \
                           08 01 06 01 02 03 02 01 03 02 02 03 02 03";
/// The bytes of its steps.
const COMMIT_STEPS: &str = "01 01 01 01 01 01 01 01 01 01 01 02";

/// The same of participant 1, and the coordinator closes log 3.
const ABORT_SENT: &str =
    "01 03 07 02 03 01 01 03 01 02 06 01 01 06 02 02 08 01 06 01 02 08 00 06 00 03";
const ABORT_STEPS: &str = "01 01 01 01 01 01 01 01 07";

/// Asserts the whole report of a schedule for three. The parts of the tail are n, votes,
/// coordinator and messages; the participants; the counts of calls.
fn assert_report(schedule: &str, steps: &str, tail: [&str; 3]) {
    let mut report = [0xEE; 100];
    let length = run(&bytes(schedule), &mut report).expect("accepted");
    let [release, participants, counts] = tail;
    let (fields, numbers) = ("00 ".repeat(20), "00 ".repeat(10));
    let tail = format!("{release} {participants} {fields} {counts} {numbers}");
    let expected = bytes(&format!("{steps} {tail}"));
    assert_eq!(report[..length], expected[..], "{schedule}");
}

/// Asserts the words of the steps that these bytes add to a schedule.
fn assert_added(schedule: &str, added: &str, expected: &[&str]) {
    let before = listing(&bytes(schedule)).lines().count() - 2;
    let text = listing(&bytes(&format!("{schedule} {added}")));
    let lines: Vec<&str> = text.lines().collect();
    let words = lines[before..lines.len() - 2]
        .iter()
        .filter_map(|line| Some(line.split_once(' ')?.1));
    assert_eq!(words.collect::<Vec<&str>>(), expected, "{schedule} {added}");
}

#[test]
fn commit_in_termination() {
    let participants = |first: &str| format!("{first} 03 00 01 01  03 00 01 01");
    let calls = |own: &str| format!("00 00  {own} 00  01 00  01 00");
    assert_report(
        COMMIT_SENT,
        COMMIT_STEPS,
        [
            "03 07 03 00  00 00 00 07 00",
            &participants("04 02 01 01"),
            &calls("02"),
        ],
    );
    for (kind, in_flight) in [("03", "06"), ("04", "07")] {
        let delivered = format!("{COMMIT_SENT} {kind} 04 01");
        let release = format!("03 07 03 00  00 00 00 {in_flight} 00");
        assert_report(
            &delivered,
            &format!("{COMMIT_STEPS} 02"),
            [&release, &participants("05 00 01 01"), &calls("02")],
        );
        assert_report(
            &format!("{delivered} 06 01 01"),
            &format!("{COMMIT_STEPS} 02 01"),
            [&release, &participants("07 00 01 03"), &calls("03")],
        );
    }
}

#[test]
fn abort_in_termination() {
    let participants = |first: &str| format!("{first} 03 00 01 01  00 00 02 02");
    let calls = |own: &str| format!("01 00  {own} 00  01 00  00 00");
    assert_report(
        ABORT_SENT,
        ABORT_STEPS,
        [
            "03 07 04 00  04 03 00 00 07",
            &participants("04 02 01 01"),
            &calls("02"),
        ],
    );
    for (kind, in_flight) in [("03", "06"), ("04", "07")] {
        let delivered = format!("{ABORT_SENT} {kind} 05 01");
        let release = format!("03 07 04 00  04 03 00 00 {in_flight}");
        assert_report(
            &delivered,
            &format!("{ABORT_STEPS} 03"),
            [&release, &participants("06 00 01 01"), &calls("02")],
        );
        assert_report(
            &format!("{delivered} 06 01 01"),
            &format!("{ABORT_STEPS} 03 01"),
            [&release, &participants("08 00 01 02"), &calls("03")],
        );
    }
}

#[test]
fn the_same_decision_once_more() {
    let twice = "04 04 01 04 04 01 06 01 01 03 04 01 03 04 01";
    let words = ["commit", "moved", "moved", "moved", "idle"];
    assert_added(COMMIT_SENT, twice, &words);
    let twice = "04 05 01 04 05 01 06 01 01 03 05 01 03 05 01";
    let words = ["abort", "moved", "moved", "moved", "idle"];
    assert_added(ABORT_SENT, twice, &words);
}

#[test]
fn calls_of_the_termination_after_the_decision() {
    assert_added(COMMIT_SENT, "03 04 01 06 01 03", &["commit", "idle"]);
    assert_added(ABORT_SENT, "03 05 01 06 01 03", &["abort", "idle"]);
    assert_added(COMMIT_SENT, "03 04 01 08 01", &["commit", "idle"]);
}

#[test]
fn a_decision_that_is_not_in_flight() {
    assert_added(COMMIT_SENT, "03 05 01 04 05 01", &["idle", "idle"]);
    assert_added(ABORT_SENT, "03 04 01 04 04 01", &["idle", "idle"]);
}

#[test]
fn a_lost_decision_leaves_the_termination_to_its_calls() {
    let lost = "05 04 01 03 04 01 06 01 03";
    assert_added(COMMIT_SENT, lost, &["moved", "idle", "commit"]);
    let lost = "05 05 01 03 05 01 06 01 03";
    assert_added(ABORT_SENT, lost, &["moved", "idle", "abort"]);
}

#[test]
fn a_termination_after_a_restart() {
    let restart = "09 01 03 04 01 0A 01 04 04 01";
    assert_added(COMMIT_SENT, restart, &["moved", "moved", "moved", "idle"]);
    let kept = "09 01 0A 01 04 04 01 06 01 01 03 04 01";
    let words = ["moved", "moved", "moved", "moved", "commit"];
    assert_added(COMMIT_SENT, kept, &words);
}

#[test]
fn fewer_calls_than_the_termination_takes() {
    let votes = "02 03 01 01 03 01 02 03 01 03 03 01 04 06 01 01 06 02 02 06 03 03 06 04 04";
    let heard = "08 01 06 01 02 03 02 01 03 02 02 03 02 03 03 02 04";
    let text = |end: &str| listing(&bytes(&format!("01 04 0F {votes} {heard} {end}")));
    let by_delivery = "\n16 commit\n17 moved\ncalls 0 3 1 1 1\nlogs yc yy yy yy\n";
    assert!(text("03 04 01 06 01 01").ends_with(by_delivery));
    let by_calls = "\n16 moved\n17 commit\n18 moved\ncalls 0 5 1 1 1\nlogs yc yy yy yy\n";
    assert!(text("06 01 03 06 01 04 06 01 01").ends_with(by_calls));
}

/// A release with this participant, all others uncertain, every message in flight and calls
/// counted.
fn release((n, own, (state, heard)): Participant, (first, last): (u32, u32)) -> Tail {
    let mut tail = fresh(n, (1 << n) - 1);
    let n = n as usize;
    tail.messages = [tail.votes; 5];
    tail.participants[..n].fill(ParticipantFields {
        state: 3,
        heard: 0,
        first: 1,
        last: 1,
    });
    tail.participants[own as usize - 1] = ParticipantFields {
        state,
        heard,
        first,
        last,
    };
    tail.calls[..=n].fill(7);
    tail
}

/// Asserts the byte and the whole state after the delivery of a decision or of its copy.
fn assert_delivery(before: &Tail, kind: u32, message: u32, own: u32) {
    let place = own as usize - 1;
    let mut expected = *before;
    if kind == 0x03 {
        expected.messages[message as usize - 1] &= !(1 << place);
    }
    let fields = &mut expected.participants[place];
    let byte = match (fields.state, message) {
        (3 | 4, 4) => {
            (fields.state, fields.heard) = (5, 0);
            2
        }
        (3 | 4, _) => {
            (fields.state, fields.heard) = (6, 0);
            3
        }
        _ => 1,
    };
    let stepped = single_step(before, kind, message, own);
    assert_eq!(stepped, Ok((expected, byte)), "{kind} {message} {own}");
}

#[test]
fn every_delivery_in_every_state() {
    for participant in participants() {
        for pair in [(0, 0), (1, 1), (1, 2), (1, 3), (2, 2)] {
            let tail = release(participant, pair);
            for (kind, message) in [(0x03, 4), (0x03, 5), (0x04, 4), (0x04, 5)] {
                assert_delivery(&tail, kind, message, participant.1);
            }
        }
    }
}
