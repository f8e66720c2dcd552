//! Who closed a log: the steps that add 4 to their byte and `closed` to their line, and the many
//! that do not.

mod common;

use common::{bytes, fresh, steps};
use second::{listing, report, single_step, ParticipantFields, Tail};

/// The pairs of first and last record that a log may hold.
const PAIRS: [(u32, u32); 5] = [(0, 0), (1, 1), (1, 2), (1, 3), (2, 2)];

/// Asserts the words of a schedule's last steps, as many as are given.
fn assert_last_lines(schedule: &str, expected: &[&str]) {
    let text = listing(&bytes(schedule));
    let steps: Vec<&str> = text
        .lines()
        .filter(|line| line.starts_with(|start: char| start.is_ascii_digit()))
        .filter_map(|line| line.split_once(' '))
        .map(|(_, words)| words)
        .collect();
    assert!(steps.ends_with(expected), "{schedule}\n{text}");
}

#[test]
fn readings_of_a_byte() {
    let all = [0, 1, 2, 3, 4, 5, 6, 7];
    assert_eq!(all.map(report::outcome), [0, 1, 2, 3, 0, 1, 2, 3]);
    assert_eq!(all.map(report::has_closed), all.map(|byte| byte >= 4));
}

#[test]
fn the_coordinator_closes_a_silent_log() {
    let answered = "1 moved\n2 moved\n3 abort closed\ncalls 1 0\nlogs aa\n";
    assert_eq!(listing(&bytes("01 01 01 02 08 00 06 00 01")), answered);
    let lost = "1 moved\n2 moved\n3 moved closed\ncalls 1 0\nlogs aa\n";
    assert_eq!(listing(&bytes("01 01 01 02 08 00 07 00 01")), lost);
    for log in ["01", "02", "03"] {
        let calls = format!("01 03 07 02 08 00 07 00 {log} 07 00 {log} 06 00 {log}");
        assert_last_lines(&calls, &["moved closed", "moved", "abort"]);
    }
}

#[test]
fn several_logs_are_closed_one_by_one() {
    let calls = "07 00 01 07 00 03 06 00 02";
    assert_last_lines(
        &format!("01 03 07 02 08 00 {calls}"),
        &["moved closed", "moved closed", "abort closed"],
    );
}

#[test]
fn a_participant_closes_the_log_of_another() {
    let terminating = "01 02 03 02 03 01 02 06 02 02 08 02";
    assert_last_lines(&format!("{terminating} 06 02 01"), &["abort closed"]);
    assert_last_lines(
        &format!("{terminating} 07 02 01 06 02 01 06 02 02"),
        &["moved closed", "abort", "moved"],
    );
}

#[test]
fn the_owner_finds_its_log_closed() {
    let closed = "01 01 01 02 08 00 06 00 01";
    assert_last_lines(&format!("{closed} 03 01 01 06 01 01"), &["moved", "abort"]);
    assert_last_lines(&format!("{closed} 08 01 06 01 01"), &["moved", "abort"]);
}

#[test]
fn a_participant_that_closes_its_own_log() {
    for own in ["01", "02", "03"] {
        let closing = [
            format!("02 03 01 {own}"),
            format!("08 {own}"),
            format!("09 {own} 0A {own}"),
        ];
        for closing in closing {
            let start = format!("01 03 00 {closing}");
            assert_last_lines(&format!("{start} 06 {own} {own}"), &["moved", "abort"]);
            assert_last_lines(
                &format!("{start} 07 {own} {own} 06 {own} {own}"),
                &["moved", "moved", "abort"],
            );
        }
    }
}

#[test]
fn a_yes_vote() {
    for own in ["01", "02", "03"] {
        let voting = format!("01 03 07 02 03 01 {own}");
        assert_last_lines(&format!("{voting} 06 {own} {own}"), &["moved", "moved"]);
        assert_last_lines(
            &format!("{voting} 07 {own} {own} 06 {own} {own}"),
            &["moved", "moved", "moved"],
        );
    }
}

/// A release of two in which the coordinator and participant 1 are terminating, with this pair as
/// log 2.
fn terminating((first, last): (u32, u32)) -> Tail {
    let mut tail = fresh(2, 3);
    tail.state = 2;
    tail.participants[0] = ParticipantFields {
        state: 4,
        heard: 0,
        first: 1,
        last: 1,
    };
    (tail.participants[1].first, tail.participants[1].last) = (first, last);
    tail
}

#[test]
fn bytes_of_the_single_step() {
    let byte = |pair, kind, party| {
        let stepped = single_step(&terminating(pair), kind, party, 2);
        stepped.map(|(_, byte)| byte)
    };
    // The coordinator has log 1 left to hear after a yes, participant 1 nothing.
    let coordinator = [7, 1, 3, 2, 3];
    let participant = [7, 2, 3, 2, 3];
    for (at, pair) in PAIRS.into_iter().enumerate() {
        assert_eq!(byte(pair, 0x06, 0), Ok(coordinator[at]), "{pair:?}");
        assert_eq!(byte(pair, 0x06, 1), Ok(participant[at]), "{pair:?}");
        let lost = if pair == (0, 0) { 5 } else { 1 };
        assert_eq!(byte(pair, 0x07, 0), Ok(lost), "{pair:?}");
        assert_eq!(byte(pair, 0x07, 1), Ok(lost), "{pair:?}");
    }
}

/// Every state and heard mask of the coordinator of two.
fn coordinators() -> Vec<(u32, u32)> {
    let hearing = [1, 2]
        .into_iter()
        .flat_map(|state| (0..3).map(move |heard| (state, heard)));
    [0, 3, 4, 5, 6]
        .map(|state| (state, 0))
        .into_iter()
        .chain(hearing)
        .collect()
}

/// Every participant of two, with every log; nobody is left to hear once one other is heard.
fn participants() -> Vec<ParticipantFields> {
    let fields = |state, (first, last)| ParticipantFields {
        state,
        heard: 0,
        first,
        last,
    };
    (0..10)
        .flat_map(|state| PAIRS.map(|pair| fields(state, pair)))
        .collect()
}

/// Checks the bytes of all steps. Every call on another's log is LogOnce of abort, so the log is
/// closed where it was empty.
fn check_every_step(tail: &Tail) {
    for step in steps(2) {
        let byte = match single_step(tail, step.kind, step.first, step.second) {
            Ok((_, byte)) => byte,
            Err(number) => {
                assert_eq!(number, 7, "{step:?} {tail:?}");
                continue;
            }
        };
        let is_call = step.kind == 0x06 || step.kind == 0x07;
        let closes = is_call
            && step.first != step.second
            && tail.participants[step.second as usize - 1].first == 0;
        match (closes, step.kind) {
            (true, 0x06) => assert_eq!(byte, 7, "{step:?} {tail:?}"),
            (true, _) => assert_eq!(byte, 5, "{step:?} {tail:?}"),
            _ => assert!([1, 2, 3].contains(&byte), "{step:?} {tail:?}"),
        }
    }
}

#[test]
fn every_step_of_every_state_of_two() {
    let participants = participants();
    let mut tail = fresh(2, 3);
    tail.messages = [3; 5];
    for coordinator in coordinators() {
        (tail.state, tail.heard) = coordinator;
        for one in &participants {
            for other in &participants {
                (tail.participants[0], tail.participants[1]) = (*one, *other);
                check_every_step(&tail);
            }
        }
    }
}

#[test]
fn closed_at_the_end_of_the_longest_schedule() {
    let mut schedule = vec![0x02; 32_768];
    schedule[..3].copy_from_slice(&[0x01, 0x01, 0x01]);
    schedule[32_763..].copy_from_slice(&[0x08, 0x00, 0x06, 0x00, 0x01]);
    let end = "\n32761 moved\n32762 abort closed\ncalls 1 0\nlogs aa\n";
    assert!(listing(&schedule).ends_with(end));
}
