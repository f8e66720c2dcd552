//! The run: its refusals and their order, its report against repeated single steps, and tricky
//! schedules.

mod common;

use common::{
    bytes, bytes_of, fresh, header_bytes, headers, refusal, single_steps, steps_from, tail_length,
    wide_headers, Numbers,
};
use second::{listing, run, single_step, Header, Record, Tail};

#[test]
fn refusals_in_order() {
    let cases = [
        ("", 1, 0),
        ("00", 2, 0),
        ("0C 01 01", 2, 0),
        ("0B 01 01", 3, 0),
        ("01", 3, 0),
        ("06 01", 3, 0),
        ("09 01", 4, 0),
        ("01 00 00", 5, 0),
        ("01 02 04", 5, 0),
        ("01 02 03 0C", 2, 3),
        ("01 02 03 0B", 3, 3),
        ("01 02 03 01 02", 3, 3),
        ("01 02 03 01 02 03", 4, 3),
        ("01 02 03 02 08 03", 5, 4),
        ("01 02 03 02 08 03 0B", 5, 4),
        ("01 02 03 02 08 01 06 01 03", 5, 6),
        ("01 02 03 02 03 06 01", 5, 4),
    ];
    for (text, number, place) in cases {
        let schedule = bytes(text);
        let mut report = [0xEE; 100];
        assert_eq!(
            run(&schedule, &mut report),
            refusal(number, place),
            "{text}"
        );
        assert_eq!(run(&schedule, &mut []), refusal(number, place), "{text}");
        assert_eq!(report, [0xEE; 100]);
        assert_eq!(listing(&schedule), format!("refused {number} at {place}\n"));
    }
}

#[test]
fn report_too_short() {
    let schedule = bytes("01 02 03 02 08 00");
    let mut report = [0xEE; 60];
    assert_eq!(run(&schedule, &mut report), refusal(6, 61));
    assert_eq!(report, [0xEE; 60]);
    let mut report = [0xEE; 62];
    assert_eq!(run(&schedule, &mut report), Ok(61));
    assert_eq!(report[61], 0xEE);
}

/// The report as repeated single steps give it.
fn repeated_single_steps(header: Header, steps: &[Record]) -> Vec<u8> {
    let (mut report, tail) = single_steps(Tail::fresh(header), steps);
    match header.kind {
        0x0B => report.extend(tail.wide_bytes()),
        _ => report.extend(tail.narrow_bytes()),
    }
    report
}

#[test]
fn run_equals_repeated_single_steps() {
    let mut numbers = Numbers(1);
    for header in headers().into_iter().chain(wide_headers()) {
        for count in [0, 1, 10, 100] {
            let steps = steps_from(Tail::fresh(header), count, &mut numbers);
            let schedule = [header_bytes(header), bytes_of(&steps)].concat();
            let length = count + tail_length(header);
            let mut report = vec![0xEE; length + 1];
            assert_eq!(run(&schedule, &mut report), Ok(length));
            let expected = repeated_single_steps(header, &steps);
            assert_eq!(report[..length], expected[..]);
            assert_eq!(report[length], 0xEE);
        }
    }
}

/// The report's step bytes for a schedule, and the state in its tail.
fn report(text: &str) -> (Vec<u8>, Tail) {
    common::report(&bytes(text))
}

#[test]
fn copies_and_losses() {
    let (steps, tail) = report("01 01 01 02 04 01 01 04 01 01 05 01 01 03 01 01");
    assert_eq!(steps, [1, 1, 1, 1, 0]);
    assert_eq!(tail.participants[0].state, 1);
    assert_eq!(tail.messages, [0; 5]);
}

#[test]
fn delivery_to_a_down_party_drops_the_message() {
    let (steps, tail) = report("01 02 03 02 09 01 04 01 01 03 01 01 03 01 01");
    assert_eq!(steps, [1, 1, 1, 1, 0]);
    assert_eq!(tail.participants[0].state, 9);
    assert_eq!(tail.messages[0], 2);
}

#[test]
fn commit_by_replies() {
    let votes = "02 03 01 01 03 01 02 06 01 01 06 02 02 04 02 01 04 02 01";
    let (steps, tail) = report(&format!("01 02 03 {votes} 03 02 02 03 04 01 06 01 01"));
    assert_eq!(steps, [1, 1, 1, 1, 1, 1, 1, 2, 2, 1]);
    assert_eq!((tail.state, tail.heard), (3, 0));
    assert_eq!(tail.messages, [0, 1, 0, 2, 0]);
    assert_eq!(tail.participants[0].state, 7);
    assert_eq!(
        (tail.participants[0].first, tail.participants[0].last),
        (1, 3)
    );
}

#[test]
fn abort_reply_then_late_replies() {
    let votes = "02 03 01 01 03 01 02 06 01 01 06 02 02";
    let (steps, tail) = report(&format!(
        "01 02 01 {votes} 03 03 02 03 02 01 03 05 01 03 05 02"
    ));
    assert_eq!(steps, [1, 1, 1, 1, 3, 3, 1, 3, 1]);
    assert_eq!((tail.state, tail.heard), (4, 0));
    assert_eq!(tail.participants[0].state, 6);
    assert_eq!(tail.participants[1].state, 8);
}

#[test]
fn lost_answer_changes_the_log_alone() {
    let (steps, tail) = report("01 02 03 08 01 07 01 01 07 01 01 09 01 0A 01 06 01 01");
    assert_eq!(steps, [1, 1, 1, 1, 1, 3]);
    assert_eq!(tail.calls[1], 3);
    assert_eq!(tail.participants[0].state, 8);
    assert_eq!(tail.messages, [0, 0, 1, 0, 0]);
}

#[test]
fn restart_finds_its_yes_and_terminates() {
    let vote = "02 03 01 01 06 01 01 09 01 0A 01";
    let (steps, tail) = report(&format!("01 02 03 {vote} 06 01 01"));
    assert_eq!(steps, [1, 1, 1, 1, 1, 1]);
    assert_eq!(
        (tail.participants[0].state, tail.participants[0].heard),
        (4, 0)
    );
    let (steps, tail) = report(&format!("01 01 01 {vote} 06 01 01"));
    assert_eq!(steps, [1, 1, 1, 1, 1, 2]);
    assert_eq!(tail.participants[0].state, 5);
}

#[test]
fn termination_hears_each_log_once_and_a_timeout_clears_it() {
    let vote = "02 03 01 01 03 01 02 06 01 01 06 02 02";
    let end = "08 01 06 01 02 06 01 02 08 01 06 01 02 06 01 03";
    let (steps, tail) = report(&format!("01 03 07 {vote} {end}"));
    assert_eq!(steps, [1, 1, 1, 1, 1, 1, 1, 0, 1, 1, 7]);
    assert_eq!(tail.participants[0].state, 6);
    assert_eq!(
        (tail.participants[2].first, tail.participants[2].last),
        (2, 2)
    );
    assert_eq!(tail.calls[1], 4);
}

#[test]
fn coordinator_terminates_over_all_logs() {
    let vote = "02 03 01 01 06 01 01 08 00 06 00 01 08 00 06 00 01 06 00 02";
    let (steps, tail) = report(&format!("01 02 03 {vote}"));
    assert_eq!(steps, [1, 1, 1, 1, 1, 1, 1, 7]);
    assert_eq!((tail.state, tail.heard, tail.messages[4]), (4, 0, 3));
    assert_eq!(tail.calls[0], 3);
}

#[test]
fn retired_coordinator() {
    let (steps, tail) = report("01 01 01 0A 00 09 00 09 00 0A 00 02 08 00 09 00 0A 00");
    assert_eq!(steps, [0, 1, 0, 1, 0, 0, 1, 1]);
    assert_eq!(tail.state, 6);
}

#[test]
fn single_step_of_a_fresh_release() {
    let tail = fresh(2, 3);
    let (after, byte) = single_step(&tail, 0x02, 0, 0).expect("due");
    assert_eq!(byte, 1);
    assert_eq!((after.state, after.messages[0]), (1, 3));
    assert_eq!(single_step(&after, 0x02, 0, 0), Err(7));
}
