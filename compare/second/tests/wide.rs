//! Thirty-two sites: runs under header kind 0B, their refusals and reports, and what they have in
//! common with runs under kind 01.

mod common;

use common::{
    bytes, bytes_of, header_bytes, headers, narrow, refusal, report, steps, wide, Numbers,
};
use second::{listing, run, Record};

const ALL_YES: &str = "0B 20 FF FF FF FF";

/// The bytes of this record for each of these numbers, which takes the place of X.
fn for_each(record: &str, numbers: impl IntoIterator<Item = u32>) -> String {
    numbers
        .into_iter()
        .map(|number| format!("{} ", record.replace('X', &format!("{number:02X}"))))
        .collect()
}

/// All participants of 32 vote yes.
fn all_voted() -> String {
    let requests = for_each("03 01 X", 1..=32);
    format!("{ALL_YES} 02 {requests} {}", for_each("06 X X", 1..=32))
}

#[test]
fn refusals_of_wide_schedules() {
    let cases = [
        ("0B", 3, 0),
        ("0B 20", 3, 0),
        ("0B 20 FF", 3, 0),
        ("0B 20 FF FF", 3, 0),
        ("0B 20 FF FF FF", 3, 0),
        ("0B 00 00 00 00 00", 5, 0),
        ("0B 21 00 00 00 00", 5, 0),
        ("0B 01 02 00 00 00", 5, 0),
        ("0B 09 00 02 00 00", 5, 0),
        ("0B 1F FF FF FF FF", 5, 0),
        ("0B 20 FF FF FF FF 0C", 2, 6),
        ("0B 20 FF FF FF FF 0B 20 FF FF FF", 3, 6),
        ("0B 20 FF FF FF FF 0B 20 FF FF FF FF", 4, 6),
        ("0B 20 FF FF FF FF 01 01 01", 4, 6),
        ("0B 20 FF FF FF FF 01 09 00", 4, 6),
        ("01 08 FF 0B 20 FF FF FF", 3, 3),
        ("01 08 FF 0B 20 FF FF FF FF", 4, 3),
        ("01 08 FF 0B 00 FF FF FF FF", 4, 3),
        ("0B 20 FF FF FF FF 02 03 01 21", 5, 7),
        ("0B 20 FF FF FF FF 02 06 21 20", 5, 7),
        ("0B 20 FF FF FF FF 02 06 20 21", 5, 7),
        ("0B 20 FF FF FF FF 02 08 21", 5, 7),
        ("0B 09 00 00 00 00 02 08 0A", 5, 7),
        ("01 08 00 02 08 09", 5, 4),
    ];
    for (text, number, place) in cases {
        let schedule = bytes(text);
        let mut report = [0xEE; 400];
        let expected = refusal(number, place);
        assert_eq!(run(&schedule, &mut report), expected, "{text}");
        assert_eq!(run(&schedule, &mut []), expected, "{text}");
        assert_eq!(report, [0xEE; 400]);
        assert_eq!(listing(&schedule), format!("refused {number} at {place}\n"));
    }
}

#[test]
fn headers_without_steps() {
    for (text, n, votes) in [
        ("0B 01 01 00 00 00", 1, 1),
        ("0B 08 FF 00 00 00", 8, 0xFF),
        ("0B 09 FF 01 00 00", 9, 0x1FF),
        ("0B 1F FF FF FF 7F", 31, 0x7FFF_FFFF),
        ("0B 20 FF FF FF FF", 32, u32::MAX),
        ("0B 20 00 00 00 80", 32, 0x8000_0000),
    ] {
        let mut lent = [0xEE; 321];
        assert_eq!(run(&bytes(text), &mut lent), Ok(320), "{text}");
        assert_eq!(lent[..5], bytes(text)[1..]);
        assert_eq!(lent[5..320], [0; 315]);
        assert_eq!(lent[320], 0xEE);
        let (steps, tail) = report(&bytes(text));
        assert!(steps.is_empty());
        assert_eq!((tail.n, tail.votes), (n, votes));
    }
}

#[test]
fn report_of_a_wide_run_too_short() {
    let schedule = bytes("0B 02 03 00 00 00 02 08 00");
    for length in [0, 58, 59, 61, 319, 320, 321] {
        let mut report = vec![0xEE; length];
        assert_eq!(run(&schedule, &mut report), refusal(6, 322));
        assert!(report.iter().all(|&byte| byte == 0xEE));
    }
    let mut report = [0xEE; 323];
    assert_eq!(run(&schedule, &mut report), Ok(322));
    assert_eq!(report[322], 0xEE);
}

/// P1 under header kind 0B.
#[test]
fn tail_of_p1() {
    let steps = "02 03 01 01 06 01 01 08 01 06 01 02 06 01 01 03 01 02 06 02 02";
    let schedule = bytes(&format!("0B 02 03 00 00 00 {steps}"));
    let (fields, counts) = ("00 ".repeat(30 * 7), "00 ".repeat(30 * 2));
    let expected = bytes(&format!(
        "01 01 01 01 07 01 01 03
         02  03 00 00 00  01  00 00 00 00
         00 00 00 00  01 00 00 00  02 00 00 00  00 00 00 00  00 00 00 00
         08 00 00 00 00 01 02  08 00 00 00 00 02 02  {fields}
         00 00  03 00  01 00  {counts}"
    ));
    let mut report = [0xEE; 400];
    assert_eq!(run(&schedule, &mut report), Ok(328));
    assert_eq!(report[..328], expected[..]);
    assert_eq!(report[328..], [0xEE; 72]);
    let narrow = bytes(&format!("01 02 03 {steps}"));
    assert_eq!(listing(&schedule), listing(&narrow));
}

/// Participants 31 and 32 vote, 32 terminates and hears 31, the coordinator hears 32.
#[test]
fn tail_with_the_highest_bits() {
    let votes = "02 03 01 20 06 20 20 03 01 1F 06 1F 1F";
    let calls = "08 20 06 20 1F 08 00 06 00 20";
    let schedule = bytes(&format!("{ALL_YES} {votes} {calls}"));
    let (fields, counts) = ("00 ".repeat(30 * 7), "00 ".repeat(30 * 2));
    let expected = bytes(&format!(
        "01 01 01 01 01 01 01 01 01
         20  FF FF FF FF  02  00 00 00 80
         FF FF FF 3F  00 00 00 C0  00 00 00 00  00 00 00 00  00 00 00 00
         {fields}  03 00 00 00 00 01 01  04 00 00 00 40 01 01
         01 00  {counts}  01 00  02 00"
    ));
    let mut report = [0xEE; 329];
    assert_eq!(run(&schedule, &mut report), Ok(329));
    assert_eq!(report[..], expected[..]);
}

#[test]
fn all_yes_of_thirty_two_commit() {
    let replies = for_each("03 02 X", 1..=32);
    let decisions = for_each("03 04 X", 1..=32);
    let records = for_each("06 X X", 1..=32);
    let text = format!("{} {replies} {decisions} {records}", all_voted());
    let (steps, tail) = report(&bytes(&text));
    let (moved, commit) = ([1; 96], [2; 33]);
    assert_eq!(steps[..96], moved);
    assert_eq!(steps[96..129], commit);
    assert_eq!(steps[129..], [1; 32]);
    assert_eq!((tail.state, tail.heard), (3, 0));
    assert_eq!(tail.messages, [0; 5]);
    for fields in tail.participants {
        assert_eq!((fields.state, fields.heard), (7, 0));
        assert_eq!((fields.first, fields.last), (1, 3));
    }
    assert_eq!((tail.calls[0], &tail.calls[1..]), (0, &[2; 32][..]));
}

#[test]
fn one_no_of_thirty_two_aborts() {
    let requests = for_each("03 01 X", 1..=32);
    let records = for_each("06 X X", 1..=32);
    let text = format!("0B 20 FF FF FF 7F 02 {requests} {records} 03 03 20");
    let (steps, tail) = report(&bytes(&text));
    assert_eq!(steps[..64], [1; 64]);
    assert_eq!(steps[64..], [3, 3]);
    assert_eq!((tail.state, tail.messages[4]), (4, u32::MAX));
    assert_eq!(tail.messages[1], 0x7FFF_FFFF);
    assert_eq!(tail.participants[31].state, 8);
}

#[test]
fn a_termination_hears_thirty_one_logs() {
    for own in [1_u32, 2, 9, 31, 32] {
        let others: Vec<u32> = (1..=32).filter(|&log| log != own).collect();
        let party = format!("{own:02X}");
        let calls = for_each(&format!("06 {party} X"), others.iter().copied());
        let text = format!("{} 08 {party} {calls} 06 {party} {party}", all_voted());
        let (steps, tail) = report(&bytes(&text));
        // The votes, the timeout and thirty answers; the last answer; the record.
        assert_eq!(steps[..65 + 1 + 30], [1; 96]);
        assert_eq!(steps[96..], [2, 1]);
        // The vote, 31 answers and the record: n + 1 calls.
        assert_eq!(tail.calls[own as usize], 33);
        let fields = tail.participants[own as usize - 1];
        assert_eq!((fields.state, fields.first, fields.last), (7, 1, 3));
    }
}

#[test]
fn a_coordinator_hears_thirty_two_logs() {
    let calls = for_each("06 00 X", 1..=32);
    let (steps, tail) = report(&bytes(&format!("{} 08 00 {calls}", all_voted())));
    assert_eq!(steps[..65 + 1 + 31], [1; 97]);
    assert_eq!(steps[97..], [2]);
    assert_eq!((tail.state, tail.messages[3]), (3, u32::MAX));
    assert_eq!(tail.calls[0], 32);
}

#[test]
fn the_last_log_is_closed() {
    let voted = format!("{ALL_YES} 02 03 01 01 06 01 01");
    let (steps, tail) = report(&bytes(&format!("{voted} 08 01 06 01 20 06 01 01")));
    assert_eq!(steps, [1, 1, 1, 1, 7, 1]);
    let last = tail.participants[31];
    assert_eq!((last.state, last.first, last.last), (0, 2, 2));
    let (steps, tail) = report(&bytes(&format!("{voted} 08 00 07 00 20 06 00 20")));
    assert_eq!(steps, [1, 1, 1, 1, 5, 3]);
    assert_eq!((tail.state, tail.messages[4]), (4, u32::MAX));
}

#[test]
fn listing_of_thirty_two() {
    let text = listing(&bytes(&format!("{ALL_YES} 02 09 20 0A 20 06 20 20")));
    let calls = format!("calls{} 1", " 0".repeat(32));
    let logs = format!("logs{} aa", " --".repeat(31));
    let expected = format!("1 moved\n2 moved\n3 moved\n4 abort\n{calls}\n{logs}\n");
    assert_eq!(text, expected);
}

#[test]
fn listing_of_nine() {
    let text = listing(&bytes("0B 09 FF 01 00 00 08 00"));
    let (calls, logs) = (" 0".repeat(10), " --".repeat(9));
    assert_eq!(text, format!("1 idle\ncalls{calls}\nlogs{logs}\n"));
}

#[test]
fn limit_of_wide_schedule() {
    let starts = |length: usize| {
        let mut schedule = vec![0x02; length];
        schedule[..6].copy_from_slice(&bytes(ALL_YES));
        schedule
    };
    let mut report = vec![0; 40_000];
    assert_eq!(run(&starts(32_768), &mut report), Ok(32_762 + 320));
    assert_eq!(run(&starts(32_769), &mut report), refusal(1, 0));
    assert!(listing(&starts(32_768)).starts_with("1 moved\n2 idle\n"));
}

/// The bytes of that many steps, due or not.
fn any_steps(n: u32, count: usize, numbers: &mut Numbers) -> Vec<u8> {
    let all: Vec<Record> = steps(n);
    let any = |_| all[numbers.below(all.len())];
    bytes_of(&(0..count).map(any).collect::<Vec<Record>>())
}

#[test]
fn the_same_steps_under_both_headers() {
    let mut numbers = Numbers(3);
    for header in headers() {
        let (n, votes) = (header.n, header.votes);
        for count in [0, 3, 30, 300] {
            let steps = any_steps(n, count, &mut numbers);
            let under = |header| report(&[header_bytes(header), steps.clone()].concat());
            assert_eq!(under(narrow(n, votes)), under(wide(n, votes)));
        }
    }
}
