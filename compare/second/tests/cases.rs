//! The cases P1 to P13 of document 01, and its limits of length.

mod common;

use common::bytes;
use second::{listing, log_entry, log_once_entry, run, Log, Performed, Refusal};

#[test]
fn p1() {
    let schedule = bytes("01 02 03 02 03 01 01 06 01 01 08 01 06 01 02 06 01 01 03 01 02 06 02 02");
    let expected =
        "1 moved\n2 moved\n3 moved\n4 moved\n5 abort closed\n6 moved\n7 moved\n8 abort\n\
                    calls 0 3 1\nlogs ya aa\n";
    assert_eq!(listing(&schedule), expected);
}

#[test]
fn p2() {
    let schedule = bytes("01 01 01 02 03 01 01 06 01 01 08 01 06 01 01");
    let expected = "1 moved\n2 moved\n3 moved\n4 commit\n5 moved\ncalls 0 2\nlogs yc\n";
    assert_eq!(listing(&schedule), expected);
}

#[test]
fn p3() {
    let schedule = bytes("01 02 03 09 01 0A 01 06 01 01");
    let expected = "1 moved\n2 moved\n3 abort\ncalls 0 1 0\nlogs aa --\n";
    assert_eq!(listing(&schedule), expected);
}

#[test]
fn p4_to_p6() {
    let log = |first, last| Log { first, last };
    let kept = |log: Log| Performed {
        log,
        answer: log.last,
        wrote: false,
    };
    assert_eq!(log_once_entry(log(2, 2), 1), Ok(kept(log(2, 2))));
    assert_eq!(log_once_entry(log(1, 3), 2), Ok(kept(log(1, 3))));
    assert_eq!(log_entry(log(0, 0), 3), Err(9));
}

#[test]
fn p7_to_p13() {
    let cases = [
        ("", "refused 1 at 0\n"),
        (
            "01 08 FF",
            "calls 0 0 0 0 0 0 0 0 0\nlogs -- -- -- -- -- -- -- --\n",
        ),
        ("01 09 00", "refused 5 at 0\n"),
        ("01 01 02", "refused 5 at 0\n"),
        ("02", "refused 4 at 0\n"),
        ("01 01 01 06 01", "refused 3 at 3\n"),
        ("01 01 01 08 00", "1 idle\ncalls 0 0\nlogs --\n"),
    ];
    for (schedule, expected) in cases {
        assert_eq!(listing(&bytes(schedule)), expected, "{schedule}");
    }
}

#[test]
fn tail_of_p1() {
    let schedule = bytes("01 02 03 02 03 01 01 06 01 01 08 01 06 01 02 06 01 01 03 01 02 06 02 02");
    let mut report = [0xEE; 80];
    assert_eq!(run(&schedule, &mut report), Ok(67));
    let expected = bytes(
        "01 01 01 01 07 01 01 03
         02 03 01 00  00 01 02 00 00
         08 00 01 02  08 00 02 02
         00 00 00 00  00 00 00 00  00 00 00 00  00 00 00 00  00 00 00 00  00 00 00 00
         00 00  03 00  01 00  00 00  00 00  00 00  00 00  00 00  00 00",
    );
    assert_eq!(report[..67], expected[..]);
    assert_eq!(report[67..], [0xEE; 13]);
}

/// A header and starts, of that many bytes in all.
fn starts(length: usize) -> Vec<u8> {
    let mut schedule = vec![0x02; length];
    schedule[..3].copy_from_slice(&[0x01, 0x08, 0x00]);
    schedule
}

#[test]
fn limit_of_schedule() {
    let mut report = vec![0; 40_000];
    assert_eq!(run(&starts(32_768), &mut report), Ok(32_765 + 59));
    let refusal = Refusal {
        number: 1,
        value: 0,
    };
    assert_eq!(run(&starts(32_769), &mut report), Err(refusal));
    assert_eq!(listing(&starts(32_769)), "refused 1 at 0\n");
    assert!(listing(&starts(32_768)).starts_with("1 moved\n2 idle\n"));
}

#[test]
fn most_calls_of_a_schedule() {
    let mut schedule = bytes("01 01 01 0A 01 09 01 0A 01");
    schedule.resize(schedule.len() + 32_757 / 3 * 3, 0);
    for call in schedule[9..].chunks_exact_mut(3) {
        call.copy_from_slice(&[0x07, 0x01, 0x01]);
    }
    let text = listing(&schedule);
    assert!(text.starts_with("1 idle\n2 moved\n3 moved\n4 moved\n"));
    assert!(text.ends_with("10922 moved\ncalls 0 10919\nlogs aa\n"));
}
