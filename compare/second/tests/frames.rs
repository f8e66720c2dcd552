//! Program `second`: frames in, one line for each out.

mod common;

use std::io::Write;
use std::process::{Command, Stdio};
use std::thread;

use common::bytes;
use second::run;

/// What the program prints for this input.
fn output(input: Vec<u8>) -> String {
    let mut program = Command::new(env!("CARGO_BIN_EXE_second"))
        .stdin(Stdio::piped())
        .stdout(Stdio::piped())
        .spawn()
        .expect("program starts");
    let mut stdin = program.stdin.take().expect("standard input");
    let writer = thread::spawn(move || stdin.write_all(&input).expect("written"));
    let output = program.wait_with_output().expect("program ends");
    writer.join().expect("all written");
    assert!(output.status.success());
    String::from_utf8(output.stdout).expect("text")
}

fn frame(schedule: &[u8]) -> Vec<u8> {
    let length = u16::try_from(schedule.len()).expect("a frame's length");
    [&length.to_le_bytes(), schedule].concat()
}

/// The line of an accepted schedule.
fn report_line(schedule: &[u8]) -> String {
    let mut report = vec![0; 40_000];
    let length = run(schedule, &mut report).expect("accepted");
    let digits = report[..length].iter().map(|byte| format!("{byte:02x}"));
    digits.collect::<String>() + "\n"
}

#[test]
fn no_input() {
    assert_eq!(output(Vec::new()), "");
}

#[test]
fn reports_and_refusals() {
    let accepted = bytes("01 02 03 09 01 0A 01 06 01 01");
    let short = bytes("01 01 01 06 01");
    let wide = bytes("0B 20 FF FF FF FF 09 20 0A 20 06 20 20");
    let input = [
        frame(&accepted),
        frame(&[]),
        frame(&short),
        frame(&wide),
        frame(&wide[..5]),
        frame(&accepted),
    ]
    .concat();
    let (line, wide) = (report_line(&accepted), report_line(&wide));
    assert_eq!(wide.len(), 2 * (3 + 320) + 1);
    let refused = "refused 1 at 0\nrefused 3 at 3\n";
    let expected = format!("{line}{refused}{wide}refused 3 at 0\n{line}");
    assert_eq!(output(input), expected);
}

#[test]
fn incomplete_frames() {
    let accepted = bytes("01 08 FF");
    let line = report_line(&accepted);
    for rest in ["05", "01 00", "FF FF 01 02 03"] {
        let input = [frame(&accepted), bytes(rest)].concat();
        assert_eq!(output(input), format!("{line}incomplete frame\n"));
    }
}

#[test]
fn long_schedules_across_blocks() {
    let starts = |length: usize| {
        let mut schedule = vec![0x02; length];
        schedule[..3].copy_from_slice(&[0x01, 0x08, 0xFF]);
        schedule
    };
    let mut wide = starts(32_768);
    wide[..6].copy_from_slice(&bytes("0B 20 FF FF FF FF"));
    let group = [
        frame(&wide),
        frame(&starts(32_768)),
        frame(&starts(32_769)),
        frame(&starts(65_535)),
        frame(&starts(4)),
    ];
    let input = group.concat().repeat(30);
    let lines = [
        report_line(&wide),
        report_line(&starts(32_768)),
        "refused 1 at 0\n".repeat(2),
        report_line(&starts(4)),
    ];
    assert_eq!(output(input), lines.concat().repeat(30));
}
