//! Helpers of several test files.

// Each test file uses a part of these.
#![allow(dead_code)]

use std::io::Write;
use std::process::{Command, Output, Stdio};

use second::{is_due, single_step, write_record, Form, Header, Record, Refusal, Tail};

/// The bytes of a text such as `01 0A FF`.
pub fn bytes(text: &str) -> Vec<u8> {
    text.split_whitespace()
        .map(|digits| u8::from_str_radix(digits, 16).expect("two hexadecimal digits"))
        .collect()
}

/// Every step that the reader yields under this n.
pub fn steps(n: u32) -> Vec<Record> {
    let step = |kind, first, second| Record {
        kind,
        first,
        second,
    };
    let mut steps = vec![step(0x02, 0, 0)];
    for participant in 1..=n {
        for message in 1..=5 {
            steps.extend([0x03, 0x04, 0x05].map(|kind| step(kind, message, participant)));
        }
    }
    for party in 0..=n {
        for log in 1..=n {
            steps.extend([0x06, 0x07].map(|kind| step(kind, party, log)));
        }
        steps.extend([0x08, 0x09, 0x0A].map(|kind| step(kind, party, 0)));
    }
    steps
}

/// The bytes of these steps.
pub fn bytes_of(steps: &[Record]) -> Vec<u8> {
    let mut bytes = Vec::new();
    for step in steps {
        let mut record = [0; 3];
        let length = write_record(&mut record, 0, step.kind, step.first, step.second);
        bytes.extend(&record[..length.expect("in range")]);
    }
    bytes
}

/// That many steps from this state, more often due than not.
pub fn steps_from(tail: Tail, count: usize, numbers: &mut Numbers) -> Vec<Record> {
    let all = steps(tail.n);
    let mut tail = tail;
    let mut taken = Vec::new();
    for _ in 0..count {
        let due: Vec<Record> = all.iter().copied().filter(|&s| is_due(&tail, s)).collect();
        let from = if numbers.below(8) == 0 { &all } else { &due };
        let step = from[numbers.below(from.len())];
        if let Ok((after, _)) = single_step(&tail, step.kind, step.first, step.second) {
            tail = after;
        }
        taken.push(step);
    }
    taken
}

/// The report bytes of repeated single steps from this state, and the state after them.
pub fn single_steps(tail: Tail, steps: &[Record]) -> (Vec<u8>, Tail) {
    let mut tail = tail;
    let mut report = Vec::new();
    for step in steps {
        match single_step(&tail, step.kind, step.first, step.second) {
            Ok((after, byte)) => {
                assert!([1, 2, 3, 5, 7].contains(&byte));
                tail = after;
                report.push(byte);
            }
            Err(number) => {
                assert_eq!(number, 7);
                report.push(0);
            }
        }
    }
    (report, tail)
}

/// A refusal with its number and what it hands over beside.
pub fn refusal(number: u32, value: usize) -> Result<usize, Refusal> {
    Err(Refusal { number, value })
}

/// A header of kind 01.
pub const fn narrow(n: u32, votes: u32) -> Header {
    let kind = 0x01;
    Header { kind, n, votes }
}

/// A header of kind 0B.
pub const fn wide(n: u32, votes: u32) -> Header {
    let kind = 0x0B;
    Header { kind, n, votes }
}

/// Every header of kind 01 that a schedule may carry.
pub fn headers() -> Vec<Header> {
    (1..=8)
        .flat_map(|n| (0..1 << n).map(move |votes| narrow(n, votes)))
        .collect()
}

/// For every n, headers of kind 0B with no vote, all votes, and some of them.
pub fn wide_headers() -> Vec<Header> {
    let votes = [0, u32::MAX, 0x8000_0001, 0x5555_5555, 0xAAAA_AAAA];
    (1..=32)
        .flat_map(|n| votes.map(|votes| wide(n, votes & full(n))))
        .collect()
}

/// The mask of participants 1 to n.
pub fn full(n: u32) -> u32 {
    ((1_u64 << n) - 1) as u32
}

/// The bytes of a header.
pub fn header_bytes(header: Header) -> Vec<u8> {
    let mut bytes = vec![header.kind as u8, header.n as u8];
    match header.kind {
        0x0B => bytes.extend(header.votes.to_le_bytes()),
        _ => bytes.push(header.votes as u8),
    }
    bytes
}

pub fn fresh(n: u32, votes: u32) -> Tail {
    Tail::fresh(wide(n, votes))
}

/// The length of the tail under this header.
pub fn tail_length(header: Header) -> usize {
    match header.kind {
        0x0B => 320,
        _ => 59,
    }
}

/// The step bytes of an accepted schedule's report, and the state in its tail.
pub fn report(schedule: &[u8]) -> (Vec<u8>, Tail) {
    let mut report = vec![0; 34_000];
    let length = second::run(schedule, &mut report).expect("accepted");
    let (form, tail) = match schedule[0] {
        0x0B => (Form::Wide, 320),
        _ => (Form::Narrow, 59),
    };
    let (steps, tail) = report[..length].split_at(length - tail);
    (steps.to_vec(), Tail::from_bytes(form, tail))
}

/// A participant with its n, own number, state and heard mask.
pub type Participant = (u32, u32, (u32, u32));

/// Every participant of n up to 8 in every state, with every heard mask.
pub fn participants() -> Vec<Participant> {
    let mut participants = Vec::new();
    for n in 1..=8 {
        for own in 1..=n {
            let others = ((1 << n) - 1) & !(1 << (own - 1));
            let plain = (0..=9)
                .filter(|&state| state != 4)
                .map(|state| (n, own, (state, 0)));
            let heard = (0..others).filter(|heard| heard & !others == 0);
            participants.extend(plain);
            participants.extend(heard.map(|heard| (n, own, (4, heard))));
        }
    }
    participants
}

/// How program `second` ends with these words and this input.
pub fn output(words: &[&str], input: &[u8]) -> Output {
    let mut program = Command::new(env!("CARGO_BIN_EXE_second"))
        .args(words)
        .stdin(Stdio::piped())
        .stdout(Stdio::piped())
        .stderr(Stdio::piped())
        .spawn()
        .expect("program starts");
    let mut stdin = program.stdin.take().expect("standard input");
    // One that prints its usage does not read.
    let _ = stdin.write_all(input);
    drop(stdin);
    program.wait_with_output().expect("program ends")
}

/// Numbers that repeat from one test run to the next.
pub struct Numbers(pub u64);

impl Numbers {
    /// A number below `limit`.
    pub fn below(&mut self, limit: usize) -> usize {
        self.0 = self
            .0
            .wrapping_mul(6_364_136_223_846_793_005)
            .wrapping_add(1_442_695_040_888_963_407);
        (self.0 >> 33) as usize % limit
    }
}
