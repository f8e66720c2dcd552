//! The host entry: its rules, its refusals and their order, and its agreement with a step of a
//! whole release.

mod common;

use common::{fresh, full, participants, Participant};
use second::{host_step, single_step, Tail};

const NUMBERS: [u32; 17] = [
    0,
    1,
    2,
    3,
    4,
    5,
    6,
    7,
    8,
    9,
    10,
    31,
    32,
    33,
    255,
    256,
    u32::MAX,
];

/// State, heard mask and message type sent.
type Stepped = [u32; 3];

/// The numbers in the six bytes that come back, or the refusal's number.
fn step(n: u32, own: u32, state: (u32, u32), event: (u32, u32, u32)) -> Result<Stepped, u32> {
    let mut out = [0xEE; 8];
    let number = host_step(
        n, own, state.0, state.1, event.0, event.1, event.2, &mut out,
    );
    assert_eq!(out[6..], [0xEE; 2]);
    if number != 0 {
        assert_eq!(out, [0xEE; 8]);
        return Err(number);
    }
    let heard = u32::from_le_bytes([out[1], out[2], out[3], out[4]]);
    Ok([u32::from(out[0]), heard, u32::from(out[5])])
}

type Case = ((u32, u32), (u32, u32, u32), Result<Stepped, u32>);

/// Participant 2 of 3 in these states, with these events.
fn assert_cases(cases: &[Case]) {
    for (state, event, expected) in cases {
        let given = step(3, 2, *state, *event);
        assert_eq!(given, *expected, "{state:?} {event:?}");
    }
}

#[test]
fn requests_and_decisions() {
    assert_cases(&[
        ((0, 0), (1, 1, 0), Ok([1, 0, 0])),
        ((0, 0), (1, 0, 0), Ok([2, 0, 0])),
        ((3, 0), (2, 3, 0), Ok([5, 0, 0])),
        ((3, 0), (2, 2, 0), Ok([6, 0, 0])),
        ((9, 0), (1, 1, 0), Ok([9, 0, 0])),
        ((9, 0), (2, 3, 0), Ok([9, 0, 0])),
        ((4, 1), (1, 0, 0), Ok([4, 1, 0])),
        ((4, 1), (2, 3, 0), Ok([5, 0, 0])),
        ((4, 1), (2, 2, 0), Ok([6, 0, 0])),
    ]);
}

#[test]
fn a_decision_in_every_state() {
    for (n, own, (state, heard)) in participants() {
        let expected = |recording| match state {
            3 | 4 => Ok([recording, 0, 0]),
            _ => Ok([state, 0, 0]),
        };
        let given = |decision| step(n, own, (state, heard), (2, decision, 0));
        assert_eq!(given(3), expected(5), "{n} {own} {state} {heard}");
        assert_eq!(given(2), expected(6), "{n} {own} {state} {heard}");
    }
}

#[test]
fn answers() {
    assert_cases(&[
        ((1, 0), (6, 2, 1), Ok([3, 0, 2])),
        ((1, 0), (6, 2, 2), Ok([8, 0, 3])),
        ((1, 0), (6, 2, 3), Err(7)),
        ((1, 0), (6, 1, 1), Err(7)),
        ((2, 0), (6, 2, 1), Ok([4, 0, 0])),
        ((2, 0), (6, 2, 2), Ok([8, 0, 3])),
        ((2, 0), (6, 2, 3), Ok([7, 0, 0])),
        ((4, 0), (6, 1, 1), Ok([4, 1, 0])),
        ((4, 1), (6, 1, 1), Err(7)),
        ((4, 1), (6, 2, 1), Err(7)),
        ((4, 1), (6, 3, 1), Ok([5, 0, 0])),
        ((4, 0), (6, 1, 2), Ok([6, 0, 0])),
        ((4, 0), (6, 1, 3), Ok([5, 0, 0])),
        ((5, 0), (6, 2, 3), Ok([7, 0, 0])),
        ((5, 0), (6, 2, 1), Err(7)),
        ((5, 0), (6, 2, 2), Err(7)),
        ((6, 0), (6, 2, 2), Ok([8, 0, 0])),
        ((6, 0), (6, 2, 3), Err(7)),
    ]);
}

#[test]
fn timeouts_crashes_and_restarts() {
    assert_cases(&[
        ((0, 0), (3, 0, 0), Ok([2, 0, 0])),
        ((3, 0), (3, 0, 0), Ok([4, 0, 0])),
        ((4, 5), (3, 0, 0), Err(5)),
        ((4, 4), (3, 0, 0), Ok([4, 0, 0])),
        ((7, 0), (3, 0, 0), Err(7)),
        ((4, 4), (4, 0, 0), Ok([9, 0, 0])),
        ((9, 0), (4, 0, 0), Err(7)),
        ((9, 0), (5, 0, 0), Ok([2, 0, 0])),
        ((0, 0), (5, 0, 0), Err(7)),
    ]);
}

#[test]
fn a_single_participant_never_terminates() {
    assert_eq!(step(1, 1, (3, 0), (3, 0, 0)), Ok([5, 0, 0]));
    assert_eq!(step(1, 1, (2, 0), (6, 1, 1)), Ok([5, 0, 0]));
    assert_eq!(step(1, 1, (4, 0), (4, 0, 0)), Err(5));
}

#[test]
fn numbers_out_of_range() {
    let cases = [
        (0, 1, (0, 0), (4, 0, 0)),
        (33, 1, (0, 0), (4, 0, 0)),
        (3, 0, (0, 0), (4, 0, 0)),
        (3, 4, (0, 0), (4, 0, 0)),
        (3, 2, (10, 0), (4, 0, 0)),
        (3, 2, (0, 1), (4, 0, 0)),
        (3, 2, (4, 2), (4, 0, 0)),
        (3, 2, (4, 5), (4, 0, 0)),
        (3, 2, (4, 8), (4, 0, 0)),
        (3, 2, (0, 0), (0, 0, 0)),
        (3, 2, (0, 0), (7, 0, 0)),
        (3, 2, (0, 0), (1, 2, 0)),
        (3, 2, (0, 0), (1, 1, 1)),
        (3, 2, (0, 0), (2, 1, 0)),
        (3, 2, (0, 0), (2, 4, 0)),
        (3, 2, (0, 0), (2, 2, 1)),
        (3, 2, (0, 0), (3, 1, 0)),
        (3, 2, (0, 0), (4, 0, 1)),
        (3, 2, (0, 0), (5, 1, 0)),
        (3, 2, (1, 0), (6, 0, 1)),
        (3, 2, (1, 0), (6, 4, 1)),
        (3, 2, (1, 0), (6, 2, 0)),
        (3, 2, (1, 0), (6, 2, 4)),
    ];
    for (n, own, state, event) in cases {
        assert_eq!(step(n, own, state, event), Err(5), "{state:?} {event:?}");
        let (event, detail, record) = event;
        let alone = host_step(n, own, state.0, state.1, event, detail, record, &mut []);
        assert_eq!(alone, 5);
    }
}

#[test]
fn buffer_too_short_comes_last() {
    for length in 0..6 {
        let mut out = vec![0xEE; length];
        assert_eq!(host_step(3, 2, 0, 0, 3, 0, 0, &mut out), 6);
        assert_eq!(host_step(3, 2, 7, 0, 3, 0, 0, &mut out), 7);
        assert_eq!(host_step(3, 2, 7, 0, 3, 0, 1, &mut out), 5);
        assert_eq!(host_step(32, 32, 4, 1 << 30, 6, 1, 1, &mut out), 6);
        assert_eq!(host_step(32, 1, 4, 1 << 31, 6, 32, 1, &mut out), 7);
        assert_eq!(host_step(33, 1, 4, 1 << 31, 6, 32, 1, &mut out), 5);
        assert!(out.iter().all(|&byte| byte == 0xEE));
    }
}

#[test]
fn any_numbers_get_an_answer() {
    for (n, own) in pairs(&NUMBERS) {
        for (number, event) in pairs(&NUMBERS) {
            let mut out = [0; 6];
            host_step(n, own, number, 0, event, number, 0, &mut out);
            host_step(n, own, 4, number, event, number, 1, &mut out);
            host_step(n, own, number, number, 6, n, number, &mut out);
        }
    }
}

fn pairs(numbers: &[u32]) -> impl Iterator<Item = (u32, u32)> + '_ {
    numbers
        .iter()
        .flat_map(move |&first| numbers.iter().map(move |&second| (first, second)))
}

/// A release whose participant `own` has this state, with its vote and all messages to it in
/// flight.
fn release(n: u32, own: u32, state: (u32, u32), vote: u32) -> Tail {
    let bit = 1 << (own - 1);
    let mut tail = fresh(n, vote * bit);
    tail.messages = [bit, 0, 0, bit, bit];
    let fields = &mut tail.participants[own as usize - 1];
    (fields.state, fields.heard) = state;
    tail
}

/// The same event as a step of the release, in the host's numbers.
fn release_step(tail: &Tail, own: u32, (event, detail): (u32, u32)) -> Result<Stepped, u32> {
    let (kind, first, second) = match (event, detail) {
        (1, _) => (0x03, 1, own),
        (2, 3) => (0x03, 4, own),
        (2, _) => (0x03, 5, own),
        (6, log) => (0x06, own, log),
        _ => (0x05 + event, own, 0),
    };
    let (after, _) = single_step(tail, kind, first, second)?;
    let fields = after.participants[own as usize - 1];
    let bit = 1 << (own - 1);
    let sent = (2..=3).find(|&message: &u32| after.messages[message as usize - 1] & bit != 0);
    Ok([fields.state, fields.heard, sent.unwrap_or(0)])
}

#[test]
fn deliveries_and_own_steps_agree_with_the_release() {
    let events = [(1, 0), (1, 1), (2, 2), (2, 3), (3, 0), (4, 0), (5, 0)];
    for (n, own, state) in participants() {
        for (event, detail) in events {
            let tail = release(n, own, state, detail & 1);
            let expected = release_step(&tail, own, (event, detail));
            assert_eq!(step(n, own, state, (event, detail, 0)), expected);
        }
    }
}

#[test]
fn answers_agree_with_the_release() {
    for (n, own, state) in participants() {
        for log in 1..=n {
            for (first, last) in [(1, 1), (1, 2), (1, 3), (2, 2)] {
                assert_answer_agrees((n, own, state), log, (first, last));
            }
        }
    }
}

/// The host gets the answer that the release's call on this log gives.
fn assert_answer_agrees((n, own, state): Participant, log: u32, (first, last): (u32, u32)) {
    let mut tail = release(n, own, state, 1);
    let fields = &mut tail.participants[log as usize - 1];
    (fields.first, fields.last) = (first, last);
    let answer = match (state.0, last) {
        (5, 1) => 3,
        (6, 1) => 2,
        _ => last,
    };
    let expected = release_step(&tail, own, (6, log));
    assert_eq!(step(n, own, state, (6, log, answer)), expected);
}

/// The bytes of a buffer of eight after this step, which is not refused.
fn lent_bytes(numbers: [u32; 7]) -> [u8; 8] {
    let [n, own, state, heard, event, detail, record] = numbers;
    let mut out = [0xEE; 8];
    let number = host_step(n, own, state, heard, event, detail, record, &mut out);
    assert_eq!(number, 0, "{numbers:?}");
    out
}

#[test]
fn six_bytes_for_every_n() {
    let beyond = 0xEE;
    let cases = [
        ([1, 1, 1, 0, 6, 1, 1], [3, 0, 0, 0, 0, 2]),
        ([2, 1, 2, 0, 6, 1, 2], [8, 0, 0, 0, 0, 3]),
        ([3, 2, 4, 0, 6, 1, 1], [4, 0x01, 0, 0, 0, 0]),
        ([9, 1, 4, 0, 6, 9, 1], [4, 0x00, 0x01, 0, 0, 0]),
        ([24, 1, 4, 2, 6, 24, 1], [4, 0x02, 0, 0x80, 0, 0]),
        (
            [32, 1, 4, 0x0004_0200, 6, 32, 1],
            [4, 0, 0x02, 0x04, 0x80, 0],
        ),
        ([32, 32, 4, 0x4000_0000, 6, 1, 1], [4, 0x01, 0, 0, 0x40, 0]),
        ([32, 1, 4, 0x8000_0000, 1, 0, 0], [4, 0, 0, 0, 0x80, 0]),
        ([32, 32, 1, 0, 6, 32, 1], [3, 0, 0, 0, 0, 2]),
    ];
    for (numbers, [a, b, c, d, e, f]) in cases {
        assert_eq!(lent_bytes(numbers), [a, b, c, d, e, f, beyond, beyond]);
    }
}

#[test]
fn the_last_answer_of_any_n() {
    for n in 2..=32 {
        for own in 1..=n {
            let others = full(n) & !(1 << (own - 1));
            for log in (1..=n).filter(|&log| log != own) {
                let heard = others & !(1 << (log - 1));
                assert_eq!(step(n, own, (4, heard), (6, log, 1)), Ok([5, 0, 0]));
                assert_eq!(step(n, own, (4, heard), (6, log, 2)), Ok([6, 0, 0]));
                assert_eq!(step(n, own, (4, heard), (6, own, 1)), Err(7));
                assert_eq!(step(n, own, (4, others), (6, log, 1)), Err(5));
            }
        }
    }
}

#[test]
fn thirty_two_participants() {
    let high = 1 << 31;
    assert_eq!(step(32, 1, (4, high), (3, 0, 0)), Ok([4, 0, 0]));
    assert_eq!(step(32, 1, (4, high), (6, 32, 1)), Err(7));
    assert_eq!(step(32, 32, (4, 0), (6, 31, 1)), Ok([4, 1 << 30, 0]));
    assert_eq!(step(32, 32, (4, high), (3, 0, 0)), Err(5));
    assert_eq!(step(31, 1, (4, high), (3, 0, 0)), Err(5));
    assert_eq!(step(32, 1, (0, high), (3, 0, 0)), Err(5));
    assert_eq!(step(32, 33, (0, 0), (3, 0, 0)), Err(5));
    assert_eq!(step(33, 33, (0, 0), (3, 0, 0)), Err(5));
    assert_eq!(step(33, 1, (0, 0), (3, 0, 0)), Err(5));
    assert_eq!(step(32, 32, (1, 0), (6, 33, 1)), Err(5));
}
