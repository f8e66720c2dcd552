//! The single step: its range, field by field, and what is not due.

mod common;

use common::{fresh, full, steps};
use second::{is_due, single_step, Form, ParticipantFields, Record, Tail};

const ABSURD: [u32; 5] = [255, 256, 1 << 30, 1 << 31, u32::MAX];

/// The answer to a start, which shows whether the state is in range.
fn start(tail: &Tail) -> Option<u32> {
    single_step(tail, 0x02, 0, 0).err()
}

/// A release of n that has started, with this change.
fn with(n: u32, change: impl Fn(&mut Tail)) -> Tail {
    let mut tail = fresh(n, 0);
    tail.state = 1;
    change(&mut tail);
    tail
}

#[test]
fn numbers_of_the_step() {
    let tail = with(3, |_| ());
    let cases = [
        (0x00, 0, 0),
        (0x01, 3, 0),
        (0x0B, 0, 0),
        (0x02, 1, 0),
        (0x02, 0, 1),
        (0x03, 0, 1),
        (0x03, 6, 1),
        (0x04, 1, 0),
        (0x05, 1, 4),
        (0x06, 4, 1),
        (0x07, 0, 0),
        (0x07, 0, 4),
        (0x08, 4, 0),
        (0x09, 1, 1),
        (0x0A, 0, 1),
    ];
    for (kind, first, second) in cases {
        assert_eq!(single_step(&tail, kind, first, second), Err(5));
    }
    for kind in 0..12 {
        for number in ABSURD {
            assert_eq!(single_step(&tail, kind, number, 1), Err(5));
            assert_eq!(single_step(&tail, kind, 1, number), Err(5));
            assert_eq!(single_step(&tail, number, 1, 1), Err(5));
        }
    }
}

#[test]
fn header_and_coordinator_in_range() {
    for n in [0, 33].into_iter().chain(ABSURD) {
        assert_eq!(start(&with(1, |tail| tail.n = n)), Some(5));
    }
    assert_eq!(start(&with(2, |tail| tail.votes = 3)), Some(7));
    assert_eq!(start(&with(2, |tail| tail.votes = 4)), Some(5));
    for number in ABSURD {
        assert_eq!(start(&with(3, |tail| tail.votes = number)), Some(5));
        assert_eq!(start(&with(3, |tail| tail.state = number)), Some(5));
        assert_eq!(start(&with(3, |tail| tail.heard = number)), Some(5));
    }
    for state in 0..8 {
        for heard in 0..8 {
            let allowed = match state {
                1 | 2 => heard < 3,
                _ => state < 7 && heard == 0,
            };
            let tail = with(2, |tail| (tail.state, tail.heard) = (state, heard));
            assert_eq!(start(&tail) != Some(5), allowed, "{state} {heard}");
        }
    }
}

#[test]
fn messages_and_counts_in_range() {
    for message in 0..5 {
        assert_eq!(start(&with(2, |tail| tail.messages[message] = 3)), Some(7));
        assert_eq!(start(&with(2, |tail| tail.messages[message] = 4)), Some(5));
        assert_eq!(
            start(&with(8, |tail| tail.messages[message] = 256)),
            Some(5)
        );
    }
    for party in 0..9 {
        let limit = with(8, |tail| tail.calls[party] = 65_534);
        assert_eq!(start(&limit), Some(7));
        let beyond = with(8, |tail| tail.calls[party] = 65_535);
        assert_eq!(start(&beyond), Some(5));
        let one = with(2, |tail| tail.calls[party] = 1);
        assert_eq!(start(&one), Some(if party <= 2 { 7 } else { 5 }));
    }
}

#[test]
fn participants_in_range() {
    for state in 0..11 {
        for heard in 0..16 {
            let tail = with(3, |tail| {
                (tail.participants[1].state, tail.participants[1].heard) = (state, heard);
            });
            let allowed = match state {
                4 => [0, 1, 4].contains(&heard),
                _ => state < 10 && heard == 0,
            };
            assert_eq!(start(&tail) != Some(5), allowed, "{state} {heard}");
        }
    }
    for number in ABSURD {
        assert_eq!(
            start(&with(2, |t| t.participants[0].state = number)),
            Some(5)
        );
        assert_eq!(
            start(&with(2, |t| t.participants[0].heard = number)),
            Some(5)
        );
        assert_eq!(
            start(&with(2, |t| t.participants[0].first = number)),
            Some(5)
        );
        assert_eq!(
            start(&with(2, |t| t.participants[0].last = number)),
            Some(5)
        );
    }
}

#[test]
fn no_termination_of_a_single_participant_is_in_range() {
    for heard in 0..4 {
        let tail = with(1, |tail| {
            (tail.participants[0].state, tail.participants[0].heard) = (4, heard);
        });
        assert_eq!(start(&tail), Some(5));
    }
}

#[test]
fn pairs_and_participants_beyond_n() {
    let allowed = [(0, 0), (1, 1), (1, 2), (1, 3), (2, 2)];
    for first in 0..5 {
        for last in 0..5 {
            let fields = ParticipantFields {
                first,
                last,
                ..ParticipantFields::default()
            };
            let within = with(2, |tail| tail.participants[1] = fields);
            assert_eq!(start(&within) != Some(5), allowed.contains(&(first, last)));
            let beyond = with(2, |tail| tail.participants[2] = fields);
            assert_eq!(start(&beyond) != Some(5), (first, last) == (0, 0));
        }
    }
    assert_eq!(
        start(&with(2, |tail| tail.participants[2].state = 9)),
        Some(5)
    );
    assert_eq!(
        start(&with(7, |tail| tail.participants[7].heard = 1)),
        Some(5)
    );
}

#[test]
fn answers_that_a_state_cannot_get() {
    let due = |state, first, last| {
        let fields = ParticipantFields {
            state,
            heard: 0,
            first,
            last,
        };
        let tail = with(2, |tail| tail.participants[0] = fields);
        let answered = single_step(&tail, 0x06, 1, 1).err();
        assert_eq!(single_step(&tail, 0x07, 1, 1).err(), answered);
        answered.is_none()
    };
    let pairs = [(0, 0), (1, 1), (1, 2), (1, 3), (2, 2)];
    let due_pairs = |state| pairs.map(|(first, last)| due(state, first, last));
    assert_eq!(due_pairs(1), [true, true, true, false, true]);
    assert_eq!(due_pairs(2), [true; 5]);
    assert_eq!(due_pairs(5), [false, true, false, true, false]);
    assert_eq!(due_pairs(6), [false, true, true, false, true]);
    for state in [0, 3, 4, 7, 8, 9] {
        assert_eq!(due_pairs(state), [false; 5]);
    }
}

#[test]
fn the_last_count_of_calls() {
    let tail = with(1, |tail| {
        tail.participants[0].state = 2;
        tail.calls[1] = 65_534;
    });
    let (after, byte) = single_step(&tail, 0x06, 1, 1).expect("due");
    assert_eq!((after.calls[1], byte), (65_535, 3));
    assert_eq!(single_step(&after, 0x09, 1, 0), Err(5));
}

#[test]
fn due_on_absurd_numbers() {
    let narrow = Tail::from_bytes(Form::Narrow, &[0xFF; 59]);
    let wide = Tail::from_bytes(Form::Wide, &[0xFF; 320]);
    for tail in [narrow, wide, Tail::default(), fresh(2, 3)] {
        for kind in [0, 1, 2, 3, 6, 8, u32::MAX] {
            let record = Record {
                kind,
                first: u32::MAX,
                second: u32::MAX,
            };
            assert!(!is_due(&tail, record));
        }
    }
}

#[test]
fn due_steps_of_a_fresh_release() {
    for n in 1..=32 {
        let due = steps(n).into_iter().filter(|&s| is_due(&fresh(n, 0), s));
        // The start, a crash of every party and a timeout of every participant.
        assert_eq!(due.count() as u32, 1 + (n + 1) + n);
    }
}

#[test]
fn tail_bytes_both_ways() {
    let bytes: [u8; 59] = std::array::from_fn(|at| (at * 37 + 5) as u8);
    let tail = Tail::from_bytes(Form::Narrow, &bytes);
    assert_eq!(tail.narrow_bytes(), bytes);
    assert_eq!(tail.heard, u32::from(bytes[3]));
    assert_eq!(tail.messages[4], u32::from(bytes[8]));
    assert_eq!(tail.participants[7].last, u32::from(bytes[40]));
    assert_eq!(tail.calls[0], u16::from_le_bytes([bytes[41], bytes[42]]));
    assert_eq!(tail.calls[8], u16::from_le_bytes([bytes[57], bytes[58]]));
}

#[test]
fn wide_tail_bytes_both_ways() {
    let bytes: [u8; 320] = std::array::from_fn(|at| (at * 37 + 5) as u8);
    let tail = Tail::from_bytes(Form::Wide, &bytes);
    assert_eq!(tail.wide_bytes(), bytes);
    let mask =
        |at: usize| u32::from_le_bytes([bytes[at], bytes[at + 1], bytes[at + 2], bytes[at + 3]]);
    let byte = |at: usize| u32::from(bytes[at]);
    assert_eq!((tail.n, tail.votes), (byte(0), mask(1)));
    assert_eq!((tail.state, tail.heard), (byte(5), mask(6)));
    assert_eq!(tail.messages, [10, 14, 18, 22, 26].map(mask));
    for (at, fields) in tail.participants.iter().enumerate() {
        let place = 30 + 7 * at;
        let expected = ParticipantFields {
            state: byte(place),
            heard: mask(place + 1),
            first: byte(place + 5),
            last: byte(place + 6),
        };
        assert_eq!(*fields, expected);
    }
    for (at, count) in tail.calls.iter().enumerate() {
        let place = 254 + 2 * at;
        let expected = u16::from_le_bytes([bytes[place], bytes[place + 1]]);
        assert_eq!(*count, expected);
    }
}

#[test]
fn masks_within_n_of_any_n() {
    for n in 1..=32 {
        let full = full(n);
        // A vote, a message or a heard participant beyond n; with 32 there is none.
        let beyond = (n < 32).then(|| 1 << n);
        assert_eq!(start(&with(n, |tail| tail.votes = full)), Some(7));
        assert_eq!(start(&with(n, |tail| tail.heard = full)), Some(5));
        assert_eq!(start(&with(n, |tail| tail.heard = full - 1)), Some(7));
        for message in 0..5 {
            let tail = with(n, |tail| tail.messages[message] = full);
            assert_eq!(start(&tail), Some(7));
        }
        let Some(beyond) = beyond else { continue };
        assert_eq!(start(&with(n, |tail| tail.votes = beyond)), Some(5));
        assert_eq!(start(&with(n, |tail| tail.heard = beyond)), Some(5));
        for message in 0..5 {
            let tail = with(n, |tail| tail.messages[message] = beyond);
            assert_eq!(start(&tail), Some(5));
        }
    }
}

#[test]
fn heard_masks_of_participants_of_any_n() {
    for n in 2..=32 {
        for own in 1..=n {
            let in_four = |heard| {
                let tail = with(n, |tail| {
                    let fields = &mut tail.participants[own as usize - 1];
                    (fields.state, fields.heard) = (4, heard);
                });
                start(&tail)
            };
            let own_bit = 1 << (own - 1);
            let others = full(n) & !own_bit;
            let one_left = others & (others - 1);
            assert_eq!(in_four(0), Some(7));
            assert_eq!(in_four(one_left), Some(7));
            assert_eq!(in_four(others), Some(5));
            assert_eq!(in_four(own_bit), Some(5));
            if n < 32 {
                assert_eq!(in_four(1 << n), Some(5));
            }
        }
    }
}

#[test]
fn fields_beyond_any_n() {
    for n in 1..=32 {
        for place in 0..32 {
            let tail = with(n, |tail| tail.participants[place].state = 9);
            let expected = if place < n as usize { 7 } else { 5 };
            assert_eq!(start(&tail), Some(expected), "{n} {place}");
        }
        for party in 0..33 {
            let tail = with(n, |tail| tail.calls[party] = 1);
            let expected = if party <= n as usize { 7 } else { 5 };
            assert_eq!(start(&tail), Some(expected), "{n} {party}");
            let tail = with(n, |tail| tail.calls[party] = 65_535);
            assert_eq!(start(&tail), Some(5), "{n} {party}");
        }
    }
}

#[test]
fn numbers_of_the_step_at_thirty_two() {
    let tail = with(32, |_| ());
    let answer =
        |kind, first, second| single_step(&tail, kind, first, second).map(|(_, byte)| byte);
    for (kind, first, second) in [(0x03, 1, 32), (0x06, 32, 32), (0x07, 0, 32), (0x0A, 32, 0)] {
        assert_eq!(answer(kind, first, second), Err(7));
    }
    assert_eq!(answer(0x09, 32, 0), Ok(1));
    assert_eq!(answer(0x08, 32, 0), Ok(1));
    for (kind, first, second) in [
        (0x03, 1, 33),
        (0x06, 33, 32),
        (0x06, 32, 33),
        (0x07, 0, 33),
        (0x08, 33, 0),
        (0x0B, 32, 0),
    ] {
        assert_eq!(answer(kind, first, second), Err(5));
    }
    assert_eq!(start(&with(32, |tail| tail.n = 33)), Some(5));
}

#[test]
fn last_answer_of_a_termination_among_thirty_two() {
    let own_bit = 1 << 31;
    let tail = with(32, |tail| {
        for fields in &mut tail.participants {
            (fields.state, fields.first, fields.last) = (3, 1, 1);
        }
        let fields = &mut tail.participants[31];
        (fields.state, fields.heard) = (4, !own_bit & !(1 << 30));
    });
    let (after, byte) = single_step(&tail, 0x06, 32, 31).expect("due");
    assert_eq!((after.participants[31].state, byte), (5, 2));
    assert_eq!((after.participants[31].heard, after.calls[32]), (0, 1));
    assert_eq!(single_step(&tail, 0x06, 32, 1), Err(7));
    assert_eq!(single_step(&tail, 0x06, 32, 32), Err(7));
}
