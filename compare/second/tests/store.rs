//! The log entries on every log and record, and on absurd numbers.

use second::{log_entry, log_once_entry, Log, Performed};

type Answer = Result<Performed, u32>;

const ALLOWED: [(u32, u32); 5] = [(0, 0), (1, 1), (1, 2), (1, 3), (2, 2)];

fn log((first, last): (u32, u32)) -> Log {
    Log { first, last }
}

fn performed(pair: (u32, u32), wrote: bool) -> Answer {
    let (log, answer) = (log(pair), pair.1);
    Ok(Performed { log, answer, wrote })
}

#[test]
fn log_once_on_allowed_logs() {
    for pair in ALLOWED {
        let expected: [Answer; 4] = if pair == (0, 0) {
            let (yes, abort) = (performed((1, 1), true), performed((2, 2), true));
            [Err(8), yes, abort, Err(8)]
        } else {
            let kept = performed(pair, false);
            [Err(8), kept, kept, Err(8)]
        };
        for (record, expected) in (0..).zip(expected) {
            assert_eq!(log_once_entry(log(pair), record), expected);
        }
    }
}

#[test]
fn log_on_allowed_logs() {
    let last = |pair| performed(pair, false);
    let expected: [[Answer; 2]; 5] = [
        [Err(9), Err(9)],
        [last((1, 2)), last((1, 3))],
        [last((1, 2)), Err(9)],
        [Err(9), last((1, 3))],
        [last((2, 2)), Err(9)],
    ];
    for (pair, [abort, commit]) in ALLOWED.into_iter().zip(expected) {
        assert_eq!(log_entry(log(pair), 0), Err(8));
        assert_eq!(log_entry(log(pair), 1), Err(8));
        assert_eq!(log_entry(log(pair), 2), abort);
        assert_eq!(log_entry(log(pair), 3), commit);
    }
}

#[test]
fn who_wrote_the_first_record() {
    let wrote = |answer: Answer| answer.is_ok_and(|performed| performed.wrote);
    for all in 0..64 {
        let (pair, record) = ((all / 16, all / 4 % 4), all % 4);
        // On an empty log LogOnce writes the record that it takes, a yes or an abort.
        let written = pair == (0, 0) && (record == 1 || record == 2);
        assert_eq!(wrote(log_once_entry(log(pair), record)), written);
        // Log replaces the last record, and an empty log has none to replace.
        assert!(!wrote(log_entry(log(pair), record)));
    }
}

#[test]
fn forbidden_pairs_and_records() {
    let numbers = [0, 1, 2, 3, 4, 255, 256, u32::MAX];
    for first in numbers {
        for pair in numbers.map(|last| (first, last)) {
            for record in numbers {
                let refused = !ALLOWED.contains(&pair) || record > 3;
                assert_eq!(log_once_entry(log(pair), record) == Err(5), refused);
                assert_eq!(log_entry(log(pair), record) == Err(5), refused);
            }
        }
    }
}
