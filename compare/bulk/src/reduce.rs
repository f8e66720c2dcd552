//! Reduces an input on which the two sides differ: fewer participants, records and bytes, lower
//! numbers, as long as they still differ.

use crate::schedules::{records, START};

/// How many rounds there are at most, and how many smaller inputs one pass of a round tries, so
/// that very long ones do not take hours.
const ROUNDS: u32 = 4;
const TRIES: u32 = 1_500;

/// In schedules up to this length each byte is lowered. In longer ones, which would take too many
/// tries, parts are replaced by starts instead.
const READABLE: usize = 1_000;

/// The smallest schedule found on which `differs` holds.
pub fn schedule(bytes: &[u8], differs: impl Fn(&[u8]) -> bool) -> Vec<u8> {
    let mut smallest = bytes.to_vec();
    for _ in 0..ROUNDS {
        let fewer = fewer_participants(&smallest, &differs);
        let whole: Vec<&[u8]> = records(&fewer).collect();
        let fewer = items(whole, |records| differs(&records.concat()));
        let shorter = items(fewer.concat(), &differs);
        let lower = match shorter.len() {
            0..=READABLE => lower_bytes(&shorter, &differs),
            _ => more_starts(shorter, &differs),
        };
        if lower == smallest {
            break;
        }
        smallest = lower;
    }
    smallest
}

/// Leaves out each participant that can be missed.
fn fewer_participants(bytes: &[u8], differs: impl Fn(&[u8]) -> bool) -> Vec<u8> {
    let mut bytes = bytes.to_vec();
    for gone in (1..=32).rev() {
        let fewer = without_participant(&bytes, gone);
        if fewer != bytes && differs(&fewer) {
            bytes = fewer;
        }
    }
    bytes
}

/// The schedule without this participant and all records that name it; those above it move down.
fn without_participant(bytes: &[u8], gone: u8) -> Vec<u8> {
    let down = |number: u8| number - u8::from(number > gone);
    let mut fewer = Vec::new();
    for record in records(bytes) {
        match *record {
            [1, n, votes] if n >= gone => {
                let votes = without_bit(u32::from(votes), gone);
                fewer.extend([1, n - 1, votes as u8]);
            }
            [11, n, a, b, c, d] if n >= gone => {
                let votes = without_bit(u32::from_le_bytes([a, b, c, d]), gone);
                fewer.extend([11, n - 1]);
                fewer.extend(votes.to_le_bytes());
            }
            [3..=5, _, participant] if participant == gone => (),
            [kind @ 3..=5, message, participant] => {
                fewer.extend([kind, message, down(participant)])
            }
            [6 | 7, party, log] if party == gone || log == gone => (),
            [kind @ (6 | 7), party, log] => fewer.extend([kind, down(party), down(log)]),
            [8..=10, party] if party == gone => (),
            [kind @ 8..=10, party] => fewer.extend([kind, down(party)]),
            _ => fewer.extend(record),
        }
    }
    fewer
}

/// The mask without this participant; those above it move down.
fn without_bit(mask: u32, gone: u8) -> u32 {
    let below = (1 << (gone - 1)) - 1;
    mask & below | mask >> 1 & !below
}

/// The fewest items found on which `differs` holds. Many that lie together are removed at once
/// first, at last single ones.
pub fn items<T: Clone>(items: Vec<T>, differs: impl Fn(&[T]) -> bool) -> Vec<T> {
    let mut items = items;
    let mut tries = TRIES;
    let mut size = items.len();
    while size > 0 {
        let before = items.len();
        items = without_runs(items, size, &mut tries, &differs);
        if size > 1 || items.len() == before {
            size /= 2;
        }
    }
    items
}

/// Removes each run of `size` items that can be missed.
fn without_runs<T: Clone>(
    items: Vec<T>,
    size: usize,
    tries: &mut u32,
    differs: impl Fn(&[T]) -> bool,
) -> Vec<T> {
    let mut items = items;
    let mut start = 0;
    while start < items.len() && *tries > 0 {
        *tries -= 1;
        let end = (start + size).min(items.len());
        let fewer = [&items[..start], &items[end..]].concat();
        if differs(&fewer) {
            items = fewer;
        } else {
            start = end;
        }
    }
    items
}

/// Replaces halves, quarters and so on by starts, which are records of one byte.
fn more_starts(bytes: Vec<u8>, differs: impl Fn(&[u8]) -> bool) -> Vec<u8> {
    let mut bytes = bytes;
    let mut size = bytes.len();
    let header = records(&bytes).next().map_or(0, <[u8]>::len);
    while size > bytes.len() / TRIES as usize {
        for start in (header..bytes.len()).step_by(size) {
            let end = (start + size).min(bytes.len());
            let mut plainer = bytes.clone();
            plainer[start..end].fill(START);
            if plainer != bytes && differs(&plainer) {
                bytes = plainer;
            }
        }
        size /= 2;
    }
    bytes
}

/// The plainest tail found on which `differs` holds, of the same length. First a participant's fields,
/// or a log's two records, become 0 at once, since one of them alone would be out of range.
pub fn tail(bytes: &[u8], differs: impl Fn(&[u8]) -> bool) -> Vec<u8> {
    let mut bytes = bytes.to_vec();
    for size in [7, 2] {
        for end in size..=bytes.len() {
            let mut plainer = bytes.clone();
            plainer[end - size..end].fill(0);
            if plainer != bytes && differs(&plainer) {
                bytes = plainer;
            }
        }
    }
    lower_bytes(&bytes, differs)
}

fn lower_bytes(bytes: &[u8], differs: impl Fn(&[u8]) -> bool) -> Vec<u8> {
    let as_bytes = |numbers: &[u32]| -> Vec<u8> { numbers.iter().map(|n| *n as u8).collect() };
    let given: Vec<u32> = bytes.iter().map(|byte| u32::from(*byte)).collect();
    as_bytes(&numbers(&given, |numbers| differs(&as_bytes(numbers))))
}

/// The lowest numbers found on which `differs` holds.
pub fn numbers(numbers: &[u32], differs: impl Fn(&[u32]) -> bool) -> Vec<u32> {
    let mut lowest = numbers.to_vec();
    loop {
        let before = lowest.clone();
        for place in 0..lowest.len() {
            lower_at(&mut lowest, place, &differs);
        }
        if lowest == before {
            return lowest;
        }
    }
}

fn lower_at(numbers: &mut [u32], place: usize, differs: impl Fn(&[u32]) -> bool) {
    let given = numbers[place];
    for lower in [0, 1, given / 2, given.saturating_sub(1)] {
        numbers[place] = lower;
        if lower < given && differs(numbers) {
            return;
        }
    }
    numbers[place] = given;
}
