//! Wide schedules in which all participants vote and some parties then terminate again and again, to
//! the end.

use crate::random::Random;
use crate::schedules::{any_header, append, every_vote, full, header_bytes, LIMIT, START};
use second::{take_step, Form, Header, Record, Tail};

const CALL_ANSWERED: u32 = 6;
const CALL_ANSWER_LOST: u32 = 7;
const TIMEOUT: u32 = 8;
const CRASH: u32 = 9;
const RESTART: u32 = 10;

/// A schedule of the greatest length with all thirty-two participants. One that has heard all others
/// crashes before it records the commit, since a recorded decision would end every termination;
/// after its restart it terminates anew.
pub fn longest(random: &mut Random) -> Vec<u8> {
    let header = Header {
        kind: Form::Wide.header_kind(),
        n: 32,
        votes: u32::MAX,
    };
    let parties: Vec<u32> = (1..=32).collect();
    schedule(random, header, &parties, LIMIT, |_| CRASH)
}

/// A schedule with few parties that terminate, so that they come to their decisions. Some record
/// them, some crash before.
pub fn of_few(random: &mut Random) -> Vec<u8> {
    let header = any_header(random, Form::Wide);
    let votes = full(header.n);
    let parties: Vec<u32> = (0..random.between(1, 3))
        .map(|_| random.between(0, header.n))
        .collect();
    let length = random.between(250, 1_500) as usize;
    let header = Header { votes, ..header };
    schedule(random, header, &parties, length, |random| {
        random.pick(&[CRASH, CALL_ANSWERED])
    })
}

/// A schedule of just this many bytes, at least 200, which all votes fit. `decided` chooses what a
/// participant does that has a decision to record: it calls its log or crashes.
fn schedule(
    random: &mut Random,
    header: Header,
    parties: &[u32],
    length: usize,
    decided: fn(&mut Random) -> u32,
) -> Vec<u8> {
    let mut tail = Tail::fresh(header);
    let mut bytes = header_bytes(header);
    for record in every_vote(header.n) {
        take_step(&mut tail, record);
        append(&mut bytes, record);
    }
    loop {
        let record = match random.pick(parties) {
            0 => step_of_coordinator(random, &tail),
            own => step_of_participant(random, &tail, own, decided),
        };
        let whole = bytes.len();
        append(&mut bytes, record);
        if bytes.len() > length {
            // A start always fits.
            bytes.truncate(whole);
            bytes.resize(length, START);
            return bytes;
        }
        take_step(&mut tail, record);
    }
}

fn step(kind: u32, first: u32, second: u32) -> Record {
    Record {
        kind,
        first,
        second,
    }
}

/// The next step of a participant that has voted.
fn step_of_participant(
    random: &mut Random,
    tail: &Tail,
    own: u32,
    decided: fn(&mut Random) -> u32,
) -> Record {
    let fields = tail.participants[own as usize - 1];
    let recorded = step(CALL_ANSWERED, own, own);
    match fields.state {
        2 => recorded,
        3 => step(TIMEOUT, own, 0),
        4 => {
            let others = full(tail.n) & !(1 << (own - 1));
            terminating(random, own, others & !fields.heard)
        }
        5 | 6 if decided(random) == CALL_ANSWERED => recorded,
        9 => step(RESTART, own, 0),
        _ => step(CRASH, own, 0),
    }
}

/// The next step of a coordinator that has started.
fn step_of_coordinator(random: &mut Random, tail: &Tail) -> Record {
    match tail.state {
        1 => step(TIMEOUT, 0, 0),
        2 => terminating(random, 0, full(tail.n) & !tail.heard),
        5 => step(RESTART, 0, 0),
        _ => step(CRASH, 0, 0),
    }
}

/// Mostly a call on one of the logs in this mask, which are yet to be heard; few of them have a lost
/// answer, and seldom the party waits too long.
fn terminating(random: &mut Random, party: u32, unheard: u32) -> Record {
    let logs: Vec<u32> = (1..=32)
        .filter(|log| unheard & (1 << (log - 1)) != 0)
        .collect();
    let log = random.pick(&logs);
    match random.below(64) {
        0 => step(TIMEOUT, party, 0),
        1..=4 => step(CALL_ANSWER_LOST, party, log),
        _ => step(CALL_ANSWERED, party, log),
    }
}
