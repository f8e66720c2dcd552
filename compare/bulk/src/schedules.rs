//! Random schedules of either form whose steps are mostly due, and the steps that are in range under
//! n.

use crate::random::Random;
use second::{take_step, Form, Header, Record, Tail};

/// The greatest length of a schedule in bytes.
pub const LIMIT: usize = 32_768;

/// The kind of a start, a record of one byte.
pub const START: u8 = 2;

/// How often a due step is looked for before the run is taken to have none.
const TRIES: u32 = 32;

/// How often each kind is chosen: kinds 02 to 0A in order.
type Weights = [u32; 9];

const CALM: Weights = [4, 12, 0, 0, 12, 0, 0, 0, 0];
const COPIES: Weights = [2, 10, 3, 0, 10, 2, 0, 0, 0];
const TIMEOUTS: Weights = [2, 8, 1, 1, 14, 1, 3, 0, 0];
/// Nothing is delivered any more, so that only terminations lead to a decision.
const SILENCE: Weights = [0, 0, 0, 1, 14, 1, 1, 0, 0];
const ROUGH: Weights = [2, 6, 2, 2, 8, 3, 3, 2, 3];
const CRASHES: Weights = [1, 4, 1, 1, 9, 2, 1, 4, 6];

/// The number of a group for this form: that of wide schedules stands ten above that of narrow ones.
pub fn group(narrow: u64, form: Form) -> u64 {
    match form {
        Form::Narrow => narrow,
        Form::Wide => narrow + 10,
    }
}

/// The mask of participants 1 to n, n from 1 to 32.
pub fn full(n: u32) -> u32 {
    u32::MAX >> (32 - n)
}

/// The length of each kind's body; none for an unknown kind.
pub fn body_length(kind: u8) -> Option<usize> {
    match kind {
        1 | 3..=7 => Some(2),
        2 => Some(0),
        8..=10 => Some(1),
        11 => Some(5),
        _ => None,
    }
}

/// The records that these bytes are taken apart into, as far as that goes: an unknown kind stands
/// alone, the last record may be cut short.
pub fn records(bytes: &[u8]) -> impl Iterator<Item = &[u8]> {
    let mut rest = bytes;
    std::iter::from_fn(move || {
        let length = 1 + body_length(*rest.first()?).unwrap_or(0);
        let (record, after) = rest.split_at(length.min(rest.len()));
        rest = after;
        Some(record)
    })
}

/// The places at which one of these records ends.
pub fn record_ends(bytes: &[u8]) -> Vec<usize> {
    let ends = records(bytes).scan(0, |end, record| {
        *end += record.len();
        Some(*end)
    });
    ends.collect()
}

/// Appends a record whose numbers fit their bytes.
pub fn append(bytes: &mut Vec<u8>, record: Record) {
    let [a, b, c, d] = record.second.to_le_bytes();
    let whole = [record.kind as u8, record.first as u8, a, b, c, d];
    let length = 1 + body_length(whole[0]).unwrap_or(0);
    bytes.extend_from_slice(&whole[..length]);
}

pub fn header_bytes(header: Header) -> Vec<u8> {
    let record = Record {
        kind: header.kind,
        first: header.n,
        second: header.votes,
    };
    let mut bytes = Vec::new();
    append(&mut bytes, record);
    bytes
}

/// The header of an accepted schedule, and the bytes of its steps.
pub fn split_header(schedule: &[u8]) -> (Header, &[u8]) {
    let read = second::read_record(schedule, None);
    let (record, length) = read.expect("the schedule is accepted");
    let header = Header {
        kind: record.kind,
        n: record.first,
        votes: record.second,
    };
    (header, &schedule[length..])
}

/// Every step that a reader yields under this n.
pub fn every_step(n: u32) -> Vec<Record> {
    let mut steps = Vec::new();
    for kind in 2..=10 {
        let (first, second) = match kind {
            2 => (0..=0, 0..=0),
            3..=5 => (1..=5, 1..=n),
            6 | 7 => (0..=n, 1..=n),
            _ => (0..=n, 0..=0),
        };
        for first in first {
            for second in second.clone() {
                steps.push(Record {
                    kind,
                    first,
                    second,
                });
            }
        }
    }
    steps
}

/// The start, every request of n delivered, and every vote.
pub fn every_vote(n: u32) -> Vec<Record> {
    let step = |kind, first, second| Record {
        kind,
        first,
        second,
    };
    let mut steps = vec![step(2, 0, 0)];
    steps.extend((1..=n).map(|participant| step(3, 1, participant)));
    steps.extend((1..=n).map(|participant| step(6, participant, participant)));
    steps
}

/// Any step that a reader yields under this n, each kind equally often.
pub fn any_step(random: &mut Random, n: u32) -> Record {
    let kind = random.between(2, 10);
    let (first, second) = match kind {
        2 => (0, 0),
        3..=5 => (random.between(1, 5), random.between(1, n)),
        6 | 7 => (random.between(0, n), random.between(1, n)),
        _ => (random.between(0, n), 0),
    };
    Record {
        kind,
        first,
        second,
    }
}

/// A header in range; most of them hold every vote.
pub fn any_header(random: &mut Random, form: Form) -> Header {
    let n = random.pick(match form {
        Form::Narrow => &[1, 2, 3, 4, 5, 6, 7, 8, 8],
        Form::Wide => &[1, 2, 3, 8, 9, 16, 31, 32, 32],
    });
    let votes = match random.below(3) {
        0 => random.between(0, full(n)),
        _ => full(n),
    };
    let kind = form.header_kind();
    Header { kind, n, votes }
}

/// A run of one release that chooses its steps as it goes. It has two phases, each with its own
/// weights, so that a rough end can follow a calm beginning and the other way round.
pub struct Run {
    pub header: Header,
    pub tail: Tail,
    phases: [Weights; 2],
    change: u32,
    steps: u32,
}

impl Run {
    /// A run may come to an end where nothing is due any more; a `lasting` one has crashes and
    /// restarts that keep it going.
    pub fn fresh(random: &mut Random, form: Form, lasting: bool) -> Run {
        let mut phases = [any_weights(random), any_weights(random)];
        if lasting {
            phases[1] = random.pick(&[ROUGH, CRASHES]);
        }
        let header = any_header(random, form);
        Run {
            header,
            tail: Tail::fresh(header),
            phases,
            change: random.below(50),
            steps: 0,
        }
    }

    /// A run under this header in which participants wait too long, and some restart.
    pub fn terminating(header: Header) -> Run {
        Run {
            header,
            tail: Tail::fresh(header),
            phases: [TIMEOUTS, ROUGH],
            change: 100,
            steps: 0,
        }
    }

    /// A run under this header in which nothing is delivered after the votes, and a rough end may
    /// follow.
    fn silent(random: &mut Random, header: Header) -> Run {
        let votes = 2 * header.n + 1;
        Run {
            phases: [SILENCE, ROUGH],
            change: votes + random.between(10, 60),
            ..Run::terminating(header)
        }
    }

    /// A run that goes on from this state; later it has crashes and restarts that keep it going.
    fn from_tail(random: &mut Random, tail: &Tail) -> Run {
        let header = Header {
            kind: Form::Wide.header_kind(),
            n: tail.n,
            votes: tail.votes,
        };
        Run {
            header,
            tail: *tail,
            phases: [any_weights(random), random.pick(&[ROUGH, CRASHES])],
            change: random.below(50),
            // One that has taken no step would look for a start.
            steps: 1,
        }
    }

    /// Appends a due step, or any where none is found.
    pub fn append_step(&mut self, random: &mut Random, bytes: &mut Vec<u8>) {
        let record = self.step(random).unwrap_or_else(|| self.any_step(random));
        append(bytes, record);
    }

    /// Chooses a step and takes it; none if no due step was found. A small share of the steps is
    /// not due.
    pub fn step(&mut self, random: &mut Random) -> Option<Record> {
        if self.steps == 0 && !random.one_in(8) {
            return Some(self.take(Record {
                kind: u32::from(START),
                first: 0,
                second: 0,
            }));
        }
        if random.one_in(16) {
            return Some(self.any_step(random));
        }
        self.due_step(random)
    }

    /// Takes any step in range, due or not.
    fn any_step(&mut self, random: &mut Random) -> Record {
        let record = any_step(random, self.tail.n);
        self.take(record)
    }

    /// A step that is not due changes nothing.
    fn take(&mut self, record: Record) -> Record {
        self.steps += 1;
        take_step(&mut self.tail, record);
        record
    }

    /// Looks for a due step and takes it.
    fn due_step(&mut self, random: &mut Random) -> Option<Record> {
        let weights = self.phases[usize::from(self.steps >= self.change)];
        for _ in 0..TRIES {
            let record = candidate(random, &self.tail, &weights);
            if take_step(&mut self.tail, record).is_some() {
                self.steps += 1;
                return Some(record);
            }
        }
        None
    }
}

fn any_weights(random: &mut Random) -> Weights {
    match random.below(10) {
        0..=3 => CALM,
        4..=5 => COPIES,
        6 => TIMEOUTS,
        7 => SILENCE,
        8 => random.pick(&[ROUGH, CRASHES]),
        _ => CALM.map(|weight| weight / 12 + random.below(8)),
    }
}

fn any_kind(random: &mut Random, weights: &Weights) -> u32 {
    let mut left = random.below(weights.iter().sum());
    for (kind, weight) in (2..).zip(weights) {
        if left < *weight {
            return kind;
        }
        left -= weight;
    }
    unreachable!("the number is below the sum of the weights")
}

/// A step that is likely to be due in this state.
fn candidate(random: &mut Random, tail: &Tail, weights: &Weights) -> Record {
    let kind = any_kind(random, weights);
    let (first, second) = match kind {
        2 => (0, 0),
        3..=5 => any_message(random, tail),
        6 | 7 => any_call(random, tail),
        _ => (random.between(0, tail.n), 0),
    };
    Record {
        kind,
        first,
        second,
    }
}

/// Type and participant of a message in flight, or of any message if none is.
fn any_message(random: &mut Random, tail: &Tail) -> (u32, u32) {
    let in_flight: u32 = tail.messages.iter().map(|mask| mask.count_ones()).sum();
    let mut left = random.below(in_flight.max(1));
    for (kind, mask) in (1..).zip(tail.messages) {
        for participant in (1..=tail.n).filter(|p| mask & (1 << (p - 1)) != 0) {
            if left == 0 {
                return (kind, participant);
            }
            left -= 1;
        }
    }
    (random.between(1, 5), random.between(1, tail.n))
}

/// Party and log of a call: mostly the own log, except in a termination.
fn any_call(random: &mut Random, tail: &Tail) -> (u32, u32) {
    let party = match random.below(6) {
        0 => 0,
        _ => random.between(0, tail.n),
    };
    let terminating = party > 0 && tail.participants[party as usize - 1].state == 4;
    if party == 0 || terminating || random.one_in(8) {
        return (party, random.between(1, tail.n));
    }
    (party, party)
}

/// A random schedule of at most this many steps.
pub fn random_schedule(random: &mut Random, form: Form, steps: usize) -> Vec<u8> {
    let run = Run::fresh(random, form, false);
    let bytes = header_bytes(run.header);
    continued(random, run, bytes, steps)
}

/// A random schedule of the steps to all votes and at most this many further ones, since many
/// participants would hardly ever all vote by chance.
pub fn voted_schedule(random: &mut Random, form: Form, steps: usize) -> Vec<u8> {
    let run = Run::fresh(random, form, false);
    continued_after_votes(random, run, steps)
}

/// A schedule of the steps to all votes, which are yes, and at most this many further ones. At first
/// nothing is delivered any more, so that terminations are under way.
pub fn silent_schedule(random: &mut Random, form: Form, steps: usize) -> Vec<u8> {
    let header = any_header(random, form);
    let votes = full(header.n);
    let run = Run::silent(random, Header { votes, ..header });
    continued_after_votes(random, run, steps)
}

/// The bytes of at most this many steps from a state.
pub fn steps_from(random: &mut Random, tail: &Tail, steps: usize) -> Vec<u8> {
    let run = Run::from_tail(random, tail);
    continued(random, run, Vec::new(), steps)
}

/// The bytes of the header, the steps to all votes, and at most this many further ones.
fn continued_after_votes(random: &mut Random, mut run: Run, steps: usize) -> Vec<u8> {
    let mut bytes = header_bytes(run.header);
    for record in every_vote(run.header.n) {
        append(&mut bytes, run.take(record));
    }
    continued(random, run, bytes, steps)
}

/// The bytes of a run so far, followed by at most this many steps.
fn continued(random: &mut Random, mut run: Run, mut bytes: Vec<u8>, steps: usize) -> Vec<u8> {
    for _ in 0..steps {
        match run.step(random) {
            Some(record) => append(&mut bytes, record),
            None if random.one_in(2) => break,
            None => append(&mut bytes, run.any_step(random)),
        }
    }
    bytes
}

/// A schedule of just this many bytes, at least 110, in which the coordinator closes every log at
/// the end, the last one with its answer heard.
pub fn closed_at_the_end(form: Form, n: u32, length: usize) -> Vec<u8> {
    let header = Header {
        kind: form.header_kind(),
        n,
        votes: 0,
    };
    let last = n as u8;
    let mut end = vec![8, 0];
    end.extend((1..last).flat_map(|log| [7, 0, log]));
    end.extend([6, 0, last]);
    let mut bytes = header_bytes(header);
    bytes.resize(length - end.len(), START);
    bytes.extend(end);
    bytes
}

/// A random schedule of just this many bytes, at least those of its header.
pub fn schedule_of_length(random: &mut Random, form: Form, length: usize) -> Vec<u8> {
    let run = Run::fresh(random, form, true);
    let bytes = header_bytes(run.header);
    filled(random, run, bytes, length)
}

/// A random schedule under this header of just this many bytes, in which participants wait too long.
pub fn schedule_under(random: &mut Random, header: Header, length: usize) -> Vec<u8> {
    let run = Run::terminating(header);
    filled(random, run, header_bytes(header), length)
}

/// Random steps from a state, of just this many bytes.
pub fn rest_of_length(random: &mut Random, tail: &Tail, length: usize) -> Vec<u8> {
    let run = Run::from_tail(random, tail);
    filled(random, run, Vec::new(), length)
}

/// The bytes of a run so far, followed by steps up to just this many bytes.
fn filled(random: &mut Random, mut run: Run, mut bytes: Vec<u8>, length: usize) -> Vec<u8> {
    loop {
        let whole = bytes.len();
        run.append_step(random, &mut bytes);
        if bytes.len() > length {
            // A start always fits.
            bytes.truncate(whole);
            bytes.resize(length, START);
            return bytes;
        }
    }
}
