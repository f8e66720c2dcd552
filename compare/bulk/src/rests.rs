//! Group 24, rests: steps from reached and from built states, accepted and not, up to the greatest
//! length and the greatest counts of calls.

use crate::difference::Difference;
use crate::jobs;
use crate::lending::Entry;
use crate::random::Random;
use crate::schedules::{
    any_header, full, header_bytes, record_ends, rest_of_length, steps_from, LIMIT, START,
};
use crate::states::{built, reached, TAIL};
use crate::tail_figures::TailFigures;
use crate::whole::damage;
use second::{Form, Header, ParticipantFields, Tail};

/// How many tails a job has, and how many random rests each of them.
const TAILS: usize = 20;
const RESTS: usize = 40;

/// The greatest count of calls that a start takes.
const MOST_CALLS: u16 = 54_000;
/// Counts of calls up to that one.
const COUNTS: [u16; 7] = [0, 1, 255, 256, 10_000, 53_999, MOST_CALLS];

/// Compares rests from at least `cases` tails, and the longest ones.
pub fn compare(seed: u64, cases: usize) -> Result<TailFigures, Difference> {
    let done = jobs::run_all(cases.div_ceil(TAILS), |job| {
        let mut random = Random::new(seed, 24, job);
        let mut figures = TailFigures::default();
        for _ in 0..TAILS {
            let tail = any_tail(&mut random);
            for rest in fixed_rests(&tail) {
                compare_rest(&tail, &rest, &mut figures)?;
            }
            for _ in 0..RESTS {
                let rest = any_rest(&mut random, &tail);
                compare_rest(&tail, &rest, &mut figures)?;
            }
        }
        longest(&mut random, &mut figures)?;
        Ok(figures)
    })?;
    Ok(TailFigures::sum(&done))
}

/// Compares a rest, and where it is accepted once more from the tail that it leads to, whose counts
/// may be too great.
fn compare_rest(tail: &Tail, rest: &[u8], figures: &mut TailFigures) -> Result<(), Difference> {
    let tail = tail.wide_bytes();
    let lent = figures.agreed(Entry::RunFrom(&tail, rest))?;
    figures.agreed(Entry::ListingFrom(&tail, rest))?;
    if let Some(after) = lent.written().last_chunk::<TAIL>() {
        figures.agreed(Entry::RunFrom(after, rest))?;
    }
    Ok(())
}

/// A state that a start takes: of a narrow or a wide run, or one that no run gave.
pub fn any_tail(random: &mut Random) -> Tail {
    let form = random.pick(&[Form::Narrow, Form::Wide]);
    match random.below(3) {
        0 => built(random, form, &COUNTS),
        _ => reached(random, form),
    }
}

/// The header of a state in this form; of a state too wide for it, one that is out of range.
fn header_of(tail: &Tail, form: Form) -> Header {
    Header {
        kind: form.header_kind(),
        n: tail.n,
        votes: tail.votes,
    }
}

/// Records that are refused, or accepted where their number is the greatest: each alone, after a
/// start and before one. Headers are there whole and cut short.
fn fixed_rests(tail: &Tail) -> Vec<Vec<u8>> {
    let mut pieces = vec![Vec::new()];
    for form in [Form::Narrow, Form::Wide] {
        let header = header_bytes(header_of(tail, form));
        pieces.extend((1..=header.len()).map(|length| header[..length].to_vec()));
    }
    pieces.extend([
        vec![1, 9, 0],
        vec![11, 33, 0, 0, 0, 0],
        vec![11, 0, 0, 0, 0, 0],
    ]);
    pieces.extend([0, 12, 13, 128, 255].map(|kind| vec![kind]));
    pieces.extend([vec![3], vec![4, 1], vec![6], vec![7, 0], vec![8], vec![10]]);
    let greatest = tail.n as u8;
    for number in [0, greatest, greatest + 1, 33, 255] {
        pieces.extend([3, 4, 5].map(|kind| vec![kind, 1, number]));
        pieces.extend([6, 7].map(|kind| vec![kind, 0, number]));
        pieces.extend([6, 7].map(|kind| vec![kind, number, 1]));
        pieces.extend([8, 9, 10].map(|kind| vec![kind, number]));
    }
    pieces.extend([0, 5, 6, 255].map(|message| vec![3, message, 1]));
    let around = |piece: Vec<u8>| {
        let (after, before) = (
            [&[START], &piece[..]].concat(),
            [&piece[..], &[START]].concat(),
        );
        [piece, after, before]
    };
    pieces.into_iter().flat_map(around).collect()
}

/// Steps, mostly due; some have a damage, or a header among them, or are arbitrary bytes.
pub fn any_rest(random: &mut Random, tail: &Tail) -> Vec<u8> {
    let length = random.place(30);
    let mut rest = steps_from(random, tail, length);
    match random.below(10) {
        0 => rest.truncate(random.place(rest.len() + 1)),
        1 => insert_header(random, tail, &mut rest),
        2 => (0..random.between(1, 3)).for_each(|_| damage(random, &mut rest)),
        3 => rest = (0..length).map(|_| random.byte()).collect(),
        4 => rest = (0..length).map(|_| random.small_byte()).collect(),
        5 => rest = (0..length).map(|_| random.below(12) as u8).collect(),
        _ => (),
    }
    rest
}

/// Puts a header of either kind before a step or after the last; at the end it may be cut short.
fn insert_header(random: &mut Random, tail: &Tail, rest: &mut Vec<u8>) {
    let form = random.pick(&[Form::Narrow, Form::Wide]);
    let headers = [header_of(tail, form), any_header(random, form)];
    let header = header_bytes(random.pick(&headers));
    let places = [vec![0], record_ends(rest)].concat();
    let place = random.pick(&places);
    if random.one_in(3) {
        rest.truncate(place);
        rest.extend(&header[..random.place(header.len() + 1)]);
        return;
    }
    rest.splice(place..place, header);
}

/// Rests about the greatest length, from tails with the greatest counts.
fn longest(random: &mut Random, figures: &mut TailFigures) -> Result<(), Difference> {
    let length = LIMIT - 1 + random.place(3);
    let tail = with_most_calls(any_tail(random));
    let rest = rest_of_length(random, &tail, length);
    compare_rest(&tail, &rest, figures)?;
    for length in [LIMIT - 1, LIMIT, LIMIT + 1] {
        let (tail, call) = calling(random);
        let mut rest = call.repeat(length / call.len());
        rest.resize(length, START);
        compare_rest(&tail, &rest, figures)?;
    }
    Ok(())
}

fn with_most_calls(tail: Tail) -> Tail {
    let mut tail = tail;
    tail.calls[..=tail.n as usize].fill(MOST_CALLS);
    tail
}

/// A state with the greatest counts, and a call of one party with its answer lost. Mostly that stays
/// due for ever; a party that is done, or that has heard the log, has no such call pending.
fn calling(random: &mut Random) -> (Tail, [u8; 3]) {
    let header = any_header(random, Form::Wide);
    let mut tail = with_most_calls(Tail::fresh(header));
    let n = header.n;
    let party = random.pick(&[0, 1, n, n]);
    if party == 0 {
        (tail.state, tail.heard) = (2, random.below(full(n)));
        return (tail, [7, 0, random.between(1, n) as u8]);
    }
    // One participant alone is never in state 4.
    let states: &[u32] = if n == 1 {
        &[1, 2, 5, 6, 7]
    } else {
        &[1, 2, 4, 5, 6, 7]
    };
    let state = random.pick(states);
    let log = match state {
        4 => party % n + 1,
        _ => party,
    };
    tail.participants[party as usize - 1] = ParticipantFields {
        state,
        heard: 0,
        first: 1,
        last: 1,
    };
    (tail, [7, party as u8, log as u8])
}
