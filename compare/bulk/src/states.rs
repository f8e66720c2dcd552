//! States of a release, for the single step and for runs from a tail: every one of n = 1, built ones
//! that no run reaches, and damaged ones.

use crate::fields::{self, put};
use crate::random::Random;
use crate::schedules::{any_header, full, random_schedule, silent_schedule, voted_schedule};
use second::{Form, Header, ParticipantFields, Tail};

/// The length of a state, which has the wide tail's form whatever its n.
pub const TAIL: usize = Form::Wide.tail_length();

/// The pairs of first and last record that a log may hold.
const PAIRS: [(u32, u32); 5] = [(0, 0), (1, 1), (1, 2), (1, 3), (2, 2)];

/// Every state in range of n = 1 with these votes and this state of the coordinator, no calls
/// counted.
pub fn every_of_one(votes: u32, coordinator: u32) -> Vec<Tail> {
    let mut states = Vec::new();
    let kind = Form::Wide.header_kind();
    let mut tail = Tail::fresh(Header { kind, n: 1, votes });
    tail.state = coordinator;
    // Nobody else is there to be heard, so state 4 is out of range.
    for state in (0..=9).filter(|state| *state != 4) {
        for (first, last) in PAIRS {
            tail.participants[0] = ParticipantFields {
                state,
                heard: 0,
                first,
                last,
            };
            states.extend((0..32).map(|messages| with_messages(tail, messages)));
        }
    }
    states
}

/// Bit t - 1 says whether participant 1 has a message of type t in flight.
fn with_messages(tail: Tail, messages: u32) -> Tail {
    let messages = std::array::from_fn(|at| messages >> at & 1);
    Tail { messages, ..tail }
}

/// Damages one field: a byte of it, a pair of records, a heard mask, or a count.
pub fn damage(random: &mut Random, form: Form, bytes: &mut [u8; TAIL]) {
    let most = form.most_participants();
    let full = full(u32::from(bytes[0]).clamp(1, most));
    let own = 1 << random.below(most);
    let release = fields::release(Form::Wide);
    let [state, heard, records, _] = fields::participant(Form::Wide, random.place(most as usize));
    let (count, _) = fields::count(Form::Wide, random.place(most as usize + 1));
    let beyond = full.wrapping_add(1);
    match random.below(8) {
        0 => bytes[random.place(TAIL)] = random.byte(),
        1 => bytes[random.place(TAIL)] = random.small_byte(),
        2 => {
            let numbers = [full, beyond, 7, 9, 33, 255, 1 << 31];
            put(bytes, random.pick(&release), random.pick(&numbers));
        }
        3 => put(bytes, state, random.below(11)),
        4 => {
            let masks = [full, own, full & !own, beyond, 0, 1, 255, 1 << 31];
            put(bytes, heard, random.pick(&masks));
        }
        5 => bytes[records.0..][..2].fill_with(|| random.below(5) as u8),
        6 => bytes[count..][..2].copy_from_slice(&[random.pick(&[254, 255]), 255]),
        _ => {
            let masks = [full, full >> 1, beyond, 1, 0, 255];
            put(bytes, release[3], random.pick(&masks));
        }
    }
}

/// The state at the end of a random run of this form.
pub fn reached(random: &mut Random, form: Form) -> Tail {
    let steps = random.place(60);
    let schedule = match random.below(3) {
        0 => random_schedule(random, form, steps),
        1 => voted_schedule(random, form, steps),
        _ => silent_schedule(random, form, steps),
    };
    // A step takes at least one byte.
    let mut report = vec![0; schedule.len() + TAIL];
    let length = second::run(&schedule, &mut report).expect("the schedule is accepted");
    Tail::from_bytes(form, &report[length - form.tail_length()..length])
}

/// A state in range, field by field, that mostly no run reaches; each count of calls is one of
/// these.
pub fn built(random: &mut Random, form: Form, counts: &[u16]) -> Tail {
    let mut tail = Tail::fresh(any_header(random, form));
    let full = full(tail.n);
    tail.state = random.between(0, 6);
    if tail.state == 1 || tail.state == 2 {
        tail.heard = random.below(full);
    }
    tail.messages = std::array::from_fn(|_| random.between(0, full));
    for own in 0..tail.n {
        let others = full & !(1 << own);
        tail.participants[own as usize] = built_participant(random, form, others);
    }
    for party in 0..=tail.n {
        tail.calls[party as usize] = random.pick(counts);
    }
    tail
}

/// A participant's fields in range; `others` is the mask of all others.
fn built_participant(random: &mut Random, form: Form, others: u32) -> ParticipantFields {
    let (first, last) = random.pick(&PAIRS);
    let heard = heard_of(random, form, others);
    match random.between(0, 9) {
        4 if heard == others => ParticipantFields {
            state: 3,
            heard: 0,
            first,
            last,
        },
        4 => ParticipantFields {
            state: 4,
            heard,
            first,
            last,
        },
        state => ParticipantFields {
            state,
            heard: 0,
            first,
            last,
        },
    }
}

/// A mask of others. Of very many, all but one are heard in every second mask, since such a mask
/// would hardly ever come by chance.
fn heard_of(random: &mut Random, form: Form, others: u32) -> u32 {
    match form {
        Form::Narrow => random.below(256) & others,
        Form::Wide if random.one_in(2) => others & !(1 << random.below(32)),
        Form::Wide => random.between(0, others) & others,
    }
}
