//! Group 5, the host entry: all combinations of small numbers, and random larger ones, each with a
//! lent buffer.

use crate::difference::{hexadecimal, Difference};
use crate::figures::{add, Numbers};
use crate::jobs;
use crate::lent::pattern;
use crate::proved;
use crate::random::Random;
use crate::reduce;
use crate::schedules::full;
use std::fmt;

/// How many random cases a job has.
const BATCH: usize = 50_000;

/// Heard masks outside state 4, where all but 0 are out of range.
const FEW_MASKS: [u32; 7] = [0, 1, 2, 128, 255, 256, 1 << 31];
/// Heard masks in state 4 beyond one byte.
const WIDE_MASKS: [u32; 7] = [256, 257, 510, 511, 65_536, 1 << 31, u32::MAX];
/// The bytes that come back, and the place of the message type among them.
const NEEDED: usize = 6;
const MESSAGE: usize = 5;

/// n, own number, state, heard mask, event, detail and record.
type HostNumbers = [u32; 7];

/// The number that the entry returned, and the buffer and the bytes beyond it.
type Stepped = (u32, [u8; 10]);

#[derive(Clone, Copy, Default)]
pub struct HostFigures {
    small: Numbers,
    random: Numbers,
    /// By the state that the step leads to.
    reached: [u64; 10],
    messages: u64,
}

impl HostFigures {
    pub fn calls(&self) -> u64 {
        self.small.total() + self.random.total()
    }

    fn add(&mut self, other: &HostFigures) {
        self.small.add(&other.small);
        self.random.add(&other.random);
        add(&mut self.reached, &other.reached);
        self.messages += other.messages;
    }

    fn note_step(&mut self, (number, bytes): &Stepped) {
        if *number == 0 {
            self.reached[usize::from(bytes[0])] += 1;
            self.messages += u64::from(bytes[MESSAGE] != 0);
        }
    }
}

impl fmt::Display for HostFigures {
    fn fmt(&self, to: &mut fmt::Formatter) -> fmt::Result {
        let reached: Vec<String> = self.reached.iter().map(u64::to_string).collect();
        write!(
            to,
            "{} small combinations: {}; {} random ones: {}; \
             next states 0 to 9: {}; messages sent: {}",
            self.small.total(),
            self.small,
            self.random.total(),
            self.random,
            reached.join(" "),
            self.messages
        )
    }
}

/// Compares all small combinations and at least `cases` random ones.
pub fn compare(seed: u64, cases: usize) -> Result<HostFigures, Difference> {
    let small = jobs::run_all(100, |job| small_numbers(job as u32 / 10, job as u32 % 10))?;
    let random = jobs::run_all(cases.div_ceil(BATCH), |job| {
        random_numbers(&mut Random::new(seed, 5, job))
    })?;
    let mut whole = HostFigures::default();
    small.iter().for_each(|part| whole.add(part));
    random.iter().for_each(|part| whole.add(part));
    Ok(whole)
}

fn small_numbers(n: u32, own: u32) -> Result<HostFigures, Difference> {
    let mut figures = HostFigures::default();
    for state in 0..=10 {
        if state == 4 {
            for heard in (0..=255).chain(WIDE_MASKS) {
                // The length that is needed, and another that depends on the mask, so that all
                // lengths occur with every event.
                let other = heard as usize % 8;
                small_events([n, own, state, heard], &[NEEDED, other], &mut figures)?;
            }
            continue;
        }
        for heard in FEW_MASKS {
            let lengths = [0, 1, 2, 3, 4, 5, NEEDED, 7];
            small_events([n, own, state, heard], &lengths, &mut figures)?;
        }
    }
    Ok(figures)
}

fn small_events(
    participant: [u32; 4],
    lengths: &[usize],
    figures: &mut HostFigures,
) -> Result<(), Difference> {
    let [n, own, state, heard] = participant;
    for event in 0..=7 {
        for rest in 0..50 {
            let (detail, record) = (rest / 5, rest % 5);
            for length in lengths {
                let numbers = [n, own, state, heard, event, detail, record];
                let stepped = agreed(numbers, *length)?;
                figures.small.note(stepped.0);
                figures.note_step(&stepped);
            }
        }
    }
    Ok(())
}

fn random_numbers(random: &mut Random) -> Result<HostFigures, Difference> {
    let mut figures = HostFigures::default();
    for _ in 0..BATCH {
        let mut numbers = likely_numbers(random);
        if random.one_in(2) {
            numbers[random.place(7)] = random.wide_number();
        }
        let length = random.place(9);
        let stepped = agreed(numbers, length)?;
        figures.random.note(stepped.0);
        figures.note_step(&stepped);
    }
    Ok(figures)
}

/// Numbers that are in range more often than not.
fn likely_numbers(random: &mut Random) -> HostNumbers {
    let n = random.pick(&[1, 2, 3, 4, 5, 6, 7, 8, 8, 9, 16, 31, 31, 32, 32, 32, 33]);
    let own = match random.below(16) {
        0 => random.pick(&[0, n + 1, 33]),
        _ => random.between(1, n),
    };
    let log = random.between(1, n);
    let state = random.pick(&[0, 1, 2, 3, 4, 4, 4, 5, 6, 7, 8, 9]);
    let heard = match state {
        4 => likely_heard(random, n, own, log),
        _ => 0,
    };
    let event = random.between(1, 6);
    let (detail, record) = match event {
        1 => (random.below(2), 0),
        2 => (random.between(2, 3), 0),
        6 => (random.pick(&[own, log]), random.between(1, 3)),
        _ => (0, 0),
    };
    [n, own, state, heard, event, detail, record]
}

/// A heard mask that is in range more often than not, mostly with just that log left to hear.
fn likely_heard(random: &mut Random, n: u32, own: u32, log: u32) -> u32 {
    let others = full(n.min(32)) & !bit(own);
    let any = random.between(0, u32::MAX);
    match random.below(8) {
        0 => others,
        1 => any,
        2 | 3 => any & others,
        _ => others & !bit(log),
    }
}

/// The mask of this participant alone; of a number that no participant has, none.
fn bit(participant: u32) -> u32 {
    1_u32.checked_shl(participant.wrapping_sub(1)).unwrap_or(0)
}

/// What both sides answer, or the difference.
fn agreed(numbers: HostNumbers, length: usize) -> Result<Stepped, Difference> {
    let proved = step_proved(numbers, length);
    let second = step_second(numbers, length);
    if proved != second {
        return Err(reduced(numbers, length));
    }
    Ok(second)
}

fn fresh_buffer() -> [u8; 10] {
    std::array::from_fn(pattern)
}

fn step_proved(numbers: HostNumbers, length: usize) -> Stepped {
    let mut buffer = fresh_buffer();
    let number = proved::host_step(numbers, &mut buffer[..length]);
    (number, buffer)
}

fn step_second(numbers: HostNumbers, length: usize) -> Stepped {
    let mut buffer = fresh_buffer();
    let out = &mut buffer[..length];
    let [n, own, state, heard, event, detail, record] = numbers;
    let number = second::host_step(n, own, state, heard, event, detail, record, out);
    (number, buffer)
}

/// The buffer's length is reduced as one more number.
fn reduced(numbers: HostNumbers, length: usize) -> Difference {
    let split = |all: &[u32]| -> (HostNumbers, usize) {
        (std::array::from_fn(|place| all[place]), all[7] as usize)
    };
    let all = [&numbers[..], &[length as u32]].concat();
    let smallest = reduce::numbers(&all, |all| {
        let (numbers, length) = split(all);
        step_proved(numbers, length) != step_second(numbers, length)
    });
    let (numbers, length) = split(&smallest);
    let words = |(number, buffer): Stepped| {
        format!(
            "returned {number}; buffer and the bytes beyond: {}",
            hexadecimal(&buffer)
        )
    };
    let [n, own, state, heard, event, detail, record] = numbers;
    Difference {
        input: format!(
            "host entry, n {n}, own {own}, state {state}, heard {heard}, event {event}, \
             detail {detail}, record {record}, buffer of {length} bytes"
        ),
        proved: words(step_proved(numbers, length)),
        second: words(step_second(numbers, length)),
    }
}
