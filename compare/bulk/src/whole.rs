//! Groups 1 to 3, whole schedules through `replay`: random ones, every short one, and damaged ones;
//! groups 11 to 13 are the same for wide schedules.

use crate::difference::Difference;
use crate::figures::ScheduleFigures;
use crate::jobs;
use crate::lines;
use crate::random::Random;
use crate::replay::Programs;
use crate::schedules::{
    any_header, append, every_step, group, header_bytes, random_schedule, record_ends,
    schedule_of_length, voted_schedule, LIMIT,
};
use crate::terminations;
use second::{Form, Header, Record};

/// How many schedules `replay` gets at once.
const BATCH: usize = 2_000;

/// Group 1: at least `cases` random schedules of this form.
pub fn random(
    programs: &Programs,
    seed: u64,
    cases: usize,
    form: Form,
) -> Result<ScheduleFigures, Difference> {
    let done = jobs::run_all(cases.div_ceil(BATCH), |job| {
        let mut random = Random::new(seed, group(1, form), job);
        let any = |at| any_length(&mut random, form, at);
        let batch: Vec<Vec<u8>> = (0..BATCH).map(any).collect();
        lines::compare(programs, &batch)
    })?;
    Ok(sum(&done))
}

/// Mostly up to 60 steps, some up to 200 or 1,800 bytes, and few up to the greatest length. Of the
/// wide ones, some begin with all votes.
fn any_length(random: &mut Random, form: Form, at: usize) -> Vec<u8> {
    if at % 1_000 == 999 {
        let length = random.between(10_000, LIMIT as u32) as usize;
        return schedule_of_length(random, form, length);
    }
    if at % 50 == 49 {
        let length = random.between(60, 1_800) as usize;
        return schedule_of_length(random, form, length);
    }
    let most = if at % 10 == 9 { 200 } else { 60 };
    let steps = random.place(most + 1);
    match (form, at % 10) {
        (Form::Wide, 0) => terminations::of_few(random),
        (Form::Wide, 1 | 2 | 9) => voted_schedule(random, form, steps),
        _ => random_schedule(random, form, steps),
    }
}

/// Group 2: every schedule of up to three steps for n = 1 and of up to two for n = 2, due or not; of
/// the wide ones those of up to two steps for n = 1.
pub fn every(programs: &Programs, form: Form) -> Result<ScheduleFigures, Difference> {
    let bounds: &[(u32, u32)] = match form {
        Form::Narrow => &[(1, 3), (2, 2)],
        Form::Wide => &[(1, 2)],
    };
    let kind = form.header_kind();
    let mut sets = Vec::new();
    for &(n, steps) in bounds {
        for votes in 0..1 << n {
            let header = Header { kind, n, votes };
            sets.extend((0..=steps).map(|steps| (header, steps)));
        }
    }
    let done = jobs::run_all(sets.len(), |job| {
        let (header, steps) = sets[job];
        lines::compare(programs, &every_schedule(header, steps))
    })?;
    Ok(sum(&done))
}

/// Every schedule of this many steps, due or not.
pub fn every_schedule(header: Header, steps: u32) -> Vec<Vec<u8>> {
    let choices = every_step(header.n);
    let mut schedules = vec![header_bytes(header)];
    for _ in 0..steps {
        schedules = extended(&schedules, &choices);
    }
    schedules
}

/// Every one of the schedules, followed by every one of the steps.
fn extended(schedules: &[Vec<u8>], steps: &[Record]) -> Vec<Vec<u8>> {
    let mut longer = Vec::with_capacity(schedules.len() * steps.len());
    for schedule in schedules {
        for step in steps {
            let mut bytes = schedule.clone();
            append(&mut bytes, *step);
            longer.push(bytes);
        }
    }
    longer
}

/// Group 3: at least `cases` damaged schedules and arbitrary bytes, those about the greatest
/// length, and incomplete frames.
pub fn damaged(
    programs: &Programs,
    seed: u64,
    cases: usize,
    form: Form,
) -> Result<ScheduleFigures, Difference> {
    for input in [&[0][..], &[1, 0], &[4, 0, 1, 1, 1], &[0, 1, 2]] {
        lines::compare_incomplete(programs, input)?;
    }
    let done = jobs::run_all(1 + cases.div_ceil(BATCH), |job| {
        let mut random = Random::new(seed, group(3, form), job);
        let batch: Vec<Vec<u8>> = match job {
            0 => about_the_limit(&mut random, form),
            _ => (0..BATCH).map(|_| any_damaged(&mut random, form)).collect(),
        };
        lines::compare(programs, &batch)
    })?;
    Ok(sum(&done))
}

/// A damaged schedule, or bytes that never were one.
pub fn any_damaged(random: &mut Random, form: Form) -> Vec<u8> {
    if form == Form::Wide && random.one_in(3) {
        return with_damaged_header(random);
    }
    let header = header_bytes(any_header(random, form));
    let length = random.place(60);
    match random.below(8) {
        0 => (0..length).map(|_| random.byte()).collect(),
        1 => (0..length).map(|_| random.small_byte()).collect(),
        2 => after(&header, length, || random.byte()),
        3 => after(&header, length, || random.small_byte()),
        4 => after(&header, length, || random.below(11) as u8),
        _ => {
            let mut bytes = random_schedule(random, form, length);
            for _ in 0..random.between(1, 3) {
                damage(random, &mut bytes);
            }
            bytes
        }
    }
}

fn after(header: &[u8], length: usize, mut byte: impl FnMut() -> u8) -> Vec<u8> {
    let rest = (0..length).map(|_| byte());
    header.iter().copied().chain(rest).collect()
}

/// A byte changed, removed or added, or all bytes from some place cut off.
pub fn damage(random: &mut Random, bytes: &mut Vec<u8>) {
    let place = random.place(bytes.len() + 1);
    match random.below(4) {
        0 if place < bytes.len() => bytes[place] = random.small_byte(),
        1 if place < bytes.len() => {
            bytes.remove(place);
        }
        2 => bytes.truncate(place),
        _ => bytes.insert(place, random.small_byte()),
    }
}

/// A wide schedule that is sound but for an n out of range, a vote beyond n, a cut within its header
/// or a second header. Of thirty-two, no vote is beyond n, and one may be added within.
fn with_damaged_header(random: &mut Random) -> Vec<u8> {
    let steps = random.place(60);
    let mut bytes = random_schedule(random, Form::Wide, steps);
    match random.below(4) {
        0 => bytes[1] = random.pick(&[0, 33, 255]),
        1 => {
            let vote = random.between(u32::from(bytes[1]).min(31), 31) as usize;
            bytes[2 + vote / 8] |= 1 << (vote % 8);
        }
        2 => bytes.truncate(random.between(1, 5) as usize),
        _ => insert_header(random, &mut bytes),
    }
    bytes
}

/// Puts a header of either kind after one of the records.
fn insert_header(random: &mut Random, bytes: &mut Vec<u8>) {
    let place = random.pick(&record_ends(bytes));
    let form = random.pick(&[Form::Narrow, Form::Wide]);
    bytes.splice(place..place, header_bytes(any_header(random, form)));
}

/// Schedules just below, at and just above the greatest length, sound and with a damaged byte near
/// the end, and longer ones.
fn about_the_limit(random: &mut Random, form: Form) -> Vec<Vec<u8>> {
    let mut batch = Vec::new();
    for length in [LIMIT - 1, LIMIT, LIMIT + 1, 65_535] {
        for _ in 0..4 {
            let sound = schedule_of_length(random, form, length);
            let mut changed = sound.clone();
            let place = length - 1 - random.place(8);
            changed[place] = random.byte();
            batch.extend([sound, changed]);
        }
    }
    batch
}

fn sum(parts: &[ScheduleFigures]) -> ScheduleFigures {
    let mut whole = ScheduleFigures::default();
    parts.iter().for_each(|part| whole.add(part));
    whole
}
